"""The page: what is written, and what a browser makes of it."""

from __future__ import annotations

import argparse
import base64
import json
import subprocess
import sys
import tempfile
import time
import unittest
from pathlib import Path
from typing import Any, Dict, List, Optional, Sequence, Tuple
from unittest import mock

from sourcemap import CompiledMap, Map, Token, page

from . import builds, example
from .browser import Browser, find_browser
from .maps import VIEWER

FOLDER = Path(__file__).resolve().parents[1]
BROWSER = find_browser()

# Two sources, one without contents, and texts that HTML, JSON or a reader might take for something else. Tokens, as
# GENERATED -> SOURCE LINE:COLUMN: 0:0 -> 0 0:0, named; 0:12 -> 0 1:1, the emoji; 0:15 has no source; 1:0 -> 1 4:2;
# 1:2 -> 0 0:0 again.
HOSTILE_GENERATED = '</script><b>\U0001f600+x\r\na;b&amp;\n'
HOSTILE_SOURCE = '<img src=x onerror="window.hacked=1">\n\t\U0001f600 \u202eabc\x00'
HOSTILE_MAP = json.dumps({
    'version': 3,
    'sourceRoot': 'root',
    'sources': ['<i>a.js', 'b.js'],
    'sourcesContent': [HOSTILE_SOURCE, None],
    'names': ['</script>'],
    'mappings': 'AAAAA,YACC,G;ACGC,EDJF',
})


def arguments(*words: str) -> argparse.Namespace:
    parser = argparse.ArgumentParser()
    page.add_arguments(parser)
    return parser.parse_args(words)


def vlq(number: int) -> str:
    """A number of a segment."""
    digits, left = '', number << 1 if number >= 0 else -number << 1 | 1
    while True:
        left, digit = left >> 5, left & 31
        digits += 'ABCDEFGHIJKLMNOPQRSTUVWXYZabcdefghijklmnopqrstuvwxyz0123456789+/'[digit | (32 if left else 0)]
        if not left:
            return digits


class InFolder(unittest.TestCase):
    """Tests with a temporary folder."""

    def setUp(self) -> None:
        folder = tempfile.TemporaryDirectory()
        self.addCleanup(folder.cleanup)
        self.folder = Path(folder.name)

    def write_page(self, generated: str, map: str, name: str = 'a.js') -> Path:
        path = self.folder / 'page.html'
        path.write_bytes(page.page_text(name, generated, Map.loads(map)).encode('utf-8'))
        return path


def fields_of(token: Token) -> Tuple[Optional[int], ...]:
    return (token.generated_line, token.generated_column, token.line, token.column, token.source_id, token.name_id)


@unittest.skipIf(VIEWER is None, 'no viewer: bindings/web/build makes it')
class Written(InFolder):
    """The file, without a browser."""

    def data_of(self, path: Path) -> Dict[str, Any]:
        """What the page holds for its script."""
        _, _, rest = path.read_text('utf-8').partition('<script type="application/json" id="data">')
        data = json.loads(rest.partition('</script>')[0])
        assert isinstance(data, dict)
        return data

    def map_of(self, data: Dict[str, Any]) -> CompiledMap:
        return CompiledMap.from_bytes(base64.b64decode(data['map'], validate=True))

    def assert_page_of(self, path: Path, map: Map, *, contents: Sequence[Optional[str]]) -> None:
        """A page holds a map, and contents for its sources."""
        data = self.data_of(path)
        compiled = self.map_of(data)
        compiled.verify()
        self.assertEqual(list(compiled.sources), list(map.sources))
        self.assertEqual(list(compiled.names), list(map.names))
        held = [data['contents'].get(str(id), text) for id, text in enumerate(compiled.contents)]
        self.assertTrue(held == list(contents))  # no difference of megabytes is printed
        expected = [fields_of(each) for each in map.tokens()]
        self.assertEqual(len(compiled), len(expected))
        firsts = {each[:2]: each for each in reversed(expected)}
        found = compiled.lookup_many([(line or 0, column or 0) for line, column in firsts])
        self.assertTrue([each and fields_of(each) for each in found] == list(firsts.values()))

    def test_map_by_reference(self) -> None:
        generated = example.write(self.folder)
        out = self.folder / 'out.html'
        self.assertEqual(page.run(arguments(str(generated), '-o', str(out))), 0)
        self.assertEqual(self.data_of(out)['generated'], example.GENERATED)
        self.assertEqual(self.data_of(out)['name'], 'app.min.js')
        self.assert_page_of(out, Map.loads(example.MAP), contents=[example.SOURCE])
        self.assertIn('<title>app.min.js and its sources</title>', out.read_text('utf-8'))

    def test_named_map(self) -> None:
        generated = self.folder / 'x.js'
        generated.write_text('f();', 'utf-8')
        map = self.folder / 'elsewhere.map'
        map.write_text('{"version":3,"sources":["x.ts"],"names":[],"mappings":"AAAA"}', 'utf-8')
        out = self.folder / 'out.html'
        command = [sys.executable, '-m', 'sourcemap', 'page', str(generated), str(map), '-o', str(out)]
        subprocess.run(command, check=True, cwd=FOLDER)
        self.assert_page_of(out, Map.load(map), contents=[None])

    def test_contents_from_files(self) -> None:
        """Those that the map has not are read from the files that its sources lead to, from the folder of the map."""
        (self.folder / 'maps').mkdir()
        (self.folder / 'x.ts').write_text('f<\u00e9>();\n', 'utf-8')
        (self.folder / 'bytes.ts').write_bytes(b'\xff')
        (self.folder / 'had.ts').write_text('not this', 'utf-8')
        generated = self.folder / 'x.js'
        generated.write_text('f();', 'utf-8')
        fields = {'sources': ['../x.ts', '../bytes.ts', '../none.ts', 'https://h/x.ts', '../had.ts', '..', ''],
                  'sourcesContent': [None, None, None, None, 'had'], 'names': [], 'mappings': 'AAAA'}
        map = self.folder / 'maps' / 'x.map'
        map.write_text(json.dumps({'version': 3, **fields}), 'utf-8')
        out = self.folder / 'out.html'
        self.assertEqual(page.run(arguments(str(generated), str(map), '-o', str(out))), 0)
        contents = ['f<\u00e9>();\n', None, None, None, 'had', None, None]
        self.assert_page_of(out, Map.load(map), contents=contents)

    def test_no_map(self) -> None:
        generated = self.folder / 'x.js'
        generated.write_text('f();', 'utf-8')
        with self.assertRaises(FileNotFoundError):
            page.run(arguments(str(generated), '-o', str(self.folder / 'out.html')))
        self.assertFalse((self.folder / 'out.html').exists())

    def test_index_map_is_made_flat(self) -> None:
        generated = example.write(self.folder)
        sections = [{'offset': {'line': 0, 'column': 0}, 'map': json.loads(example.MAP)},
                    {'offset': {'line': 1, 'column': 3}, 'map': {'sources': ['b.js'], 'mappings': 'AAAA'}}]
        index = self.folder / 'index.map'
        index.write_text(json.dumps({'version': 3, 'sections': sections}), 'utf-8')
        out = self.folder / 'out.html'
        page.run(arguments(str(generated), str(index), '-o', str(out)))
        flat = json.loads(example.MAP)
        # 1:3 comes from 0:0 of source 1; the token before it, from 8:0 of source 0
        flat.update(sources=['../src/app.js', 'b.js'], sourcesContent=[example.SOURCE, None],
                    mappings=flat['mappings'] + ';GCRA')
        self.assert_page_of(out, Map.loads(json.dumps(flat)), contents=[example.SOURCE, None])

    def test_kinds_of_maps(self) -> None:
        for name in ('duplicates', 'regular', 'hermes', 'ranges', 'root'):
            map = Map.load(builds.TEST_MAPS / f'{name}.map')
            path = self.folder / 'page.html'
            path.write_text(page.page_text('a.js', '', map), 'utf-8')
            self.assert_page_of(path, map, contents=list(map.contents))

    def test_text_of_scripts(self) -> None:
        """No text ends the script element that holds it, and all texts are read back unchanged."""
        path = self.write_page(HOSTILE_GENERATED, HOSTILE_MAP, '<script>null')
        text = path.read_bytes().decode('utf-8')
        self.assertEqual(text.count('</script>'), 3)
        self.assertIn('<title>&lt;script&gt;null and its sources</title>', text)
        self.assertEqual(self.data_of(path)['name'], '<script>null')
        self.assertEqual(self.data_of(path)['generated'], HOSTILE_GENERATED)
        self.assert_page_of(path, Map.loads(HOSTILE_MAP), contents=[HOSTILE_SOURCE, None])

    def test_five_megabytes(self) -> None:
        """Texts of 5 MB together: the page holds all of them, and the mappings."""
        count, a_line, a_source = 95_000, 200, 9_500
        statements = [f'f("<p>\u00e9\U0001f600{n:06}</p>");' for n in range(count)]
        width = 22  # a statement has as many UTF-16 units
        lines = [''.join(statements[at:at + a_line]) for at in range(0, count, a_line)]
        generated = '\n'.join(lines) + '\n//# sourceMappingURL=big.js.map\n'
        contents = [''.join(f'  {each}\n' for each in statements[at:at + a_source]) for at in range(0, count, a_source)]
        names = [f'{n}.js' for n in range(len(contents))]
        size = len(generated.encode('utf-8')) + sum(len(each.encode('utf-8')) for each in contents)
        self.assertGreaterEqual(size, 5_000_000)

        def segment(n: int) -> str:
            """Statement `n`, as it follows the one before. Each begins at column 2 of its line in its source."""
            column = width if n % a_line else 0
            if n % a_source == 0 and n > 0:
                return vlq(column) + vlq(1) + vlq(1 - a_source) + vlq(0)
            return vlq(column) + vlq(0) + vlq(1 if n else 0) + vlq(0 if n else 2)

        mappings = ';'.join(','.join(map(segment, range(at, at + a_line))) for at in range(0, count, a_line))
        (self.folder / 'big.js').write_text(generated, 'utf-8')
        (self.folder / 'big.js.map').write_text(json.dumps({
            'version': 3, 'sources': names, 'sourcesContent': contents, 'names': [], 'mappings': mappings,
        }), 'utf-8')
        out = self.folder / 'out.html'
        command = [sys.executable, '-m', 'sourcemap', 'page', str(self.folder / 'big.js'), '-o', str(out)]
        subprocess.run(command, check=True, cwd=FOLDER)
        data = self.data_of(out)
        self.assertTrue(data['generated'] == generated)
        self.assert_page_of(out, Map.load(self.folder / 'big.js.map'), contents=contents)
        # `<` takes six bytes in the generated text, a quote and a line end two: 12 bytes more for a statement
        texts = len(generated.encode('utf-8')) + 12 * count
        assert VIEWER is not None
        added = out.stat().st_size - VIEWER.stat().st_size
        self.assertGreater(added, texts + len(data['map']))
        self.assertLess(added, texts + len(data['map']) + 1000)
        # the compiled map has the contents, and less than 7 bytes for each token
        self.assertLess(len(data['map']) * 3 // 4, sum(len(each.encode('utf-8')) for each in contents) + 7 * count)

    def test_line_far_down(self) -> None:
        """The line of a token may be any line."""
        section = {'offset': {'line': 4_000_000_000, 'column': 0}, 'map': {'sources': ['b.js'], 'mappings': 'AAAA'}}
        map = Map.loads(json.dumps({'version': 3, 'sections': [section]}))
        map.flatten()
        path = self.folder / 'page.html'
        path.write_text(page.page_text('a.js', '', map), 'utf-8')
        token = self.map_of(self.data_of(path)).lookup(4_000_000_000, 0)
        assert token is not None
        self.assertEqual((token.generated_line, token.source), (4_000_000_000, 'b.js'))


class WithoutViewer(unittest.TestCase):
    def test_no_viewer(self) -> None:
        """A message says what is to do."""
        message = 'viewer.html is not in /none nor in /other: bindings/web/build makes it'
        with mock.patch.object(page, 'FOLDERS', (Path('/none'), Path('/other'))), \
                self.assertRaisesRegex(FileNotFoundError, message):
            page.page_text('a.js', '', Map.loads(example.MAP))


@unittest.skipIf(VIEWER is None, 'no viewer: bindings/web/build makes it')
@unittest.skipIf(BROWSER is None, 'no browser: install the package chromium')
class InBrowser(InFolder):
    """The page in headless Chromium, opened from a file."""

    browser: Browser

    @classmethod
    def setUpClass(cls) -> None:
        assert BROWSER is not None
        cls.browser = Browser(BROWSER, width=1480, height=760)
        cls.addClassCleanup(cls.browser.close)

    def open(self, generated: str, map: str) -> None:
        self.browser.errors.clear()
        self.browser.open(self.write_page(generated, map))
        self.wait_until_ready()
        self.addCleanup(lambda: self.assertEqual(self.browser.errors, []))

    def wait_until_ready(self) -> None:
        self.browser.wait_until('document.body && document.body.dataset.state === "ready"')

    def ask(self, expression: str) -> Any:
        return self.browser.evaluate(expression)

    def status(self) -> Any:
        self.wait_until_ready()
        return self.ask('document.getElementById("status").textContent')

    def tokens(self, pane: str, kind: str = 'token') -> List[Tuple[str, str]]:
        """The drawn tokens of a kind in a pane: the number of their row, and their text."""
        found = self.ask(f'''Array.from(document.querySelectorAll("#{pane} .{kind}"), (token) =>
            [token.closest(".row").firstChild.textContent, token.textContent])''')
        return [(number, text) for number, text in found]

    def middle(self, pane: str, text: str, index: int = 0) -> Tuple[float, float]:
        """Where a token with this text is on the screen."""
        box: Optional[List[float]] = self.ask(f'''(() => {{
            const tokens = Array.from(document.querySelectorAll("#{pane} .token"));
            const found = tokens.filter((token) => token.textContent === {json.dumps(text)})[{index}];
            if (found === undefined) return null;
            const box = found.getBoundingClientRect();
            return [box.left + box.width / 2, box.top + box.height / 2];
        }})()''')
        if box is None:
            self.fail(f'{text!r} is not among {self.tokens(pane)}')
        return box[0], box[1]

    def assert_seen(self, pane: str, kind: str) -> None:
        """A token of this kind is wholly within its pane."""
        self.assertTrue(self.ask(f'''(() => {{
            const token = document.querySelector("#{pane} .{kind}").getBoundingClientRect();
            const pane = document.getElementById("{pane}").getBoundingClientRect();
            return token.top >= pane.top && token.bottom <= pane.bottom && token.left >= pane.left;
        }})()'''))

    def test_click_on_a_token(self) -> None:
        self.open(example.GENERATED, example.MAP)
        self.assertEqual(self.status(), '13 mappings, 1 source')
        self.browser.click(self.middle('generated', 'Error('))
        self.assertEqual(self.tokens('generated', 'selected'), [('1', 'Error(')])
        self.assertEqual(self.tokens('source', 'selected'), [('2', 'Error(')])
        self.assertEqual(self.status(), 'Generated 1:25 \u2192 ../src/app.js 2:13')
        self.browser.click(self.middle('generated', 'a(', 1))
        self.assertEqual(self.tokens('source', 'selected'), [('6', 'readAll(')])
        self.assertEqual(self.status(), 'Generated 1:62 \u2192 ../src/app.js 6:3, name readAll')

    def test_click_on_a_source(self) -> None:
        self.open(example.GENERATED, example.MAP)
        self.browser.click(self.middle('source', 'main() {'))
        self.assertEqual(self.tokens('generated', 'selected'), [('1', 'n(){')])
        self.assertEqual(self.status(), 'Generated 1:58 \u2192 ../src/app.js 5:10, name main')

    def test_hover(self) -> None:
        self.open(example.GENERATED, example.MAP)
        self.browser.move(self.middle('generated', 'throw '))
        self.browser.wait_until('document.getElementById("status").textContent.startsWith("Generated")')
        self.assertEqual(self.status(), 'Generated 1:15 \u2192 ../src/app.js 2:3')
        self.assertEqual(self.tokens('source', 'hovered'), [('2', 'throw ')])
        self.assertEqual(self.tokens('source', 'selected'), [])
        self.browser.move((5, 5))
        self.assertEqual(self.tokens('source', 'hovered'), [])
        self.assertEqual(self.status(), '13 mappings, 1 source')

    def test_colours(self) -> None:
        """Partners have one colour, neighbours different ones."""
        self.open(example.GENERATED, example.MAP)
        colours = self.ask('''["generated", "source"].map((pane) => Array.from(
            document.querySelectorAll(`#${pane} .token`), (token) => getComputedStyle(token).backgroundColor))''')
        generated, source = colours
        generated.remove(generated[11])  # the text at 0:63 is drawn in two rows
        self.assertEqual(len(generated), 13)
        self.assertEqual(generated, source)
        self.assertEqual(len(set(generated)), 13)

    def test_keys(self) -> None:
        self.open(example.GENERATED, example.MAP)
        self.ask('document.getElementById("source").focus()')
        steps = [
            ('ArrowRight', 'function '), ('ArrowRight', 'readAll('), ('ArrowDown', 'new '), ('End', 'main();'),
            ('ArrowLeft', "'data.txt');"), ('ArrowUp', 'main() {'), ('Home', 'function '), ('ArrowLeft', 'function '),
        ]
        for key, expected in steps:
            self.browser.press(key)
            self.assertEqual([text for _, text in self.tokens('source', 'selected')], [expected], key)
        self.browser.move(self.middle('generated', 'throw '))
        time.sleep(0.5)
        self.browser.press('ArrowRight')
        time.sleep(0.5)  # the mouse rests on another mapping, whose rows are drawn anew
        self.assertEqual(self.status(), 'Generated 1:10 \u2192 ../src/app.js 1:10, name readAll')
        self.browser.press('ArrowLeft')
        active = 'document.getElementById(document.activeElement.getAttribute("aria-activedescendant"))'
        self.assertEqual(self.ask(f'{active}.textContent'), 'function ')
        self.assertEqual(self.ask(f'{active}.getAttribute("aria-selected")'), 'true')
        self.browser.press('/')
        self.assertEqual(self.ask('document.activeElement.id'), 'query')
        self.browser.press('Escape')
        self.assertEqual(self.ask('document.activeElement.id'), 'generated')

    def search(self, scope: str, words: str) -> None:
        self.ask(f'''(() => {{
            document.getElementById("scope").value = "{scope}";
            document.getElementById("query").value = "";
            document.getElementById("query").focus();
        }})()''')
        self.browser.type(words)
        self.browser.press('Enter')

    def test_search(self) -> None:
        self.open(example.GENERATED, example.MAP)
        found = 'document.getElementById("found-count").textContent'
        self.search('generated', 'DATA.')
        self.assertEqual(self.ask(found), '1 of 1')
        self.assertEqual(''.join(text for _, text in self.tokens('generated', 'found')), 'data.')
        self.search('sources', 'main')
        self.assertEqual(self.ask(found), '1 of 2')
        self.browser.press('Enter')
        self.assertEqual(self.ask(found), '2 of 2')
        self.assertEqual(self.tokens('source', 'found'), [('9', 'main')])
        self.ask('document.getElementById("previous").click()')
        self.assertEqual(self.tokens('source', 'found'), [('5', 'main')])
        self.ask('document.getElementById("previous").click()')
        self.assertEqual(self.ask(found), '2 of 2')
        self.search('names', 'read')
        self.assertEqual(self.ask(found), '1 of 2')
        self.assertEqual(self.tokens('generated', 'selected'), [('1', 'a(')])
        self.search('generated', 'nothing(')
        self.assertEqual(self.ask(found), 'Not found')

    def test_hostile_texts(self) -> None:
        self.open(HOSTILE_GENERATED, HOSTILE_MAP)
        self.assertEqual(self.ask('typeof window.hacked'), 'undefined')
        self.assertEqual(self.ask('document.querySelectorAll("img, b, i").length'), 0)
        self.assertEqual(self.tokens('generated'), [
            ('1', '</script><b>'), ('1', '\U0001f600+'), ('1', 'x'), ('2', 'a;'), ('2', 'b&amp;'),
        ])
        self.assertEqual(self.tokens('source'), [
            ('1', '<img src=x onerror="window.hacked=1">'), ('2', '\U0001f600 \u00b7abc\u2400'),
        ])
        self.browser.click(self.middle('generated', 'x'))
        self.assertEqual(self.status(), 'Generated 1:16: no original position')
        self.assertEqual(self.tokens('source', 'selected'), [])

    def test_positions_of_one_original(self) -> None:
        """A source's piece leads to each of its tokens in turn, with Enter or by clicks."""
        self.open(HOSTILE_GENERATED, HOSTILE_MAP)
        tag = '<img src=x onerror="window.hacked=1">'
        self.browser.click(self.middle('source', tag))
        first = 'Generated 1:1 \u2192 root/<i>a.js 1:1, name </script> (1 of 2)'
        second = 'Generated 2:3 \u2192 root/<i>a.js 1:1 (2 of 2)'
        self.assertEqual(self.status(), first)
        self.assertEqual(self.tokens('generated', 'selected'), [('1', '</script><b>')])
        self.assertEqual(self.tokens('generated', 'linked'), [('2', 'b&amp;')])
        self.browser.click(self.middle('source', tag))
        self.assertEqual(self.status(), second)
        self.browser.move((5, 5))
        self.browser.move(self.middle('source', tag))
        time.sleep(0.5)  # the mouse rests on the piece, which otherwise means its first token
        self.assertEqual(self.status(), second)
        self.browser.press('Enter')
        self.assertEqual(self.status(), first)

    def test_tokens_at_one_position(self) -> None:
        """The generated text shows the first one, which lookups answer; a source leads to each of them."""
        # 0:0 -> 0:0, 0:0 -> 1:0, 0:0 -> 1:0 again, 0:2 -> 0:0
        fields = {'sources': ['a.js'], 'sourcesContent': ['one\ntwo'], 'names': []}
        self.open('abc', json.dumps({'version': 3, **fields, 'mappings': 'AAAA,AACA,AAAA,EADA'}))
        self.assertEqual(self.status(), '4 mappings, 1 source')
        self.assertEqual(self.tokens('generated'), [('1', 'ab'), ('1', 'c')])
        self.browser.click(self.middle('generated', 'ab'))
        self.assertEqual(self.status(), 'Generated 1:1 \u2192 a.js 1:1 (1 of 2)')
        self.browser.click(self.middle('source', 'two'))
        self.assertEqual(self.status(), 'Generated 1:1 \u2192 a.js 2:1 (1 of 2)')
        self.assertEqual(self.tokens('generated', 'selected'), [('1', 'ab')])
        self.browser.press('Enter')
        self.assertEqual(self.status(), 'Generated 1:1 \u2192 a.js 2:1 (2 of 2)')
        self.browser.press('Enter')
        self.assertEqual(self.status(), 'Generated 1:1 \u2192 a.js 2:1 (1 of 2)')

    def test_source_without_contents(self) -> None:
        self.open(HOSTILE_GENERATED, HOSTILE_MAP)
        options = 'Array.from(document.querySelectorAll("#sources [role=option]"), (option) => option.title)'
        self.assertEqual(self.ask(options), ['root/<i>a.js', 'root/b.js (no contents)'])
        self.browser.click(self.middle('generated', 'a;'))
        self.assertEqual(self.status(), 'Generated 2:1 \u2192 root/b.js 5:3')
        self.assertEqual(self.ask('document.getElementById("source-name").textContent'), 'root/b.js')
        notice = 'The map holds no contents of this source.'
        self.assertIn(notice, self.ask('document.getElementById("source").textContent'))
        self.browser.click(self.middle('generated', 'b&amp;'))
        self.assertEqual(self.ask('document.getElementById("source-name").textContent'), 'root/<i>a.js')
        self.assert_seen('source', 'selected')

    def choose_source(self, number: int) -> None:
        self.ask(f'document.querySelectorAll("#sources [role=option]")[{number}].click()')
        self.wait_until_ready()

    def test_list_of_sources(self) -> None:
        """Of three sources the middle one has no mapping, and contents all the same."""
        # 0:0 -> 0 0:0, 0:1 -> 2 0:1
        fields = {'sources': ['a.js', 'b.js', 'c.js'], 'sourcesContent': ['aa', 'bb', 'cc'], 'names': []}
        self.open('xy', json.dumps({'version': 3, **fields, 'mappings': 'AAAA,CEAC'}))
        for number, text, tokens in [(1, 'bb', []), (2, 'cc', ['c']), (0, 'aa', ['aa'])]:
            self.choose_source(number)
            self.assertEqual(self.ask('document.querySelector("#source .row").textContent'), f'1{text}')
            self.assertEqual([text for _, text in self.tokens('source')], tokens)

    def test_partner_is_scrolled_into_view(self) -> None:
        """Line N of 3,000 comes from line 3000 - N of the source."""
        lines = 3000
        generated = '\n'.join(f'line({number});' for number in range(lines))
        source = '\n'.join(f'original({lines - 1 - number});' for number in range(lines))
        # 2999, as the first original line, is `u7F`; each further one is one less
        mappings = 'AAu7FA' + ';AADA' * (lines - 1)
        fields = {'sources': ['a.js'], 'sourcesContent': [source], 'names': [], 'mappings': mappings}
        self.open(generated, json.dumps({'version': 3, **fields}))
        self.browser.wait_until('document.querySelector("#source .token")')
        self.assertEqual(self.tokens('source')[0], ('1', 'original(2999);'))
        self.browser.move(self.middle('generated', 'line(4);'))
        self.browser.wait_until('document.querySelector("#source .hovered")')
        self.assertEqual(self.tokens('source', 'hovered'), [('2996', 'original(4);')])
        self.assert_seen('source', 'hovered')
        self.browser.click(self.middle('generated', 'line(5);'))
        self.assertEqual(self.tokens('source', 'selected'), [('2995', 'original(5);')])
        self.assert_seen('source', 'selected')
        self.browser.press('End')
        self.assertEqual(self.tokens('source', 'selected'), [('1', 'original(2999);')])
        self.assertEqual(self.tokens('generated', 'selected'), [('3000', 'line(2999);')])
        self.assert_seen('source', 'selected')
        self.assert_seen('generated', 'selected')
        self.assertLess(self.ask('document.querySelectorAll("*").length'), 1000)

    def test_resize(self) -> None:
        """The line at the top stays there when lines are wrapped anew."""
        text = '\n'.join(f'{number:060}' for number in range(1000))
        self.open(text, '{"version":3,"sources":[],"names":[],"mappings":""}')
        self.ask('document.getElementById("generated").scrollTop = 500 * 20')
        top = '''(() => {
            const pane = document.getElementById("generated").getBoundingClientRect();
            const rows = Array.from(document.querySelectorAll("#generated .row"));
            const row = rows.find((each) => each.getBoundingClientRect().bottom > pane.top + 1);
            return row && row.querySelector(".number").textContent;
        })()'''
        self.browser.wait_until(f'{top} === "501"')
        self.addCleanup(self.browser.resize, 1480, 760)
        self.browser.resize(1000, 760)
        rows = 'document.querySelector("#generated > div").offsetHeight / 20'
        self.browser.wait_until(f'{rows} === 2000')
        self.browser.wait_until(f'{top} === "501"')

    def test_line_of_a_megabyte(self) -> None:
        """250,000 tokens of 4 columns on one line each; the source has them in the same columns."""
        count = 250_000
        text = ''.join(f'{number % 1000:03};' for number in range(count))
        fields = {'sources': ['a.js'], 'sourcesContent': [text], 'names': []}
        mappings = 'AAAA' + ',IAAI' * (count - 1)
        self.open(text, json.dumps({'version': 3, **fields, 'mappings': mappings}))
        self.ask('document.getElementById("generated").focus()')
        self.browser.press('End')
        self.assertEqual(self.status(), 'Generated 1:999997 \u2192 a.js 1:999997')
        for pane in ('generated', 'source'):
            # the token may be drawn in two rows
            self.assertEqual(''.join(text for _, text in self.tokens(pane, 'selected')), '999;')
            self.assert_seen(pane, 'selected')
        self.assertLess(self.ask('document.querySelectorAll("*").length'), 3000)
        self.assertEqual(self.ask('document.querySelector("#generated").scrollWidth'),
                         self.ask('document.querySelector("#generated").clientWidth'))

    def test_rows_do_not_cut_characters(self) -> None:
        """Every second row would end within a surrogate pair."""
        text = '"' + '\U0001f600' * 300 + '"'
        self.open(text, '{"version":3,"sources":[],"names":[],"mappings":"A"}')
        rows = self.ask('''Array.from(document.querySelectorAll("#generated .row"), (row) =>
            Array.from(row.querySelectorAll(".token"), (token) => token.textContent).join(""))''')
        self.assertGreater(len(rows), 5)
        self.assertEqual(''.join(rows), text)
        self.assertEqual({row.strip('"').replace('\U0001f600', '') for row in rows}, {''})

    def test_contents_from_files(self) -> None:
        """They are shown, and the others stay."""
        (self.folder / 'b.ts').write_text('from a file', 'utf-8')
        fields = {'sources': ['a.ts', 'b.ts'], 'sourcesContent': ['from the map', None], 'names': []}
        map = json.dumps({'version': 3, **fields, 'mappings': 'AAAA,CCAA'})
        path = self.folder / 'page.html'
        path.write_text(page.page_text('x.js', 'xy', Map.loads(map), self.folder / 'x.js.map'), 'utf-8')
        self.browser.open(path)
        self.wait_until_ready()
        self.assertEqual(self.tokens('source'), [('1', 'from the map')])
        self.browser.click(self.middle('generated', 'y'))
        self.assertEqual(self.tokens('source', 'selected'), [('1', 'from a file')])

    def test_text_taller_than_an_element(self) -> None:
        """450,000 lines of 20 pixels; browsers draw fewer."""
        lines = 450_000
        fields = {'sources': ['a.js'], 'sourcesContent': ['end();'], 'names': []}
        map = json.dumps({'version': 3, **fields, 'mappings': 'A' + ';' * lines + 'AAAA'})
        self.open('\n' * lines + 'end();', map)
        self.ask('document.getElementById("generated").focus()')
        self.browser.press('End')
        self.assertEqual(self.tokens('generated', 'selected'), [('450001', 'end();')])
        self.assert_seen('generated', 'selected')
        self.ask('document.getElementById("generated").scrollTop = 1e9')
        self.browser.wait_until('document.querySelector("#generated .row:last-child .number").textContent === "450001"')
        self.assert_seen('generated', 'selected')
        self.browser.press('Home')
        self.assertEqual(self.ask('document.querySelector("#generated .number").textContent'), '1')

    def test_no_network(self) -> None:
        self.open(example.GENERATED, example.MAP)
        self.assertEqual(self.ask('performance.getEntriesByType("resource").length'), 0)
        policy = 'document.querySelector("meta[http-equiv=Content-Security-Policy]").content'
        self.assertTrue(self.ask(policy).startswith("default-src 'none';"))

    def test_contrast(self) -> None:
        """Texts have a contrast of at least 4.5 with what is below them, in light and dark."""
        self.addCleanup(self.browser.use_colours, 'light')
        for scheme in ('light', 'dark'):
            self.browser.use_colours(scheme)
            self.open(example.GENERATED, example.MAP)
            self.browser.click(self.middle('generated', 'Error('))
            parts = '.token, .number, #status, h1, .heading'
            colours = self.ask(f'''Array.from(document.querySelectorAll("{parts}"), (each) => {{
                let below = each;
                while (getComputedStyle(below).backgroundColor === "rgba(0, 0, 0, 0)") below = below.parentElement;
                return [getComputedStyle(each).color, getComputedStyle(below).backgroundColor];
            }})''')
            self.assertGreater(len(colours), 40)
            for text, below in colours:
                self.assertGreaterEqual(contrast(text, below), 4.5, f'{scheme}: {text} on {below}')


def contrast(text: str, below: str) -> float:
    """The ratio of WCAG 2 of two colours, `rgb(R, G, B)`."""
    light, dark = sorted((luminance(text), luminance(below)), reverse=True)
    return (light + 0.05) / (dark + 0.05)


def luminance(colour: str) -> float:
    channels = [int(part) / 255 for part in colour[len('rgb('):-1].split(',')]
    linear = [part / 12.92 if part <= 0.04045 else float(((part + 0.055) / 1.055) ** 2.4) for part in channels]
    return 0.2126 * linear[0] + 0.7152 * linear[1] + 0.0722 * linear[2]


if __name__ == '__main__':
    unittest.main()
