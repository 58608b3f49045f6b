#!/usr/bin/env python3
"""The viewer in headless Chromium, opened from a file. Compiled maps are written from docs/COMPILED.md alone, by
`compare/compiled_map.py`, and expected positions are those of hand-written maps.

    bindings/web/test/viewer_test.py [--page FILE] [--pictures FOLDER] [TEST..]

FILE is the viewer, bindings/web/out/viewer.html if it is not given. FOLDER gets pictures of the page, light and dark, wide
and narrow.
"""

from __future__ import annotations

import argparse
import ast
import base64
import colorsys
import importlib.util
import json
import re
import shutil
import struct
import subprocess
import sys
import tempfile
import time
import unittest
from pathlib import Path
from typing import Any, List, Optional, Sequence, Tuple

BINDINGS = Path(__file__).resolve().parents[2]
sys.path[:0] = [str(BINDINGS / 'python'), str(BINDINGS.parent / 'compare')]

import compiled_map  # noqa: E402
from tests import example  # noqa: E402
from tests.browser import Browser, find_browser  # noqa: E402

PAGE = BINDINGS / 'web' / 'out' / 'viewer.html'
PICTURES: Optional[Path] = None
BROWSER = find_browser()
KEYS = {'Tab': 9, 'Enter': 13, ' ': 32}

IMG = '<img src=x onerror=alert(1)>'
# 0:0 -> a.ts 0:0, named; 0:2 -> b.ts 0:4; 0:4 -> a.ts 1:2; 0:6 has no source; 1:0 -> a.ts 0:0 again; 1:3 -> c.ts 7:0
SOURCES = ['src/a.ts', 'src/b.ts', f'lib/{IMG}']
CONTENTS = ['alpha();\n  beta();\n', 'let gamma;\n', None]
GENERATED = 'a;b;c;d;\nx= e;\n'
NAMES = [IMG]
MAPPINGS = 'AAAAA,ECAI,EDCF,E;AADF,GEOA'


def compiled(
    mappings: str, sources: Sequence[str], names: Sequence[str], contents: Optional[List[Optional[str]]], file: Optional[str]
) -> bytes:
    return bytes(compiled_map.write(compiled_map.tokens_of(mappings), sources, names, file, contents))


EXAMPLE = json.loads(example.MAP)
EXAMPLE_MAP = compiled(EXAMPLE['mappings'], EXAMPLE['sources'], EXAMPLE['names'], EXAMPLE['sourcesContent'], EXAMPLE['file'])
THREE_MAP = compiled(MAPPINGS, SOURCES, NAMES, CONTENTS, 'out.js')


def large_map(count: int, sources: int) -> bytes:
    """A map of `count` tokens on one line, 4 columns each. Block b of 64 tokens comes from line b / sources of source b %
    sources, in order; the first token of each block has name 0."""
    blocks = (count + 63) // 64
    columns = compiled_map.pack([4 * place for place in range(64)], 8)
    body = columns + columns + compiled_map.pack([1] + 63 * [0], 1)
    lines = (blocks + sources - 1) // sources
    contents = '\n'.join(''.join(f'v{place:02};' for place in range(64)) for _ in range(lines)).encode() + b'\0'
    texts = [f'src/{source}.ts'.encode() + b'\0' for source in range(sources)] + [b'first\0', b'large.js\0'] + [contents] * sources
    starts = b''.join(struct.pack('<Q', 256 * block) for block in range(blocks))
    widths = bytes([0, 8, 0, 0, 8, 1, 0, 0])
    heads = b''.join(
        struct.pack('<6I', 64 + len(body) * block, 256 * block, block % sources, block // sources, 0, 0xFFFFFFFF) + widths
        for block in range(blocks)
    )
    tables = 64 + len(body) * blocks
    offset, table = tables + 40 * blocks + 4 * (len(texts) + 1), b''
    for text in texts:
        table += struct.pack('<I', offset)
        offset += len(text)
    table += struct.pack('<I', offset)
    header = struct.pack('<8I', compiled_map.MAGIC, 1, offset, count, sources, 1, sources, 0) + bytes(16)
    return header + struct.pack('<II', tables, 0) + bytes(8) + body * blocks + starts + heads + table + b''.join(texts)


def large_text(count: int) -> str:
    return ''.join(f'{number % 1000:03};' for number in range(count))


class InViewer(unittest.TestCase):
    """Tests with one browser, and a viewer for each test."""

    browser: Browser

    @classmethod
    def setUpClass(cls) -> None:
        assert BROWSER is not None
        cls.browser = Browser(BROWSER, width=1280, height=800)
        cls.addClassCleanup(cls.browser.close)

    def setUp(self) -> None:
        folder = tempfile.TemporaryDirectory()
        self.addCleanup(folder.cleanup)
        self.folder = Path(folder.name)
        self.browser.errors.clear()
        self.browser.open(PAGE)
        self.wait_for('empty')
        self.addCleanup(lambda: self.assertEqual(self.browser.errors, []))

    def ask(self, expression: str) -> Any:
        return self.browser.evaluate(expression)

    def text(self, id: str) -> str:
        return str(self.ask(f'document.getElementById("{id}").textContent'))

    def status(self) -> str:
        """The line below, once all is read."""
        self.wait_for('ready')
        return self.text('status')

    def wait_for(self, state: str, timeout: float = 600) -> None:
        self.browser.wait_until(f'document.body && document.body.dataset.state === "{state}"', timeout)

    def drop(self, *files: Tuple[str, bytes]) -> None:
        """Drops files on the page, as a user does, and waits until they are read."""
        self.ask('window.dropped = new DataTransfer()')
        for name, content in files:
            data = json.dumps(base64.b64encode(content).decode())
            self.ask(f'''void dropped.items.add(new File(
                [Uint8Array.from(atob({data}), (each) => each.charCodeAt(0))], {json.dumps(name)}))''')
        self.ask('''void document.body.dispatchEvent(
            new DragEvent("drop", {bubbles: true, cancelable: true, dataTransfer: dropped}))''')
        self.wait_for('ready')

    def choose(self, role: str, *files: Tuple[str, bytes]) -> None:
        """Sets the files of an input."""
        paths = []
        for name, content in files:
            paths.append(self.folder / name)
            paths[-1].write_bytes(content)
        root = self.browser.call('DOM.getDocument')['root']['nodeId']
        input = self.browser.call('DOM.querySelector', nodeId=root, selector=f'input[data-role={role}]')['nodeId']
        self.browser.call('DOM.setFileInputFiles', nodeId=input, files=list(map(str, paths)))

    def open_example(self) -> None:
        self.drop(('app.min.js', example.GENERATED.encode()), ('app.min.js.compiled', EXAMPLE_MAP))

    def open_three(self) -> None:
        self.drop(('out.compiled', THREE_MAP), ('out.js', GENERATED.encode()))

    def press(self, key: str, modifiers: int = 0) -> None:
        """Presses a key; `modifiers` is 8 for shift."""
        if key not in KEYS:
            self.browser.press(key)
            return
        text = {'Enter': '\r', ' ': ' '}.get(key, '')
        same = {'key': key, 'code': key if key != ' ' else 'Space', 'windowsVirtualKeyCode': KEYS[key], 'modifiers': modifiers}
        self.browser.call('Input.dispatchKeyEvent', type='keyDown' if text else 'rawKeyDown', text=text, **same)
        self.browser.call('Input.dispatchKeyEvent', type='keyUp', **same)

    def tokens(self, pane: str, kind: str = 'token') -> List[Tuple[str, str]]:
        """The drawn tokens of a kind in a pane: the number of their row, and their text."""
        found = self.ask(f'''Array.from(document.querySelectorAll("#{pane} .{kind}"), (token) =>
            [token.closest(".row").firstChild.textContent, token.textContent])''')
        return [(number, text) for number, text in found]

    def middle(self, selector: str, text: str, index: int = 0) -> Tuple[float, float]:
        """Where the element with this text is on the screen."""
        box: Optional[List[float]] = self.ask(f'''(() => {{
            const all = Array.from(document.querySelectorAll("{selector}"));
            const found = all.filter((each) => each.textContent === {json.dumps(text)})[{index}];
            if (found === undefined) return null;
            const box = found.getBoundingClientRect();
            return [box.left + box.width / 2, box.top + box.height / 2];
        }})()''')
        if box is None:
            self.fail(f'{text!r} is no {selector}')
        return box[0], box[1]

    def assert_seen(self, pane: str, kind: str) -> None:
        """A token of this kind is wholly within its pane."""
        self.assertTrue(self.ask(f'''(() => {{
            const token = document.querySelector("#{pane} .{kind}").getBoundingClientRect();
            const pane = document.getElementById("{pane}").getBoundingClientRect();
            return token.top >= pane.top && token.bottom <= pane.bottom && token.left >= pane.left
                && token.right <= pane.right;
        }})()'''))

    def search(self, scope: str, words: str) -> None:
        self.ask(f'''(() => {{
            document.getElementById("scope").value = "{scope}";
            document.getElementById("query").value = "";
            document.getElementById("query").focus();
        }})()''')
        self.browser.type(words)
        self.press('Enter')

    def trace(self, text: str) -> List[Tuple[str, Optional[str]]]:
        """Pastes a trace. Returns each line as it is shown, with the text of its link."""
        self.ask('''(() => {
            if (document.getElementById("trace").hidden) document.getElementById("trace-toggle").click();
            document.getElementById("trace-input").value = "";
            document.getElementById("trace-input").focus();
        })()''')
        self.browser.type(text)
        count = len(text.rstrip().split('\n'))
        self.browser.wait_until(f'document.querySelectorAll("#trace-lines li").length === {count}')
        lines = self.ask('''Array.from(document.querySelectorAll("#trace-lines li"), (line) =>
            [line.textContent, line.querySelector(".link") && line.querySelector(".link").textContent])''')
        return [(line, link) for line, link in lines]


class Files(InViewer):
    """What is opened."""

    def test_nothing(self) -> None:
        self.assertTrue(self.ask('!document.getElementById("start").hidden && document.getElementById("main").hidden'))
        self.assertEqual(self.text('title'), 'Source map viewer')

    def test_without_64_bit_memories(self) -> None:
        """A message says which browsers have them, at once and again for a map."""
        script = 'WebAssembly.validate = () => false'
        added = self.browser.call('Page.addScriptToEvaluateOnNewDocument', source=script)
        self.addCleanup(lambda: self.browser.call('Page.removeScriptToEvaluateOnNewDocument', **added))
        self.browser.open(PAGE)
        self.browser.wait_until('document.getElementById("alert-text").textContent.includes("Firefox 134")')
        self.ask('document.getElementById("alert-close").click()')
        self.assertTrue(self.ask('document.getElementById("alert").hidden'))
        self.choose('map', ('x.compiled', EXAMPLE_MAP))
        self.browser.wait_until('document.getElementById("alert-text").textContent.includes("Firefox 134")')

    def test_drop(self) -> None:
        self.open_example()
        self.assertEqual(self.text('title'), 'app.min.js')
        self.assertEqual(self.ask('document.title'), 'app.min.js and its sources')
        self.assertEqual(self.status(), '13 mappings, 1 source')
        self.assertEqual(''.join(text for _, text in self.tokens('generated')), example.GENERATED.split('\n')[0])
        self.assertEqual(self.text('source-name'), '../src/app.js')
        self.assertEqual(self.tokens('source')[:3], [('1', 'function '), ('1', 'readAll('), ('1', 'path) {')])

    def test_inputs(self) -> None:
        """The map first, then the text."""
        self.choose('map', ('x.compiled', EXAMPLE_MAP))
        self.wait_for('ready')
        self.assertIn('Drop the generated text', self.text('generated'))
        self.assertEqual(self.tokens('source')[0], ('1', 'function '))
        self.choose('generated', ('any name.js', example.GENERATED.encode()))
        self.browser.wait_until('document.querySelectorAll("#generated .token").length > 0')
        self.assertEqual(self.tokens('generated')[0], ('1', 'function '))

    def test_text_before_map(self) -> None:
        self.drop(('app.min.js', example.GENERATED.encode()))
        self.assertIn('Drop the compiled map', self.text('source'))
        self.assertEqual(self.tokens('generated'), [])
        self.drop(('x.compiled', EXAMPLE_MAP))
        self.assertEqual(len(self.tokens('source')), 13)

    def test_map_after_map(self) -> None:
        """Nothing of the first one stays."""
        self.open_example()
        self.browser.click(self.middle('#generated .token', 'Error('))
        self.open_three()
        self.assertEqual(self.text('title'), 'out.js')
        self.assertEqual(self.status(), '6 mappings, 3 sources')
        self.assertEqual([text for _, text in self.tokens('generated')], ['a;', 'b;', 'c;', 'd;', 'x= ', 'e;'])
        self.assertEqual(self.tokens('generated', 'selected'), [])

    def test_json_map(self) -> None:
        self.ask('document.body.dataset.state = "x"')
        self.choose('any', ('app.js.map', example.MAP.encode()))
        self.wait_for('empty')
        self.assertIn('app.js.map is a source map of JSON. Compile it first', self.text('alert-text'))
        self.choose('map', ('app.js', example.GENERATED.encode()))
        self.browser.wait_until('document.getElementById("alert-text").textContent.includes("is no compiled map")')

    def test_damaged_maps(self) -> None:
        """Each is refused with a message, and the page goes on; or what is left of it is shown."""
        for length in (4, 63, 200):
            self.ask('document.body.dataset.state = "x"')
            self.choose('map', ('x.compiled', EXAMPLE_MAP[:length]))
            self.wait_for('empty')
            self.assertTrue(self.text('alert-text'))
        for seed in range(40):
            damaged = bytearray(EXAMPLE_MAP)
            for step in range(1, 4):
                damaged[64 + (seed * 7919 + step * 104729) % (len(damaged) - 64)] ^= 1 << (seed + step) % 8
            self.ask('document.body.dataset.state = "x"')
            self.choose('map', ('x.compiled', bytes(damaged)))
            self.browser.wait_until('["ready", "empty"].includes(document.body.dataset.state)')
        self.open_example()
        self.browser.click(self.middle('#generated .token', 'Error('))
        self.assertEqual(self.status(), 'Generated 1:25 \u2192 ../src/app.js 2:13')

    def drag(self, *paths: Path) -> None:
        """Drags files or folders over the page, and drops them."""
        data = {'items': [], 'files': list(map(str, paths)), 'dragOperationsMask': 1}
        for kind in ('dragEnter', 'dragOver', 'drop'):
            self.browser.call('Input.dispatchDragEvent', type=kind, x=640, y=400, data=data)
            if kind == 'dragOver':
                self.browser.wait_until('!document.getElementById("drop").hidden')

    def test_drop_of_a_folder(self) -> None:
        """A folder of sources is dropped after the map and its text: each source is found by its path."""
        sources = ['webpack:///./src/a/index.js', 'webpack:///./src/b/index.js', 'webpack:///./src/none.js']
        contents = {'a/index.js': 'one', 'b/index.js': 'two', 'c/index.js': 'three', 'other.js': 'four'}
        for path, text in contents.items():
            (self.folder / 'app' / 'src' / path).parent.mkdir(parents=True, exist_ok=True)
            (self.folder / 'app' / 'src' / path).write_text(text, 'utf-8')
        (self.folder / 'out.js').write_text('xyz', 'utf-8')
        (self.folder / 'out.compiled').write_bytes(compiled('AAAA,CCAA,CCAA', sources, [], None, 'out.js'))
        self.drag(self.folder / 'out.js', self.folder / 'out.compiled')
        self.browser.wait_until('document.querySelectorAll("#generated .token").length === 3')
        self.assertIn('holds no contents', self.text('source'))
        self.drag(self.folder / 'app')
        self.browser.wait_until('document.querySelectorAll("#source .token").length === 1')
        self.assertEqual(self.tokens('source'), [('1', 'one')])
        self.browser.click(self.middle('#generated .token', 'y'))
        self.assertEqual(self.tokens('source', 'selected'), [('1', 'two')])
        self.browser.click(self.middle('#generated .token', 'z'))
        self.assertIn('holds no contents', self.text('source'))
        self.assertTrue(self.ask('document.getElementById("alert").hidden'))

    def test_contents_from_files(self) -> None:
        """Contents that the map has not come from the file whose path ends like the source, if only one does."""
        sources = ['../src/a/index.js', '../src/b/index.js', '../src/c.js']
        map = compiled('AAAA,CCAA,CCAA', sources, [], ['one', None, None], 'out.js')
        self.drop(('out.js', b'xyz'), ('out.compiled', map), ('index.js', b'which?'), ('c.js', b'three'))
        self.assertIn('index.js is none of the map', self.text('alert-text'))
        self.browser.click(self.middle('#generated .token', 'z'))
        self.assertEqual(self.tokens('source', 'selected'), [('1', 'three')])
        self.browser.click(self.middle('#generated .token', 'y'))
        self.assertIn('holds no contents', self.text('source'))
        self.browser.click(self.middle('#generated .token', 'x'))
        self.assertEqual(self.tokens('source', 'selected'), [('1', 'one')])


class Views(InViewer):
    """Clicks, colours, the list of the sources."""

    def test_clicks(self) -> None:
        self.open_example()
        self.browser.click(self.middle('#generated .token', 'Error('))
        self.assertEqual(self.tokens('source', 'selected'), [('2', 'Error(')])
        self.assertEqual(self.status(), 'Generated 1:25 \u2192 ../src/app.js 2:13')
        self.browser.click(self.middle('#source .token', 'main() {'))
        self.assertEqual(''.join(text for _, text in self.tokens('generated', 'selected')), 'n(){')
        self.assertEqual(self.status(), 'Generated 1:58 \u2192 ../src/app.js 5:10, name main')

    def test_sources(self) -> None:
        """A click leads to another source; one position of a source leads to each of its tokens in turn."""
        self.open_three()
        self.browser.click(self.middle('#generated .token', 'b;'))
        self.assertEqual(self.text('source-name'), 'src/b.ts')
        self.assertEqual(self.tokens('source', 'selected'), [('1', 'gamma;')])
        self.browser.click(self.middle('#generated .token', 'a;'))
        self.assertEqual(self.status(), f'Generated 1:1 \u2192 src/a.ts 1:1, name {IMG} (1 of 2)')
        self.browser.click(self.middle('#source .token', 'alpha();'))
        self.assertEqual(self.status(), 'Generated 2:1 \u2192 src/a.ts 1:1 (2 of 2)')
        self.browser.click(self.middle('#generated .token', 'd;'))
        self.assertEqual(self.status(), 'Generated 1:7: no original position')

    def test_tokens_at_one_position(self) -> None:
        """All of them are beside their source, though a lookup finds the first."""
        # 0:0 -> 0:0; 0:0 -> 1:0; 0:1 -> 1:2
        twice = compiled('AAAA,AACA,CAAE', ['a.ts'], [], ['alpha\nbeta\n'], 'out.js')
        self.drop(('out.compiled', twice), ('out.js', b'xy\n'))
        self.assertEqual(self.tokens('source'), [('1', 'alpha'), ('2', 'be'), ('2', 'ta')])
        self.browser.click(self.middle('#source .token', 'be'))
        self.assertEqual(self.status(), 'Generated 1:1 \u2192 a.ts 2:1')
        self.browser.click(self.middle('#generated .token', 'x'))
        self.assertEqual(self.status(), 'Generated 1:1 \u2192 a.ts 1:1')

    def test_legend(self) -> None:
        self.open_three()
        rows = self.ask('''Array.from(document.querySelectorAll("#sources [role=option]"), (row) =>
            [row.querySelector(".folder").textContent, row.querySelector(".base").textContent,
             row.querySelector(".tokens").textContent, row.getAttribute("aria-selected")])''')
        # the last part of a path with `/>` begins after it
        self.assertEqual(rows, [
            ['src/', 'a.ts', '3', 'true'], ['src/', 'b.ts', '1', 'false'], ['lib/', IMG, '1', 'false'],
        ])
        self.assertEqual(self.text('source-count'), '3')
        self.ask('document.querySelectorAll("#sources [role=option]")[1].click()')
        self.assertEqual(self.text('source-name'), 'src/b.ts')
        self.assertEqual(self.tokens('source'), [('1', 'gamma;')])

    def test_colours(self) -> None:
        """A token has a shade of its source's colour; partners have one colour; a token without source has none."""
        self.open_three()
        swatches = [self.hue(each) for each in self.colours('#sources .swatch')]
        tokens = self.colours('#generated .token')
        self.assertEqual(tokens.pop(3), 'rgba(0, 0, 0, 0)')
        for colour, source in zip(tokens, [0, 1, 0, 0, 2]):
            distance = [abs((self.hue(colour) - hue + 180) % 360 - 180) for hue in swatches]
            self.assertLess(distance[source], 20)
            self.assertEqual(min(distance), distance[source])
        self.assertEqual(tokens[0], tokens[3])
        self.assertNotEqual(tokens[0], tokens[2])
        self.assertEqual(self.colours('#source .token'), [tokens[0], tokens[2]])

    def colours(self, selector: str) -> List[str]:
        return [str(each) for each in self.ask(f'''Array.from(document.querySelectorAll("{selector}"), (each) =>
            getComputedStyle(each).backgroundColor)''')]

    def hue(self, colour: str) -> float:
        red, green, blue = (int(part) / 255 for part in re.findall(r'\d+', colour)[:3])
        return colorsys.rgb_to_hls(red, green, blue)[0] * 360

    def test_hostile_texts(self) -> None:
        """No text of a map is markup, wherever it is shown."""
        self.browser.call('Page.addScriptToEvaluateOnNewDocument', source='window.alert = () => { window.hacked = 1; }')
        self.browser.open(PAGE)
        self.wait_for('empty')
        name = f'{IMG}.js'
        contents = f'</script>{IMG}\n'
        map = compiled('AAAAA', [IMG], [IMG], [contents], name)
        self.drop((name, f'{IMG}\n'.encode()), ('x.compiled', map))
        self.browser.click(self.middle('#generated .token', IMG))
        self.browser.move((5, 5))
        self.browser.move(self.middle('#source .token', f'</script>{IMG}'))
        self.assertEqual(self.text('title'), name)
        self.search('names', IMG)
        self.assertEqual(self.text('found-count'), '1 of 1')
        lines = self.trace(f'{IMG}\n    at {IMG} ({IMG}.js:1:1)')
        self.assertEqual(lines, [(IMG, None), (f'    at {IMG} ({IMG}:1:1)', f'{IMG}:1:1')])
        self.drop((f'{IMG}.map', b'{"version":3,"mappings":""}'))
        self.assertTrue(self.text('alert-text').startswith(IMG))
        time.sleep(0.3)
        self.assertEqual(self.ask('document.querySelectorAll("img, [onerror]").length'), 0)
        self.assertEqual(self.ask('typeof window.hacked'), 'undefined')

    def test_wrapping(self) -> None:
        """Without wrapping each line is one row, and the selected token is scrolled to."""
        text = 'x' * 300 + '\n' + 'y' * 40
        # 0:0 -> 0:0, 0:250 -> 0:250
        self.drop(('out.js', text.encode()), ('x.compiled', compiled('AAAA,0PAA0P', ['a.js'], [], [text], 'out.js')))
        numbers = 'Array.from(document.querySelectorAll("#generated .number"), (each) => each.textContent)'
        self.assertGreater(len(self.ask(numbers)), 4)
        self.ask('document.getElementById("wrap").click()')
        self.assertEqual(self.ask(numbers), ['1', '2'])
        self.assertEqual(self.ask('document.getElementById("wrap").getAttribute("aria-pressed")'), 'false')
        self.ask('document.getElementById("generated").focus()')
        self.press('End')
        self.assertEqual(self.status(), 'Generated 1:251 \u2192 a.js 1:251')
        for pane in ('generated', 'source'):
            self.browser.wait_until(f'document.getElementById("{pane}").scrollLeft > 500')
            left = self.ask(f'document.querySelector("#{pane} .selected").getBoundingClientRect().left')
            start = self.ask(f'document.getElementById("{pane}").getBoundingClientRect().left')
            number = self.ask(f'document.querySelector("#{pane} .number").getBoundingClientRect().left')
            self.assertGreater(left, start)
            self.assertAlmostEqual(number, start, delta=2)  # numbers of lines stay

    def test_no_network(self) -> None:
        self.open_three()
        self.assertEqual(self.ask('performance.getEntriesByType("resource").length'), 0)
        policy = self.ask('document.querySelector("meta[http-equiv=Content-Security-Policy]").content')
        self.assertTrue(policy.startswith("default-src 'none';"))
        self.assertNotIn('connect-src', policy)


class Searches(InViewer):
    def test_names(self) -> None:
        self.open_example()
        self.search('names', 'READ')
        self.assertEqual(self.text('found-count'), '1 of 2')
        self.assertEqual(self.tokens('generated', 'selected'), [('1', 'a(')])
        self.press('Enter')
        self.assertEqual(self.text('found-count'), '2 of 2')
        self.assertEqual(self.status(), 'Generated 1:62 \u2192 ../src/app.js 6:3, name readAll')
        self.ask('document.getElementById("previous").click()')
        self.assertEqual(self.text('found-count'), '1 of 2')
        self.search('names', 'nothing')
        self.assertEqual(self.text('found-count'), 'Not found')

    def test_texts(self) -> None:
        self.open_example()
        self.search('generated', 'DATA.')
        self.assertEqual(self.text('found-count'), '1 of 1')
        self.assertEqual(''.join(text for _, text in self.tokens('generated', 'found')), 'data.')
        self.search('sources', 'main')
        self.assertEqual(self.text('found-count'), '1 of 2')
        self.assertEqual(self.tokens('source', 'found'), [('5', 'main')])
        self.press('Enter')
        self.assertEqual(self.tokens('source', 'found'), [('9', 'main')])

    def test_other_source(self) -> None:
        self.open_three()
        self.search('sources', 'gam')
        self.assertEqual(self.text('source-name'), 'src/b.ts')
        self.assertEqual(self.tokens('source', 'found'), [('1', 'gam')])

    def test_across_parts(self) -> None:
        """Long texts are searched in parts of 65,536 characters."""
        text = 'a' * 65_530 + 'needle in two parts' + 'b' * 70_000 + 'needle'
        self.drop(('out.js', text.encode()), ('x.compiled', compiled('A', [], [], None, 'out.js')))
        self.search('generated', 'needle')
        self.browser.wait_until('document.getElementById("found-count").textContent === "1 of 2"')
        self.search('generated', 'needle in two')
        self.browser.wait_until('document.getElementById("found-count").textContent === "1 of 1"')
        self.assertEqual(''.join(text for _, text in self.tokens('generated', 'found')) or 'needle in two', 'needle in two')


class Traces(InViewer):
    """The frames of three engines, with the positions of the example: 1:25 is 2:13, 1:62 is 6:3, 1:76 is 9:1."""

    def test_engines(self) -> None:
        self.open_example()
        lines = self.trace('\n'.join([
            'Error: cannot read data.txt',
            '    at a (https://host/static/app.min.js?v=2:1:25)',
            '    at async n (/srv/app.min.js:1:62)',
            '    at app.min.js:1:76 {',
            '    at eval (eval at n (app.min.js:1:62), <anonymous>:1:1)',
            '    at Module._compile (node:internal/modules/cjs/loader:1554:14)',
            'a@https://host/app.min.js:1:25',
            'app.min.js:1:76',
            'n@app.min.js line 9 > eval:1:1',
            '    at f (other.js:1:25)',
            '    at f (app.min.js:2:1)',
        ]))
        self.assertEqual(lines, [
            ('Error: cannot read data.txt', None),
            ('    at a (../src/app.js:2:13)', '../src/app.js:2:13'),
            ('    at async n (../src/app.js:6:3)', '../src/app.js:6:3'),
            ('    at ../src/app.js:9:1 {', '../src/app.js:9:1'),
            ('    at eval (eval at n (../src/app.js:6:3), <anonymous>:1:1)', '../src/app.js:6:3'),
            ('    at Module._compile (node:internal/modules/cjs/loader:1554:14)', None),
            ('a@../src/app.js:2:13', '../src/app.js:2:13'),
            ('../src/app.js:9:1', '../src/app.js:9:1'),
            ('n@app.min.js line 9 > eval:1:1', None),
            ('    at f (other.js:1:25)', None),
            ('    at f (app.min.js:2:1)', None),
        ])
        self.assertEqual(self.text('trace-note'), '6 of 9 frames resolved.')

    def test_link(self) -> None:
        self.open_example()
        self.trace('    at a (app.min.js:1:27)')
        self.browser.click(self.middle('#trace-lines .link', '../src/app.js:2:13'))
        self.assertEqual(self.tokens('generated', 'selected'), [('1', 'Error(')])
        self.assertEqual(self.tokens('source', 'selected'), [('2', 'Error(')])

    def test_unknown_name(self) -> None:
        """A trace that never names the generated file may be of a copy with another name."""
        self.open_example()
        self.assertEqual(self.trace('    at a (main.js:1:25)'), [('    at a (../src/app.js:2:13)', '../src/app.js:2:13')])
        self.assertIn('No frame names app.min.js', self.text('trace-note'))

    def test_line_alone(self) -> None:
        """A frame without a column has an original line if all tokens of its line come from one."""
        map = compiled('AAAA,CAAC,C;ACAA,CCAA;', ['a.js', 'b.js', 'c.js'], [], None, 'out.js')
        self.drop(('out.js', b'xyz\nuv\n'), ('x.compiled', map))
        self.assertEqual(self.trace('f@out.js:1\ng@out.js:2\nh@out.js:3'), [
            ('f@a.js:1', 'a.js:1'), ('g@out.js:2', None), ('h@out.js:3', None),
        ])


class Frames(unittest.TestCase):
    """The viewer reads the same frames as `python -m sourcemap stack`: those of the tests of that."""

    MORE = [
        'at f (eval at g (eval at h (a.js:1:2), b.js:3:4), c.js:5:6)', 'f@a.js line 3 > eval line 1 > eval:1:1',
        'at f (eval at g (eval at h (a.js:1:2), <anonymous>:3:4), <anonymous>:5:6)', '@debugger eval code:1:2',
        'at new Foo (C:\\x\\y.js:3:4)', '/a@b.js:1:2', 'web-1  |     at f (a.js:1:2) {', '\x1b[31m  at f (a.js:1:2)\x1b[0m',
    ]

    @unittest.skipIf(shutil.which('node') is None, 'no node')
    def test_same_frames(self) -> None:
        tests = ast.parse((BINDINGS / 'python' / 'tests' / 'test_stack.py').read_text('utf-8'))
        texts = [each.value for each in ast.walk(tests) if isinstance(each, ast.Constant) and isinstance(each.value, str)]
        lines = sorted({line for text in texts for line in text.split('\n')}) + self.MORE
        parse = self.parser()
        expected = [frame and [frame.file, frame.line, frame.column] for frame in map(parse, lines)]
        script = (BINDINGS / 'web' / 'viewer' / 'frames.js').read_text('utf-8') + '''
            const frames = JSON.parse(process.argv[1]).map(parseFrame);
            console.log(JSON.stringify(frames.map((frame) => frame && [frame.file, frame.line, frame.column])));'''
        answer = subprocess.run(['node', '--input-type=module', '-e', script, json.dumps(lines)], check=True, stdout=subprocess.PIPE)
        for line, found, wanted in zip(lines, json.loads(answer.stdout), expected):
            self.assertEqual(found, wanted, line)
        self.assertGreater(sum(frame is not None for frame in expected), 80)

    def parser(self) -> Any:
        """`parse_frame`, without the library that its package loads."""
        place = importlib.util.spec_from_file_location('frames', BINDINGS / 'python' / 'sourcemap' / '_frames.py')
        assert place is not None and place.loader is not None
        sys.modules['frames'] = module = importlib.util.module_from_spec(place)
        place.loader.exec_module(module)
        return module.parse_frame


class Keyboard(InViewer):
    """No mouse."""

    def focused(self) -> str:
        return str(self.ask('document.activeElement.id || document.activeElement.dataset.role || document.activeElement.tagName'))

    def test_order(self) -> None:
        """Tab leads through all controls in the order of the page, and each shows that it has the focus."""
        self.open_example()
        order = []
        for _ in range(12):
            self.press('Tab')
            order.append(self.focused())
            outline = self.ask('''(() => {
                const { activeElement: element } = document;
                const shown = element.type === "file" ? element.parentElement : element;
                return getComputedStyle(shown).outlineStyle;
            })()''')
            self.assertEqual(outline, 'solid', order[-1])
        self.assertEqual(order, [
            'any', 'sources-toggle', 'wrap', 'trace-toggle', 'query', 'scope', 'BUTTON', 'previous', 'sources', 'generated',
            'source', 'SUMMARY',
        ])

    def test_tokens(self) -> None:
        self.open_example()
        self.ask('document.getElementById("source").focus()')
        steps = [
            ('ArrowRight', 'function '), ('ArrowRight', 'readAll('), ('ArrowDown', 'new '), ('End', 'main();'),
            ('ArrowLeft', "'data.txt');"), ('ArrowUp', 'main() {'), ('Home', 'function '), ('ArrowLeft', 'function '),
        ]
        for key, expected in steps:
            self.press(key)
            self.assertEqual([text for _, text in self.tokens('source', 'selected')], [expected], key)
        active = 'document.getElementById(document.activeElement.getAttribute("aria-activedescendant"))'
        self.assertEqual(self.ask(f'{active}.textContent'), 'function ')
        self.assertEqual(self.ask(f'{active}.getAttribute("aria-selected")'), 'true')

    def test_lines(self) -> None:
        """In the generated text, up and down lead to other lines."""
        self.open_three()
        self.ask('document.getElementById("generated").focus()')
        steps = [('ArrowDown', 'a;'), ('ArrowRight', 'b;'), ('ArrowRight', 'c;'), ('ArrowDown', 'e;'), ('ArrowDown', 'e;'),
                 ('ArrowUp', 'b;'), ('End', 'e;'), ('ArrowLeft', 'x= '), ('ArrowLeft', 'd;'), ('Home', 'a;'), ('ArrowUp', 'a;')]
        for key, expected in steps:
            self.press(key)
            self.assertEqual([text for _, text in self.tokens('generated', 'selected')], [expected], key)
        self.press('Enter')
        self.assertEqual(self.status(), 'Generated 2:1 \u2192 src/a.ts 1:1 (2 of 2)')

    def test_search_and_sources(self) -> None:
        self.open_three()
        self.ask('document.getElementById("generated").focus()')
        self.press('/')
        self.assertEqual(self.focused(), 'query')
        self.press('Escape')
        self.assertEqual(self.focused(), 'generated')
        self.ask('document.getElementById("sources").focus()')
        self.press('ArrowDown')
        self.assertEqual(self.text('source-name'), 'src/b.ts')
        self.press('End')
        self.assertEqual(self.text('source-name'), f'lib/{IMG}')

    def test_sources_of_a_narrow_page(self) -> None:
        """The list lies above the texts until Enter or Escape."""
        self.addCleanup(self.browser.resize, 1280, 800)
        self.browser.resize(400, 800)
        self.open_three()
        hidden = 'document.getElementById("legend").hidden'
        self.assertTrue(self.ask(hidden))
        self.ask('document.getElementById("sources-toggle").focus()')
        self.press('Enter')
        self.assertEqual(self.focused(), 'sources')
        self.press('ArrowDown')
        self.assertFalse(self.ask(hidden))
        self.press('Enter')
        self.assertTrue(self.ask(hidden))
        self.assertEqual((self.text('source-name'), self.focused()), ('src/b.ts', 'source'))
        self.ask('document.getElementById("sources-toggle").click()')
        self.press('Escape')
        self.assertEqual((self.ask(hidden), self.focused()), (True, 'sources-toggle'))

    def test_trace(self) -> None:
        """The panel is opened, its link followed, and the panel closed."""
        self.open_example()
        self.ask('document.getElementById("trace-toggle").focus()')
        self.press('Enter')
        self.assertEqual(self.focused(), 'trace-input')
        self.browser.type('at a (app.min.js:1:25)')
        self.browser.wait_until('document.querySelector("#trace-lines .link")')
        self.press('Tab')
        self.assertEqual(self.ask('document.activeElement.textContent'), '../src/app.js:2:13')
        self.press('Enter')
        self.assertEqual(self.tokens('source', 'selected'), [('2', 'Error(')])
        self.press('Escape')
        self.assertEqual(self.focused(), 'trace-toggle')
        self.assertTrue(self.ask('document.getElementById("trace").hidden'))

    def test_names_of_controls(self) -> None:
        """All that can have the focus has a name for a screen reader, and panes have a role."""
        self.open_three()
        self.ask('document.getElementById("trace-toggle").click()')
        nodes = self.browser.call('Accessibility.getFullAXTree')['nodes']
        roles = set()
        for node in nodes:
            properties = {each['name']: each['value'].get('value') for each in node.get('properties', [])}
            if properties.get('focusable') and node['role']['value'] != 'RootWebArea':
                roles.add(node['role']['value'])
                self.assertTrue(node['name']['value'], node)
        self.assertLessEqual({'button', 'searchbox', 'listbox', 'textbox'}, roles)


class Large(InViewer):
    """Maps of many tokens."""

    COUNT = 2_313_062

    def test_millions_of_tokens(self) -> None:
        """The page shows tokens and answers while the map is read, never pauses long, and has few elements."""
        text = large_text(self.COUNT)
        self.ask('''(() => {
            window.pause = 0;
            let last = performance.now();
            const next = () => {
                window.pause = Math.max(window.pause, performance.now() - last);
                last = performance.now();
                requestAnimationFrame(next);
            };
            next();
        })()''')
        files = ('large.js', text.encode()), ('large.compiled', large_map(self.COUNT, 40))
        begun = time.monotonic()
        self.choose('any', *files)
        self.browser.wait_until('document.querySelectorAll("#generated .token").length > 0')
        self.assertEqual(self.tokens('generated')[:2], [('1', '000;'), ('1', '001;')])
        self.ask('document.getElementById("generated").focus()')
        slowest = 0.0
        for key, expected in [('End', '2313061'), ('Home', '0'), ('ArrowRight', '1'), ('End', '2313061')]:
            start = time.monotonic()
            self.press(key)
            column = 4 * int(expected)
            self.assertTrue(self.text('status').startswith(f'Generated 1:{column + 1} \u2192 '), self.text('status'))
            slowest = max(slowest, time.monotonic() - start)
        # block 36,141 is from line 903 of source 21; the token is its last of 38
        self.assertEqual(self.text('status'), 'Generated 1:9252245 \u2192 src/21.ts 904:149')
        self.assertEqual(''.join(text for _, text in self.tokens('generated', 'selected')), text[-4:])
        self.assert_seen('generated', 'selected')
        self.assertEqual(self.trace('at large.js:1:4000002')[0], ('at src/25.ts:391:1', 'src/25.ts:391:1'))
        self.assertLess(self.ask('document.querySelectorAll("*").length'), 5000)
        self.ask('document.getElementById("wrap").click()')
        self.browser.wait_until('document.querySelectorAll("#generated .row").length === 1')
        self.ask('document.getElementById("generated").focus()')
        self.press('End')
        self.browser.wait_until('document.getElementById("generated").scrollLeft > 1e6')
        self.assert_seen('generated', 'selected')
        self.assertLess(self.ask('document.querySelectorAll("*").length'), 9000)
        self.wait_for('ready', 1200)
        took = time.monotonic() - begun
        self.assertEqual(self.ask('document.querySelector("#sources .tokens").textContent'), '57,856')
        # a machine with other work takes longer for all
        self.assertLess(slowest, max(10, took / 4))
        self.assertLess(self.ask('window.pause') / 1000, max(5, took / 4))

    def test_all_read(self) -> None:
        """What needs all tokens: the way from a source, names, how many tokens each source has."""
        count = 100_000
        self.drop(('large.js', large_text(count).encode()), ('large.compiled', large_map(count, 2)))
        self.assertEqual(self.ask('Array.from(document.querySelectorAll("#sources .tokens"), (each) => each.textContent)'),
                         ['50,016', '49,984'])
        self.browser.click(self.middle('#source .token', 'v01;'))
        self.assertEqual(self.status(), 'Generated 1:5 \u2192 src/0.ts 1:5')
        self.ask('document.getElementById("source").focus()')
        self.press('ArrowDown')
        self.assertEqual(self.status(), 'Generated 1:517 \u2192 src/0.ts 2:5')
        self.press('End')
        # the last token of block 1562, which has 32
        self.assertEqual(self.status(), 'Generated 1:399997 \u2192 src/0.ts 782:125')
        self.assert_seen('generated', 'selected')
        self.search('names', 'first')
        self.browser.wait_until('document.getElementById("found-count").textContent === "1 of 1563"')


class Pictures(InViewer):
    """Pictures of the page in both widths and schemes, if a folder for them is given. Nothing is wider than the page, and
    texts are readable."""

    def test_pictures(self) -> None:
        self.addCleanup(self.browser.resize, 1280, 800)
        self.addCleanup(self.browser.use_colours, 'light')
        for step, prepare in [('empty', lambda: None), ('map', self.open_three), ('selected', self.select), ('trace', self.open_trace)]:
            prepare()
            for width in (1280, 400):
                for scheme in ('light', 'dark'):
                    self.browser.resize(width, 800)
                    self.browser.use_colours(scheme)
                    time.sleep(0.3)
                    if PICTURES is not None:
                        self.browser.screenshot(PICTURES / f'{step}-{width}-{scheme}.png')
                    self.browser.wait_until(f'document.documentElement.scrollWidth <= {width}')
                    self.check_contrast(f'{step} {width} {scheme}')
            self.browser.resize(1280, 800)
            time.sleep(0.2)

    def select(self) -> None:
        self.open_example()
        self.browser.click(self.middle('#generated .token', 'Error('))
        self.browser.move((640, 790))

    def open_trace(self) -> None:
        self.trace('Error: cannot read data.txt\n    at a (app.min.js:1:25)\n    at f (other.js:1:25)')

    def check_contrast(self, what: str) -> None:
        """Texts have a contrast of at least 4.5 with what is below them."""
        pairs = self.ask('''(() => {
            const shown = (each) => each.offsetParent !== null && each.closest("[hidden]") === null;
            const wanted = ".token, .number, .quiet, h1, h2, button, .button, summary, #status, .source span, #trace li, code, p";
            return Array.from(document.querySelectorAll(wanted)).filter(shown).map((each) => {
                let below = each;
                while (below && getComputedStyle(below).backgroundColor === "rgba(0, 0, 0, 0)") below = below.parentElement;
                return [getComputedStyle(each).color, getComputedStyle(below ?? document.body).backgroundColor, each.textContent];
            });
        })()''')
        self.assertGreater(len(pairs), 5)
        for colour, below, text in pairs:
            if text.strip():
                self.assertGreaterEqual(contrast(colour, below), 4.5, f'{what}: {text[:20]}: {colour} on {below}')


def contrast(text: str, below: str) -> float:
    """The ratio of WCAG 2 of two colours, `rgb(R, G, B)`."""
    light, dark = sorted((luminance(text), luminance(below)), reverse=True)
    return (light + 0.05) / (dark + 0.05)


def luminance(colour: str) -> float:
    channels = [int(part) / 255 for part in re.findall(r'\d+', colour)[:3]]
    linear = [part / 12.92 if part <= 0.04045 else float(((part + 0.055) / 1.055) ** 2.4) for part in channels]
    return 0.2126 * linear[0] + 0.7152 * linear[1] + 0.0722 * linear[2]


def main() -> None:
    global PAGE, PICTURES
    parser = argparse.ArgumentParser(description='Tries the viewer in headless Chromium.')
    parser.add_argument('--page', type=Path, default=PAGE)
    parser.add_argument('--pictures', type=Path)
    arguments, rest = parser.parse_known_args()
    PAGE = arguments.page.resolve()
    if arguments.pictures is not None:
        arguments.pictures.mkdir(parents=True, exist_ok=True)
        PICTURES = arguments.pictures.resolve()
    if BROWSER is None:
        print('skipped: no browser; bindings/install-tools web installs one')
        return
    unittest.main(argv=[sys.argv[0], *rest])


if __name__ == '__main__':
    main()
