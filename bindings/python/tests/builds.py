"""Folders of build output with maps of all kinds, and tables of frames in them."""

from __future__ import annotations

import json
import random
from pathlib import Path
from typing import Dict, Iterator, List, NamedTuple, Optional, Tuple

from sourcemap import Builder, Map, NewToken, View

TEST_MAPS = Path(__file__).resolve().parents[2] / 'test-maps'
ID = '85314830-023f-4cf1-a267-535f4e37bb17'

# The contents of three sources: their ends of lines, wide characters, and lines that are longer than what is kept.
CONTENTS = {
    'feeds.js': ''.join(f'const line{number} = "a, b"; // \N{SNOWMAN} {number}\n' for number in range(300)),
    'pairs.ts': '\r\n'.join([f'let x{number} = `\N{GRINNING FACE}` ;' for number in range(200)]
                            + ['wide ' + '\N{GRINNING FACE}\u00e9' * 400, 'a' * 5000, '']),
    'returns.js': 'one\rtwo\r\rfour\n\n' + 'x' * 200 + '\n' + 'y' * 201 + '\n' + '\u00e9' * 150 + '\nlast',
}


class Built(NamedTuple):
    """A generated file: what traces call it, its debug id if a trace may know it, its map as JSON, and by what a release
    finds the map."""

    file: str
    debug_id: Optional[str]
    map: bytes
    by: str


def map_with_contents(seed: int = 1) -> bytes:
    """A map whose tokens lead all over `CONTENTS`, and past their ends."""
    drawn = random.Random(seed)
    with Builder('contents.js') as builder:
        sources = [builder.add_source(name) for name in (*CONTENTS, 'without.js')]
        for source, text in zip(sources, CONTENTS.values()):
            builder.set_contents(source, text)
        names = [builder.add_name(name) for name in ('x', 'main', 'n\u00e4me', 'with "quotes", and a\nnewline')]
        for line in range(40):
            for column in sorted(drawn.sample(range(2000), 60)):
                original = drawn.choice([(drawn.randrange(310), drawn.randrange(80)), (200, drawn.randrange(1300)),
                                         (201, drawn.randrange(5100)), (drawn.randrange(9), drawn.randrange(220))])
                source = drawn.choice([*sources, None])
                if source is None:
                    builder.add(line, column)
                else:
                    name = drawn.choice([*names, None])
                    builder.add_tokens([NewToken(line, column, *original, source, name)])
        return builder.finish().dumps()


def write(folder: Path) -> List[Built]:
    """Writes the build output, and returns its files."""
    maps = {name: (TEST_MAPS / f'{name}.map').read_bytes()
            for name in ('regular', 'index', 'hermes', 'ranges', 'duplicates', 'root')}
    with_id = json.dumps({**json.loads(maps['duplicates']), 'debug_id': ID}).encode()
    contents = map_with_contents()
    put(folder, 'static/regular.js', b'run();\n//# sourceMappingURL=maps/regular.map\n')
    put(folder, 'static/maps/regular.map', maps['regular'])
    put(folder, 'static/index.min.js.map', maps['index'])
    put(folder, 'app/main.jsbundle', b'\xc6\x1f\xbc\x03')
    put(folder, 'app/main.jsbundle.map', maps['hermes'])
    with Map(maps['ranges']) as map:
        put(folder, 'static/ranges.js', f'run();\n//# sourceMappingURL={map.to_data_url()}\n'.encode())
    put(folder, 'other/duplicates.map', with_id)
    put(folder, 'static/root.js', b'run();')
    put(folder, 'static/root.map', maps['root'])
    put(folder, 'static/contents.js', b'run();\n//# sourceMappingURL=https://cdn.example/m/static/contents.js.map?v=3\n')
    put(folder, 'static/contents.js.map', contents)
    return [Built('https://cdn.example/a/static/regular.js', None, maps['regular'], 'reference'),
            Built('/srv/static/index.min.js', None, maps['index'], 'path'),
            Built('file:///data/app/main.jsbundle', None, maps['hermes'], 'beside'),
            Built('static/ranges.js?v=1', None, maps['ranges'], 'reference'),
            Built('https://cdn.example/d41d8cd98f.js', ID, with_id, 'debug id'),
            Built('C:\\build\\static\\root.js', None, maps['root'], 'beside'),
            Built('https://cdn.example/static/contents.js', None, contents, 'reference')]


def put(folder: Path, name: str, data: bytes) -> Path:
    """Writes a file below the folder."""
    path = folder / name
    path.parent.mkdir(parents=True, exist_ok=True)
    path.write_bytes(data)
    return path


MISSING = [None] * 6
# A row of a table: the file, the debug id, the line and the column, as texts.
Row = Tuple[str, str, str, str]
WRONG = ['', 'x', '-5', '4294967297', '99999999999999999999', '1.5', '1e3', 'say "hi", twice', 'two\nlines', '0', ' ', '1 2']


def rows(built: List[Built], count: int, seed: int = 2) -> Iterator[Row]:
    """Frames at all files, nearly all with positions in their maps or near them. Lines and columns count from 1."""
    drawn = random.Random(seed)
    for _ in range(count):
        kind = drawn.random()
        file = drawn.choice(built)
        line = 1 if 'main.jsbundle' in file.file else drawn.choice([1, drawn.randrange(1, 60)])
        column = drawn.choice([drawn.randrange(1, 600), drawn.randrange(1, 2100), 4294967296])
        row = [file.file, file.debug_id or '', str(line), str(column)]
        if kind < 0.01:
            row[drawn.choice([2, 3])] = drawn.choice(WRONG)
        elif kind < 0.02:
            row[0], row[1] = drawn.choice(['', 'https://cdn.example/none.js', '../../../etc/passwd', 'a "b",\nc.js']), ''
        yield row[0], row[1], row[2], row[3]


class Reference:
    """The answers by `Map.lookup`, one at a time."""

    def __init__(self, built: List[Built]) -> None:
        self._maps: Dict[str, Map] = {}
        for each in built:
            self._maps[each.file] = Map(each.map)
            if self._maps[each.file].kind == 'index':
                self._maps[each.file].flatten()
        self._views: Dict[Tuple[str, int], Optional[View]] = {}

    def answer(self, row: Row) -> List[Optional[str]]:
        """The fields that are added to a row, as texts; None for what it does not have."""
        file, _, line, column = row
        positions = [self._position(text) for text in (line, column)]
        if None in positions:
            return [*MISSING, 'bad position']
        map = self._maps.get(file)
        if map is None:
            return [*MISSING, 'no map']
        token = map.lookup(positions[0] or 0, positions[1] or 0)
        if token is None or token.source_id is None or token.line is None or token.column is None or not (
                token.generated_line == positions[0] or token.is_range):
            return [*MISSING, 'no token']
        scope = map.scope_for(token.source_id, token.line, token.column) if map.kind == 'hermes' else None
        context = self._context(file, map, token.source_id, token.line, token.column)
        return [token.source, str(token.line + 1), str(token.column + 1), token.name, scope, context, 'found']

    @staticmethod
    def _position(text: str) -> Optional[int]:
        if not (text.isascii() and text.isdigit() and 1 <= int(text) <= 4294967296):
            return None
        return int(text) - 1

    def _context(self, file: str, map: Map, source: int, line: int, column: int) -> Optional[str]:
        if (file, source) not in self._views:
            contents = map.contents[source]
            self._views[file, source] = None if contents is None else View(contents)
        view = self._views[file, source]
        if view is None or line >= len(view):
            return None
        units = view[line].encode('utf-16-le')
        if len(units) <= 400:
            return view[line]
        start = max(0, column // 100 * 100 - 50)
        return units[2 * start:2 * start + 400].decode('utf-16-le', 'ignore')
