"""A minified program with its map, both written by hand.

The tokens, as GENERATED COLUMN -> LINE:COLUMN of the source, counted from 0:

    0 -> 0:0 `function`    9 -> 0:9 `readAll`    11 -> 0:17 `path`    14 -> 1:2 `throw`    20 -> 1:8 `new`
    24 -> 1:12 `Error`    30 -> 1:18 the text    45 -> 1:35 `path`    48 -> 4:0 `function`    57 -> 4:9 `main`
    61 -> 5:2 `readAll`    63 -> 5:10 the text    75 -> 8:0 `main`
"""

from __future__ import annotations

import json
from pathlib import Path

GENERATED = (
    'function a(r){throw new Error("cannot read "+r)}function n(){a("data.txt")}n();\n'
    '//# sourceMappingURL=app.min.js.map\n'
)

SOURCE = """\
function readAll(path) {
  throw new Error('cannot read ' + path);
}

function main() {
  readAll('data.txt');
}

main();
"""

MAP = json.dumps({
    'version': 3,
    'file': 'app.min.js',
    'sources': ['../src/app.js'],
    'sourcesContent': [SOURCE],
    'names': ['readAll', 'path', 'main'],
    'mappings': 'AAAA,SAASA,EAAQC,GACf,MAAM,IAAI,MAAM,eAAiBA,GAGnC,SAASC,IACPF,EAAQ,YAGVE',
})


def write(folder: Path) -> Path:
    """Writes both to `dist` in a folder, and returns the path of the generated file."""
    path = folder / 'dist' / 'app.min.js'
    path.parent.mkdir(parents=True)
    path.write_text(GENERATED, 'utf-8')
    path.with_name('app.min.js.map').write_text(MAP, 'utf-8')
    return path
