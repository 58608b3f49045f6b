"""`python -m sourcemap page`: an HTML file that shows a generated text and its sources side by side.

The file works without a network. It is the viewer of `bindings/web`, with the generated text and the compiled map in it.
"""

from __future__ import annotations

import argparse
import base64
import html
import json
from pathlib import Path
from typing import Dict, Optional

from ._generated import find_map, open_map, source_path
from ._map import Map

VIEWER = 'viewer.html'
# in a wheel it is in the package, in a clone where bindings/web/build makes it
FOLDERS = (Path(__file__).resolve().parent, Path(__file__).resolve().parents[2] / 'web' / 'out')

TITLE = '<title>Source map viewer</title>'
DATA = '<script type="application/json" id="data">null</script>'


def page_text(name: str, generated: str, map: Map, map_path: Optional[Path] = None) -> str:
    """The HTML of the page of a generated text and its map, which must not be an index map. `name` is that of the text. If `map_path` is the file of the
    map, contents that the map does not have are read from the files that its sources lead to. Raises
    `FileNotFoundError` if the viewer is not there."""
    title = f'<title>{html.escape(name)} and its sources</title>'
    fields = {
        'name': name,
        'generated': generated,
        'map': base64.b64encode(map.compile()).decode('ascii'),
        'contents': {} if map_path is None else _contents(map, map_path),
    }
    # In a script element `<` may begin its end tag. In JSON it occurs only in strings.
    data = json.dumps(fields, ensure_ascii=False, separators=(',', ':')).replace('<', '\\u003c')
    before, _, rest = _viewer().replace(TITLE, title).partition(DATA)
    return f'{before}{DATA.replace("null", data)}{rest}'


def _viewer() -> str:
    """The page without a map."""
    path = next((folder / VIEWER for folder in FOLDERS if (folder / VIEWER).is_file()), None)
    if path is None:
        places = ' nor in '.join(map(str, FOLDERS))
        raise FileNotFoundError(f'{VIEWER} is not in {places}: bindings/web/build makes it')
    return path.read_text('utf-8')


def _contents(map: Map, map_path: Path) -> Dict[int, str]:
    """The contents that the map does not have, and files do, by the ids of their sources."""
    missing = (id for id, contents in enumerate(map.contents) if contents is None)
    texts = {id: _text_of(map.sources[id], map_path) for id in missing}
    return {id: text for id, text in texts.items() if text is not None}


def _text_of(source: str, map_path: Path) -> Optional[str]:
    """The text of the file that a source leads to; None if there is none that can be read as UTF-8."""
    path = source_path(source, map_path)
    try:
        return None if path is None else Path(path).read_text('utf-8')
    except (OSError, ValueError):
        return None


def add_arguments(parser: argparse.ArgumentParser) -> None:
    """Adds the arguments of `page` to a parser."""
    parser.description = (
        'Writes one HTML file that shows a generated text and its sources side by side, each token in a colour of its '
        'own and linked to its original position. It works without a network.'
    )
    parser.add_argument('generated', metavar='GENERATED', type=Path, help='the generated text')
    parser.add_argument(
        'map',
        metavar='MAP',
        type=Path,
        nargs='?',
        help='its map; without it, the one that the text refers to, or else GENERATED.map',
    )
    parser.add_argument('-o', '--output', metavar='OUT.html', type=Path, required=True, help='the file to write')


def run(arguments: argparse.Namespace) -> int:
    """Writes the page. Returns the exit status; errors are raised."""
    text = arguments.generated.read_bytes()
    found = find_map(arguments.generated, text) if arguments.map is None else open_map(arguments.map)
    with found.map as map:
        page = page_text(arguments.generated.name, text.decode('utf-8'), map, found.path)
    arguments.output.write_bytes(page.encode('utf-8'))
    return 0
