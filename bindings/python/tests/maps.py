"""Maps that several tests use, as JSON."""
import json
from pathlib import Path

from sourcemap import page

EXAMPLES = Path(__file__).resolve().parents[3] / 'examples'
# the file that pages are made from, or None where it is not built
VIEWER = next((folder / page.VIEWER for folder in page.FOLDERS if (folder / page.VIEWER).is_file()), None)
README = ('{"version":3,"sources":["coolstuff.js"],"names":["x","alert"],'
          '"mappings":"AAAA,GAAIA,GAAI,EACR,IAAIA,GAAK,EAAG,CACVC,MAAM"}')


def regular(mappings, sources=('a.js',), **keys):
    """A regular map, with further keys or others than these."""
    return json.dumps({'version': 3, 'sources': sources, 'names': [], 'mappings': mappings, **keys})


def section(line, column, record, **keys):
    """A section of an index map, made of the JSON of its map."""
    return {'offset': {'line': line, 'column': column}, 'map': json.loads(record), **keys}


def index(*sections, **keys):
    """An index map of such sections."""
    return json.dumps({'version': 3, 'sections': sections, **keys})


TWO_SECTIONS = index(section(0, 0, regular('AAAA', ['a.js'])), section(10, 4, regular('AAAA', ['b.js'])))
HERMES = regular('AAAA,KACK', x_facebook_sources=[[{'names': ['<global>', 'foo'], 'mappings': 'AAA,KCC'}]])
# docs/COMPILED.md: where the header of a compiled map says where the tables begin; each block takes 40 bytes of them, then
# come the offsets of the texts
TABLES, OF_A_BLOCK = 48, 40
BUNDLE = bytes.fromhex('e5d10bfb 01000000 02000000 02000000 04000000 6162 78797a 00')
