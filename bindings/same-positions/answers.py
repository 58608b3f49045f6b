"""answers.py MAP POSITIONS: prints the original position for each line LINE:COLUMN of POSITIONS; what follows a tab
does not count."""
import sys
from pathlib import Path

sys.path.insert(0, str(Path(__file__).resolve().parents[1] / 'python'))

from sourcemap import Map  # noqa: E402


def main(path, positions):
    sys.stdout.reconfigure(encoding='utf-8')
    with Map.load(path) as source_map, open(positions, encoding='utf-8') as rows:
        pairs = [tuple(map(int, row.split('\t')[0].split(':'))) for row in rows]
        for token in source_map.lookup_many(pairs):
            print('none' if token is None else token)


main(*sys.argv[1:])
