#!/usr/bin/env python3
"""Makes index maps from the regular maps below a folder, the same on every run.

    bench/make-indexes.py MAPS FOLDER [--count N] [--seed N] [--most BYTES]

MAPS     a folder with *.map files, at any depth
FOLDER   where the index maps are written
--count  how many index maps (100). The script also makes three more: a regular map in 20, in 41 and in 42 nested index
         maps. JSON text can have at most 41 nested index maps
--seed   another seed gives other maps (1)
--most   the size of the longest map that is used, in bytes (100000)

Each index map has two to five sections. A quarter of the sections have an index map, with at most four levels in all.
At each level, the offsets of sections are made in one of five ways: each section below the one before; each section on
the last line of the one before; random offsets; the first two sections at one position; the last section at the end of
its line. In a third of the index maps the sections are shuffled. In a sixth of the files, one section has no map, with
or without a URL. A twelfth of the files have errors in up to two maps. Some index maps have lists of a RAM bundle, a
file or a debug id. Some maps have contents, an ignore list or range tokens. If a map is used twice, its contents may
differ. Some ids of ignore lists name no source.
"""
import argparse, json, pathlib, random, sys
sys.path.insert(0, str(pathlib.Path(__file__).resolve().parent.parent / 'compare'))
from index_maps import LAST, is_index, record_of

DEPTH = 4
ERRORS = ['AAAAAA', 'A9999A', 'AAAAg']


def regular_maps(folder, most):
    """The records of the regular maps below a folder, in a list for each folder. Maps with function maps, and maps with
    more than `most` bytes, are left out."""
    groups = {}
    for path in sorted(pathlib.Path(folder).rglob('*.map')):
        data = path.read_bytes()
        record = record_of(data) if len(data) <= most and b'{' in data else {}
        if 'mappings' in record and not is_index(record) and record.get('x_facebook_sources') is None:
            groups.setdefault(path.parent, []).append(record)
    return list(groups.values())


def height(record):
    """The number of generated lines of a map."""
    if not is_index(record):
        return record['mappings'].count(';') + 1
    return max(section['offset']['line'] + height(section['map']) for section in record['sections'])


def offsets(draws, maps):
    """Draws an offset for each of these maps."""
    way = draws.choice(['below', 'shared', 'anywhere', 'together', 'end'])
    line, column, all_offsets = draws.randrange(3), draws.randrange(9), []
    for each in maps:
        all_offsets.append((line, column))
        if way == 'shared':
            line, column = line + height(each) - 1, column + draws.randrange(6000)
        else:
            line, column = line + height(each), 0
    if way == 'anywhere':
        return [(draws.randrange(line), draws.randrange(200)) for _ in maps]
    if way == 'together':
        all_offsets[1] = all_offsets[0]
    if way == 'end':
        all_offsets[-1] = (all_offsets[-1][0], LAST - draws.randrange(20))
    return all_offsets


def changed_copy(draws, record):
    """A copy of a regular map. Some copies get other contents, an ignore list or range mappings."""
    record, count = dict(record), len(record.get('sources') or [])
    if draws.randrange(8) == 0:
        record['rangeMappings'] = ';'.join(draws.choice(['', 'B', 'C', 'J', 'AE']) for _ in range(height(record)))
    if draws.randrange(3) == 0:
        record['sourcesContent'] = [draws.choice([None, f'// {draws.random()}\n']) for _ in range(count)]
    if draws.randrange(3) == 0:
        record['ignoreList'] = draws.sample([LAST, *range(count + 2)], draws.randrange(1, count + 3))
    return record


def metadata(draws):
    """Draws the keys of an index map other than `sections`."""
    record = {'version': 3}
    if draws.randrange(3):
        record['file'] = f'all{draws.randrange(9)}.js'
    if draws.randrange(4) == 0:
        record['debugId'] = f'{draws.getrandbits(128):032x}'
    if draws.randrange(3) == 0:
        record['x_facebook_offsets'] = [draws.choice([None, line]) for line in range(draws.randrange(4))]
    if draws.randrange(3) == 0:
        record['x_metro_module_paths'] = [f'module{n}.js' for n in range(draws.randrange(4))]
    return record


def index_of(draws, groups, depth):
    """An index map with sections drawn from these groups of maps."""
    maps = []
    for _ in range(draws.randrange(2, 6)):
        if depth < DEPTH and draws.randrange(4) == 0:
            maps.append(index_of(draws, groups, depth + 1))
        elif maps and not is_index(maps[-1]) and draws.randrange(4) == 0:
            maps.append(changed_copy(draws, maps[-1]))
        else:
            maps.append(changed_copy(draws, draws.choice(draws.choice(groups))))
    sections = [{'offset': {'line': line, 'column': column}, 'map': each}
                for (line, column), each in zip(offsets(draws, maps), maps)]
    if draws.randrange(3) == 0:
        draws.shuffle(sections)
    return {**metadata(draws), 'sections': sections}


def spoil(draws, record):
    """Removes the map of one section in some index maps. In others, puts errors into the mappings of up to two maps."""
    if draws.randrange(6) == 0:
        section = draws.choice(record['sections'])
        del section['map']
        section.update(draws.choice([{'url': 'other.map'}, {'url': None}, {}, {'url': 'more.map', 'map': None}]))
    elif draws.randrange(10) == 0:
        for section in draws.sample(record['sections'], 2):
            if not is_index(section['map']):
                section['map']['mappings'] = draws.choice(ERRORS)


def within(record, levels):
    """A map inside `levels` nested index maps."""
    for _ in range(levels):
        record = {'version': 3, 'sections': [{'offset': {'line': 1, 'column': 2}, 'map': record}]}
    return record


def main():
    words = argparse.ArgumentParser(usage=__doc__)
    words.add_argument('maps')
    words.add_argument('folder', type=pathlib.Path)
    words.add_argument('--count', type=int, default=100)
    words.add_argument('--seed', type=int, default=1)
    words.add_argument('--most', type=int, default=100000)
    given = words.parse_args()
    groups = regular_maps(given.maps, given.most)
    draws = random.Random(given.seed)
    given.folder.mkdir(parents=True, exist_ok=True)
    for number in range(given.count):
        record = index_of(draws, groups, 1)
        spoil(draws, record)
        (given.folder / f'index-{number:04}.map').write_text(json.dumps(record))
    for levels in (20, 41, 42):
        record = within(draws.choice(groups[0]), levels)
        (given.folder / f'index-within-{levels}.map').write_text(json.dumps(record))


main()
