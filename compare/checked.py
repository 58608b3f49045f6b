#!/usr/bin/env python3
"""Compares the check with a model of the rules of ECMA-426, on maps that are made and mutated.

    compare/checked.py PROGRAM [RUNS [SEED]]      PROGRAM is the built sourcemap_tool

The model is written from docs/CHECK.md and knows nothing of the program. It answers each broken rule with its place, in
the order of the report; what only looks wrong is not compared. Maps with more than 20 findings of one code are cut by the program, and are compared up to there.
"""
import collections
import json
import random
import subprocess
import sys

DIGITS = 'ABCDEFGHIJKLMNOPQRSTUVWXYZabcdefghijklmnopqrstuvwxyz0123456789+/'
VALUES = {digit: value for value, digit in enumerate(DIGITS)}
SHOWN = 20
CAP = 2 ** 64 - 1


def raws_of(part):
    raws, raw, shift = [], 0, 0
    for digit in part:
        raw |= (VALUES[digit] & 31) << shift
        shift += 5
        if VALUES[digit] < 32:
            raws.append(raw)
            raw, shift = 0, 0
    return raws


def value_of(raw):
    if raw == 1:
        return -2 ** 31
    return -(raw >> 1) if raw & 1 else raw >> 1


def faults_of(part):
    """The codes of a segment that is not sound."""
    foreign = any(digit not in VALUES for digit in part)
    cut = bool(part) and VALUES.get(part[-1], 0) >= 32
    codes = ['SM131'] * foreign + ['SM132'] * cut
    if not codes:
        raws = raws_of(part)
        codes += ['SM133'] * (len(raws) not in (1, 4, 5)) + ['SM134'] * any(raw >= 2 ** 32 for raw in raws)
    return codes


def segments(text, sources, names):
    """The findings of a text, and its last position."""
    found, last, sums = [], None, [0] * 5
    for line, parts in enumerate(text.split(';')):
        sums[0] = 0
        for index, part in enumerate(parts.split(',') if parts else []):
            codes = faults_of(part)
            if not codes:
                numbers = [value_of(raw) for raw in raws_of(part)]
                for field, number in enumerate(numbers):
                    sums[field] += number
                codes += [f'SM{135 + field}' for field in range(len(numbers)) if sums[field] < 0]
                codes += ['SM140'] * (len(numbers) > 1 and sums[1] >= sources)
                codes += ['SM141'] * (len(numbers) > 4 and sums[4] >= names)
                if sums[0] >= 0:
                    place = (line, min(sums[0], CAP))
                    last = place if last is None or place > last else last
            found += [(code, f'mappings {line}:{index}') for code in codes]
    return found, last


def is_number(value):
    return isinstance(value, (int, float)) and not isinstance(value, bool)


def is_whole(value):
    return is_number(value) and value == int(value)


def is_text(value):
    return isinstance(value, str)


def is_text_or_null(value):
    return value is None or is_text(value)


def keys(fields, is_index):
    found = []

    def wrong(code, key, test):
        if key in fields and not test(fields[key]):
            found.append((code, key))

    def wrong_list(code, key, test):
        wrong(code, key, lambda value: isinstance(value, list) and all(map(test, value)))

    if 'version' not in fields:
        found.append(('SM103', 'version'))
    wrong('SM104', 'version', is_number)
    wrong('SM105', 'version', lambda value: not is_number(value) or value == 3)
    wrong('SM106', 'file', is_text)
    if is_index:
        found += [('SM117', 'mappings')] * ('mappings' in fields)
        wrong('SM118', 'sections', lambda value: isinstance(value, list))
        return found
    wrong('SM107', 'sourceRoot', is_text)
    found += [('SM108', 'sources')] * ('sources' not in fields)
    wrong_list('SM109', 'sources', is_text_or_null)
    wrong_list('SM110', 'sourcesContent', is_text_or_null)
    wrong_list('SM111', 'names', is_text)
    wrong_list('SM112', 'ignoreList', is_whole)
    ignored = [item for item in listed(fields, 'ignoreList') if is_whole(item)]
    found += [('SM113', 'ignoreList')] * any(item < 0 for item in ignored)
    found += [('SM114', 'ignoreList')] * any(item >= len(listed(fields, 'sources')) for item in ignored)
    found += [('SM115', 'mappings')] * ('mappings' not in fields)
    wrong('SM116', 'mappings', is_text)
    return found


def listed(fields, key):
    return fields[key] if isinstance(fields.get(key), list) else []


def section_keys(section, at):
    """The findings of a section, and where it starts."""
    if not isinstance(section, dict):
        return [('SM121', at)], None
    found, start = [], []
    offset = section.get('offset')
    if 'offset' not in section:
        found.append(('SM122', f'{at}.offset'))
    elif not isinstance(offset, dict):
        found.append(('SM123', f'{at}.offset'))
    else:
        for code, key in ((124, 'line'), (126, 'column')):
            if key not in offset:
                found.append((f'SM{code}', f'{at}.offset.{key}'))
            elif not is_whole(offset[key]) or not 0 <= offset[key] <= CAP:
                found.append((f'SM{code + 1}', f'{at}.offset.{key}'))
            else:
                start.append(int(offset[key]))
    if 'map' not in section:
        found.append(('SM128', f'{at}.map'))
    elif not isinstance(section['map'], dict):
        found.append(('SM129', f'{at}.map'))
    return found, tuple(start) if len(start) == 2 else None


def checked(fields):
    """The findings of a map, and its last position."""
    is_index = 'sections' in fields
    found = keys(fields, is_index)
    if not is_index:
        if not is_text(fields.get('mappings')):
            return found, None
        more, last = segments(fields['mappings'], len(listed(fields, 'sources')), len(listed(fields, 'names')))
        return found + more, last
    last, before = None, (None, None)
    for index, section in enumerate(listed(fields, 'sections')):
        at = f'sections[{index}]'
        more, start = section_keys(section, at)
        found += more
        if start is not None and before[0] is not None and start < before[0]:
            found.append(('SM119', f'{at}.offset'))
        elif start is not None and (start == before[0] or (before[1] is not None and start < before[1])):
            found.append(('SM120', f'{at}.offset'))
        end = None
        if isinstance(section, dict) and isinstance(section.get('map'), dict):
            more, inner = checked(section['map'])
            found += [(code, f'{at}.map.{place}') for code, place in more]
            if start is not None and inner is not None:
                column = inner[1] + start[1] if inner[0] == 0 else inner[1]
                end = (min(inner[0] + start[0], CAP), min(column, CAP))
        last = max((place for place in (last, end) if place is not None), default=None)
        before = (start, end)
    return found, last


def made_number(draw):
    number = draw.choice([0, 0, 1, -1, 2, 5, -5, 40, 2 ** 31 - 1, -2 ** 31 + 1, 2 ** 31, 2 ** 33])
    raw = (abs(number) << 1) | (number < 0)
    digits = ''
    while raw >= 32:
        digits += DIGITS[raw % 32 + 32]
        raw //= 32
    if draw.random() < 0.03:
        return digits + DIGITS[raw + 32] + 'g' * draw.randrange(12) + 'A'
    return digits + DIGITS[raw]


def made_text(draw):
    lines = []
    for _ in range(draw.randrange(4)):
        count = draw.randrange(4)
        lines.append(','.join(''.join(made_number(draw) for _ in range(draw.choice([1, 1, 4, 4, 5, 5, 2, 0])))
                              for _ in range(count)))
    text = ';'.join(lines)
    if text and draw.random() < 0.2:
        at = draw.randrange(len(text))
        text = text[:at] + draw.choice('$=gA,;.') + text[at + 1:]
    return text


def odd(draw):
    return draw.choice([None, True, 0, -1, 3, 2, 0.5, 3.0, '3', '', [], ['a'], [0], [1.0], [-1], [None], {}, {'line': 0}])


def made_map(draw, depth):
    fields = {'version': 3}
    if depth > 0 and draw.random() < 0.5:
        line = 0
        sections = []
        for _ in range(draw.randrange(4)):
            offset = {'line': line, 'column': draw.randrange(4)}
            sections.append({'offset': offset, 'map': made_map(draw, depth - 1)})
            line += draw.randrange(4)
        fields['sections'] = sections
        if draw.random() < 0.05:
            fields['mappings'] = odd(draw)
        spoil(draw, sections)
        for section in sections:
            if isinstance(section, dict):
                spoil(draw, section)
                if isinstance(section.get('offset'), dict):
                    spoil(draw, section['offset'])
    else:
        fields['sources'] = ['a', None, 'b'][:draw.randrange(4)]
        fields['names'] = ['n', 'm'][:draw.randrange(3)]
        fields['mappings'] = made_text(draw)
        for key in ('file', 'sourceRoot', 'sourcesContent', 'ignoreList'):
            if draw.random() < 0.1:
                fields[key] = odd(draw)
    spoil(draw, fields)
    return fields


def spoil(draw, value):
    """Changes or drops one entry, seldom."""
    if not value or draw.random() > 0.12:
        return
    key = draw.choice(list(value) if isinstance(value, dict) else range(len(value)))
    if isinstance(value, dict) and draw.random() < 0.4:
        del value[key]
    else:
        value[key] = odd(draw)


def cut(found):
    counts = collections.Counter()
    for code, place in found:
        counts[code] += 1
        if counts[code] <= SHOWN:
            yield f'MAP:{place}: {code}'


def reported(program, text):
    """The findings of the JSON report, as the lines give them."""
    ended = subprocess.run([program, 'check', '--json'], input=text.encode(), capture_output=True, timeout=60)
    for finding in json.loads(ended.stdout)['findings']:
        if finding['severity'] != 'invalid':
            continue
        path = ''.join(f'sections[{index}].map.' for index in finding['sections'])
        place = finding['position']
        at = f' {place["line"]}:{place["index"]}' if place else ''
        yield f'MAP:{path}{finding["key"]}{at}: {finding["code"]}'


def main():
    program = sys.argv[1]
    runs = int(sys.argv[2]) if len(sys.argv) > 2 else 2000
    draw = random.Random(int(sys.argv[3]) if len(sys.argv) > 3 else 1)
    differences, valid, codes = 0, 0, set()
    for _ in range(runs):
        fields = made_map(draw, 3)
        text = json.dumps(fields)
        found, _last = checked(fields)
        due = list(cut(found))
        ended = subprocess.run([program, 'check'], input=text.encode(), capture_output=True, timeout=60)
        lines = ended.stdout.decode().splitlines()
        got = [' '.join(line.split(' ')[:2 + line.startswith('MAP:') * ('mappings ' in line.split(': SM')[0])])
               for line in lines[:-1] if ': SM1' in line]
        status = 1 if found else 0
        valid += not found
        codes |= {code for code, _ in found}
        last = f'{len(found)} invalid, 0 suspicious, {len(due)} shown' if found else '0 invalid, '
        is_same = got == due and ended.returncode == status and lines[-1].startswith(last)
        if not is_same or list(reported(program, text)) != due:
            differences += 1
            if differences < 5:
                print(text, got, due, ended.returncode, sep='\n', end='\n\n')
    print(f'{runs} maps, {valid} valid, {len(codes)} codes, {differences} differences')
    return 1 if differences else 0


if __name__ == '__main__':
    sys.exit(main())
