"""Builds the library of owed.c, which checks how the package calls the real one."""
import subprocess
from itertools import combinations
from pathlib import Path

from .header import HEADER, declared_functions

HANDLES = {'sm_handle', 'sm_map', 'sm_builder', 'sm_sections', 'sm_view', 'sm_bundle', 'sm_split', 'sm_bytes',
           'sm_report'}
BEGIN_AS_ZEROS = {'sm_error', 'sm_counts', 'sm_debug_id', 'sm_section_start', 'sm_finding', 'sm_report_counts'}


def build(folder):
    """Builds `libsourcemap.so` in a folder."""
    Path(folder, 'calls.h').write_text('\n'.join(function(*each) for each in declared_functions()))
    subprocess.run(['cc', '-shared', '-fPIC', '-Wall', '-Werror', '-I', str(HEADER.parent), '-I', folder,
                    '-o', f'{folder}/libsourcemap.so', str(Path(__file__).with_name('owed.c')), '-ldl', '-lpthread'],
                   check=True)


def function(name, result, parameters):
    """The C text of a function that checks its arguments, and then makes the real call."""
    pointers = [(kind.replace('const', '').strip(' *'), 'const' in kind, argument)
                for kind, argument in parameters if '*' in kind]
    handles = [argument for base, _, argument in pointers if base in HANDLES]
    arguments = ', '.join(argument for _, argument in parameters)
    value = '' if result == 'void' else f'{result} value = '
    return '\n    '.join([
        f'{result} {name}({", ".join(map("".join, parameters)) or "void"}) {{',
        *(f'check({holds}, "{name}", "{what}");' for holds, what in checks(pointers, parameters)),
        f'static {result} (*real)({", ".join(kind for kind, _ in parameters) or "void"});',
        f'real = real ? real : function("{name}");',
        *(f'begin({handle}, "{name}");' for handle in handles),
        f'{value}real({arguments});',
        *(f'end({handle});' for handle in handles),
        '' if result == 'void' else 'return value;']) + '\n}\n'


def checks(pointers, parameters):
    """Conditions on the arguments, each with the message if it does not hold."""
    sizes = {}
    for base, is_const, argument in pointers:
        yield f'{argument} != NULL', f'{argument} is null'
        yield f'(size_t){argument} % _Alignof({base}) == 0', f'{argument} is not aligned'
        if base in BEGIN_AS_ZEROS and not is_const:
            yield f'are_zeros({argument}, sizeof *{argument})', f'{argument} does not begin as zeros'
        if base == 'sm_text' and not is_const:
            yield f'{argument}->at != NULL && {argument}->length == 0', f'{argument} does not begin empty'
        count = '1' if base in HANDLES else count_of(argument, parameters)
        sizes[argument] = f'{count} * sizeof *{argument}'
    for one, other in combinations(sizes, 2):
        yield f'are_apart({one}, {sizes[one]}, {other}, {sizes[other]})', f'{one} and {other} overlap'


def count_of(argument, parameters):
    """How many values an argument points to: as many as the size_t parameter after it says, else 1."""
    after = dict(zip((each for _, each in parameters), parameters[1:])).get(argument, ('', ''))
    return after[1] if after[0].strip() == 'size_t' else '1'
