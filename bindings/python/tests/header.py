"""The functions that the header of the library declares."""
import re
from pathlib import Path

HEADER = Path(__file__).resolve().parents[2] / 'c' / 'include' / 'sourcemap.h'


def declared_functions():
    """For each function its name, the type that it returns, and type and name of each parameter."""
    text = re.sub(r'/\*.*?\*/', '', HEADER.read_text(), flags=re.DOTALL)
    for result, name, parameters in re.findall(r'^(\w+) (sm_\w+)\(([^)]*)\);', text, flags=re.MULTILINE):
        declared = [] if parameters == 'void' else parameters.split(',')
        yield name, result, [re.fullmatch(r'\s*(.*?)(\w+)', each).groups() for each in declared]
