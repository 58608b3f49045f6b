"""Each error, raised by a call if any call of this package can raise it."""
import struct
import subprocess
import sys
import unittest

from sourcemap import Builder, Bundle, CompiledMap, Map, SourceMapError, View, _library, errors

from .maps import BUNDLE, OF_A_BLOCK, README, TABLES, TWO_SECTIONS, index, regular, section

NO_MODULE_LENGTH = BUNDLE[:12] + bytes.fromhex('02000000 00000000') + BUNDLE[20:]


def last_column():
    """A map that another cannot be adjusted by."""
    with Builder() as builder:
        builder.add(0, 2**32 - 1, source='a.js', line=0, column=0)
        return builder.finish()


COMPILED = Map.loads(README).compile()


def damaged(at, byte):
    """A compiled map with another byte, counted from the tables."""
    tables, = struct.unpack_from('<I', COMPILED, TABLES)
    return COMPILED[:tables + at] + bytes([byte]) + COMPILED[tables + at + 1:]


def loads(mappings, **keys):
    return lambda: Map.loads(regular(mappings, **keys))


# the class, its code, the number, the text, and what raises it
RAISED = [
    (errors.Io, 1, None, None, lambda: Map.loads(")]}'\rx" + README)),
    (errors.Utf8, 2, None, None, lambda: View(b'\xff')),
    (errors.Scroll, 3, None, 'parse error: 22+3 past 24', lambda: Bundle(BUNDLE[:24])[0]),
    (errors.BadJson, 4, 0, 'bad json: the text is not JSON', lambda: Map.loads(b'')),
    (errors.BadJson, 4, 1, 'bad json: a field has the wrong type', lambda: Map.loads(b'[]')),
    (errors.VlqLeftover, 5, None, 'leftover cur/shift in vlq decode', loads('g')),
    (errors.VlqOverflow, 7, None, 'vlq decode caused an overflow', loads(12 * 'g' + 'I')),
    (errors.BadSegmentSize, 8, 6, 'got 6 segments, expected 4 or 5', loads('AAAAAA')),
    (errors.BadSourceReference, 9, 1, 'bad reference to source #1', loads('ACAA')),
    (errors.BadNameReference, 10, 2, 'bad reference to name #2', loads('AAAAE', names=['a', 'b'])),
    (errors.IncompatibleSourceMap, 11, None, 'encountered incompatible sourcemap format',
     lambda: Map.loads(regular('AAAA,CAAC')).compose(last_column())),
    (errors.InvalidDataUrl, 12, None, 'the provided data URL is invalid', lambda: Map.from_data_url('data:,')),
    (errors.CannotFlatten, 13, None, 'cannot flatten the indexed sourcemap: a position passes 4294967295',
     lambda: Map.loads(index(section(2**32 - 1, 0, regular(';AAAA')))).flatten()),
    (errors.InvalidRamBundleMagic, 14, None, 'invalid magic number for ram bundle', lambda: Bundle(bytes(12))),
    (errors.InvalidRamBundleIndex, 15, None, 'invalid module index in ram bundle', lambda: Bundle(BUNDLE)[1]),
    (errors.InvalidRamBundleEntry, 16, None, 'invalid ram bundle module entry', lambda: Bundle(NO_MODULE_LENGTH)[0]),
    (errors.NotARamBundle, 17, None, 'not a ram bundle', lambda: Bundle(BUNDLE).split(Map.loads(TWO_SECTIONS))),
    (errors.InvalidBase64, 19, ord('!'), 'invalid base64 character: !', loads('!AAA')),
    (errors.Absent, 32, None, None, lambda: Map.loads(README).set_source(1, 'a.js')),
    (errors.WrongKind, 33, None, None, lambda: Map.loads(README).flatten()),
    (errors.PastLimit, 34, None, None, lambda: Map.loads(TWO_SECTIONS).shift(2**32 - 1)),
    (errors.Truncated, 35, None, 'the compiled map is truncated', lambda: CompiledMap.from_bytes(COMPILED[:-1])),
    (errors.WrongMagic, 36, None, 'not a compiled map', lambda: CompiledMap.from_bytes(bytes(64))),
    (errors.WrongVersion, 37, 2, 'unknown version of a compiled map',
     lambda: CompiledMap.from_bytes(COMPILED[:4] + b'\2' + COMPILED[5:])),
    (errors.WrongExtent, 38, None, 'a table of the compiled map has a wrong extent',
     lambda: CompiledMap.from_bytes(COMPILED + b'\0')),
    (errors.TextOutside, 39, None, 'a text passes the end of the compiled map',
     lambda: CompiledMap.from_bytes(damaged(OF_A_BLOCK + 3, 255)).sources[0]),
    (errors.OutOfOrder, 40, None, 'the compiled map is out of order',
     lambda: CompiledMap.from_bytes(damaged(0, 200)).verify()),
]

# no call of this package raises these: an empty segment of mappings is skipped, and the other is kept for its code
NEVER_RAISED = [errors.VlqNoValues, errors.InvalidRangeMappingIndex]

OUT_OF_MEMORY = '''
import resource, sourcemap
record = ('{"version":3,"sources":["a.js"],"names":[],"mappings":"' + ',CAAC' * 4_000_000 + '"}').encode()
map = sourcemap.Map.loads('{"version":3,"sources":["a.js"],"names":[],"mappings":"AAAA"}')
now = int(open('/proc/self/statm').read().split()[0]) * resource.getpagesize()
resource.setrlimit(resource.RLIMIT_AS, (now + 30_000_000, now + 30_000_000))
try:
    sourcemap.Map.loads(record)
except MemoryError as error:
    print(error, map.lookup(0, 0))
'''


class Errors(unittest.TestCase):
    def test_each_is_raised(self):
        for kind, code, number, text, call in RAISED:
            with self.subTest(kind.__name__):
                with self.assertRaises(SourceMapError) as raised:
                    call()
                error = raised.exception
                self.assertIs(type(error), kind)
                self.assertEqual((error.code, error.number), (code, number))
                self.assertEqual(str(error), text or str(error))
                self.assertTrue(str(error))

    def test_each_has_its_row(self):
        self.assertEqual({each[0] for each in RAISED} | set(NEVER_RAISED), set(SourceMapError.__subclasses__()))

    def test_codes_differ(self):
        codes = sorted(each.code for each in SourceMapError.__subclasses__())
        self.assertEqual(codes, [*range(1, 20), *range(32, 41)])

    def test_all_names(self):
        self.assertEqual(sorted(each.__name__ for each in (SourceMapError, *SourceMapError.__subclasses__())),
                         sorted(errors.__all__))

    def test_builtin_classes(self):
        for call, builtin in [(loads('g'), ValueError), (lambda: Bundle(BUNDLE)[1], IndexError),
                              (lambda: Map.loads(README).flatten(), TypeError),
                              (lambda: Map.loads(README).set_source(1, 'a.js'), LookupError),
                              (lambda: Map.loads(TWO_SECTIONS).shift(2**32 - 1), OverflowError)]:
            with self.assertRaises(builtin):
                call()

    def test_long_texts_are_cut(self):
        url = 300 * 'é'
        with self.assertRaises(errors.CannotFlatten) as raised:
            Map.loads(index({'offset': {'line': 0, 'column': 0}, 'url': url})).flatten()
        begin = 'cannot flatten the indexed sourcemap: Section has an unresolved sourcemap: '
        kept = (255 - len(begin)) // 2
        self.assertEqual(str(raised.exception), begin + kept * 'é' + '...')

    def test_out_of_memory(self):
        error = _library.Error(code=_library.OUT_OF_MEMORY)
        self.assertIs(type(errors.of_error(error)), MemoryError)
        run = subprocess.run([sys.executable, '-c', OUT_OF_MEMORY], capture_output=True, text=True)
        self.assertEqual((run.stdout, run.returncode), ('out of memory a.js:0:0\n', 0), run.stderr[-500:])

    def test_a_refused_call_changes_nothing(self):
        for record, change in [(TWO_SECTIONS, lambda map: map.shift(2**32 - 1)), (README, Map.flatten),
                               (README, lambda map: map.set_contents(1, 'x')),
                               (regular('AAAA,CAAC'), lambda map: map.compose(last_column()))]:
            map = Map.loads(record)
            before = map.dumps()
            with self.assertRaises(SourceMapError):
                change(map)
            self.assertEqual(map.dumps(), before)
