"""The package as a program."""
import os
import subprocess
import sys
import tempfile
import unittest
from pathlib import Path

from sourcemap import _library

from .maps import EXAMPLES, TWO_SECTIONS, VIEWER, index, regular, section

FOLDER = Path(__file__).resolve().parents[1]
MAP = str(EXAMPLES / 'readme.map')
ENVIRONMENT = {**os.environ, _library.VARIABLE: str(Path(_library._path).parent)}


def run(*words, data=''):
    """What the program prints, its status, and what it prints to standard error."""
    done = subprocess.run([sys.executable, '-m', 'sourcemap', *words], input=data, capture_output=True, text=True,
                          cwd=FOLDER, env=ENVIRONMENT)
    return done.stdout, done.returncode, done.stderr


class Program(unittest.TestCase):
    def test_lookup(self):
        for words, printed in [(('0', '5'), 'coolstuff.js:0:4 name=x\n'), (('1', '0'), 'coolstuff.js:2:8\n')]:
            self.assertEqual(run('lookup', MAP, *words), (printed, 0, ''))
        self.assertEqual(run('lookup', '-', '0', '0', data=regular(';AAAA')), ('none\n', 0, ''))
        self.assertEqual(run('lookup', '-', '0', '0', data=regular('')), ('none\n', 0, ''))
        self.assertEqual(run('lookup', '-', '10', '9', data=TWO_SECTIONS), ('b.js:0:0\n', 0, ''))
        self.assertEqual(run('lookup', '-', '0', '9', data=index(section(1, 0, regular('AAAA')))), ('none\n', 0, ''))
        self.assertEqual(run('lookup', '-', '0', '5', data=regular('AAAO', rangeMappings='B')), ('a.js:0:12\n', 0, ''))
        self.assertEqual(run('lookup', '-', '0', '5', data=regular('A')),
                         ('<unknown>:4294967295:4294967295\n', 0, ''))

    def test_tokens(self):
        self.assertEqual(run('tokens', '-', data=regular('AAAAA;AACA,E', names=['n'], rangeMappings=';B')),
                         ('0:0 a.js:0:0 name=n\n1:0 a.js:1:0 range\n1:2 <unknown>:4294967295:4294967295\n', 0, ''))

    def test_errors(self):
        self.assertEqual(run('lookup', '-', '0', '0'), ('', 1, 'sourcemap: bad json: the text is not JSON\n'))
        self.assertEqual(run('lookup', MAP, '0', '-1'),
                         ('', 1, 'sourcemap: column must be from 0 to 4294967295, not -1\n'))
        printed, status, error = run('tokens', '-', data=TWO_SECTIONS)
        self.assertEqual((printed, status), ('', 1))
        self.assertIn('an index map has no tokens of its own', error)

    def test_files_that_cannot_be_read(self):
        missing, folder = 'No such file or directory', 'Is a directory'
        rows = [(('tokens', 'missing.map'), 'missing.map', missing), (('tokens', 'tests'), 'tests', folder),
                (('lookup', 'missing.map', '0', '0'), 'missing.map', missing),
                (('stack', '--map', 'missing.map'), 'missing.map', missing),
                (('stack', '--map', 'tests'), 'tests', folder),
                (('page', 'missing.js', '-o', 'out.html'), 'missing.js', missing),
                (('page', MAP, 'missing.map', '-o', 'out.html'), 'missing.map', missing)]
        if VIEWER is not None:
            rows.append((('page', MAP, MAP, '-o', 'tests'), 'tests', folder))
        for words, file, reason in rows:
            with self.subTest(words):
                self.assertEqual(run(*words), ('', 1, f'sourcemap: {file}: {reason}\n'))

    def test_stack_without_a_frame(self):
        message = 'sourcemap: standard input has no stack frame that names a file and a line\n'
        for data in '', 'Error: boom\n', '    at native\n[native code]':
            with self.subTest(data):
                self.assertEqual(run('stack', data=data), (data, 0, message))
        for data, file in (('    at f (/none.js:1:1)\n', '/none.js'),
                           ('Error: boom\nf@https://h/none.js:1:1\n', 'https://h/none.js')):
            with self.subTest(data):
                reason = 'neither the file nor a map beside it is there, or below the current folder'
                self.assertEqual(run('stack', data=data), (data, 0, f'sourcemap: the map of {file}: {reason}\n'))

    def test_output_that_nobody_reads(self):
        with tempfile.TemporaryDirectory() as folder:
            path = Path(folder, 'long.map')
            path.write_text(regular(','.join(['AAAA'] * 50_000)))
            program = subprocess.Popen([sys.executable, '-m', 'sourcemap', 'tokens', str(path)], stdout=subprocess.PIPE,
                                       stderr=subprocess.PIPE, cwd=FOLDER, env=ENVIRONMENT)
            self.assertEqual(program.stdout.readline(), b'0:0 a.js:0:0\n')
            program.stdout.close()
            self.assertEqual((program.stderr.read(), program.wait()), (b'', 1))
            program.stderr.close()

    def test_wrong_words(self):
        for words in (), ('find',), ('lookup', MAP, 'x', '0'), ('lookup', MAP):
            printed, status, error = run(*words)
            self.assertEqual((printed, status), ('', 2))
            self.assertTrue(error.startswith('usage: python -m sourcemap'), error)
