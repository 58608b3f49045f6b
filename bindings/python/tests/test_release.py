"""Releases: which map a generated file has, what found it, and the cache of compiled maps."""

from __future__ import annotations

import json
import os
import pickle
import signal
import subprocess
import sys
import tempfile
import unittest
from concurrent.futures import ThreadPoolExecutor
from pathlib import Path
from typing import List
from unittest import mock

from sourcemap import CompiledMap, Map, Release, _cache, _compiler, errors
from sourcemap.release import Problem

from . import builds
from .builds import ID, put
from .maps import regular
from .test_program import ENVIRONMENT, FOLDER

OTHER_ID = '11111111-1111-1111-1111-111111111111'


class Folder(unittest.TestCase):
    """A folder for a release, and one for its cache."""

    def setUp(self) -> None:
        folder = tempfile.TemporaryDirectory()
        self.addCleanup(folder.cleanup)
        self.top = Path(os.path.realpath(folder.name))
        self.root = self.top / 'dist'
        self.root.mkdir()

    def release(self) -> Release:
        return Release(self.root, cache=self.top / 'cache')

    def put(self, name: str, data: str = 'run();') -> Path:
        return put(self.root, name, data.encode())

    def put_map(self, name: str, source: str = 'a.js', **keys: object) -> Path:
        return self.put(name, regular('AAAA', [source], **keys))


class Finding(Folder):
    def test_all_kinds(self) -> None:
        built = builds.write(self.root)
        release = self.release()
        for each in built:
            with self.subTest(each.file):
                match = release.find(each.file, each.debug_id)
                self.assertEqual((match.by, match.ambiguous, match.why), (each.by, (), ''))
                with release.open(each.file, each.debug_id) as compiled, Map(each.map) as map:
                    self.assertEqual(compiled.debug_id, map.debug_id)
                    if map.kind == 'index':
                        map.flatten()
                    self.assertEqual(len(compiled), len(map))
                    self.assertEqual([compiled.lookup(0, column) for column in range(200)],
                                     [map.lookup(0, column) for column in range(200)])

    def test_longest_end_of_the_path(self) -> None:
        for name in 'app.js.map', 'static/app.js.map', 'b/static/app.js.map':
            self.put_map(name, name)
        rows = [('https://host/static/app.js', 'static/app.js.map'), ('https://host/b/static/app.js', 'b/static/app.js.map'),
                ('https://host/c/static/app.js', 'static/app.js.map'), ('https://host/app.js', 'app.js.map'),
                ('/srv/x/app.js', 'app.js.map'), ('static/app.js#x', None), ('static/other.js', None)]
        for file, expected in rows:
            with self.subTest(file):
                found = self.release().find(file).map
                self.assertEqual(found, None if expected is None else self.root / expected)

    def test_ambiguous(self) -> None:
        client, server = self.put_map('client/js/app.js.map', 'client.js'), self.put_map('server/js/app.js.map', 'server.js')
        match = self.release().find('https://host/js/app.js')
        self.assertEqual((match.map, match.by, match.ambiguous), (None, None, (client, server)))
        self.assertEqual(match.why, 'it is ambiguous, since these fit equally well: client/js/app.js.map, '
                                    'server/js/app.js.map')
        self.assertEqual(self.release().find('https://host/client/js/app.js').map, client)

    def test_equal_maps_are_not_ambiguous(self) -> None:
        first = self.put_map('client/app.js.map')
        self.put_map('server/app.js.map')
        self.assertEqual(self.release().find('https://host/app.js').map, first)

    def test_generated_files_with_different_maps_are_ambiguous(self) -> None:
        for folder in 'client', 'server':
            self.put(f'{folder}/app.js', '//# sourceMappingURL=m.map')
            self.put_map(f'{folder}/m.map', folder)
        self.assertEqual(self.release().find('/app.js').ambiguous, (self.root / 'client/m.map', self.root / 'server/m.map'))

    def test_reference_before_what_is_beside(self) -> None:
        self.put('app.js', '//# sourceMappingURL=maps/app.map')
        beside = self.put_map('app.js.map', 'beside.js')
        self.assertEqual(self.release().find('app.js')[:2], (beside, 'beside'))
        referred = self.put_map('maps/app.map', 'referred.js')
        match = self.release().find('app.js')
        self.assertEqual((match.map, match.by, match.generated), (referred, 'reference', self.root / 'app.js'))

    def test_map_without_the_last_suffix(self) -> None:
        self.put('jquery.min.js')
        map = self.put_map('jquery.min.map')
        self.assertEqual(self.release().find('https://host/jquery.min.js')[:2], (map, 'beside'))

    def test_a_file_without_a_map(self) -> None:
        self.put('app.js')
        match = self.release().find('app.js')
        self.assertEqual((match.map, match.generated), (None, self.root / 'app.js'))
        self.assertEqual(match.why, 'app.js refers to no map of the release, and has none beside it')

    def test_what_names_no_file(self) -> None:
        self.put_map('app.js.map')
        for file in None, '', '/', 'node:fs', '..', 'http://[':
            with self.subTest(file):
                self.assertIsNone(self.release().find(file).map)


class DebugIds(Folder):
    def test_keys_of_maps(self) -> None:
        camel, snake = self.put_map('1.map', 'camel.js', debugId=ID), self.put_map('2.map', 'snake.js', debug_id=OTHER_ID)
        release = self.release()
        for id, map in (ID, camel), (ID.upper(), camel), (ID.replace('-', ''), camel), (OTHER_ID, snake):
            self.assertEqual(release.find('https://host/unknown.js', id)[:2], (map, 'debug id'))
            self.assertEqual(release.find(None, id).map, map)

    def test_text_of_a_source_is_no_debug_id(self) -> None:
        self.put_map('1.map', sourcesContent=[f'{{"debugId":"{ID}"}}'])
        self.assertIsNone(self.release().find('unknown.js', ID).map)

    def test_comment_of_a_generated_file(self) -> None:
        self.put('app.js', f'run();\n//# debugId={OTHER_ID}\nmore();\n//# debugId={ID}\r\n//# sourceMappingURL=none.map')
        beside, with_id = self.put_map('app.js.map', 'beside.js'), self.put_map('x/1.map', 'id.js', debugId=ID)
        self.assertEqual(self.release().find('app.js')[:2], (with_id, 'debug id'))
        with_id.unlink()
        release = self.release()
        self.assertEqual(release.find('app.js')[:2], (beside, 'debug id'))
        self.assertEqual(release.find('unknown.js', ID)[:2], (beside, 'debug id'))
        self.assertIsNone(release.find('unknown.js', OTHER_ID).map)

    def test_map_in_the_generated_file(self) -> None:
        with Map(regular('AAAA')) as map:
            path = self.put('app.js', f'run();\n//# debugId={ID}\n//# sourceMappingURL={map.to_data_url()}')
        release = self.release()
        for file, id in ('app.js', None), ('unknown.js', ID), (None, ID):
            match = release.find(file, id)
            self.assertEqual((match.map, match.by, match.generated, match.embedded), (path, 'debug id', path, True))
            with release.open(file, id) as compiled:
                self.assertEqual(str(compiled.lookup(0, 0)), 'a.js:0:0')

    def test_no_comment(self) -> None:
        beside = self.put_map('app.js.map')
        for text in f'x(); //# debugId={ID}', f'//# debugId={ID}x', f'"//# debugId={ID}"', '//# debugId=', f'//# debugId={ID[:-1]}':
            self.put('app.js', text)
            self.assertEqual(self.release().find('app.js')[:2], (beside, 'beside'), text)

    def test_a_map_of_another_build_is_not_used(self) -> None:
        map = self.put_map('app.js.map', debugId=OTHER_ID)
        match = self.release().find('app.js', ID)
        self.assertEqual((match.map, match.why), (None, f'the map of app.js has another debug id than {ID}'))
        self.assertEqual(self.release().find('app.js', 'no id').map, map)
        self.assertEqual(self.release().find('app.js').map, map)

    def test_a_generated_file_of_another_build_is_not_used(self) -> None:
        self.put('app.js', f'run();\n//# debugId={OTHER_ID}')
        map = self.put_map('app.js.map')
        match = self.release().find('app.js', ID)
        self.assertEqual((match.map, match.why), (None, f'the map of app.js has another debug id than {ID}'))
        self.assertEqual(self.release().find('app.js', OTHER_ID)[:2], (map, 'debug id'))

    def test_a_map_without_an_id_is_used(self) -> None:
        map = self.put_map('app.js.map')
        self.assertEqual(self.release().find('app.js', ID)[:2], (map, 'path'))

    def test_two_maps_of_one_id(self) -> None:
        maps = [self.put_map(f'{name}.map', name, debugId=ID) for name in 'ab']
        self.assertEqual(self.release().find(None, ID).ambiguous, tuple(maps))


class Within(Folder):
    """Nothing leads out of the folder."""

    def setUp(self) -> None:
        super().setUp()
        self.outside = put(self.top, 'secret.js.map', regular('AAAA', ['secret.js']).encode())

    def test_paths(self) -> None:
        self.put_map('app.js.map')
        release = self.release()
        for file in ('../secret.js', 'static/../../secret.js', str(self.top / 'secret.js'), f'file://{self.top}/secret.js',
                     'https://host/..%2fsecret.js', 'https://host/%2e%2e/secret.js', '..\\secret.js', 'C:\\..\\secret.js'):
            with self.subTest(file):
                self.assertIsNone(release.find(file).map)

    def test_references(self) -> None:
        for url in ('../secret.js.map', str(self.outside), f'file://{self.outside}', '%2e%2e/secret.js.map',
                    'https://host/../secret.js.map'):
            self.put('app.js', f'//# sourceMappingURL={url}')
            self.assertIsNone(self.release().find('app.js').map, url)
        within = self.put_map('deep/secret.js.map')
        self.put('deep/app.js', '//# sourceMappingURL=../../secret.js.map')
        self.assertEqual(self.release().find('app.js').map, within)

    def test_links(self) -> None:
        within = self.put_map('maps/app.js.map')
        os.symlink(self.outside, self.root / 'out.js.map')
        os.symlink(self.top, self.root / 'up')
        os.symlink('maps/app.js.map', self.root / 'in.js.map')
        release = self.release()
        self.assertIsNone(release.find('out.js').map)
        self.assertIsNone(release.find('up/secret.js').map)
        self.assertEqual(os.path.realpath(release.find('in.js').map or ''), str(within))

    def test_a_pipe_is_no_file(self) -> None:
        os.mkfifo(self.root / 'app.js.map')
        self.assertIsNone(self.release().find('app.js').map)


class Cached(Folder):
    """Compiled maps in the cache."""

    def setUp(self) -> None:
        super().setUp()
        self.map = self.put_map('app.js.map', sourcesContent=['var a;\n' * 100])

    def cached(self) -> List[Path]:
        return [path for path in (self.top / 'cache').glob('*/*') if path.is_file()]

    def text(self) -> str:
        with self.release().open('app.js') as map:
            return str(map.lookup(0, 5))

    def test_made_once(self) -> None:
        self.assertEqual(self.text(), 'a.js:0:0')
        made, = self.cached()
        self.assertEqual(made.parent.name, _cache.key_of(self.map.read_bytes()))
        before = made.stat()
        self.assertEqual(self.text(), 'a.js:0:0')
        self.assertEqual((made.stat().st_ino, made.stat().st_mtime_ns), (before.st_ino, before.st_mtime_ns))

    def test_other_bytes_are_another_map(self) -> None:
        self.text()
        self.put_map('app.js.map', 'b.js')
        self.assertEqual(self.text(), 'b.js:0:0')
        self.assertEqual(len(self.cached()), 2)

    def test_damaged_files_are_made_again(self) -> None:
        self.text()
        made, = self.cached()
        whole = made.read_bytes()
        damaged = [b'', whole[:40], whole[:-1], whole[:len(whole) // 2], whole + b'x', whole[::-1],
                   *(whole[:at] + bytes([whole[at] ^ 0x20]) + whole[at + 1:] for at in range(0, len(whole), 7))]
        for data in damaged:
            made.write_bytes(data)
            self.assertEqual(self.text(), 'a.js:0:0')
            self.assertEqual([path.read_bytes() for path in self.cached()], [whole])

    def test_a_file_out_of_order_is_noticed_by_verify(self) -> None:
        """Its name has the right CRC, so nothing else tells."""
        self.put('app.js.map', regular(','.join(['CAAC'] * 200)))
        self.text()
        made, = self.cached()
        whole = made.read_bytes()
        tables = int.from_bytes(whole[48:52], 'little')
        broken = whole[:tables] + whole[tables + 8:tables + 16] + whole[tables:tables + 8] + whole[tables + 16:]
        with self.assertRaises(errors.OutOfOrder):
            CompiledMap.from_bytes(broken).verify()
        made.unlink()
        put(made.parent, f'{_cache.zlib.crc32(broken):08x}.compiled', broken)
        self.text()
        self.assertEqual([path.read_bytes() for path in self.cached()], [whole])

    def test_any_number_of_processes(self) -> None:
        self.put('app.js.map', json.dumps({**json.loads(builds.map_with_contents()), 'file': 'x' * 1000}))
        code = ('import sourcemap, sys\n'
                'with sourcemap.Release(sys.argv[1], cache=sys.argv[2]).open("app.js") as map: print(map.lookup(3, 70))')
        running = [subprocess.Popen([sys.executable, '-c', code, str(self.root), str(self.top / 'cache')], cwd=FOLDER,
                                    env=ENVIRONMENT, stdout=subprocess.PIPE) for _ in range(8)]
        printed = {each.communicate()[0] for each in running}
        self.assertEqual({each.returncode for each in running}, {0})
        self.assertEqual(len(printed), 1)
        self.assertEqual(len(self.cached()), 1)

    def test_no_cache_that_can_be_written(self) -> None:
        put(self.top, 'cache', b'a file')
        with self.assertRaises(OSError):
            self.text()

    def test_default_folder(self) -> None:
        folder = self.top / 'caches'
        code = 'import sourcemap, sys; sourcemap.Release(sys.argv[1]).open("app.js").close()'
        subprocess.run([sys.executable, '-c', code, str(self.root)], cwd=FOLDER, check=True,
                       env={**ENVIRONMENT, 'XDG_CACHE_HOME': str(folder)})
        self.assertEqual(len(list(folder.glob('furzehearth-sourcemap/*/*.compiled'))), 1)


class BadMaps(Folder):
    """A map that cannot be read raises, and no other one is concerned."""

    def test_truncated(self) -> None:
        self.put('app.js.map', regular('AAAA')[:-10])
        with self.assertRaisesRegex(ValueError, 'app.js.map: bad json'):
            self.release().open('app.js')

    def test_missing(self) -> None:
        map = self.put_map('app.js.map')
        release = self.release()
        self.assertIsNotNone(release.find('app.js').map)
        map.unlink()
        with self.assertRaisesRegex(FileNotFoundError, 'app.js.map: No such file'):
            release.open('app.js')
        with self.assertRaisesRegex(FileNotFoundError, 'ends like none.js'):
            release.open('none.js')

    def test_what_takes_too_much_memory(self) -> None:
        """160 kB that would become 1.4 GB: a long root times many sources."""
        record = {'version': 3, 'sourceRoot': 'r' * 128_000, 'sources': [''] * 10_600, 'names': [], 'mappings': 'AAAA'}
        self.put('app.js.map', json.dumps(record, separators=(',', ':')))
        self.put_map('other.js.map')
        release = self.release()
        with self.assertRaisesRegex(ValueError, 'takes more memory than a map of its size may take'):
            release.open('app.js')
        with release.open('other.js') as map:
            self.assertEqual(str(map.lookup(0, 0)), 'a.js:0:0')

    def test_a_hostile_map_takes_no_memory_from_others(self) -> None:
        """The limit is one of another process: beside it this one takes what it wants."""
        record = {'version': 3, 'sourceRoot': 'r' * 128_000, 'sources': [''] * 10_600, 'names': [], 'mappings': 'AAAA'}
        text = json.dumps(record, separators=(',', ':'))
        for number in range(4):
            self.put(f'{number}.js.map', text + ' ' * number)
        release = self.release()
        with ThreadPoolExecutor(1) as threads:
            asked = [threads.submit(release.compiled, f'{number}.js', None) for number in range(4)]
            while not all(each.done() for each in asked):
                bytes(300_000_000)
            self.assertEqual([type(each.result()) for each in asked], [Problem] * 4)

    def test_a_process_that_is_killed(self) -> None:
        """The map is compiled by another one."""
        self.put_map('0.js.map')
        self.put_map('1.js.map', 'b.js')
        release = self.release()
        release.open('0.js').close()
        process = _compiler._process
        assert process is not None
        process.kill()
        with release.open('1.js') as map:
            self.assertEqual(map.sources, ['b.js'])
        self.assertEqual(process.returncode, -signal.SIGKILL)

    def test_a_process_that_does_not_start(self) -> None:
        self.put_map('app.js.map')
        _compiler._forget()
        with mock.patch('sys.executable', '/bin/false'), self.assertRaisesRegex(OSError, 'did not start'):
            self.release().open('app.js')
        self.release().open('app.js').close()

    def test_changed_reference(self) -> None:
        with Map(regular('AAAA')) as map:
            self.put('app.js', f'//# sourceMappingURL={map.to_data_url()}')
        release = self.release()
        self.assertTrue(release.find('app.js').embedded)
        for data in b'run();', b'\xff':
            put(self.root, 'app.js', data)
            with self.assertRaises(ValueError):
                release.open('app.js')


class Objects(Folder):
    def test_no_folder(self) -> None:
        for path in self.top / 'none', self.put('file'):
            with self.assertRaises(NotADirectoryError):
                Release(path)

    def test_properties(self) -> None:
        release = self.release()
        self.assertEqual((release.folder, release.cache), (self.root, self.top / 'cache'))
        self.assertEqual(repr(release), f'<sourcemap.Release: {self.root}>')

    def test_pickled(self) -> None:
        self.put_map('app.js.map')
        release = self.release()
        pickled = pickle.dumps(release)
        one, other = pickle.loads(pickled), pickle.loads(pickled)
        self.assertIs(one, other)
        self.assertEqual(one.find('app.js'), release.find('app.js'))
        self.put_map('later.js.map')
        self.assertIsNone(pickle.loads(pickled).find('later.js').map)
        self.assertIsNotNone(pickle.loads(pickle.dumps(self.release())).find('later.js').map)

    def test_pickled_to_where_the_folder_is_not(self) -> None:
        pickled = pickle.dumps(self.release())
        self.root.rmdir()
        with self.assertRaises(NotADirectoryError):
            pickle.loads(pickled).find('app.js')


if __name__ == '__main__':
    unittest.main()
