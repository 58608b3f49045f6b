"""What all objects share: closing, context managers, copies, pickles, threads."""
import copy
import gc
import pickle
import threading
import unittest
from itertools import chain
from array import array

from sourcemap import Builder, Bundle, Map, Split, View

from .maps import BUNDLE, README, TWO_SECTIONS, index, regular, section

SPLIT_INDEX = index(section(0, 0, regular(';;;;;AAAA,EAAE;AAAA')), x_facebook_offsets=[5])


def objects():
    return [Map.loads(README), Map.loads(TWO_SECTIONS), View('a\nb'), Builder(), Bundle(BUNDLE),
            Bundle(BUNDLE).split(Map.loads(SPLIT_INDEX))]


def set_file(map):
    map.file = 'x'


CALLS = {
    Map: [lambda map: map.kind, lambda map: map.file, lambda map: map.source_root, lambda map: map.debug_id,
          lambda map: len(map.sources), lambda map: list(map.names), lambda map: map.contents[0],
          lambda map: map.ignore_list, lambda map: map.sections, lambda map: map.module_offsets,
          lambda map: map.module_paths, len, list, Map.tokens, Map.share, copy.copy,
          lambda map: map.equals(Map.loads(README)), lambda map: Map.loads(README).equals(map),
          lambda map: map.lookup(0, 0), lambda map: map.lookup_text(0, 0), lambda map: map.lookup_many([(0, 0)]),
          lambda map: map.lookup_many([]),
          lambda map: map.trace('0:0'), lambda map: map.function_name(0, 0),
          lambda map: map.hermes_function_name(0), lambda map: map.scope_for(0, 0, 0), Map.rewrite, Map.flatten,
          lambda map: map.shift(1),
          lambda map: map.compose(Map.loads(README)), lambda map: Map.loads(README).compose(map), set_file,
          lambda map: map.set_source(0, 'a'), lambda map: map.set_contents(0, None),
          lambda map: map.ignore_source(0), Map.remove_names, Map.dumps, lambda map: map.dump('/nowhere'),
          Map.to_data_url, lambda map: Bundle(BUNDLE).split(map)],
    View: [len, list, lambda view: view.text, lambda view: view[0], lambda view: view.slice(0, 0, 0)],
    Builder: [Builder.finish, lambda builder: builder.add_source('a'), lambda builder: builder.add_name('a'),
              lambda builder: builder.add(0, 0), lambda builder: builder.set_contents(0, None),
              lambda builder: builder.ignore_source(0), lambda builder: builder.source(0),
              lambda builder: builder.set_source(0, 'a'), lambda builder: builder.strip_prefixes([])],
    Bundle: [len, list, lambda bundle: bundle.startup, lambda bundle: bundle[0],
             lambda bundle: bundle.split(Map.loads(SPLIT_INDEX))],
}


class Closing(unittest.TestCase):
    def test_context_manager(self):
        for each in objects():
            with each as entered:
                self.assertIs(entered, each)
                self.assertFalse(each.closed)
            self.assertTrue(each.closed)
            each.close()

    def test_close_after_an_error(self):
        with self.assertRaises(KeyError):
            with Map.loads(README) as map:
                raise KeyError
        self.assertTrue(map.closed)

    def test_calls_of_closed_objects(self):
        for each in objects():
            each.close()
            for number, call in enumerate(CALLS.get(type(each), [len])):
                with self.subTest(type(each).__name__, call=number):
                    with self.assertRaisesRegex(ValueError, f'this {type(each).__name__} is closed'):
                        call(each)

    def test_repr(self):
        self.assertEqual([repr(each) for each in objects()],
                         ['<sourcemap.Map: regular, 9 tokens, 1 sources>', '<sourcemap.Map: index, 2 sections>',
                          '<sourcemap.View: 2 lines>', '<sourcemap.Builder>', '<sourcemap.Bundle: 1 modules>',
                          '<sourcemap.Split: 1 modules>'])
        for each in objects():
            each.close()
            self.assertEqual(repr(each), f'<sourcemap.{type(each).__name__}: closed>')

    def test_memory_is_freed_without_close(self):
        class Watched(Map):
            pass

        freed = []
        Watched._close = staticmethod(lambda at, close=Map._close: (freed.append(1), close(at)))
        map = Watched.loads(README)
        map.lookup(0, 5)
        gc.disable()
        try:
            del map
        finally:
            gc.enable()
        self.assertEqual(freed, [1])

    def test_objects_without_a_handle(self):
        class Careless(Map):
            def __init__(self):
                pass

        for empty in Split(), Careless():
            self.assertTrue(empty.closed)
            with self.assertRaisesRegex(ValueError, 'is closed'):
                len(empty)
            empty.close()

    def test_a_failed_constructor(self):
        for call in lambda: Map('['), lambda: Map(None), lambda: View(b'\xff'), lambda: Bundle(b''), lambda: Map():
            with self.assertRaises(Exception):
                call()


class Copying(unittest.TestCase):
    def test_only_maps_are_copied(self):
        for each in objects():
            for copied in copy.copy, copy.deepcopy:
                if isinstance(each, Map):
                    self.assertEqual(copied(each).dumps(), each.dumps())
                else:
                    with self.assertRaisesRegex(TypeError, f"cannot copy '{type(each).__name__}' object"):
                        copied(each)

    def test_nothing_is_pickled(self):
        for each in objects():
            for protocol in range(pickle.HIGHEST_PROTOCOL + 1):
                with self.assertRaisesRegex(TypeError, f"cannot pickle '{type(each).__name__}' object"):
                    pickle.dumps(each, protocol)

    def test_tokens_are_pickled(self):
        token = Map.loads(README).lookup(0, 5)
        self.assertEqual(pickle.loads(pickle.dumps(token)), token)


class Threads(unittest.TestCase):
    COUNT = 4

    def in_threads(self, run):
        """Calls `run` in each of some threads; returns what each call returned."""
        results = [None] * self.COUNT

        def each(number):
            results[number] = run(number)

        threads = [threading.Thread(target=each, args=[number], daemon=True) for number in range(self.COUNT)]
        for thread in threads:
            thread.start()
        for thread in threads:
            thread.join(timeout=120)
        self.assertFalse([thread for thread in threads if thread.is_alive()])
        return results

    def setUp(self):
        self.map = Map.loads(regular(','.join(['AAAA', *['CAAC'] * 20_000])))
        self.words = array('I', chain.from_iterable((0, column) for column in range(20_000)))

    def columns(self, map):
        one = [map.lookup(0, column).column for column in range(0, 20_000, 10)]
        return one, map.lookup_many(self.words).columns.tolist(), [token.column for token in map]

    def test_one_map(self):
        expected = list(range(0, 20_000, 10)), list(range(20_000)), list(range(20_001))
        self.assertEqual(self.in_threads(lambda _: self.columns(self.map)), self.COUNT * [expected])

    def test_a_share_each(self):
        shares = [self.map.share() for _ in range(self.COUNT)]
        expected = list(range(0, 20_000, 10)), list(range(20_000)), list(range(20_001))
        self.assertEqual(self.in_threads(lambda number: self.columns(shares[number])), self.COUNT * [expected])

    def test_changes_beside_lookups(self):
        names = {f'{number}.js' for number in range(self.COUNT)} | {'a.js'}

        def run(number):
            seen = set()
            for _ in range(300):
                self.map.set_source(0, f'{number}.js')
                seen.add(self.map.lookup(0, 7).source)
                seen.update(token.source for token in self.map.lookup_many([(0, 9)]))
            return seen

        seen = self.in_threads(run)
        self.assertLessEqual(set().union(*seen), names)
        self.assertEqual([f'{number}.js' in each for number, each in enumerate(seen)], self.COUNT * [True])

    def test_calls_of_two_objects(self):
        """Threads that use the same two objects in opposite order do not deadlock."""
        maps = [Map.loads(regular('AAAA')) for _ in range(2)]
        view = View('a')

        def run(number):
            first, second = maps[number % 2], maps[1 - number % 2]
            for _ in range(500):
                first.compose(second)
                first.equals(second)
                first.function_name(0, 0, 'a', view)
            return len(first)

        self.assertEqual(self.in_threads(run), self.COUNT * [1])

    def test_close_beside_lookups(self):
        def run(number):
            if number == 0:
                self.map.close()
                return None
            try:
                while True:
                    self.assertEqual(self.map.lookup(0, 9).column, 9)
            except ValueError as error:
                return str(error)

        self.assertEqual(self.in_threads(run), [None, *(self.COUNT - 1) * ['this Map is closed']])
