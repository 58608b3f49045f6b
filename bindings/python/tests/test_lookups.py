"""Lookups of one position and of many, and tokens."""
import random
import unittest
from array import array
from bisect import bisect_right
from ctypes import c_uint32
from itertools import chain

from sourcemap import NONE, Builder, Map, NewToken, Token

from .maps import README, TWO_SECTIONS, regular


class OnePosition(unittest.TestCase):
    def test_token(self):
        token = Map.loads(README).lookup(0, 5)
        self.assertEqual(token, Token(source='coolstuff.js', line=0, column=4, name='x', is_range=False,
                                      generated_line=0, generated_column=3, source_id=0, name_id=0))
        with self.assertRaises(AttributeError):
            token.line = 1

    def test_first_of_equal_positions(self):
        token = Map.loads(regular('AAAA,AACA')).lookup(0, 0)
        self.assertEqual(token.line, 0)

    def test_none_before_the_first_token(self):
        map = Map.loads(regular(';EAAA'))
        self.assertIsNone(map.lookup(0, 7))
        self.assertIsNone(map.lookup(1, 1))
        self.assertEqual(str(map.lookup(1, 2)), 'a.js:0:0')

    def test_a_miss_after_a_hit(self):
        map = Map.loads(regular(';EAAA'))
        self.assertEqual(str(map.lookup(1, 2)), 'a.js:0:0')
        self.assertIsNone(map.lookup(0, 0))

    def test_last_position(self):
        self.assertEqual(str(Map.loads(README).lookup(NONE, NONE)), 'coolstuff.js:2:8')

    def test_wrong_numbers(self):
        map = Map.loads(README)
        for wrong in (-1, 0), (0, -1), (NONE + 1, 0), (0, NONE + 1), (0, 2**64), (-2**64, 0):
            with self.assertRaisesRegex(ValueError, 'must be from 0 to 4294967295, not -?[0-9]'):
                map.lookup(*wrong)
            with self.assertRaisesRegex(ValueError, 'must be from 0 to 4294967295, not -?[0-9]'):
                map.lookup_text(*wrong)
            with self.assertRaises(ValueError):
                map.lookup_many([wrong])
            with self.assertRaises(ValueError):
                map.function_name(*wrong)
        for wrong in (0.0, 0), (0, '0'), (None, 0):
            with self.assertRaises(TypeError):
                map.lookup(*wrong)
            with self.assertRaises(TypeError):
                map.lookup_text(*wrong)
            with self.assertRaises(TypeError):
                map.lookup_many([wrong])

    def test_numbers_of_other_types(self):
        class Five:
            def __index__(self):
                return 5

        map = Map.loads(README)
        self.assertEqual(str(map.lookup(False, Five())), 'coolstuff.js:0:4 name=x')
        self.assertEqual(map.lookup_text(False, Five()), 'coolstuff.js:0:4 name=x')

    def test_text(self):
        map = Map.loads(README)
        for position, text in [((0, 5), 'coolstuff.js:0:4 name=x'), ((0, 0), 'coolstuff.js:0:0'),
                               ((1, 0), 'coolstuff.js:2:8'), ((NONE, NONE), 'coolstuff.js:2:8')]:
            self.assertEqual((map.lookup_text(*position), str(map.lookup(*position))), (text, text))
        map.remove_names()
        self.assertEqual(map.lookup_text(0, 5), 'coolstuff.js:0:4')

    def test_texts_of_all_kinds_of_tokens(self):
        map = Map.loads(regular('CAAAA,AACA,EACA;E', ['é.js'], names=['n👌'], rangeMappings='E', sourceRoot='/src'))
        for position, text in [((0, 0), None), ((0, 1), '/src/é.js:0:0 name=n👌'), ((0, 2), '/src/é.js:1:0'),
                               ((0, 3), '/src/é.js:2:0'), ((0, 9), '/src/é.js:2:6'), ((1, 1), '/src/é.js:2:0'),
                               ((0, NONE), '/src/é.js:2:4294967292'), ((1, 2), '<unknown>:4294967295:4294967295')]:
            token = map.lookup(*position)
            with self.subTest(position):
                self.assertEqual(map.lookup_text(*position), text)
                self.assertEqual(token if token is None else str(token), text)

    def test_trace(self):
        map = Map.loads(regular(';EAAAA', names=['n']))
        self.assertEqual(map.trace('1:2\n0:0\nx\n'), 'a.js:0:0 name=n\nnone\nbad position\n')


class ManyPositions(unittest.TestCase):
    POSITIONS = [(0, 5), (0, 18), (0, 0), (1, 0)]
    TEXTS = ['coolstuff.js:0:4 name=x', 'coolstuff.js:2:2 name=alert', 'coolstuff.js:0:0', 'coolstuff.js:2:8']

    def test_forms_of_positions(self):
        words = array('I', chain(*self.POSITIONS))
        odd = bytearray(1 + 4 * len(words))
        odd[1:] = words.tobytes()
        spread = array('I', (word for each in words for word in (each, 7)))
        for form in [self.POSITIONS, iter(self.POSITIONS), tuple(map(list, self.POSITIONS)), words, memoryview(words),
                     memoryview(words.tobytes()).cast('I'), memoryview(words).cast('B').cast('I', [4, 2]),
                     memoryview(odd)[1:].cast('I'), memoryview(spread)[::2], (c_uint32 * len(words))(*words)]:
            answers = Map.loads(README).lookup_many(form)
            self.assertEqual([str(token) for token in answers], self.TEXTS)

    def test_wrong_positions(self):
        map = Map.loads(README)
        for wrong in [bytearray(8), array('i', [0, 0]), array('Q', [0, 0]), array('f', [0, 0]), 7, [7], None]:
            with self.assertRaises(TypeError):
                map.lookup_many(wrong)
        for wrong in [array('I', [0, 5, 0]), [(0, 5, 0)], [(0,)]]:
            with self.assertRaises(ValueError):
                map.lookup_many(wrong)

    def test_sequence(self):
        answers = Map.loads(README).lookup_many(self.POSITIONS)
        self.assertEqual((len(answers), str(answers[1]), str(answers[-1])), (4, self.TEXTS[1], self.TEXTS[-1]))
        self.assertEqual([str(token) for token in answers[::-2]], self.TEXTS[::-2])
        self.assertEqual(repr(answers), '<sourcemap.Answers to 4 positions>')
        for wrong in 4, -5:
            with self.assertRaises(IndexError):
                answers[wrong]

    def test_no_positions(self):
        for none in [], array('I'):
            answers = Map.loads(README).lookup_many(none)
            self.assertEqual((len(answers), list(answers), answers.lines.tolist()), (0, [], []))

    def test_columns(self):
        map = Map.loads(regular(';EAAAA,EACE,E', names=['n'], rangeMappings=';C'))
        answers = map.lookup_many([(0, 0), (1, 3), (1, 5), (1, 6)])
        self.assertEqual(answers.found.tolist(), [False, True, True, True])
        self.assertEqual(answers.is_range.tolist(), [False, False, True, False])
        self.assertEqual(answers.generated_lines.tolist(), [0, 1, 1, 1])
        self.assertEqual(answers.generated_columns.tolist(), [0, 2, 4, 6])
        self.assertEqual(answers.lines.tolist(), [0, 0, 1, NONE])
        self.assertEqual(answers.columns.tolist(), [0, 0, 3, NONE])
        self.assertEqual(answers.source_ids.tolist(), [0, 0, 0, NONE])
        self.assertEqual(answers.name_ids.tolist(), [0, 0, NONE, NONE])
        with self.assertRaises(TypeError):
            answers.lines[0] = 1

    def test_answers_stay(self):
        map = Map.loads(README)
        answers = map.lookup_many(self.POSITIONS)
        map.set_source(0, 'other.js')
        map.remove_names()
        self.assertEqual(str(map.lookup(0, 5)), 'other.js:0:4')
        self.assertEqual([str(token) for token in answers], self.TEXTS)
        map.close()
        self.assertEqual([str(token) for token in answers], self.TEXTS)

    def test_answers_of_an_index_stay(self):
        map = Map.loads(TWO_SECTIONS)
        words = array('I', [10, 4, 10, 3])
        answers = map.lookup_many(words)
        words[0] = 0
        map.flatten()
        map.close()
        self.assertEqual([str(token) for token in answers], ['b.js:0:0', 'a.js:0:0'])

    def test_positions_from_the_map_itself(self):
        map = Map.loads(README)
        answers = map.lookup_many((token.generated_line, token.generated_column) for token in map)
        self.assertEqual(list(answers), list(map))


class Tokens(unittest.TestCase):
    def test_iteration(self):
        map = Map.loads(README)
        tokens = [(token.generated_column, token.line, token.column, token.name) for token in map]
        self.assertEqual(tokens, [(0, 0, 0, None), (3, 0, 4, 'x'), (6, 0, 8, None), (8, 1, 0, None), (12, 1, 4, 'x'),
                                  (15, 1, 9, None), (17, 1, 12, None), (18, 2, 2, 'alert'), (24, 2, 8, None)])
        self.assertEqual(list(map.tokens()), list(map))

    def test_change_while_reading(self):
        map = Map.loads(README)
        tokens = iter(map)
        first = next(tokens)
        map.set_source(0, 'other.js')
        map.close()
        self.assertEqual([first.source, *(token.source for token in tokens)], 9 * ['coolstuff.js'])


class LargeMap(unittest.TestCase):
    """A map of about 100,000 tokens; `bisect` finds the expected answers."""

    COUNT = 100_000

    @classmethod
    def setUpClass(cls):
        drawn = random.Random(42)
        starts = sorted(set((drawn.randrange(5000), drawn.randrange(2000)) for _ in range(cls.COUNT)))
        cls.tokens = [NewToken(*start, drawn.randrange(900), drawn.randrange(80), drawn.randrange(50),
                               drawn.choice([None, *range(9)])) for start in starts]
        with Builder('large.js') as builder:
            for number in range(50):
                builder.add_source(f'{number}.js')
            for number in range(9):
                builder.add_name(f'n{number}')
            builder.add_tokens(reversed(cls.tokens))
            cls.map = builder.finish()
        cls.starts = starts
        cls.positions = [(drawn.randrange(5001), drawn.randrange(2001)) for _ in range(20_000)]

    def expected_answer(self, position):
        at = bisect_right(self.starts, position)
        return self.due(self.tokens[at - 1]) if at else None

    @staticmethod
    def due(token):
        return Token(f'{token.source_id}.js', token.line, token.column,
                     None if token.name_id is None else f'n{token.name_id}', False, token.generated_line,
                     token.generated_column, token.source_id, token.name_id)

    def test_tokens(self):
        self.assertEqual(len(self.map), len(self.tokens))
        self.assertEqual(list(self.map), [self.due(token) for token in self.tokens])

    def test_one_position(self):
        for position in self.positions[:5000]:
            self.assertEqual(self.map.lookup(*position), self.expected_answer(position))

    def test_many_positions(self):
        expected = [self.expected_answer(position) for position in self.positions]
        answers = self.map.lookup_many(array('I', chain(*self.positions)))
        self.assertEqual(list(answers), expected)
        self.assertEqual(answers.lines.tolist(), [token.line if token else 0 for token in expected])

    def test_texts(self):
        expected = [self.expected_answer(position) for position in self.positions[:300]]
        for position, token in zip(self.positions, expected):
            self.assertEqual(self.map.lookup_text(*position), None if token is None else str(token))
        answers = self.map.trace(''.join(f'{line}:{column}\n' for line, column in self.positions[:300]))
        self.assertEqual(answers, ''.join(f'{"none" if token is None else token}\n' for token in expected))

    def test_written_and_read(self):
        self.assertEqual(list(Map.loads(self.map.dumps())), list(self.map))
