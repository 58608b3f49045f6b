"""Shared by located.py, loading.py and split.py: asks the library, the reference program
and the rules the same questions, and finds reasons for differences. A reason must lead to the answer of the
reference."""
import collections, itertools, json, pathlib, sys, tempfile
from asking import Case, answers_here
from comparing import answer, note_of, report

MOST_PRINTED = 10
# the answer of the rules if they leave it open
OPEN = object()


def reference_answers(reference, questions, word):
    """The line that the reference program answers to each question. Exits if it answers more or fewer lines."""
    with tempfile.TemporaryDirectory() as folder:
        file = pathlib.Path(folder, 'questions')
        file.write_text(json.dumps(questions))
        lines = answer([reference, word, str(file)], b'')[1].decode().split('\n')[:-1]
    if len(lines) != len(questions):
        sys.exit(f'the reference answers {lines[:3]}')
    return lines


def value_of(line):
    return line if line == 'panic' else json.loads(line)


def as_answer(value):
    return 0, json.dumps(value, ensure_ascii=False).encode()


def short(question):
    text = json.dumps(question, ensure_ascii=False)
    return text if len(text) < 240 else f'{text[:120]} .. {text[-100:]}'


def notes_of(question, here, there, due, ways):
    """Yields the notes that compare an answer with the answer of the rules, unless that is OPEN, and with the answer of
    the reference. The reason for a difference from the reference is `panic`, or the smallest set of `ways` that leads
    to the reference's answer. There is no reason if the answer is not that of the rules, or if that is OPEN."""
    own, other, right = value_of(here), value_of(there), due(question, ())

    def reason():
        if right is OPEN or own != right:
            return None
        chosen = (some for count in range(1, len(ways) + 1) for some in itertools.combinations(ways, count))
        return 'panic' if other == 'panic' else next((', '.join(some) for some in chosen if due(question, some) == other), None)

    if right is not OPEN:
        yield note_of(f'{short(question)}, by the rules', as_answer(own), as_answer(right), lambda: None)
    yield note_of(short(question), as_answer(own), as_answer(other), reason)


def compare_answers(reference, questions, due, ways_of, word='references'):
    """Asks all questions. Prints each unexplained difference, the first ones with each reason, and all counts. Then
    exits, with status 1 if a difference is unexplained. `due` returns the answer of the rules to a question, changed by
    some departures of the reference. `ways_of` returns the departures that the reference may have for a question."""
    there = reference_answers(reference, questions, word)
    here = answers_here([Case(question[0], word, None, None, [question], 1) for question in questions])
    counts, asked = collections.Counter(), collections.Counter(question[0] for question in questions)
    for question, (own,), other in zip(questions, here, there):
        for note in notes_of(question, own, other, due, ways_of(question)):
            counts[note.why] += 1
            if note.why == 'UNEXPLAINED' or counts[note.why] <= MOST_PRINTED:
                report(note)
    same, unexplained = counts.pop('same', 0), counts.pop('UNEXPLAINED', 0)
    meant = '; '.join(f'{n} {why}' for why, n in sorted(counts.items())) or 'none meant to differ'
    kinds = ', '.join(f'{n} {what}' for what, n in sorted(asked.items()))
    print(f'{len(questions)} questions, {kinds}: {same} answers the same; {meant}; {unexplained} unexplained')
    sys.exit(1 if unexplained else 0)
