"""Questions on the writer: lists in and out of order, ragged and miscounted, with each kind of days and with none that is
one, in rooms exact, short and ample.
"""

import random
from itertools import combinations

from reference import session
from reference.selftest import small_session

from . import chosen, generate
from .damaged import NO_DAY_KINDS, NO_MARKS, days_that_jump, ids_that_fall, wrong_field
from .questions import WRITE, Question, lent_numbers
from .sound import marked, some_marks, some_session

LONGEST = 15_464
DAYS = 2


def question(day_kind, flats, room):
    """The kind of the days, four lists of numbers, and a room of bytes."""
    lengths = [len(flat) for flat in flats[:3]]
    return Question(WRITE, *lengths, day_kind, room=room, lent=lent_numbers([number for flat in flats for number in flat]))


def flats_of(lists):
    return [[number for record in records for number in record] for records in lists]


def ragged(numbers, flats, places=range(4)):
    """One list with a number too many or too few."""
    changed = [list(flat) for flat in flats]
    flat = changed[numbers.choice(places)]
    if numbers.random() < 0.5:
        flat.append(1)
    else:
        flat.pop()
    return changed


def miscounted(numbers, flats, places=range(4)):
    """One list that is empty, or has a record too many."""
    changed = [list(flat) for flat in flats]
    place = numbers.choice(places)
    row = changed[place][:session.WIDTHS[place]]
    changed[place] = numbers.choice(([], row * (session.PLACES[place][0][3] + 1)))
    return changed


def in_fives(numbers, flats, places=(DAYS,)):
    """The days without their marks."""
    changed = list(flats)
    changed[DAYS] = [number for i, number in enumerate(flats[DAYS]) if i % 6 < 5]
    return changed


def some_kind(numbers, kind):
    """Mostly the kind that is given, at times the other, or one that is none."""
    return numbers.choice((*[kind] * 6, 8 - kind, numbers.choice(NO_DAY_KINDS)))


def of_files(files, seed=4_104):
    """The lists of the files whose contents table and length are right."""
    numbers = random.Random(seed)
    for file in files:
        if session.fault_of_contents(file) is None:
            flats, kind = flats_of(session.sections_of(file)), session.layouts_of(file)[DAYS][0]
            change = numbers.choice((None, None, None, None, ragged, miscounted))
            room = numbers.choice((len(file), len(file), len(file) + numbers.randint(1, 40), len(file) - 1, 0, LONGEST))
            yield question(some_kind(numbers, kind), change(numbers, flats) if change else flats, room)


def of_chosen_lists():
    yield question(3, flats_of(session.sections_of(small_session())), 310)
    yield from (question(kind, flats_of(lists), room) for kind, lists, room in chosen.lists_to_write())


def longest():
    """The longest file of each kind in a room that is always enough, in what it takes, and in a byte less."""
    for marks, kind in (((0,), 3), ((1,), 5), ((0, 1), 5)):
        flats = flats_of(session.sections_of(chosen.fullest(marks)))
        length = len(session.encode(session.records_of(flats), kind))
        yield from (question(kind, flats, room) for room in (LONGEST, length, length - 1))


# ---- faults together: of the numbers that apply the lowest is given


def of_a_list(numbers, kind, lists):
    """1, by a list other than that of the days."""
    change = numbers.choice((ragged, miscounted))
    return (kind, lists, lambda flats: change(numbers, flats, (0, 1, 3)))


def of_the_day_list(numbers, kind, lists):
    """1 where the kind is 3 or 5."""
    change = numbers.choice((ragged, miscounted, in_fives))
    return (kind, lists, lambda flats: change(numbers, flats, (DAYS,)))


def of_the_kind(numbers, kind, lists):
    return (numbers.choice(NO_DAY_KINDS), lists, None)


def of_a_mark(numbers, kind, lists):
    """2, by a mark 1 in kind 3, or by one that is none in either."""
    marks = [0] * len(lists[DAYS]) if kind == 3 else some_marks(numbers, len(lists[DAYS]))
    marks[numbers.randrange(len(marks))] = numbers.choice((1, 1, *NO_MARKS) if kind == 3 else NO_MARKS)
    return (kind, [*lists[:DAYS], marked(lists[DAYS], marks), lists[3]], None)


def of_records(change):
    return lambda numbers, kind, lists: (kind, change(numbers, lists), None)


# Together they are made in this order; the first two are of the lists as numbers.
FAULTS = {
    "list": of_a_list, "day list": of_the_day_list, "field": of_records(wrong_field), "mark": of_a_mark,
    "ids": of_records(ids_that_fall), "days": of_records(days_that_jump), "kind": of_the_kind, "room": None,
}


def with_faults(numbers, names):
    kind, changes = numbers.choice((3, 5)), []
    lists = some_session(numbers)
    days = marked(lists[DAYS], [0] if kind == 3 else some_marks(numbers, len(lists[DAYS])))
    lists = [*lists[:DAYS], days, lists[3]]
    for fault in [FAULTS[name] for name in FAULTS if name in names and FAULTS[name]]:
        kind, lists, change = fault(numbers, kind, lists)
        changes += [change] if change else []
    flats = flats_of(lists)
    for change in changes:
        flats = change(flats)
    need = session.CONTENTS_BYTES + 8 * sum(map(len, flats))
    return question(kind, flats, numbers.randrange(need // 2) if "room" in names else max(need, 320))


def faults_together(seed=4_105, alone=12, each=8):
    """Each fault alone, by twos, and by threes."""
    numbers = random.Random(seed)
    for size, times in ((0, 3 * alone), (1, alone), (2, each), (3, 1)):
        for names in combinations(FAULTS, size):
            yield from (with_faults(numbers, names) for _ in range(times))


def questions():
    return [*of_chosen_lists(), *longest(), *of_files(generate.files()), *faults_together()]
