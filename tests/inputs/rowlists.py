"""Questions on rows that are written: lists sound, ragged, miscounted and out of range, in rooms exact, short and ample."""

from itertools import product

from reference.bulletin import WIDTH
from reference.session import MARKED

from .questions import ROWS_FROM_DAYS, Question, lent_numbers
from .rows import ROW_BYTES, flat, some_records

LEAST, GREATEST = -(2**63), 2**63 - 1
MOST_ROOM = 12_000


def question(numbers, room):
    return Question(ROWS_FROM_DAYS, room=room, lent=lent_numbers(numbers))


def some_list(numbers, count=None):
    count = count or numbers.choice((2, 3, 4, 7, 11))
    return flat(some_records(numbers, count, consecutive=numbers.random() < 0.5))


def with_number(numbers, days, field, value):
    """A list with another value in a field of the first record, the last, or one between."""
    count = len(days) // WIDTH
    at = WIDTH * numbers.choice((0, count - 1, numbers.randrange(count))) + field
    return [*days[:at], value, *days[at + 1:]]


def rooms(numbers, count):
    """No room; as much as is needed, a byte less, a row less, more, and as much as there is."""
    need = count * ROW_BYTES
    return (need, need - 1, need - ROW_BYTES, need + numbers.randint(1, 99), need + 1, 0, min(MOST_ROOM, 3 * need))


def in_rooms(numbers, count):
    return [question(some_list(numbers, count), room) for room in rooms(numbers, count)]


def sound(numbers):
    for count, _ in product((2, 3, 5, 11), range(6)):
        yield from in_rooms(numbers, count)
    for count in (63, 64, 64):
        yield from in_rooms(numbers, count)


def some_room(numbers, days):
    """Mostly the room that is needed, at times less."""
    need = len(days) // WIDTH * ROW_BYTES
    return min(MOST_ROOM, numbers.choice((need, need + 20, need - 1, 0)) if need else numbers.randrange(400))


def out_of_range(numbers):
    """Each field a unit beyond each end, and far out."""
    for field, (low, high) in enumerate(MARKED):
        for value in (*[low - 1, high + 1] * 10, low - 100, high + 100, LEAST, GREATEST):
            yield with_number(numbers, some_list(numbers), field, value)


def at_ends(numbers):
    for field, ends in enumerate(MARKED[:5]):
        yield from (with_number(numbers, some_list(numbers), field, value) for value, _ in product(ends, range(3)))


def marks(numbers):
    """Records with UT1R, which rows cannot hold: one, and all; and lists without marks."""
    for _ in range(10):
        yield with_number(numbers, some_list(numbers), 5, 0)
        yield [0 if i % WIDTH == 5 else number for i, number in enumerate(some_list(numbers))]
        yield [number for i, number in enumerate(some_list(numbers)) if i % WIDTH < 5]
        yield [number for i, number in enumerate(some_list(numbers, numbers.choice((6, 12)))) if i % WIDTH < 5]


def parts_of_hundreds(numbers):
    for value in (1, 10, 50, 99, 101, 150, 899_999_999, 899_999_950):
        for sign, _ in product((-1, 1), range(2)):
            yield with_number(numbers, some_list(numbers), 3, sign * value)


def ragged(numbers):
    """Lists that are no whole number of records."""
    for more, count in product((-5, -1, 1, 5), (2, 3, 64)):
        days = some_list(numbers, count)
        yield days[:more] if more < 0 else days + days[:more]
    yield from ([0] * length for length in (1, 5))


def miscounted(numbers):
    """No record, one, 65 and more."""
    yield from ([] for _ in range(10))
    yield from (some_list(numbers, count) for count in (*[1, 65] * 10, 66, 128))


def questions(numbers):
    made = [*sound(numbers)]
    for make in (out_of_range, at_ends, marks, parts_of_hundreds, ragged, miscounted):
        made += [question(days, some_room(numbers, days)) for days in make(numbers)]
    return made
