"""The inputs of the C tests of the writer, each with what the reference answers: the lists of a sound file, changed."""

from c.filerows import DAYS, FILES, GREATEST, LEAST, LISTS, STATIONS, numbers_of
from reference import session

ROOM = 700  # bytes, more than either sound file has


def lists(kind, *changes):
    """The four lists of numbers of the sound file, for kind 3 with marks of 0. A change is list, place and value."""
    made = [[number for record in records for number in record] for records in LISTS]
    if kind == 3:
        made[DAYS][5::6] = [0] * len(LISTS[DAYS])
    for which, place, value in changes:
        made[which][place] = value
    return made


def shortened(made, fewer):
    return [numbers[:len(numbers) - less] for numbers, less in zip(made, fewer)]


def in_fives(kind, days):
    """The lists with so many days that have no marks."""
    stations, sources, _, passes = lists(kind)
    five = [number for i in range(days) for number in (60_000 + i, *LISTS[DAYS][0][1:5])]
    return [stations, sources, five, passes]


# Each of these gives name, kind of days, lists and bytes of room.


def of_kind(kind):
    for room in (ROOM, len(FILES[kind]), len(FILES[kind]) - 1, 0):
        yield ("a room of %d bytes" % room, kind, lists(kind), room)
    for which, less in ((0, 8), (0, 1), (1, 2), (1, 6), (2, 12), (2, 3), (2, 18), (3, 16), (3, 7)):
        fewer = [less * (which == i) for i in range(4)]
        yield ("list %d short by %d" % (which, less), kind, shortened(lists(kind), fewer), ROOM)
    changes = ((0, 1, 6_400_000_001), (3, 15, -1), (0, 4, 10), (2, 6, 60_002), (2, 5, 2), (2, 17, -1), (2, 11, LEAST))
    for change in changes:
        for room in (ROOM, 0):
            yield ("list %d, number %d is %d, room %d" % (*change, room), kind, lists(kind, change), room)
    for days in (2, 3, 6, 12):
        yield ("%d days in fives" % days, kind, in_fives(kind, days), ROOM)


def of_marks():
    """Marks of 1 as kind 3, and other marks as kind 5."""
    for record in range(3):
        place, name = 6 * record + 5, "record %d, " % record
        for room in (ROOM, 0):
            yield (name + "marked 1 as kind 3, room %d" % room, 3, lists(3, (DAYS, place, 1)), room)
        other_day = (DAYS, 6 * record, 60_009)
        yield (name + "marked 1 as kind 3, and another day", 3, lists(3, (DAYS, place, 1), other_day), ROOM)
        yield (name + "the other mark as kind 5", 5, lists(5, (DAYS, place, 1 - LISTS[DAYS][record][5])), ROOM)
    yield ("a mark of 1 as kind 3, and a list too short", 3, shortened(lists(3, (DAYS, 5, 1)), (1, 0, 0, 0)), ROOM)
    yield ("a mark of 1 as kind 3, and ids that fall", 3, lists(3, (DAYS, 5, 1), (STATIONS, 4, 1)), ROOM)
    yield ("marks of 0 as kind 5", 5, lists(3), ROOM)


def of_no_kind():
    """Kinds that days do not have: then how many numbers their list has is not judged."""
    for kind in (0, 1, 2, 4, 6, -3, -5, 2**32 + 3, 2**32 + 5, LEAST, GREATEST):
        yield from (("days of kind %d, room %d" % (kind, room), kind, lists(5), room) for room in (ROOM, 0))
    for kind in (4, 6):
        for fewer in ((0, 0, 18, 0), (0, 0, 1, 0), (0, 0, 12, 0), (1, 0, 0, 0), (0, 6, 0, 0), (0, 0, 1, 7)):
            name = "days of kind %d, lists short by %d, %d, %d and %d" % (kind, *fewer)
            yield (name, kind, shortened(lists(5), fewer), ROOM)
        yield ("days of kind %d, and ids that fall" % kind, kind, lists(5, (STATIONS, 4, 1)), ROOM)


def tables():
    rows = []
    for what, kind, made, room in (*of_kind(3), *of_kind(5), *of_marks(), *of_no_kind()):
        number, count, after = session.write(kind, made, bytes(room))
        lengths = tuple(map(len, made))
        rows.append((what, kind, tuple(made), lengths, room, (number, count), numbers_of(after[:count])))
    columns = "int64_t day_kind; const int64_t *lists[4]; size_t lengths[4], room_bytes; int64_t want[2];"
    yield ("write", columns + " const int64_t *file;", rows)
