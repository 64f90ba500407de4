"""The inputs of the C tests over session files, each with what the reference answers to it.

There are two sound files of the same records: one with days of kind 3, which has no marks, and one with days of kind 5.
A file is one of the two, by that kind, with one number changed.
"""

import struct

from c.cells import Name
from reference import delay, session, together
from reference.delay import DAYS, PASSES, SOURCES, STATIONS

LEAST, GREATEST, LAST_INDEX = -(2**63), 2**63 - 1, 2**64 - 1
KINDS = (3, 5)

# Wettzell and Onsala, two sources, and three days from MJD 60,000 on, of which the second is marked 1; the first pass
# goes past its 0h.
LISTS = (
    [(10, 4_075_540_000, 931_735_000, 4_801_629_000), (20, 3_370_606_000, 711_918_000, 5_349_831_000)],
    [(1, 2_247_483_648, 24_469_000), (2, 1_058_000_000, -475_000_000)],
    [(60_000, 100_000, 400_000, -20_000_000, 37, 0), (60_001, 101_000, 401_000, -21_000_000, 37, 1),
     (60_002, 102_000, 402_000, -22_000_000, 37, 0)],
    [(10, 20, 1, 60_000, 86_399_000, 1_000, 5, 100), (20, 10, 2, 60_001, 43_200_000, 250, 4, 0)],
)
FILES = {kind: session.encode(LISTS, kind) for kind in KINDS}


def numbers_of(file):
    return list(struct.unpack("<%dq" % (len(file) // 8), file))


SOUND = {kind: numbers_of(file) for kind, file in FILES.items()}


def at(kind, place, record, field):
    """Where a field stands among the numbers of the sound file with days of a kind; places count from 0."""
    widths = [len(fields) for _, fields, _, _ in session.layouts_with(kind)]
    before = sum(width * len(records) for width, records in zip(widths[:place], LISTS))
    return 13 + before + record * widths[place] + field


def same(kind):
    """Changes nothing."""
    return (kind, 0, SOUND[kind][0])


def leap(kind):
    """A leap second into the second day, and one that is left out into the third."""
    return (kind, at(kind, DAYS, 1, 4), 38)


def mark(record, value):
    return (5, at(5, DAYS, record, 5), value)


def other_mark(record):
    return mark(record, 1 - LISTS[DAYS][record][5])


def refused(kind):
    """Changes that are refused with 1, 2, 3 and 4."""
    wrong_field = {3: (3, at(3, STATIONS, 0, 1), 6_400_000_001), 5: mark(2, 2)}[kind]
    return ((kind, 0, 3), wrong_field, (kind, at(kind, SOURCES, 1, 0), 1), (kind, at(kind, DAYS, 1, 0), 60_002))


CHANGE = "int64_t kind; size_t at; int64_t value; "


def changed(change, length=None):
    """A sound file with a number changed, cut off or lengthened by zeros: the bytes that the C tests lend."""
    kind, place, value = change
    whole = FILES[kind]
    length = len(whole) if length is None else length
    file = whole[:8 * place] + struct.pack("<q", value) + whole[8 * place + 8:]
    return (file + bytes(max(0, length - len(file))))[:length]


# ---- files that are refused


def wrong_contents(kind):
    """Name and change of the contents table. A count that is one too many shows at the next first byte, or as 13."""
    yield ("number of sections", (kind, 0, 5))
    for i in range(1, 13):
        yield ("number %d of the contents table" % i, (kind, i, SOUND[kind][i] + 300))
    for i in (3, 6, 9, 12):
        yield ("a count that is one too many, at %d" % i, (kind, i, SOUND[kind][i] + 1))
    yield ("a negative count", (kind, 3, -1))
    for i in (1, 4, 7, 10):
        yield from (("kind %d, at %d" % (other, i), (kind, i, other)) for other in range(7) if other != SOUND[kind][i])


def wrong_fields(kind):
    """Each field out of its range on either side, in the first record and the second in turn."""
    for place, (section, fields, _, _) in enumerate(session.layouts_with(kind)):
        for i, (low, high) in enumerate(fields):
            for value in (low - 1, high + 1):
                yield ("field %d of kind %d is %d" % (i, section, value), (kind, at(kind, place, i % 2, i), value))
    yield ("the least number as a coordinate", (kind, at(kind, STATIONS, 1, 3), LEAST))


def wrong_order(kind):
    yield ("station ids that do not rise", (kind, at(kind, STATIONS, 1, 0), 10))
    yield ("source ids that fall", (kind, at(kind, SOURCES, 0, 0), 9))
    yield ("a day twice", (kind, at(kind, DAYS, 1, 0), 60_000))
    yield ("a day left out", (kind, at(kind, DAYS, 2, 0), 60_003))


def wrong_marks():
    """Marks that are none, in each record."""
    for record, value in ((0, LEAST), (1, 2**32 + 1), (2, 5), (2, GREATEST)):
        yield ("the mark of record %d is %d" % (record, value), mark(record, value))


def wrong_files(kind):
    for made in (wrong_contents, wrong_fields, wrong_order):
        yield from made(kind)
    yield from wrong_marks() if kind == 5 else ()


def file_tables():
    rows = []
    for kind, file in FILES.items():
        files = [(*each, len(file)) for each in wrong_files(kind)]
        for length in (0, 7, 8, 103, 104, len(file) - 1, len(file) + 1, len(file) + 8, 65_536, 65_537):
            files.append(("a file of %d bytes" % length, same(kind), length))
        rows += [(what, *change, length, session.fault(changed(change, length))) for what, change, length in files]
    yield ("refused", CHANGE + "size_t bytes; int64_t want[4];", rows)
    counted = [("the sound file of kind %d" % kind, kind, session.check(file)) for kind, file in FILES.items()]
    yield ("counts", "int64_t kind; int64_t want[6];", counted)


# ---- what is asked of a file


def asked_of_files(call, asked):
    """Rows of a call of a file and numbers: the file as a change of a sound one."""
    for change, *arguments in asked:
        what = "%s%r, days of kind %d, number %d of the file being %d" % (call.__name__, tuple(arguments), *change)
        yield (what, *change, *arguments, call(changed(change), *arguments))


def orientation_table():
    noon, last, asked = 43_200_000, 86_399_999, []
    for kind in KINDS:
        asked += [(same(kind), 60_000, ms) for ms in (0, 86_399_000, -1, 86_400_000)]
        asked += [(same(kind), 60_001, ms) for ms in (0, noon)]
        asked += [(same(kind), *epoch) for epoch in ((60_002, 0), (59_999, last), (41_316, 0), (69_807, 0))]
        asked += [(leap(kind), *epoch) for epoch in ((60_000, noon), (60_000, last), (60_001, 0), (60_001, noon))]
        asked += [(change, day, 0) for change in refused(kind) for day in (60_000, 41_316)]
    epochs = [(day, ms) for day in (60_000, 60_001) for ms in (0, 1, noon, last)]
    asked += [(other_mark(record), *epoch) for record in range(3) for epoch in epochs]
    behind_the_days = (3, at(3, PASSES, 0, 0), 1)  # where the last day's mark would stand, had kind 3 one
    asked += [(behind_the_days, *epoch) for epoch in epochs]
    columns = CHANGE + "int64_t day, ms; int64_t want[5];"
    yield ("orientation", columns, list(asked_of_files(delay.orientation, asked)))


def delay_table():
    whole, asked = (10, 20, 1, 60_000, 86_399_000), []
    for kind in KINDS:
        asked += [(change, *whole) for change in (same(kind), leap(kind))]
        asked += [(same(kind), 20, 10, 1, 60_000, 86_399_000), (same(kind), 10, 10, 1, 60_000, 0)]
        asked += [(same(kind), 20, 10, 2, 60_001, 43_200_000), (same(kind), 10, 20, 1, 60_002, 0)]
        asked += [(change, station, 20, 1, 60_000, 0) for change in refused(kind) for station in (10, 0)]
    others = ((10, 21, 1), (11, 20, 1), (0, 21, 1), (10, 65_536, 1), (10, 20, -1))
    asked += [(same(3), *ids, 60_000, 0) for ids in others]
    asked += [(same(3), 10, 20, *late) for late in ((3, 60_002, 0), (1, GREATEST, 0), (1, 60_000, 86_400_000))]
    asked += [(other_mark(record), *whole) for record in range(3)]
    columns = CHANGE + "int64_t station1, station2, source, day, ms; int64_t want[2];"
    yield ("delay", columns, list(asked_of_files(delay.delay, asked)))


def passes(kind):
    """Name, change, and index of the pass."""
    none, station, source, day, tolerance = same(kind), *(at(kind, PASSES, 0, field) for field in (0, 2, 3, 7))
    yield from (("a pass over midnight", none, 0), ("another pass", none, 1), ("no tolerance", (kind, tolerance, 0), 0))
    yield from (("a pass beyond the last", none, 2), ("the greatest pass", none, LAST_INDEX))
    yield from (("no such station", (kind, station, 11), 0), ("the pass beside it", (kind, station, 11), 1))
    yield from (("no such source", (kind, source, 3), 0), ("a last sample not covered", (kind, day, 60_001), 0))
    yield ("a first sample not covered", (kind, day, 59_999), 0)
    yield from (("a pass over a leap second", leap(kind), 0), ("one before a second left out", leap(kind), 1))
    for change in refused(kind):
        yield from (("a pass of a refused file", change, 0), ("no pass of a refused file", change, 9))


def marked_passes():
    for record in range(3):
        yield from (("the other mark in record %d, pass %d" % (record, i), other_mark(record), i) for i in range(2))


def asked_of_passes(name, call, width):
    """Rows of a call that writes `width` numbers for each that it answers: more room, just enough, too little, none."""
    for what, change, index in (*passes(3), *passes(5), *marked_passes()):
        file = changed(change)
        need = width * call(file, index, [0] * 8_200)[1]
        for room in (8_200, need + 3, need, need - 1, 0) if need else (8_200, 0):
            number, count, after = call(file, index, [0] * room)
            asked = ("%s: %s, room %d" % (name, what, room), *change, Name(name), width, index, room)
            yield (*asked, (number, count), after[:width * count])


def pass_table():
    """The samples of a pass, and its track, asked in the same way."""
    rows = [*asked_of_passes("fringe_samples", delay.samples, 1), *asked_of_passes("fringe_pass_track", together.pass_track, 4)]
    call = "struct fringe_number (*call)(const uint8_t *, size_t, uint64_t, int64_t *, size_t); size_t width; "
    columns = CHANGE + call + "uint64_t pass; size_t room_numbers; int64_t want[2]; const int64_t *numbers;"
    yield ("pass", columns, rows)


def sessions(kind):
    """Name, change, and each room, in numbers. For passes of 5 and of 4 samples 20 numbers are always enough."""
    def of(record, field, value):
        return (kind, at(kind, PASSES, record, field), value)

    yield ("all passes", same(kind), (8_200, 20, 19, 11, 8, 7, 4, 3, 0))
    yield ("all passes, over a leap second", leap(kind), (8_200, 16, 15))
    yield ("a first pass of more segments", of(0, 7, 0), (8_200, 16, 12))
    yield ("a second pass of more segments", of(1, 5, 3_600_000), (8_200, 12, 11))
    yield ("a first pass whose station is not there", of(0, 0, 11), (8_200, 0))
    yield ("a second pass whose source is not there", of(1, 2, 3), (8_200, 19, 4, 3))
    yield ("a first pass not covered", of(0, 3, 60_001), (8_200, 0))
    yield ("a second pass not covered", of(1, 3, 60_002), (8_200, 19, 4, 3))
    yield from (("all passes of a refused file", change, (8_200, 0)) for change in refused(kind))


def all_tracks_table():
    """Of the 64 counts those of the two passes stand in a row; the others C makes 0."""
    rows = []
    for what, change, room in ((*each, room) for kind in KINDS for *each, rooms in sessions(kind) for room in rooms):
        number, counts, after = together.all_tracks(changed(change), [0] * room)
        want, segments = (number, *counts[:len(LISTS[PASSES])]), sum(counts)
        rows.append(("%s, room %d" % (what, room), *change, room, want, segments, after[:4 * segments]))
    columns = CHANGE + "size_t room_numbers; int64_t want[1 + FRINGE_MOST_PASSES];"
    yield ("all_tracks", columns + " size_t segments; const int64_t *numbers;", rows)


def tables():
    for made in (file_tables, orientation_table, delay_table, pass_table, all_tracks_table):
        yield from made()
