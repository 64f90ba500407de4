"""The session file: document 01, 'Session file' and 'Refusal numbers' 1 to 5 and 7, and document 02, L4.

A file is a bytes object, a record a tuple of whole numbers. Whether a word of the contents table is right depends on
the words before it alone: the place where a body starts follows from the kinds and counts of the bodies before it.

An orientation record at hand has six numbers, the mark last. One of kind 3 has five in the file, and the mark 0.
"""

import struct

from .earth import DAY_MS, FIRST_DAY, LAST_DAY
from .whole import within

LONGEST_FILE = 65_536
CONTENTS_BYTES = 104

ID = (1, 65_535)
LENGTH = (-6_400_000_000, 6_400_000_000)
DAY = (FIRST_DAY, LAST_DAY)
POLE = (-1_000_000, 1_000_000)

STATION = (ID, LENGTH, LENGTH, LENGTH)
SOURCE = (ID, (0, 2**32 - 1), (-(2**30), 2**30))
ORIENTATION = (DAY, POLE, POLE, (-900_000_000, 900_000_000), (0, 99))
MARKED = (*ORIENTATION, (0, 1))
PASS = (ID, ID, ID, DAY, (0, DAY_MS - 1), (1, 3_600_000), (1, 4_096), (0, 1_000_000))

# For each place the kinds that may stand there: kind, the range of each field, least and greatest count.
PLACES = (
    ((1, STATION, 1, 64),),
    ((2, SOURCE, 1, 256),),
    ((3, ORIENTATION, 2, 64), (5, MARKED, 2, 64)),
    ((4, PASS, 1, 64),),
)
# How many numbers a record of each place has that is at hand.
WIDTHS = (4, 3, 6, 8)


def layout_of(place, kind):
    """What PLACES says of a kind in a place; none where it may not stand there."""
    return next((layout for layout in PLACES[place] if layout[0] == kind), None)


def layouts_with(day_kind):
    """The layout of each place where the days are of this kind; none for a kind that they cannot have."""
    return [layout_of(place, kind) for place, kind in enumerate((1, 2, day_kind, 4))]


def word(file, at):
    """The number that starts at a byte: 8 bytes, little-endian two's complement."""
    return struct.unpack_from("<q", file, at)[0]


def contents_table(file):
    """The 13 words of the contents table, none for a word that is not wholly in the file."""
    return [word(file, 8 * i) if 8 * i + 8 <= len(file) else None for i in range(13)]


def fault_of_contents(file):
    """The first wrong word of the contents table, 0 to 12, then 13 for the length; none where all is right.

    A word that is not wholly in the file is wrong.
    """
    words = contents_table(file)
    if words[0] != len(PLACES):
        return 0
    body = CONTENTS_BYTES
    for place in range(len(PLACES)):
        at = 1 + 3 * place
        layout = layout_of(place, words[at])
        if layout is None:
            return at
        _, fields, least, greatest = layout
        if words[at + 1] != body:
            return at + 1
        if words[at + 2] is None or not within(words[at + 2], least, greatest):
            return at + 2
        body += words[at + 2] * 8 * len(fields)
    return None if len(file) == body and len(file) <= LONGEST_FILE else 13


def layouts_of(file):
    """The layout of each place of a file whose contents table is right."""
    return [layout_of(place, word(file, 8 + 24 * place)) for place in range(len(PLACES))]


def sections_of(file):
    """The four lists of records of a file whose contents table and length are right."""
    lists = []
    for place, (_, fields, _, _) in enumerate(layouts_of(file)):
        first, count = word(file, 16 + 24 * place), word(file, 24 + 24 * place)
        size, zeros = 8 * len(fields), (0,) * (WIDTHS[place] - len(fields))
        found = (struct.unpack_from("<%dq" % len(fields), file, first + i * size) for i in range(count))
        lists.append([record + zeros for record in found])
    return lists


def fault_of_fields(layouts, lists):
    """Kind, record and field of the first number outside its range."""
    for (kind, fields, _, _), records in zip(layouts, lists):
        for i, record in enumerate(records):
            for j, (value, (low, high)) in enumerate(zip(record, fields)):
                if not within(value, low, high):
                    return (kind, i, j)
    return None


def fault_of_ids(layouts, lists):
    """Kind, record and field of the first id, of stations and sources, that is not above the one before."""
    for (kind, _, _, _), records in list(zip(layouts, lists))[:2]:
        for i in range(1, len(records)):
            if not records[i][0] > records[i - 1][0]:
                return (kind, i, 0)
    return None


def fault_of_days(layouts, lists):
    """Kind, record and field of the first orientation day that does not follow the one before."""
    (kind, _, _, _), days = layouts[2], lists[2]
    for i in range(1, len(days)):
        if days[i][0] != days[i - 1][0] + 1:
            return (kind, i, 0)
    return None


def fault_of_records(layouts, lists):
    """Number, kind, record and field of the first of 2, 3 and 4 that applies; zeros where none does."""
    for number, find in ((2, fault_of_fields), (3, fault_of_ids), (4, fault_of_days)):
        place = find(layouts, lists)
        if place is not None:
            return (number, *place)
    return (0, 0, 0, 0)


def fault(file):
    """Number, section, record, field: the first place at which the number that check gives arises."""
    contents = fault_of_contents(file)
    return fault_of_records(layouts_of(file), sections_of(file)) if contents is None else (1, 0, 0, contents)


def refusal(file):
    return fault(file)[0]


def check(file):
    """Refusal, the four counts, and the kind of the days."""
    number = refusal(file)
    if number:
        return (number, 0, 0, 0, 0, 0)
    return (0, *(len(records) for records in sections_of(file)), layouts_of(file)[2][0])


def record_at(file, place, index):
    """Refusal and the record of a place, 0 to 3: what station_at, source_at, day_at and pass_at hand out."""
    number = refusal(file)
    records = [] if number else sections_of(file)[place]
    if index < len(records):
        return (0, *records[index])
    return (number or 5,) + (0,) * WIDTHS[place]


def encode(lists, day_kind=3):
    """The bytes of four lists of records, whatever the records hold; of each so many numbers as its kind has."""
    body = CONTENTS_BYTES
    words, numbers = [len(PLACES)], []
    for (kind, fields, _, _), records in zip(layouts_with(day_kind), lists):
        words += [kind, body, len(records)]
        body += len(records) * 8 * len(fields)
        numbers += [number for record in records for number in record[:len(fields)]]
    return struct.pack("<%dq" % len(words + numbers), *words, *numbers)


def rows(numbers, width):
    return [tuple(numbers[i:i + width]) for i in range(0, len(numbers), width)]


def records_of(flats):
    """Four lists of numbers as lists of records."""
    return [rows(flat, width) for flat, width in zip(flats, WIDTHS)]


def miscounted(layout, flat, width):
    """Whether a list of numbers is no right count of whole records."""
    _, _, least, greatest = layout
    return len(flat) % width != 0 or not within(len(flat) // width, least, greatest)


def unheld(layout, records):
    """Whether a record has a number other than 0 behind those that its kind holds: a mark in kind 3."""
    return any(any(record[len(layout[1]):]) for record in records)


def refusal_of_lists(day_kind, flats):
    """The number of four lists that are to be written, without regard to room: a list of no kind is not counted."""
    layouts = layouts_with(day_kind)
    if any(layout and miscounted(layout, flat, width) for layout, flat, width in zip(layouts, flats, WIDTHS)):
        return 1
    if None in layouts:
        return 2
    lists = records_of(flats)
    return 2 if any(map(unheld, layouts, lists)) else fault_of_records(layouts, lists)[0]


def write(day_kind, flats, room):
    """Refusal, bytes written, and the room afterwards; flats are four lists of numbers, record after record."""
    number = refusal_of_lists(day_kind, flats)
    if number:
        return (number, 0, room)
    file = encode(records_of(flats), day_kind)
    if len(file) > len(room):
        return (7, 0, room)
    return (0, len(file), file + room[len(file):])
