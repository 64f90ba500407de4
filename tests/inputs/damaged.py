"""Seeded session files that the check refuses, made from sound ones.

Each function takes the four lists of a sound session and hands back the bytes of a damaged file; most are named after the refusal
number that they aim at. What number a file really gets is the reference's to say.
"""

import struct

from reference.session import CONTENTS_BYTES, encode

from .sound import file_of, layouts, marked, some_marks, unmarked, with_marks

EXTREMES = (-(2**63), 2**63 - 1, -1, 0, 2**32, 2**61, -(2**61))
DAY_KIND = 7  # its place in the contents table
NO_DAY_KINDS = (4, 6, 0, 1, 2, -3, -5, 2**32 + 3, 2**32 + 5, -(2**63), 2**63 - 1)
NO_MARKS = (2, 2, -1, -1, 3, 255, 256, 257, 2**32, 2**32 + 1, -(2**32), -(2**63), 2**63 - 1)


def with_word(file, index, value):
    return file[:8 * index] + struct.pack("<q", value) + file[8 * index + 8:]


def wrong_contents(numbers, lists):
    """One word of the contents table changed."""
    index, file = numbers.randrange(13), file_of(lists)
    right = struct.unpack_from("<q", file, 8 * index)[0]
    near = (right + 1, right - 1, right + 8, right + 24, 65, 257)
    return with_word(file, index, numbers.choice([value for value in near + EXTREMES if value != right]))


def wrong_length(numbers, lists):
    """Cut short, or with bytes behind."""
    file = file_of(lists)
    cut = numbers.choice((0, 7, 8, 50, 103, CONTENTS_BYTES, len(file) - 8, len(file) - 1, numbers.randrange(len(file))))
    more = bytes(numbers.choice((1, 8, 64, 65_536 - len(file), 65_537 - len(file))))
    return file[:cut] if numbers.random() < 0.6 else file + more


def wrong_count(numbers, lists):
    """A count outside its limits in a file that is otherwise in order."""
    place = numbers.randrange(4)
    _, fields, least, greatest = layouts(lists)[place]
    count = numbers.choice((least - 1, greatest + 1, greatest + 2))
    changed = list(lists)
    changed[place] = [numbers.choice(lists[place]) for _ in range(count)]
    return file_of(changed)


def wrong_order(numbers, lists):
    """Two kinds exchanged, each with its own body."""
    places = numbers.sample(range(4), 2)
    file = file_of(lists)
    first, second = (struct.unpack_from("<3q", file, 8 + 24 * place) for place in places)
    for place, entry in zip(places, (second, first)):
        file = file[:8 + 24 * place] + struct.pack("<3q", *entry) + file[32 + 24 * place:]
    return file


def other_day_kind(numbers, lists):
    """Days with marks said to be of kind 3, and days without of kind 5: by the kind alone, and by a whole contents table."""
    for said, either in ((3, with_marks(numbers, lists)), (5, (*lists[:2], unmarked(lists[2]), lists[3]))):
        file = file_of(either)
        yield with_word(file, DAY_KIND, said)
        yield encode(either, said)[:CONTENTS_BYTES] + file[CONTENTS_BYTES:]


def refused_1(numbers, lists):
    return numbers.choice((wrong_contents, wrong_contents, wrong_length, wrong_length, wrong_count, wrong_order))(numbers, lists)


def with_field_wrong(numbers, lists, place, field):
    """The lists with a field of one record outside its range."""
    record = numbers.randrange(len(lists[place]))
    low, high = layouts(lists)[place][1][field]
    outside = [value for value in (low - 1, high + 1) + EXTREMES if not low <= value <= high]
    changed = [list(records) for records in lists]
    row = list(changed[place][record])
    row[field] = numbers.choice(outside)
    changed[place][record] = tuple(row)
    return changed


def wrong_field(numbers, lists):
    place = numbers.randrange(4)
    return with_field_wrong(numbers, lists, place, numbers.randrange(len(layouts(lists)[place][1])))


def refused_2(numbers, lists):
    return file_of(wrong_field(numbers, lists))


def wrong_mark(numbers, lists):
    """The lists in kind 5 with a mark that is none, in the first record, the last, or one between."""
    marks = some_marks(numbers, len(lists[2]))
    marks[numbers.choice((0, -1, numbers.randrange(len(marks))))] = numbers.choice(NO_MARKS)
    return [*lists[:2], marked(lists[2], marks), lists[3]]


def refused_by_mark(numbers, lists):
    """With 2, also where ids fall or days jump."""
    others = (lambda numbers, lists: lists, ids_that_fall, days_that_jump)
    return file_of(wrong_mark(numbers, numbers.choice(others)(numbers, lists)))


def ids_that_fall(numbers, lists):
    """The lists with two equal or exchanged ids in section 1 or 2."""
    changed = [list(records) for records in lists]
    place = numbers.randrange(2)
    records = changed[place]
    if len(records) == 1:
        records.append(records[0])
    else:
        i = numbers.randrange(len(records) - 1)
        other = records[i + 1][0] if numbers.random() < 0.5 else records[i][0]
        records[i], records[i + 1] = (other, *records[i][1:]), (records[i][0], *records[i + 1][1:])
    return changed


def refused_3(numbers, lists):
    return file_of(ids_that_fall(numbers, lists))


def days_that_jump(numbers, lists):
    """The lists with a day repeated, left out, or out of order."""
    changed = [list(records) for records in lists]
    days = changed[2]
    i = numbers.randrange(1, len(days))
    shift = numbers.choice((-1, 1, -2, 30))
    days[i:] = [(min(max(day[0] + shift, 41_317), 69_806), *day[1:]) for day in days[i:]]
    if numbers.random() < 0.3:
        days.reverse()
    return changed


def refused_4(numbers, lists):
    return file_of(days_that_jump(numbers, lists))


def refused_twice(numbers, lists):
    """Two or three kinds of damage in one file: the lowest number counts."""
    changed = lists
    for damage in numbers.sample((wrong_field, ids_that_fall, days_that_jump), numbers.randint(2, 3)):
        changed = damage(numbers, changed)
    if numbers.random() < 0.2:
        return wrong_contents(numbers, changed)
    return file_of(changed)


def flipped(numbers, lists):
    """Up to three bits flipped anywhere, as a bad disc would do."""
    file = bytearray(file_of(lists))
    for _ in range(numbers.randint(1, 3)):
        file[numbers.randrange(len(file))] ^= 1 << numbers.randrange(8)
    return bytes(file)


KINDS = (refused_1, refused_2, refused_3, refused_4, refused_twice, flipped, refused_by_mark)


def one_too_many(full, place):
    """A session with as many records as there may be, and one more of one kind, in order with the others."""
    changed = [list(records) for records in full]
    first, *rest = changed[place][0]
    following = first if place == 3 else changed[place][-1][0] + 1
    changed[place].append((following, *rest))
    return file_of(changed)


def over_long(lists):
    """Bytes behind a sound file: up to the greatest length of any file, a byte past it, and far past it."""
    file = file_of(lists)
    return [file.ljust(length, bytes(1)) for length in (65_536, 65_537, 200_000)]


def one_too_few(lists, place):
    changed = list(lists)
    changed[place] = lists[place][:layouts(lists)[place][2] - 1]
    return file_of(changed)


def each_word_wrong(lists):
    """The contents table with -1, which no word of it may be, for each word in turn."""
    file = file_of(lists)
    return [with_word(file, index, -1) for index in range(CONTENTS_BYTES // 8)]


def each_field_wrong(numbers, lists):
    """A field of each place outside its range, in turn."""
    for place, (_, fields, _, _) in enumerate(layouts(lists)):
        yield from (file_of(with_field_wrong(numbers, lists, place, field)) for field in range(len(fields)))


def files(numbers, full, sound, each):
    """Over-long files, each word of a contents table and each field wrong, counts just outside their limits, then `each`
    damaged files of every sort, made from the sound sessions, and days of another kind than said.
    """
    return [
        *over_long(numbers.choice(sound)),
        *each_word_wrong(numbers.choice(sound)),
        *each_field_wrong(numbers, with_marks(numbers, numbers.choice(sound))),
        *(one_too_many(full, place) for place in range(4)),
        one_too_many(with_marks(numbers, full), 2),
        *(one_too_few(numbers.choice(sound), place) for place in range(4)),
        one_too_few(with_marks(numbers, numbers.choice(sound)), 2),
        *(kind(numbers, numbers.choice(sound)) for kind in KINDS for _ in range(each)),
        *(file for _ in range(11) for file in other_day_kind(numbers, numbers.choice(sound))),
    ]
