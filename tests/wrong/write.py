"""Wrong writers: what is wrong, the module and the function that it stands in for, and the wrong function."""

from reference import session

RIGHT_WRITE, RIGHT_ENCODE, RIGHT_REFUSAL = session.write, session.encode, session.refusal_of_lists
DAYS = 2


def touched_before_refusal(day_kind, flats, room):
    number, written, after = RIGHT_WRITE(day_kind, flats, room)
    return (number, written, bytes(len(room)) if number else after)


def rest_cleared(day_kind, flats, room):
    number, written, after = RIGHT_WRITE(day_kind, flats, room)
    return (number, written, after if number else after[:written] + bytes(len(room) - written))


def bytes_of(day_kind, flats):
    """How long the file of lists is, whatever they hold."""
    days = len(flats[DAYS]) // 6 * (5 if day_kind == 3 else 6)
    return 104 + 8 * (sum(map(len, flats)) - len(flats[DAYS]) + days)


def room_first(day_kind, flats, room):
    """Short room is given before the lists' own numbers."""
    number, written, after = RIGHT_WRITE(day_kind, flats, room)
    return (7, 0, room) if number and bytes_of(day_kind, flats) > len(room) else (number, written, after)


def one_byte_short(day_kind, flats, room):
    number, written, after = RIGHT_WRITE(day_kind, flats, room + bytes(1))
    return (number, written, after[:len(room)])


def room_of_kind_5(day_kind, flats, room):
    """Room for marks is asked for also where none are written."""
    number, written, after = RIGHT_WRITE(day_kind, flats, room)
    return (7, 0, room) if number == 0 and bytes_of(5, flats) > len(room) else (number, written, after)


def whole_records_alone(day_kind, flats, room):
    """Numbers behind the last whole record are left out, not refused."""
    return RIGHT_WRITE(day_kind, [flat[:len(flat) // width * width] for flat, width in zip(flats, session.WIDTHS)], room)


def offsets_in_words(lists, day_kind):
    file = RIGHT_ENCODE(lists, day_kind)
    return file[:16] + (13).to_bytes(8, "little") + file[24:]


def with_marks(flats, mark):
    """The lists with other marks, where the day list has whole records."""
    days = [mark(number) if i % 6 == 5 else number for i, number in enumerate(flats[DAYS])]
    return [*flats[:DAYS], days if len(days) % 6 == 0 else flats[DAYS], flats[3]]


def mark_dropped(day_kind, flats):
    """A mark is no reason to refuse kind 3, which leaves it out."""
    return RIGHT_REFUSAL(day_kind, with_marks(flats, lambda mark: 0) if day_kind == 3 else flats)


def mark_1_dropped(day_kind, flats):
    return RIGHT_REFUSAL(day_kind, with_marks(flats, lambda mark: 0 if mark == 1 else mark) if day_kind == 3 else flats)


def any_mark_taken(day_kind, flats):
    return RIGHT_REFUSAL(day_kind, with_marks(flats, lambda mark: 0 if day_kind == 3 and mark else min(1, max(0, mark))))


def first_mark_judged(day_kind, flats):
    """For kind 3 the first record's mark stands for all."""
    first = flats[DAYS][5] if len(flats[DAYS]) > 5 else 0
    return RIGHT_REFUSAL(day_kind, with_marks(flats, lambda mark: first) if day_kind == 3 else flats)


def marks_refused(day_kind, flats):
    """A mark 1 is refused in kind 5, too."""
    number = RIGHT_REFUSAL(day_kind, flats)
    return 2 if number in (0, 3, 4) and any(flats[DAYS][5::6]) else number


def marks_after(day_kind, flats):
    """A mark in kind 3 is refused only where nothing else is."""
    return mark_dropped(day_kind, flats) or RIGHT_REFUSAL(day_kind, flats)


def kind_taken_for(other):
    """A kind that is none is taken for this one."""
    return lambda day_kind, flats, room: RIGHT_WRITE(day_kind if day_kind in (3, 5) else other, flats, room)


def kind_first(day_kind, flats):
    return 2 if day_kind not in (3, 5) else RIGHT_REFUSAL(day_kind, flats)


def kind_is_1(day_kind, flats):
    return 1 if day_kind not in (3, 5) else RIGHT_REFUSAL(day_kind, flats)


def day_list_judged(day_kind, flats):
    """The count of the day list is judged whatever the kind."""
    broken = len(flats[DAYS]) % 6 or not 2 <= len(flats[DAYS]) // 6 <= 64
    return 1 if broken else RIGHT_REFUSAL(day_kind, flats)


def day_list_in_fives(day_kind, flats):
    """For kind 3 a day list has five numbers a record."""
    if day_kind != 3 or len(flats[DAYS]) % 5:
        return 1 if day_kind == 3 else RIGHT_REFUSAL(day_kind, flats)
    days = [number for record in session.rows(flats[DAYS], 5) for number in (*record, 0)]
    return RIGHT_REFUSAL(day_kind, [*flats[:DAYS], days, flats[3]])


def encoded(change):
    return lambda lists, day_kind: RIGHT_ENCODE(*change(lists, day_kind))


def marks_0(lists, day_kind):
    return ([*lists[:DAYS], [(*day[:5], 0) for day in lists[DAYS]], lists[3]], day_kind)


def marks_1(lists, day_kind):
    return ([*lists[:DAYS], [(*day[:5], 1) for day in lists[DAYS]], lists[3]], day_kind)


def kind_by_marks(lists, day_kind):
    """Kind 5 only where a mark is not 0."""
    return (lists, day_kind if any(day[5] for day in lists[DAYS]) else 3)


REFUSALS = {
    "a mark dropped for kind 3": mark_dropped,
    "a mark 1 dropped for kind 3": mark_1_dropped,
    "marks not judged": any_mark_taken,
    "the first mark judged for all": first_mark_judged,
    "a mark 1 refused in kind 5": marks_refused,
    "a mark in kind 3 judged last": marks_after,
    "the kind judged before the lists": kind_first,
    "another kind is 1": kind_is_1,
    "the day list judged for another kind": day_list_judged,
    "five numbers a record for kind 3": day_list_in_fives,
}

ENCODINGS = {
    "first bytes counted in words": offsets_in_words,
    "marks written as 0": encoded(marks_0),
    "marks written as 1": encoded(marks_1),
    "kind 5 written always": encoded(lambda lists, day_kind: (lists, 5)),
    "kind 3 written always": encoded(lambda lists, day_kind: (lists, 3)),
    "kind 3 written where all marks are 0": encoded(kind_by_marks),
}

WRONG = (
    ("the room touched before a refusal", session, "write", touched_before_refusal),
    ("the rest of the room cleared", session, "write", rest_cleared),
    ("7 before lower numbers", session, "write", room_first),
    ("room of one byte too few", session, "write", one_byte_short),
    ("room for marks in kind 3", session, "write", room_of_kind_5),
    ("a ragged list taken", session, "write", whole_records_alone),
    ("another kind taken for 3", session, "write", kind_taken_for(3)),
    ("another kind taken for 5", session, "write", kind_taken_for(5)),
    *((name, session, "refusal_of_lists", instead) for name, instead in REFUSALS.items()),
    *((name, session, "encode", instead) for name, instead in ENCODINGS.items()),
)
