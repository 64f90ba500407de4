"""Wrong writers of rows: what is wrong, the module and the function that it stands in for, and the wrong function."""

from reference import bulletin, session

from .decimals import right

MARK = 5
NAMES = {8: "MJD", 19: "x", 38: "y", 59: "UT1-UTC"}


def moved(place, by):
    """One field written some columns off."""
    def placed(row, text, first, last):
        off = by if first == place else 0
        return right.placed(row, text, first + off, last + off)

    return placed


def filled(fill):
    """A text that is brought to the width of its columns in another way."""
    return lambda row, text, first, last: right.placed(row, fill(text, last - first + 1), first, last)


def partly(days, room):
    """As many rows as the room holds are written where it is too short."""
    number, written, after = right.rows_from_days(days, room)
    whole = right.text_of(days)[:len(room) // 186 * 186] if number == 7 else b""
    return (number, written, whole + after[len(whole):])


def cut_to_room(days, room):
    number, written, after = right.rows_from_days(days, room)
    return (0, len(room), right.text_of(days)[:len(room)]) if number == 7 else (number, written, after)


def touched_before_refusal(days, room):
    number, written, after = right.rows_from_days(days, room)
    return (number, written, b" " * len(room) if number == 2 else after)


def rest_cleared(days, room):
    number, written, after = right.rows_from_days(days, room)
    return (number, written, after if number else after[:written] + b" " * (len(room) - written))


def ended_by_nul(days, room):
    number, written, after = right.rows_from_days(days, room)
    return (number, written, after if number else (after[:written] + b"\0" + after[written + 1:])[:len(room)])


def room_first(days, room):
    number, written, after = right.rows_from_days(days, room)
    return (7, 0, room) if number and len(days) // 6 * 186 > len(room) else (number, written, after)


def room_for_more(days, room):
    """7 unless there is a byte more than is needed."""
    number, written, after = right.rows_from_days(days, room)
    return (7, 0, room) if number == 0 and written == len(room) else (number, written, after)


def rows_counted(days, room):
    number, written, after = right.rows_from_days(days, room)
    return (number, written // 186, after)


def whole_records(days, room):
    return right.rows_from_days(days[:len(days) // 6 * 6], room)


def in_hundreds(days):
    """UT1-UTC in parts of a hundred is no reason to refuse: it is cut."""
    return right.unwritable([number // 100 * 100 if i % 6 == 3 else number for i, number in enumerate(days)])


def apart(days):
    """Days that do not follow each other are refused."""
    firsts = days[::6]
    return right.unwritable(days) or any(after != before + 1 for before, after in zip(firsts, firsts[1:]))


def unjudged(place):
    """A field whose range is not tested."""
    value = 1 if place == MARK else max(0, bulletin.MARKED[place][0])
    return lambda days: right.unwritable([value if i % 6 == place else number for i, number in enumerate(days)])


def mark_taken(mark):
    """Records with this mark are taken, too."""
    return lambda days: right.unwritable([1 if i % 6 == MARK and number == mark else number for i, number in enumerate(days)])


def first_mark(days):
    """The first record's mark stands for all."""
    return right.unwritable([days[MARK] if i % 6 == MARK else number for i, number in enumerate(days)])


def in_fives(days):
    """Records of five numbers, without a mark."""
    return right.unwritable([number for record in session.rows(days, 5) for number in (*record, 1)])


def sorted_days(days):
    records = sorted(tuple(days[i:i + 6]) for i in range(0, len(days), 6))
    return right.text_of([number for record in records for number in record])


def unpadded(value, decimals):
    """The digits behind the point are those of the rest, without the zeros before it."""
    whole, rest = divmod(abs(value), 10**decimals)
    return "%s%d.%d" % ("-" if value < 0 else "", whole, rest)


def by_parts(value, decimals):
    """The sign goes with the whole part, which has none where it is 0."""
    return right.decimal_text(abs(value) if abs(value) < 10**decimals else value, decimals)


def trimmed(value, decimals):
    """Without the zeros at the end, but for one."""
    text = right.decimal_text(value, decimals).rstrip("0")
    return text + "0" if text.endswith(".") else text


PLACED = {
    "left-aligned": filled(lambda text, width: text.ljust(width)),
    "zeros in front": filled(lambda text, width: text.zfill(width)),
    **{"%s a column on" % name: moved(first, 1) for first, name in NAMES.items()},
    **{"%s a column before" % name: moved(first, -1) for first, name in NAMES.items()},
}

DECIMALS = {
    "the sign lost": lambda value, decimals: right.decimal_text(abs(value), decimals),
    "the sign lost before a 0": by_parts,
    "a plus sign": lambda value, decimals: ("+" if value > 0 else "") + right.decimal_text(value, decimals),
    "a sign at 0": lambda value, decimals: ("-" if value == 0 else "") + right.decimal_text(value, decimals),
    "no digit before the point": lambda value, decimals: right.decimal_text(value, decimals).replace("0.", ".", 1),
    "zeros behind the point left out": unpadded,
    "zeros at the end left out": trimmed,
    "the last digit cut": lambda value, decimals: right.decimal_text(value, decimals)[:-1] + "0",
    "a comma": lambda value, decimals: right.decimal_text(value, decimals).replace(".", ","),
}

ROWS = {
    "x and y swapped": lambda record: right.row_of((record[0], record[2], record[1], *record[3:])),
    "184 columns": lambda record: right.row_of(record)[:-1],
    "187 columns": lambda record: right.row_of(record) + b"  ",
    "columns up to the last that is read": lambda record: right.row_of(record)[:68],
    "NUL for blanks": lambda record: right.row_of(record).replace(b" ", b"\0"),
    "TAI-UTC written": lambda record: right.row_of(record)[:-2] + b"%2d" % record[4],
}

TEXTS = {
    "no line feed": lambda days: right.text_of(days).replace(b"\n", b""),
    "no line feed behind the last row": lambda days: right.text_of(days)[:-1],
    "a CR before each line feed": lambda days: right.text_of(days).replace(b"\n", b"\r\n"),
    "a CR for the line feed": lambda days: right.text_of(days).replace(b"\n", b"\r"),
    "rows sorted by day": sorted_days,
    "the first row only": lambda days: right.text_of(days[:6]) * (len(days) // 6),
}

WRITERS = {
    "rows that fit written before 7": partly,
    "rows cut to the room": cut_to_room,
    "the room touched before 2": touched_before_refusal,
    "the rest of the room cleared": rest_cleared,
    "a NUL behind the last row": ended_by_nul,
    "7 before 2": room_first,
    "a byte more room than is needed": room_for_more,
    "rows counted, not bytes": rows_counted,
    "numbers behind the last whole record left out": whole_records,
}

JUDGEMENTS = {
    "UT1-UTC in parts of a hundred cut": in_hundreds,
    "days that do not follow refused": apart,
    "one record taken": lambda days: right.unwritable(days * 2 if len(days) == 6 else days),
    "65 records taken": lambda days: right.unwritable(days[6:] if len(days) == 390 else days),
    "64 records refused": lambda days: right.unwritable(days) or len(days) == 384,
    "no record taken": lambda days: bool(days) and right.unwritable(days),
    "the last record not judged": lambda days: right.unwritable(days[:-6] + days[:6] if len(days) >= 12 else days),
    **{"the range of field %d not tested" % place: unjudged(place) for place in range(6)},
    **{"a mark %d taken" % mark: mark_taken(mark) for mark in (0, 2, -1)},
    "the first mark for all": first_mark,
    "a mark 1 refused": lambda days: right.unwritable(days) or 1 in days[MARK::6],
    "five numbers a record": in_fives,
}

WRONG = (
    *(("rows written, %s" % name, bulletin, "placed", instead) for name, instead in PLACED.items()),
    *(("rows written, %s" % name, bulletin, "decimal_text", instead) for name, instead in DECIMALS.items()),
    *(("rows written, %s" % name, bulletin, "row_of", instead) for name, instead in ROWS.items()),
    *(("rows written, %s" % name, bulletin, "text_of", instead) for name, instead in TEXTS.items()),
    *(("rows written, %s" % name, bulletin, "rows_from_days", instead) for name, instead in WRITERS.items()),
    *(("rows written, %s" % name, bulletin, "unwritable", instead) for name, instead in JUDGEMENTS.items()),
)
