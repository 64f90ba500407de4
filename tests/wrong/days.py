"""Wrong programs `days`: what is wrong, the module and the function that it stands in for, and the wrong function."""

from inputs import days

RIGHT_PRINTED, RIGHT_FAULT, RIGHT_WORD = days.printed, days.first_fault, days.wrong_word


def misprints_before_values(rows, first, count):
    """A row without a day is named before a row that lacks a value, wherever it stands."""
    undated = [place for place, row in enumerate(rows) if days.bulletin.day_of(row) is None]
    return (undated[0], 0) if undated else RIGHT_FAULT(rows, first, count)


def second_rows_too(rows, first, count):
    """Each row of a day that is asked for has to be filled."""
    for place, row in enumerate(rows):
        day = days.bulletin.day_of(row)
        if day is None or first <= day < first + count and None in days.bulletin.values_of(row):
            return (place, 0 if day is None else 1 + days.bulletin.values_of(row).index(None))
    return None


# The first three have the contracts of the right program: what is written, how often and in which order, no contract says.
WRONG = (
    ("nothing printed", days, "printed", lambda count, numbers: b""),
    ("every line printed twice", days, "printed", lambda count, numbers: 2 * RIGHT_PRINTED(count, numbers)),
    ("the lines printed from the last to the first", days, "printed",
     lambda count, numbers: b"".join(reversed(RIGHT_PRINTED(count, numbers).splitlines(keepends=True)))),
    ("a row without a day named before another row", days, "first_fault", misprints_before_values),
    ("a second row of a day named", days, "first_fault", second_rows_too),
    ("a plus sign taken", days, "wrong_word", lambda words: RIGHT_WORD([word.removeprefix("+") for word in words])),
)
