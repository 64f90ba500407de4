"""What session files, epochs and lists to write hold that have marks and kinds of days: the traps of document 02, L4."""

from itertools import combinations

from reference import delay, session
from reference.delay import DAYS, PASSES, SOURCES, STATIONS
from reference.whole import within

from .damaged import DAY_KIND, with_word
from .questions import lists_lent

MARK = 5
GREATEST_UT1 = 900_000_000


def holding(tests):
    return {name for name, holds in tests.items() if holds}


def has_marks(file):
    """Whether the days of an accepted file are of kind 5."""
    return session.layouts_of(file)[DAYS][0] == 5


# ---- records between which a line is drawn


def tide_moved(record, tai):
    """Whether a record is marked 1, and has another tide by another TAI-UTC."""
    return record[MARK] == 1 and delay.ut1r_of(record) != delay.ut1r_of((*record[:4], tai, 1))


def of_pair(today, tomorrow):
    left = [delay.ut1r_of(record) for record in (today, tomorrow)]
    return {"marks %d, %d" % (today[MARK], tomorrow[MARK])} | holding({
        "UT1R above 900,000,000": max(left) > GREATEST_UT1,
        "UT1R below -900,000,000": min(left) < -GREATEST_UT1,
        "tide moved by TAI-UTC of the next day": tide_moved(today, tomorrow[4]),
        "tide moved by TAI-UTC of the day before": tide_moved(tomorrow, today[4]),
    })


def of_epoch(question):
    """Those of the epoch of a question on orientation that is answered, from a file of kind 5."""
    if delay.orientation(question.lent, question.a, question.b)[0] or not has_marks(question.lent):
        return set()
    return of_pair(*delay.two_days(session.sections_of(question.lent)[DAYS], question.a))


def of_pass(lists, planned):
    """Those of each day of a pass that is answered."""
    named = zip((STATIONS, STATIONS, SOURCES), planned)
    days = sorted({day for day, _ in delay.epochs_of(planned)})
    pairs = [delay.two_days(lists[DAYS], day) for day in days]
    if not all(pairs) or any(delay.named(lists[place], name) is None for place, name in named):
        return set()
    return set().union(*(of_pair(*pair) for pair in pairs)) | holding({
        "pass over midnight with marks": len(pairs) > 1,
        "pass over a midnight at which the mark changes": len({today[MARK] for today, _ in pairs}) > 1,
    })


# ---- session files


def has_table(file):
    """Whether a contents table is right for its file."""
    return session.fault_of_contents(file) is None


def of_refused_days(file):
    """Kinds and marks that are none; days of one kind in a file that says the other, by the kind alone or by all first bytes."""
    (number, kind, _, field), words = session.fault(file), session.contents_table(file)
    fault = (number, kind, field)
    found = {"another kind of days": fault == (1, 0, DAY_KIND), "a mark that is none": fault == (2, 5, MARK)}
    said, more = words[DAY_KIND], 8 * (words[DAY_KIND + 2] or 0)
    if number == 1 and within(more, 8, 8 * 64):
        found |= {
            "days of kind 3 said to be of kind 5": said == 5 and has_table(with_word(file, DAY_KIND, 3)),
            "days of kind 5 said to be of kind 3": said == 3 and has_table(with_word(file, DAY_KIND, 5)),
            "kind 5 in as many bytes as kind 3": said == 5 and has_table(file + bytes(more)),
            "kind 3 in as many bytes as kind 5": said == 3 and has_table(file[:-more]),
        }
    return holding(found)


def of_file(file):
    if session.refusal(file):
        return of_refused_days(file)
    if not has_marks(file):
        return {"days of kind 3"}
    lists = session.sections_of(file)
    marks = {day[MARK] for day in lists[DAYS]}
    found = {"marks 0 and 1": len(marks) > 1, "marks 0 alone": marks == {0}, "marks 1 alone": marks == {1}}
    return {"days of kind 5"} | holding(found).union(*(of_pass(lists, planned) for planned in lists[PASSES]))


# ---- lists to write

# What can be wrong about lists, and the number that each gives by itself.
REASONS = {"list": 1, "day list": 1, "kind": 2, "mark": 2, "field": 2, "ids": 3, "days": 4, "room": 7}
# Each with those of a higher number; where the kind is none the day list is not judged.
RISING = [pair for pair in combinations(REASONS, 2) if REASONS[pair[0]] < REASONS[pair[1]]]
PAIRS = [pair for pair in RISING if pair != ("day list", "kind")]


def reasons(day_kind, flats, room):
    """Which of these apply, each judged by itself, of whole records; a day list of no kind is judged as one of kind 5."""
    kinds = session.layouts_with(day_kind)
    layouts = [*kinds[:DAYS], kinds[DAYS] or session.layout_of(DAYS, 5), kinds[PASSES]]
    lists = [session.rows(flat[:len(flat) // width * width], width) for flat, width in zip(flats, session.WIDTHS)]
    counted = [not session.miscounted(*listed) for listed in zip(layouts, flats, session.WIDTHS)]
    bare = [*lists[:DAYS], [record[:MARK] for record in lists[DAYS]], lists[PASSES]]
    tests = {
        "list": not all(counted[:DAYS] + counted[PASSES:]),
        "day list": not counted[DAYS],
        "kind": kinds[DAYS] is None,
        "mark": not {record[MARK] for record in lists[DAYS]} <= ({0} if day_kind == 3 else {0, 1}),
        "field": session.fault_of_fields(layouts, bare),
        "ids": session.fault_of_ids(layouts, lists),
        "days": session.fault_of_days(layouts, lists),
        "room": len(session.encode(lists, layouts[DAYS][0])) > room,
    }
    return [name for name in REASONS if tests[name]]


def of_day_list(day_kind, days):
    """Marks and widths of a day list, by the kind that it is written as."""
    marks = {record[MARK] for record in session.rows(days, 6)} if len(days) % 6 == 0 else set()
    found = {"a mark that is none": not marks <= {0, 1}, "five numbers a record": len(days) % 5 == 0 < len(days) % 6}
    found |= {"a mark 1": 1 in marks, "marks 0 and 1": marks == {0, 1}}
    return {"%s for kind %d" % (name, day_kind) for name in holding(found) if day_kind in (3, 5)}


def judged(day_kind, flats, room):
    """Which of these count, the lowest number of them, and whether a day list is not judged that is of no right count."""
    found = reasons(day_kind, flats, room)
    unjudged = {"kind", "day list"} <= set(found)
    counting = [name for name in found if not (unjudged and name == "day list")]
    return (counting, min((REASONS[name] for name in counting), default=0), unjudged)


def of_lists(question):
    """The number of lists to write and their kind, and what comes before what."""
    flats, kind = lists_lent(question), question.d
    found, number, unjudged = judged(kind, flats, question.room)
    before = {"%s before %s" % pair for pair in PAIRS if set(pair) <= set(found) and REASONS[pair[0]] == number}
    named = {3: "kind 3", 5: "kind 5"}.get(kind, "another kind")
    return before | of_day_list(kind, flats[DAYS]) | {"%s written with %d" % (named, number)} | holding({
        "another kind with a day list that is not judged": unjudged and number == 2,
        "a room of 15,464": question.room == 15_464 and number == 0,
    })
