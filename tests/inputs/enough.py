"""The inputs hold what the comparisons need: each refusal and each trap so often, and a fault at each place."""

import re
from collections import Counter
from itertools import combinations, permutations, product

import programs
from reference import rowwords, session

from . import earth, features, marktraps, passtraps, rowtraps, sharing, short, single
from .questions import DAYS_FROM_ROWS, ORIENTATION, answered, refusal
from .rows import FIELDS, VALUES

# What becomes of a marked record's UT1-UTC, or would by another TAI-UTC.
MOVED = (
    *("UT1R above 900,000,000", "UT1R below -900,000,000"),
    *("tide moved by TAI-UTC of the next day", "tide moved by TAI-UTC of the day before"),
)

LEAST = {
    "files": 500,
    "file accepted": 250,
    **{"file refused with %d" % number: 10 for number in (1, 2, 3, 4)},
    **{"pass refused with %d" % number: 10 for number in (5, 6)},
    "days before 51,544": 50,
    "negative declination": 50,
    "pole at 1,000,000 either side": 20,
    "station at 6,400,000,000 either side": 20,
    "pass over midnight": 20,
    "step 3,600,000": 10,
    "4,096 samples": 5,
    "differing TAI-UTC": 20,
    **{"TAI-UTC %s by %s" % step: 10 for step in product(("rises", "falls"), ("the next day", "99"))},
    "pass on the file's last day": 10,
    "file: days of kind 3": 200,
    "file: days of kind 5": 100,
    **{"file: marks %s" % marks: 10 for marks in ("0 alone", "1 alone", "0 and 1", "0, 0", "0, 1", "1, 0", "1, 1")},
    **{"file: " + trap: 10 for trap in ("another kind of days", "a mark that is none")},
    **{"file: days of kind %d said to be of kind %d" % kinds: 10 for kinds in ((3, 5), (5, 3))},
    **{"file: kind %d in as many bytes as kind %d" % kinds: 10 for kinds in ((3, 5), (5, 3))},
    "file: pass over midnight with marks": 20,
    "file: pass over a midnight at which the mark changes": 10,
    **{"file: " + trap: 10 for trap in MOVED},
}

# Of each of these in the questions on orientation from files of kind 5 there are 10.
MARKS = (*("marks %d, %d" % marks for marks in product((0, 1), repeat=2)), *MOVED)

# And of each of these in the questions on the writer.
WRITTEN = (
    *("kind %d written with %d" % case for case in product((3, 5), (0, 1, 2, 3, 4, 7))),
    *("another kind written with %d" % number for number in (1, 2)),
    *("%s before %s" % pair for pair in marktraps.PAIRS),
    *("%s for kind %d" % case for case in product(("a mark that is none", "five numbers a record"), (3, 5))),
    *("a mark 1 for kind 3", "marks 0 and 1 for kind 5", "a room of 15,464"),
    "another kind with a day list that is not judged",
)

# And of each of these in the questions on all passes together.
TOGETHER = (
    *("%s answered" % passes for passes in ("one pass", "two passes", "several passes", "64 passes")),
    *("file refused with %d" % number for number in (1, 2, 3, 4)),
    *("%s pass refused with %d" % case for case in product(("first", "middle", "last"), (5, 6, 8))),
    *("%d before %d" % pair for pair in permutations((5, 6, 8), 2)),
    *("refused with %d in ample room" % number for number in (5, 6)),
    *("refused with %d in tight room" % number for number in (5, 6, 8)),
    *("ample from the first pass on", "ample from a later pass on", "never ample"),
    *("no room", "room for the first pass alone", "a segment short", "a number short", "just enough"),
    *("just ample", "a number short of ample", "numbers behind the last whole segment"),
)

# And of each of these in the questions on a single pass.
SINGLE = (
    *("tracked with %d" % number for number in (0, 1, 2, 3, 4, 5, 6, 8)),
    *("%d in room for no segment" % number for number in (1, 2, 3, 4, 5, 6, 8)),
    *("beyond the last pass", "a name and a day that are not there"),
    *("only %s unlike the first pass's" % part for part in passtraps.PARTS),
    *("%d samples" % count for count in single.LENGTHS),
    *("no room", "a segment short", "a number short", "just enough", "numbers behind the last whole segment"),
    *("days of kind 3", *("marks %d, %d" % marks for marks in product((0, 1), repeat=2))),
    *("pass over midnight with marks", "pass over a midnight at which the mark changes"),
)

# And of each of these in the questions on rows.
ROWS_READ = (
    *("read with %d" % number for number in (0, 1, 10, 11, 2)),
    *("%d before %d" % pair for pair in combinations((1, 10, 11, 2), 2)),
    *("%s in %s" % case for case in product(rowtraps.SHAPES, FIELDS)),
    *("%s in %s" % case for case in product(rowtraps.ODD, VALUES)),
    *("%s, %s" % case for case in product(rowtraps.SHAPES, rowtraps.ROLES)),
    *("misprinted %s, %s" % case for case in product(VALUES, rowtraps.ROLES)),
    *("a digit %s %s" % case for case in product(("before", "behind"), FIELDS)),
    *("row ends in %s, %s" % case for case in (("MJD", "of no day"), *product(VALUES, rowtraps.ROLES))),
    *("row ends behind %s" % field for field in FIELDS),
    *("%s the end of %s%s" % case for case in product(("at", "beyond"), ("", "-"), VALUES)),
    *("CR behind the columns", "CR in the columns", "CR amid a row", "empty row", "row longer than 185"),
    *("days out of order", "negative MJD", "a fraction of a day", "more rows than days"),
    *("two rows of a day", "two rows of a day that differ", "a sound row behind a misprinted one"),
    *("no text", "352 full rows", "longest text", "a byte too long", "bytes behind the last line feed"),
    *("a row behind the last line feed", "a missing day behind the last line feed"),
    *("count %d" % count for count in (-1, 0, 1, 2, 64, 65)),
    *("a count beyond 32 bits", "an end beyond 64 bits"),
    *("first day 41,316", "first day 41,317", "last day 69,806", "last day 69,807"),
    *("another number of TAI-UTC", "one TAI-UTC too few", "one TAI-UTC too many"),
    *("TAI-UTC %d" % seconds for seconds in (-1, 0, 99, 100)),
)
ROWS_WRITTEN = (
    *("written with %d" % number for number in (0, 2, 7)),
    *("2 before 7", "no whole record at the end", "days that follow", "days that do not follow"),
    *("marks 0 and 1", "marks 0 alone", "five numbers a record"),
    *("no record", "one record", "two records", "64 records", "65 records"),
    *("%s in field %d" % case for case in product(("low", "high", "too low", "too high"), range(6))),
    *("UT1-UTC in parts of 100", "negative UT1-UTC in parts of 100"),
    *("no room", "a row short", "a byte short", "just enough room", "room left"),
)


def too_few(counts, least):
    """Each name whose count is below the least that is wanted."""
    found = [(name, counts.get(name, 0), wanted) for name, wanted in least.items()]
    return ["%s: %d, wanted %d" % each for each in found if each[1] < each[2]]


def session_files(tally):
    files = [file for file, _ in programs.sessions()]
    tally.nothing_wrong("enough session files", too_few({**features.count(files), "files": len(files)}, LEAST))


def places_of_faults(tally):
    """Each word of the contents table, the length, each field and each order is wrong in some file."""
    faults = (session.fault(file) for file, _ in programs.sessions())
    found = {(number, kind, field) for number, kind, _, field in faults}
    contents = {(1, 0, field) for field in range(14)}
    layouts = [layout for kinds in session.PLACES for layout in kinds]
    fields = {(2, kind, field) for kind, ranges, _, _ in layouts for field in range(len(ranges))}
    missing = (contents | fields | {(3, 1, 0), (3, 2, 0), (4, 3, 0), (4, 5, 0)}) - found
    tally.check("enough: a fault at each place", not missing, "none at %s" % sorted(missing))


def questions_of_earth(tally):
    """Of the questions with a day half are before 51,544, and f lies before and past its day often enough."""
    made = [question for question, _ in programs.questions("earth")]
    days = [question.a for question in made if question.what in earth.OF_A_DAY]
    times = [question.b for question in made if question.what == earth.ANGLE]
    counts = {
        "questions": len(made),
        "f negative": sum(-100_000_000 <= f < 0 for f in times),
        "f past a day": sum(86_400_000_000 <= f <= 86_500_000_000 for f in times),
        "days before 51,544": 2 * sum(day < 51_544 for day in days),
    }
    least = {"questions": 10_000, "f negative": 100, "f past a day": 100, "days before 51,544": len(days)}
    tally.nothing_wrong("enough questions of earth", too_few(counts, least))


def marks_and_kinds(tally):
    asked = [question for question, _ in programs.questions("delay") if question.what == ORIENTATION]
    written = [question for question, _ in programs.questions("write") if answered(question)]
    counts = Counter(trap for question in asked for trap in marktraps.of_epoch(question))
    counts.update(trap for question in written for trap in marktraps.of_lists(question))
    tally.nothing_wrong("enough of marks and kinds", too_few(counts, dict.fromkeys((*MARKS, *WRITTEN), 10)))


def passes_together(tally):
    made = [question for question, _ in programs.questions("together")]
    counts = Counter(trap for question in made for trap in sharing.traps(question.lent, question.room))
    tally.nothing_wrong("enough of passes together", too_few(counts, dict.fromkeys(TOGETHER, 10)))


def single_passes(tally):
    made = [(question, refusal(question, lines)) for question, lines in programs.questions("single")]
    counts = Counter(trap for question, number in made for trap in passtraps.traps(question, number))
    tally.nothing_wrong("enough of single passes", too_few(counts, dict.fromkeys(SINGLE, 10)))


def rows_read_and_written(tally):
    """Of the texts there are 1,000, too."""
    made = {question for question, _ in programs.questions("bulletin")}
    counts = Counter(trap for question in made for trap in rowtraps.traps(question))
    counts["texts"] = sum(question.what == DAYS_FROM_ROWS for question in made)
    least = {"texts": 1_000, **dict.fromkeys((*ROWS_READ, *ROWS_WRITTEN), 10)}
    tally.nothing_wrong("enough of rows", too_few(counts, least))


def runs_of_days(tally):
    """Each status and each refusal; each field misprinted, cut off and out of its range."""
    outcomes = [(wrote.decode(), said.decode(), status) for _, (wrote, said, status) in programs.runs()]
    counts = Counter(wrote.strip() if status == 1 else "status %d" % status for wrote, _, status in outcomes)
    least = dict.fromkeys(("status 0", "status 2", *("refused %d" % number for number in (1, 2, 10, 11))), 10)
    in_rows = [form % field for field in rowwords.FIELDS[:4] for form in (" %s is '", "and %s stands", " %s is -?[0-9]+, ")]
    said = {form: sum(re.search(form, words) is not None for _, words, _ in outcomes) for form in (*in_rows, "TAI-UTC is ")}
    tally.nothing_wrong("enough runs of days", too_few({**counts, **said}, {**least, **dict.fromkeys(said, 3)}))


def each_kind_of_answer(tally):
    """Each call is asked with an answer and with each number that the documents let it give, and gives no other."""
    counts = Counter(kind for _, kind in short.kinds(programs.all_questions()))
    tally.equal("kinds of answers", sorted(counts), sorted(short.expected_kinds()))
    for name in short.GIVEN:
        refused = ["%d refused with %d" % (counts[name, number], number) for number in short.GIVEN[name]]
        tally.say(", ".join(["%s: %d answered" % (name, counts[name, 0]), *refused]))


def run(tally):
    session_files(tally)
    places_of_faults(tally)
    questions_of_earth(tally)
    marks_and_kinds(tally)
    passes_together(tally)
    single_passes(tally)
    rows_read_and_written(tally)
    runs_of_days(tally)
    each_kind_of_answer(tally)
