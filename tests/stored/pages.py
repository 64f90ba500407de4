"""Parts of README.md and docs/*.md that are made: what stands between `<!-- made: NAME -->` and `<!-- end -->`."""

import datetime
import glob
import os
import re
import textwrap

import inputs.days
import inputs.sample
from erfa.places import ticks_of
from inputs.damaged import DAY_KIND, with_word
from inputs.program import printed, said
from rattle import ROOT
from reference import delay, program, session, track
from reference.whole import R

BEGINS = "<!-- made: "
PART = re.compile(r"^(<!-- made: (\S+) -->\n).*?^(<!-- end -->)$", re.DOTALL | re.MULTILINE)
LINES_SHOWN = 6
UNIT = track.UNIT


def indented(lines):
    return "".join("    %s\n" % line for line in lines)


def sample_run(sample):
    """What `tracks` prints for the sample session, its first lines."""
    printed = program.lines(sample)
    return indented(["$ ./tracks", *printed[:LINES_SHOWN], *(["..."] if len(printed) > LINES_SHOWN else [])])


def utc(ms):
    """A millisecond of a day as a time of day."""
    return "%d:%02d:%02d" % (ms // 3_600_000, ms // 60_000 % 60, ms // 1_000 % 60)


def date(mjd):
    return (datetime.date(1858, 11, 17) + datetime.timedelta(mjd)).isoformat()


def sample_explained(sample):
    """The second segment of the first pass, number by number."""
    lists, names = session.sections_of(sample), inputs.sample.module().NAMES
    one, two, source, day, ms, step, _, tolerance = planned = lists[delay.PASSES][0]
    samples = delay.samples_of(lists, planned)[1]
    segments = track.track_of(samples, tolerance)
    first, count, offset, rate = segments[1]
    later = 6
    sentences = (
        "Pass 0 has %d segments." % len(segments),
        "Line 3 is its second segment: it starts at sample %d and covers %d samples." % (first, count),
        "The pass is of %s (station 1) and %s (station 2)" % (names[one], names[two]),
        "with source %s; it starts at %s UTC of %s" % (names[source], utc(ms), date(day)),
        "(MJD %d, the modified Julian day), with a sample each %s ms," % (day, grouped(step)),
        "so sample %d is at %s." % (first, utc(ms + first * step)),
        "There the offset, %d / 65,536, says a delay of %s ps:" % (offset, grouped(R(offset, UNIT))),
        "the wave reaches %s %.2f ms after %s." % (names[two], offset / UNIT / 10**9, names[one]),
        "The rate, %d / 65,536, says that each further sample adds %s ps." % (rate, grouped(R(rate, UNIT))),
        "So at sample %d, %d samples on, the track has" % (first + later, later),
        "(%d + %d · %d) / 65,536 = %s ps;" % (offset, later, rate, grouped(R(offset + later * rate, UNIT))),
        "the model has %s ps, within the tolerance of %s ps." % (grouped(samples[first + later]), grouped(tolerance)),
    )
    return textwrap.fill(" ".join(sentences), 118) + "\n"


def grouped(number):
    return format(number, ",")


def worked_place(sample):
    """examples/place.c for a source of the sample session: what is typed, and what it prints."""
    words = inputs.sample.places()[2]
    return indented([
        "gcc examples/place.c -lerfa -lm -o place        # Debian: apt-get install gcc libc6-dev liberfa-dev",
        "./place %s %s %d" % words,
        "%d %d" % ticks_of(*words),
    ])


def damaged(sample):
    """The sample session with one mistake each: what was done to it, and its bytes."""
    first_day, first_pass = session.word(sample, 64) // 8, session.word(sample, 88) // 8
    mark, second_day = first_day + 5, first_day + 6
    return (
        ("a station counted that is not there", with_word(sample, 3, 4)),
        ("days said to be of kind 6", with_word(sample, DAY_KIND, 6)),
        ("the last number cut off", sample[:-8]),
        ("text", b"Onsala 3370606 711918 5349831\nWettzell 4075540 931735 4801629\n"),
        ("X of the first station a millimetre too large", with_word(sample, 14, 6_400_000_001)),
        ("a mark of 2", with_word(sample, mark, 2)),
        ("the second station given the id of the first", with_word(sample, 17, 7213)),
        ("the second day left out and the third in its place", with_word(sample, second_day, 54197)),
        ("a pass that names no station of the file", with_word(sample, first_pass, 7214)),
        ("a pass on the file's last day", with_word(sample, first_pass + 3, 54197)),
    )


def said_of_mistakes(sample):
    """What `tracks` says on standard error of each."""
    made = ((what, said(file, printed(file)).decode().splitlines()[0]) for what, file in damaged(sample))
    folded = (textwrap.fill("- %s: `%s`" % pair, 118, subsequent_indent="  ", break_on_hyphens=False) for pair in made)
    return "".join(item + "\n" for item in folded)


def days_run(_):
    """What `days` prints for rows of the published file."""
    run = inputs.days.short()
    typed = "$ head -n 8 tests/inputs/finals2000A-2016.txt | ./days %s" % " ".join(run.words)
    return indented([typed, *inputs.days.outcome(run)[0].decode().splitlines()])


def said_of_rows(_):
    """What `days` says on standard error of mistakes in the words or the rows of the sample run."""
    words, rows = inputs.days.short()
    first, second, *rest = rows.splitlines(keepends=True)
    mistakes = (
        ("a comma for a point", words, rows.replace(b"0.299494", b"0,299494")),
        ("a row that was cut", words, first + second[:40] + b"\n" + b"".join(rest)),
        ("a day at noon", words, rows.replace(b"57364.00", b"57364.50")),
        ("a day too far", ("57365", *words[1:]), rows),
        ("x of two arcseconds", words, rows.replace(b"-0.004706", b" 2.004706")),
        ("TAI-UTC in milliseconds", (*words[:2], "36000", *words[3:]), rows),
        ("a TAI-UTC forgotten", words[:-1], rows),
    )
    made = ((what, inputs.days.outcome(inputs.days.Run(*run))[1].decode().rstrip()) for what, *run in mistakes)
    folded = (textwrap.fill("- %s: `%s`" % pair, 118, subsequent_indent="  ", break_on_hyphens=False) for pair in made)
    return "".join(item + "\n" for item in folded)


PARTS = {
    "sample-run": sample_run,
    "sample-explained": sample_explained,
    "worked-place": worked_place,
    "said-of-mistakes": said_of_mistakes,
    "days-run": days_run,
    "said-of-rows": said_of_rows,
}


def marks(page):
    """How many parts of a page are marked."""
    return sum(line.startswith(BEGINS) for line in page.splitlines())


def remade(page, sample):
    """A page with each of its marked parts made anew; a mark that has no end, or an unknown name, is an error."""
    def part(found):
        begin, name, end = found.groups()
        if name not in PARTS:
            raise ValueError("no part of a page is called %s" % name)
        return "%s\n%s\n%s" % (begin, PARTS[name](sample), end)

    made, count = PART.subn(part, page)
    if count != marks(page):
        raise ValueError("a part of a page has no end")
    return made


def pages(sample):
    """Each page that has a marked part: its path and its bytes."""
    for path in [os.path.join(ROOT, "README.md"), *sorted(glob.glob(os.path.join(ROOT, "docs", "*.md")))]:
        with open(path, encoding="utf-8") as file:
            page = file.read()
        if marks(page):
            yield (path, remade(page, sample).encode())
