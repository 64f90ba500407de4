"""What ./days prints and says, its status, and what it does where a read or a write fails. One test an input.

The proved program is run; tests/scripts/tracks.py and builds.py try what it shares with ./tracks.
"""

import os
import subprocess

from inputs import days as cases
from inputs import finals
from rattle import ROOT
from reference import rowwords, words
from scripts.ran import breaks_off, lines, refuses

DAYS = os.path.join(ROOT, "days")
WORDS = ("57361", "2", "36", "36")
ROWS = b"".join(row + b"\n" for row in finals.rows()[:9])


def ran(*args, **more):
    """Status, standard output and standard error of ./days; input of no bytes where none is given."""
    if "stdin" not in more and "input" not in more:
        more["input"] = b""
    more = {"stdout": subprocess.PIPE, "timeout": 120, **more}
    done = subprocess.run([DAYS, *args], stderr=subprocess.PIPE, **more)
    return (done.returncode, done.stdout, done.stderr.decode(errors="replace"))


def wanted(args, rows):
    """What a run gives, by the reference, where nothing is lost."""
    printed, said, status = cases.outcome(cases.Run(args, rows))
    return (status, printed, said.decode())


def answers(tally):
    """The first run may build the program, and then says so."""
    tally.equal("./days", ran(*WORDS, input=ROWS, timeout=None)[:2], wanted(WORDS, ROWS)[:2])
    tally.equal("./days, built", ran(*WORDS, input=ROWS), wanted(WORDS, ROWS))
    tally.equal("./days from another folder", ran(*WORDS, input=ROWS, cwd="/"), wanted(WORDS, ROWS))
    for name, args in (("a negative day", ("-3", "2", "1", "1")), ("a count", ("57361", "65", "36"))):
        tally.equal("./days, refused: %s" % name, ran(*args, input=ROWS), wanted(args, ROWS))
    tally.equal("./days, refused: too long", ran(*WORDS, input=ROWS * 60), wanted(WORDS, (ROWS * 60)[:65_537]))


def misused(tally):
    for args in ((), ("57361",), ("x", "2"), ("57361", "2", "36", "36 "), ("57361", ""), ("--verbose", "2"), ("--", "2")):
        got = ran(*args, input=ROWS)
        right = got[:2] == (2, b"") and got[2].startswith("days: ") and got[2].endswith(rowwords.USAGE + "\n")
        tally.check("./days %s" % " ".join(args), right and got[2].count("\n") == 1, "%.300r" % (got,))


def told(tally):
    """What it says of itself."""
    status, printed, said = ran("--help")
    named = (rowwords.USAGE, "--version", "Status: 0", "docs/SESSION-FILE.md", "full UT1", "kind 5")
    whole = all(word in printed.decode() for word in named)
    tally.check("./days --help", (status, said) == (0, "") and whole, "%.300r" % printed)
    tracks = subprocess.run([os.path.join(ROOT, "tracks"), "--version"], stdout=subprocess.PIPE, check=True).stdout
    tally.equal("./days --version", ran("--version"), (0, tracks, ""))
    with open("/dev/full", "wb") as out:
        got = ran("--help", stdout=out)
    refuses(tally, "./days --help to a full disk", (got[0], "", got[2]), 3, "days: standard output could not be written")


def unwritten(tally):
    for name, rows in (("records", ROWS), ("a refusal", b"")):
        with open("/dev/full", "wb") as out:
            got = ran(*WORDS, input=rows, stdout=out)
        tally.equal("%s to a full disk" % name, got, (3, None, lines(rowwords.UNWRITTEN) + wanted(WORDS, rows)[2]))
    reading, writing = os.pipe()
    os.close(reading)
    got = ran(*WORDS, input=ROWS, stdout=writing)
    os.close(writing)
    tally.equal("records to a pipe that nobody reads", got, (3, None, lines(rowwords.UNWRITTEN)))
    got = ran(*WORDS, input=ROWS, stdout=None, preexec_fn=lambda: os.close(1))
    tally.equal("records to a closed output", got, (3, None, lines(rowwords.UNWRITTEN)))


def lost_at(rows):
    """What a run gives that could read these rows and no more."""
    _, printed, said = wanted(WORDS, rows)
    return (3, printed, lines(words.UNREAD % len(rows)) + said)


def unread(tally):
    tally.equal("no input", ran(*WORDS, stdin=None, preexec_fn=lambda: os.close(0)), lost_at(b""))
    for name, rows in (("behind the rows", ROWS), ("in a row", ROWS[:700])):
        ours = breaks_off(rows)
        tally.equal("a read error %s" % name, ran(*WORDS, stdin=ours), lost_at(rows))
        os.close(ours)
    with open("/dev/zero", "rb") as zeros:
        tally.equal("zeros without end, as rows", ran(*WORDS, stdin=zeros), wanted(WORDS, bytes(65_537)))


def run(tally):
    for test in (answers, misused, told, unwritten, unread):
        test(tally)
    tally.say("scripts: ./days")
