"""What ./tracks prints and says, its status, and what it does where a read or a write fails. One test an input.

The proved program is run; tests/scripts/builds.py tries when the script builds it.
"""

import os
import re
import resource
import shutil
import subprocess
import tempfile
import time

from inputs import program as cases
from inputs import spoken
from rattle import ROOT
from reference import session, words
from scripts.ran import SESSION as SAMPLE
from scripts.ran import breaks_off, contents, lines, unreadable

TRACKS = os.path.join(ROOT, "tracks")


def ran(*args, **more):
    """Status, standard output and standard error of ./tracks; input of no bytes where none is given."""
    if "stdin" not in more and "input" not in more:
        more["input"] = b""
    more = {"stdout": subprocess.PIPE, "timeout": 120, **more}
    done = subprocess.run([TRACKS, *args], stderr=subprocess.PIPE, **more)
    return (done.returncode, done.stdout, done.stderr.decode(errors="replace"))


def status_of(file):
    """By the reference, where nothing is lost."""
    return 1 if b"refused" in cases.printed(file) else 0


def wanted(file):
    """What a run on this file gives, by the reference, where nothing is lost."""
    printed = cases.printed(file)
    return (status_of(file), printed, cases.said(file, printed).decode())


# ---- how a file is named


def answers(tally):
    """The first run may build the program, and then says so."""
    file = contents(SAMPLE)
    tally.equal("./tracks", ran(timeout=None)[:2], wanted(file)[:2])
    tally.equal("./tracks, built", ran(), wanted(file))
    tally.equal("./tracks FILE", ran("session", cwd=os.path.dirname(SAMPLE)), wanted(file))
    tally.equal("./tracks -", ran("-", input=file), wanted(file))
    tally.equal("./tracks -- FILE", ran("--", SAMPLE), wanted(file))
    tally.equal("./tracks -- -", ran("--", "-", input=file), wanted(file))
    with tempfile.TemporaryDirectory() as folder:
        shutil.copy(SAMPLE, os.path.join(folder, "-s"))
        tally.equal("./tracks -- of a name that begins with -", ran("--", "-s", cwd=folder), wanted(file))


def wrong_use(tally, name, got, said):
    tally.check(name, got[:2] == (2, b"") and got[2].startswith("tracks: ") and said in got[2], "%.300r" % (got,))


def misused(tally):
    for word in ("--verbose", "-x", "--help=1", "---"):
        wrong_use(tally, "./tracks " + word, ran(word), "'%s' is no word of ./tracks; usage: ./tracks" % word)
    unreadable(tally, "tracks")


def told(tally):
    """What it says of itself."""
    status, printed, said = ran("--help")
    named = ("usage: ./tracks", "--version", "Status: 0", "docs/SESSION-FILE.md")
    whole = all(word in printed.decode() for word in named)
    tally.check("./tracks --help", (status, said) == (0, "") and whole, "%.300r" % printed)
    header = contents(os.path.join(ROOT, "include", "erlensieg.h")).decode()
    version = re.search(r'^#define FRINGE_VERSION "(\d+\.\d+\.\d+)"$', header, re.MULTILINE).group(1)
    kit = subprocess.run(["rt", "version"], stdout=subprocess.PIPE, check=True).stdout
    tally.equal("./tracks --version", ran("--version"), (0, b"erlensieg %s\n" % version.encode() + kit, ""))
    for word in ("--help", "--version"):
        with open("/dev/full", "wb") as out:
            got = ran(word, stdout=out)
        said = "tracks: standard output could not be written\n"
        tally.check("./tracks %s to a full disk" % word, got[0] == 3 and got[2].endswith(said), "%.300r" % (got,))


# ---- what is refused

CUT = contents(SAMPLE)[:-8]
SOME_REFUSED = spoken.leaving()[0]


def refusals(tally):
    files = {"no bytes": b"", "a file that is cut off": CUT, "text": spoken.LETTERS, "passes": SOME_REFUSED}
    for name, file in files.items():
        tally.equal("./tracks, refused: %s" % name, ran("-", input=file), wanted(file))
    tally.equal("the status of refused passes", [status_of(file) for file in (SOME_REFUSED, contents(SAMPLE))], [1, 0])


# ---- what is lost in writing


def long_session():
    """Four passes, whose texts are each longer than a pipe holds."""
    near, sources, days, _ = spoken.lists()
    far = (20, -near[0][1], near[0][2], near[0][3])
    return session.encode(([*near, far], sources, days, [(10, 20, 1, spoken.FIRST_DAY, 0, 20_000, 4_096, 0)] * 4))


def full(tally):
    for name, file, whole in (
        ("tracks", contents(SAMPLE), words.UNWRITTEN % (0, 4)),
        ("a refused file", CUT, words.REFUSAL_UNWRITTEN),
        ("refused passes", SOME_REFUSED, words.UNWRITTEN % (0, 12)),
    ):
        with open("/dev/full", "wb") as out:
            got = ran("-", input=file, stdout=out)
        tally.equal("%s to a full disk" % name, got, (3, None, lines(whole) + wanted(file)[2]))


def closed_outputs(tally):
    file = contents(SAMPLE)
    said = lines(words.UNWRITTEN % (0, 4))
    reading, writing = os.pipe()
    os.close(reading)
    tally.equal("a pipe that nobody reads", ran("-", input=file, stdout=writing), (3, None, said))
    os.close(writing)
    got = ran("-", input=file, stdout=None, preexec_fn=lambda: os.close(1))
    tally.equal("a closed output", got, (3, None, said))


def closed_early(tally):
    """The reader takes the first pass and a byte more, and goes."""
    file = long_session()
    printed = cases.printed(file)
    first = printed.index(b"pass 1 ")
    tally.check("the texts are longer than a pipe holds", min(map(len, printed.split(b"pass")[1:])) > 65_536)
    with subprocess.Popen([TRACKS, "-"], stdin=subprocess.PIPE, stdout=subprocess.PIPE, stderr=subprocess.PIPE) as run:
        run.stdin.write(file)
        run.stdin.close()
        got = b""
        while len(got) < first + 1:
            got += os.read(run.stdout.fileno(), first + 1 - len(got))
        run.stdout.close()
        said = run.stderr.read().decode()
    lost = (3, printed[:first + 1], lines(words.UNWRITTEN % (1, 4)))
    tally.equal("a pipe that is closed early", (run.returncode, got, said), lost)


def limited(tally):
    """A file that may not grow beyond the first pass and some bytes: it has the start of the text, and no more."""
    file = contents(SAMPLE)
    printed = cases.printed(file)
    most = printed.index(b"pass 1 ") + 10
    with tempfile.NamedTemporaryFile() as out:
        limit = lambda: resource.setrlimit(resource.RLIMIT_FSIZE, (most, most))
        got = ran("-", input=file, stdout=out, preexec_fn=limit)
        written = contents(out.name)
    lost = (3, None, lines(words.UNWRITTEN % (1, 4)))
    tally.equal("a file that may not grow", (got, written), (lost, printed[:most]))


# ---- what is lost in reading


def lost_at(file):
    """What a run gives that could read these bytes and no more."""
    _, printed, said = wanted(file)
    return (3, printed, lines(words.UNREAD % len(file)) + said)


def unread(tally):
    tally.equal("a closed input", ran("-", stdin=None, preexec_fn=lambda: os.close(0)), lost_at(b""))
    directory = os.open(ROOT, os.O_RDONLY)
    tally.equal("a directory as input", ran("-", stdin=directory), lost_at(b""))
    os.close(directory)


def broken_off(tally):
    file = contents(SAMPLE)
    for name, part in (("behind the file", file), ("in the middle", file[:333]), ("in the contents table", file[:50])):
        ours = breaks_off(part)
        tally.equal("a read error %s" % name, ran("-", stdin=ours), lost_at(part))
        os.close(ours)


# ---- inputs that come slowly, and that never end


def slowly(tally):
    """The file in pieces of an odd number of bytes, with pauses."""
    file = contents(SAMPLE)
    with subprocess.Popen([TRACKS, "-"], stdin=subprocess.PIPE, stdout=subprocess.PIPE, stderr=subprocess.PIPE) as run:
        for at in range(0, len(file), 77):
            run.stdin.write(file[at:at + 77])
            run.stdin.flush()
            time.sleep(0.03)
        printed, said = run.communicate()
    tally.equal("a slow pipe", (run.returncode, printed, said.decode()), wanted(file))


def endless(tally):
    with open("/dev/zero", "rb") as zeros:
        tally.equal("zeros without end", ran("-", stdin=zeros), wanted(bytes(65_537)))
    with subprocess.Popen(["yes"], stdout=subprocess.PIPE) as yes:
        tally.equal("lines without end", ran("-", stdin=yes.stdout), wanted((b"y\n" * 40_000)[:65_537]))
        yes.stdout.close()
    with subprocess.Popen(["cat", SAMPLE, "/dev/zero"], stdout=subprocess.PIPE, stderr=subprocess.DEVNULL) as sound:
        whole = contents(SAMPLE).ljust(65_537, b"\0")
        tally.equal("a sound file and zeros without end", ran("-", stdin=sound.stdout), wanted(whole))
        sound.stdout.close()


def run(tally):
    for test in (answers, misused, told, refusals):
        test(tally)
    for lost in (full, closed_outputs, closed_early, limited, unread, broken_off):
        lost(tally)
    slowly(tally)
    endless(tally)
    tally.say("scripts: ./tracks")
