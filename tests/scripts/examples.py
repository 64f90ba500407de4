"""examples/: run-host and make-session on the sample session, held to the reference; install, and the example by it."""

import os
import tempfile

from c import header
from c.compiler import RUNNER, compiled
from c.names import kinds
from rattle import ROOT
from reference import bulletin, delay, session, together, track
from scripts.ran import SESSION, contents, ran, refuses, unreadable, without_rt

INSTALL = os.path.join(ROOT, "examples", "install")


def fault_lines(name, file):
    """What examples/host.c prints of a refused file."""
    number, kind, record, field = session.fault(file)
    lines = ["%s: refused %d: %s" % (name, number, header.refusal_texts()[number])]
    if number == 1:
        return [*lines, "see number %d of the contents table, where 13 is the file's length" % field]
    section, fields = {kind: names for kind, *names in kinds()}[kind]
    return [*lines, "see section %d (%s), record %d, field %d (%s)" % (kind, section, record, field, fields[field])]


def text(lines):
    return "".join(line + "\n" for line in lines)


def tracks_lines(file):
    """What examples/host.c prints of all tracks: of each pass its count and its first segment."""
    passes = len(session.sections_of(file)[delay.PASSES])
    _, counts, room = together.all_tracks(file, [0] * 4 * 2_048 * passes)
    for i, count in enumerate(counts[:passes]):
        first = 4 * sum(counts[:i])
        yield from ("pass %d: %d segments" % (i, count), "segment %d %d %d %d" % tuple(room[first:first + 4]))


def rows_lines(file):
    """What examples/host.c prints of the days as rows, and of the session with days of these rows."""
    numbers = [number for day in session.sections_of(file)[delay.DAYS] for number in day]
    if bulletin.unwritable(numbers):
        yield "rows of the days: refused 2: %s" % header.refusal_texts()[2]
        return
    yield from ("row" + row[:68].decode() for row in bulletin.rows_of(bulletin.text_of(numbers)))
    yield from ("read back: the same days", "session with days of rows: %d bytes, the same file" % len(file))


def example_prints(file):
    """What examples/host.c prints for an accepted file of which no pass is refused."""
    lists = session.sections_of(file)
    planned = lists[delay.PASSES][0]
    samples = delay.samples_of(lists, planned)[1]
    segments = track.track_of(samples, planned[7])
    numbers, middle = [number for segment in segments for number in segment], len(samples) // 2
    ps, record = track.predict(numbers, middle)[1], track.host_at(numbers, middle)[1:]
    stations, sources, days, passes, kind = session.check(file)[1:]
    lines = ["%d stations, %d sources, %d days of kind %d, %d passes" % (stations, sources, days, kind, passes)]
    lines += ["%d samples, tolerance %d ps: %d segments" % (len(samples), planned[7], len(segments))]
    lines += ["segment %d %d %d %d" % segment for segment in segments]
    lines += ["prediction at sample %d: %d ps, %.15g s, %.15g cycles" % (middle, ps, *record)]
    lines += ["sample %d: %d ps" % numbered for numbered in enumerate(samples)]
    lines += [*tracks_lines(file), *rows_lines(file)]
    return text([*lines, *fault_lines("damaged copy", file[:104] + bytes(8) + file[112:])])


def run_host(tally):
    """The example by its script: the program's status is the script's."""
    file, command = contents(SESSION), os.path.join(ROOT, "examples", "run-host")
    tally.equal("examples/run-host", ran([command]), (0, example_prints(file), ""))
    unmarked = session.encode(session.sections_of(file), 3)
    others = [("a session without marks", unmarked, (0, example_prints(unmarked), ""))]
    mark = session.word(file, 64) + 40
    for name, damaged in (
        ("a damaged file", file[:-8] + b"\xff" * 8),
        ("a file that is cut off", file[:-8]),
        ("a file with a wrong mark", file[:mark] + b"\2" + file[mark + 1:]),
    ):
        others.append((name, damaged, (1, text(fault_lines("session", damaged)), "")))
    with tempfile.TemporaryDirectory() as folder:
        for name, lent, wanted in others:
            with open(os.path.join(folder, "lent"), "wb") as put:
                put.write(lent)
            tally.equal("examples/run-host of " + name, ran([command, "lent"], folder=folder), wanted)
    unreadable(tally, "examples/run-host")


def make_session(tally):
    """By hand, from another folder, to a file that is named; tests/run holds examples/session itself to what is made."""
    with tempfile.TemporaryDirectory() as folder:
        ran([os.path.join(ROOT, "examples", "make-session"), "made"], folder=folder)
        made = os.path.join(folder, "made")
        same = os.path.exists(made) and contents(made) == contents(SESSION)
    tally.check("examples/make-session makes the sample session", same)


def installed(tally, folder):
    """A relative PREFIX, and the example built through pkg-config from there."""
    status, said, _ = ran([INSTALL, "some/prefix"], folder=folder)
    prefix = os.path.join(os.path.realpath(folder), "some", "prefix")
    tally.check("examples/install PREFIX", status == 0 and said.startswith("install: ") and prefix in said, said)
    for place, source in (("include", header.HEADER), ("lib", header.ARCHIVE)):
        put = os.path.join(prefix, place, os.path.basename(source))
        tally.check("what is installed in %s" % place, contents(put) == contents(source))
    env = {**os.environ, "PKG_CONFIG_PATH": os.path.join(prefix, "lib", "pkgconfig")}
    version = ran(["pkg-config", "--modversion", "erlensieg"], env=env)[1]
    tally.equal("the installed version", version, header.VERSION + "\n")
    flags = ran(["pkg-config", "--cflags", "--libs", "erlensieg"], env=env)[1].split()
    out = os.path.join(folder, "example")
    made = compiled("c99", os.path.join(ROOT, "examples", "host.c"), [*flags, "-static", "-o", out], folder)
    got = ran([*RUNNER, out, SESSION]) if made == (0, "") else made
    tally.equal("the example by pkg-config", got, (0, example_prints(contents(SESSION)), ""))


def install_refuses(tally, folder):
    refuses(tally, "examples/install of nothing", ran([INSTALL]), 2, "usage:")
    refuses(tally, "examples/install of an empty name", ran([INSTALL, ""]), 2, "usage:")
    refuses(tally, "examples/install of an option", ran([INSTALL, "--help"]), 2, "usage:")
    refuses(tally, "examples/install of two names", ran([INSTALL, "a", "b"], folder=folder), 2, "usage:")
    refuses(tally, "examples/install of a file", ran([INSTALL, SESSION]), 2, "is no folder")
    without_rt(tally, "examples/install", folder)
    tally.equal("what a refused install leaves", os.listdir(folder), [])


def run(tally):
    run_host(tally)
    make_session(tally)
    with tempfile.TemporaryDirectory() as folder:
        install_refuses(tally, folder)
        installed(tally, folder)
    tally.say("scripts: examples/run-host, examples/make-session, examples/install")
