"""Files that are made and stored: each is held here to what its rule makes now, and `tests/remake` writes them anew.

They are a part of what the reference prints for each topic, with the digest of the whole; the files `stdin`, `stdout`
and `args` of the program crates; the sample session; the C headers of tests/c; and the marked parts of pages.
"""

import glob
import hashlib
import os

import c.values
import inputs.days
import inputs.program
import inputs.sample
import programs
import rattle
from inputs.questions import head, lines_of, stdin_of
from inputs.short import short
from lines import text

from . import pages

SHOWN = 120


def place(*parts):
    return os.path.join(rattle.ROOT, *parts)


def summary(heads, outputs):
    """The digest of all that is printed, and some of it, evenly spaced: number, input, what is printed."""
    digest = hashlib.sha256(b"".join(map(text, outputs))).hexdigest()
    made = ["sha256 %s of what is printed for %d inputs" % (digest, len(outputs))]
    for i in range(0, len(outputs), -(-len(outputs) // SHOWN)):
        made += ["%d: %s" % (i, heads[i]), *(("    " + line[:110]).rstrip() for line in outputs[i][:4])]
    return text(made)


def summaries():
    for topic in programs.TOPICS:
        known = programs.questions(topic)
        made = summary([head(question) for question, _ in known], [lines for _, lines in known])
        yield (place("tests", "stored", topic + ".txt"), made)
    files, wrote = zip(*programs.sessions())
    made = summary(["file of %d bytes" % len(file) for file in files], [each.decode().splitlines() for each in wrote])
    yield (place("tests", "stored", "tracks.txt"), made)
    runs, outcomes = zip(*programs.runs())
    said = [(wrote + said).decode().splitlines() for wrote, said, _ in outcomes]
    yield (place("tests", "stored", "days.txt"), summary([inputs.days.head(run) for run in runs], said))


def crate_files():
    asked = short(programs.all_questions())
    yield (place("crates", "answers", "stdin"), stdin_of(asked))
    yield (place("crates", "answers", "stdout"), text(line for question in asked for line in lines_of(question)))
    yield (place("crates", "tracks", "stdin"), inputs.program.short())
    yield (place("crates", "tracks", "stdout"), inputs.program.printed(inputs.program.short()))
    run = inputs.days.short()
    yield (place("crates", "days", "args"), text(run.words))
    yield (place("crates", "days", "stdin"), run.rows)
    yield (place("crates", "days", "stdout"), inputs.days.outcome(run)[0])


def all_files():
    """Every file that is made: its path and its bytes."""
    sample = inputs.sample.session()
    yield from summaries()
    yield from crate_files()
    yield (place("examples", "session"), sample)
    yield from c.values.files()
    yield from pages.pages(sample)


def left_over(made):
    """Files where made ones stand that nothing makes."""
    patterns = (("tests", "stored", "*.txt"), *(("crates", "*", name) for name in ("args", "stdin", "stdout")))
    found = {path for pattern in patterns for path in glob.glob(place(*pattern))}
    return sorted(name(path) for path in found - set(made))


def name(path):
    return os.path.relpath(path, rattle.ROOT)


def contents(path):
    """The bytes of a file, none where there is no file."""
    if not os.path.exists(path):
        return None
    with open(path, "rb") as file:
        return file.read()


def run(tally):
    made = dict(all_files())
    for path, wanted in made.items():
        same = contents(path) == wanted
        tally.check("stored " + name(path), same, "is not what is made now: tests/remake makes it anew")
    tally.equal("stored files that nothing makes", left_over(made), [])
