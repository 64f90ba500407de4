"""When ./tracks builds the program, and what it says and answers of that; ./days does it by the same file, libexec/program.

It is tried on a copy, with a kit that proves nothing and writes down what it is asked.
"""

import os
import shutil
import subprocess
import tempfile

from rattle import ROOT

KIT = "identity of a kit\n"
RT = """#!/bin/sh
kit=$(dirname "$(dirname "$0")")
case $1 in
version) cat "$kit/version" ;;
run)
	echo "$*" >>"$kit/asked"
	cat "$kit/says" >&2
	[ ! -f "$kit/refuses" ] || exit 1
	mkdir -p out
	printf '#!/bin/sh\n. "%s"\n' "$kit/program" >out/tracks
	chmod +x out/tracks
	;;
esac
"""
PROGRAM = "echo ran\necho 0 >&3\n"
SAYS = """rt: chose --jobs 2 for whole
crate whole: modules loaded=300 checked=0
logic=proved functions=23 incremental=trusted
rt: chose --jobs 2 for text
library whole: modules loaded=40 checked=0
crate text: modules loaded=0 checked=342
logic=proved functions=30 incremental=trusted
rt: chose --jobs 2 for fields
library whole: modules loaded=12 checked=0
crate fields: modules loaded=5 checked=16
logic=proved functions=14 incremental=trusted
"""


def put(text, *path):
    os.makedirs(os.path.dirname(os.path.join(*path)), exist_ok=True)
    with open(os.path.join(*path), "w", encoding="utf-8") as file:
        file.write(text)
    os.chmod(os.path.join(*path), 0o755)


class Copy:
    """The script and the crates in a folder, and a kit beside them."""

    def __init__(self, folder):
        self.root, self.kit = os.path.join(folder, "a copy"), os.path.join(folder, "kit")
        shutil.copytree(os.path.join(ROOT, "crates"), os.path.join(self.root, "crates"), ignore=shutil.ignore_patterns("out"))
        for name in ("tracks", "libexec/program", "crates.txt", "include/erlensieg.h", "examples/session"):
            os.makedirs(os.path.dirname(os.path.join(self.root, name)), exist_ok=True)
            shutil.copy(os.path.join(ROOT, name), os.path.join(self.root, name))
        put(RT, self.kit, "bin", "rt")
        put(KIT, self.kit, "version")
        put(SAYS, self.kit, "says")
        put(PROGRAM, self.kit, "program")

    def run(self):
        """Status, standard output, standard error, and how often the kit was asked to prove."""
        env = {**os.environ, "PATH": os.path.join(self.kit, "bin") + ":" + os.environ["PATH"]}
        command = [os.path.join(self.root, "tracks")]
        done = subprocess.run(command, input="", capture_output=True, text=True, env=env, timeout=60)
        asked = os.path.join(self.kit, "asked")
        times = 0
        if os.path.exists(asked):
            with open(asked, encoding="utf-8") as file:
                times = len(file.readlines())
            os.remove(asked)
        return (done.returncode, done.stdout, done.stderr, times)

    def add(self, *path):
        """A line more at the end of a file."""
        with open(os.path.join(self.root, *path), "a", encoding="utf-8") as file:
            file.write("\n")

    def touch(self, *path):
        os.utime(os.path.join(self.root, *path))

    def change_line(self, crate):
        """Its line of crates.txt names the crate once more."""
        path = os.path.join(self.root, "crates.txt")
        with open(path, encoding="utf-8") as file:
            lines = file.read().splitlines()
        put("".join(line + (" whole" if line.split(":")[0] == crate else "") + "\n" for line in lines), path)

    def remove(self, *path):
        os.remove(os.path.join(self.root, *path))


# what is changed, and whether the program is built anew
CHANGES = (
    ("nothing", lambda copy: None, False),
    ("a file that was touched", lambda copy: copy.touch("crates", "whole", "src", "lib.rt"), False),
    ("a page", lambda copy: put("page\n", copy.root, "docs", "PAGE.md"), False),
    ("a crate that it does not stand on", lambda copy: copy.add("crates", "writer", "src", "lib.rt"), False),
    ("that crate's line in crates.txt", lambda copy: copy.change_line("writer"), False),
    ("a wrong program of such a crate", lambda copy: copy.add("crates", "program", "must-fail", "first.edit"), False),
    ("its own code", lambda copy: copy.add("crates", "tracks", "src", "main.rt"), True),
    ("the code of a crate that it stands on", lambda copy: copy.add("crates", "whole", "src", "lib.rt"), True),
    ("a definition of such a crate", lambda copy: copy.add("crates", "lines", "specs", "Text.antt"), True),
    ("a proof of such a crate", lambda copy: copy.add("crates", "delay", "proofs", "Lib.antt"), True),
    ("a new file of such a crate", lambda copy: put("\n", copy.root, "crates", "sine", "specs", "New.antt"), True),
    ("a file of such a crate taken away", lambda copy: copy.remove("crates", "sine", "specs", "New.antt"), True),
    ("its own line in crates.txt", lambda copy: copy.change_line("tracks"), True),
    ("the line of a crate that it stands on", lambda copy: copy.change_line("lines"), True),
    ("another kit", lambda copy: put("identity of another kit\n", copy.kit, "version"), True),
    ("another program in its place", lambda copy: copy.add("crates", "tracks", "out", "tracks"), True),
    ("the program taken away", lambda copy: copy.remove("crates", "tracks", "out", "tracks"), True),
)

BUILDING = "tracks: proving and building the program, the first time some minutes\n"


def first(tally, copy):
    """The first run says which crate of how many was proved; one that is proved already is counted and not named."""
    said = BUILDING + "tracks: proved 2 of %d: text\ntracks: proved 3 of %d: fields\n" % (2 * (stands_on(),))
    tally.equal("./tracks, built for the first time", copy.run(), (0, "ran\n", said, 1))


def stands_on():
    """How many crates the program stands on, itself included."""
    with open(os.path.join(ROOT, "crates.txt"), encoding="utf-8") as file:
        lines = [line.split("#")[0].split(":") for line in file if ":" in line.split("#")[0]]
    below = {line[0].split()[0]: line[1] for line in lines}
    found, todo = set(), ["tracks"]
    while todo:
        crate = todo.pop()
        if crate in below and crate not in found:
            found.add(crate)
            todo += below[crate].split()
    return len(found)


def changes(tally, copy):
    for name, change, builds in CHANGES:
        change(copy)
        status, printed, _, times = copy.run()
        tally.equal("./tracks, changed: %s" % name, (status, printed, times), (0, "ran\n", int(builds)))


def fails(tally, copy):
    """A build that fails is status 2, with the last lines of what the kit said, and is tried again."""
    put("rt: whole NOT PROVED\n", copy.kit, "says")
    put("", copy.kit, "refuses")
    copy.add("crates", "whole", "src", "lib.rt")
    wanted = (2, "", BUILDING + "rt: whole NOT PROVED\ntracks: the program could not be built\n", 1)
    tally.equal("./tracks, a build that fails", copy.run(), wanted)
    tally.equal("./tracks, again", copy.run(), wanted)
    os.remove(os.path.join(copy.kit, "refuses"))
    tally.equal("./tracks, a build that succeeds then", copy.run(), (0, "ran\n", BUILDING, 1))


def ended(tally, copy):
    """Programs that tell no status, or one that is none, and one that is killed."""
    said = "tracks: the program ended before it told its status\n"
    for name, lines in (("no status", ""), ("another status", "echo 7 >&3\n"), ("killed", "kill -9 $$\n")):
        put("echo ran\n" + lines, copy.kit, "program")
        tally.equal("./tracks, a program that ends: %s" % name, copy.run(), (3, "ran\n", said, 0))


def run(tally):
    with tempfile.TemporaryDirectory() as folder:
        copy = Copy(folder)
        for test in (first, changes, fails, ended):
            test(tally, copy)
    tally.say("scripts: when ./tracks builds")
