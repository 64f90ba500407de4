"""Every wrong program of the must-fail edits is refused by itself, at the place that its edit names.

An edit makes several functions wrong at once, one program of each, and its head has a line for each of them:
`# NAME (FUNCTION, PLACE): what it does`. `rt` calls an edit refused where one function is, and keeps no log. So each
edit is tried here once more, by `.ci/over` on a copy of its crate, over the libraries that `rt ci` left; the log of that
check, in the crate's folder out/, has the errors of all. PLACE is where the first error of the function's own proof
stands, or else the first goal that `search` did not prove; an error that only says that another was not admitted is none
of its own, and one that misses a name refuses nothing. A law stands for a function by its file.
"""

import glob
import os
import re
import shutil
import subprocess
import tempfile
from concurrent.futures import ThreadPoolExecutor
from functools import cache
from importlib.machinery import SourceFileLoader
from importlib.util import module_from_spec, spec_from_loader
from typing import NamedTuple

from rattle import ROOT

HEAD = re.compile(r"# (\w+) \(([\w:./+-]+), ([\w'-]+)\): (.+)")
ERROR = re.compile(r"^(?:\./)?((?:proofs|specs|src)/\S+?\.(?:antt|rt)):\d+:\d+: error: `([^`]+)`: (.*)", re.MULTILINE)
SEARCH = re.compile(r"`search` did not prove `([^`]+)`")
MISSING = re.compile(r"has no field|is not in scope|has no `|is no name|operand is missing|cannot continue")
PARTS = ("src", "specs", "proofs")


class Wrong(NamedTuple):
    crate: str
    edit: str
    name: str
    function: str
    place: str


def text(*path):
    with open(os.path.join(ROOT, *path), encoding="utf-8", errors="replace") as file:
        return file.read()


def edits():
    """Every edit, as its crate and its name."""
    paths = sorted(glob.glob(os.path.join(ROOT, "crates", "*", "must-fail", "*.edit")))
    return [(path.split(os.sep)[-3], os.path.basename(path).removesuffix(".edit")) for path in paths]


def head(crate, edit):
    """The lines before the first `file:`; those that go on with a sentence are left out."""
    lines = text("crates", crate, "must-fail", edit + ".edit").split("\nfile:")[0].splitlines()
    return [line for line in lines if not line.startswith("#   ")]


def wrong_programs():
    found = [(crate, edit, HEAD.fullmatch(line)) for crate, edit in edits() for line in head(crate, edit)]
    return [Wrong(crate, edit, *match.groups()[:3]) for crate, edit, match in found if match]


def log_path(crate, edit):
    return os.path.join(ROOT, "crates", crate, "out", "must-fail", edit + ".log")


@cache
def over():
    """.ci/over as a module."""
    loader = SourceFileLoader("over", os.path.join(ROOT, ".ci", "over"))
    made = module_from_spec(spec_from_loader(loader.name, loader))
    loader.exec_module(made)
    return made


def fresh(crate, edit):
    """Whether there is a log that is as new as the crate, the edit and the libraries under the crate."""
    if not os.path.exists(log_path(crate, edit)):
        return False
    libraries = map(over().rlib, over().below(crate, over().listed()))
    edited = os.path.join(ROOT, "crates", crate, "must-fail", edit + ".edit")
    changed = max(over().newest(crate), *(os.path.getmtime(path) for path in (edited, *libraries) if os.path.exists(path)))
    return os.path.getmtime(log_path(crate, edit)) >= changed


def apply(crate, edit, folder):
    """Applies an edit to a copy of the crate, as rt does; what is wrong about it, or nothing."""
    path, old = None, None
    for line in text("crates", crate, "must-fail", edit + ".edit").split("\n"):
        if line.startswith("file: "):
            path = os.path.join(folder, line.removeprefix("file: ").strip())
        elif line.startswith("old: "):
            old = line.removeprefix("old: ")
        elif line.startswith("new:") and path and old:
            with open(path, encoding="utf-8") as file:
                had = file.read()
            if had.count(old) != 1:
                return "%r stands %d times in %s" % (old, had.count(old), os.path.basename(path))
            with open(path, "w", encoding="utf-8") as file:
                file.write(had.replace(old, line.removeprefix("new:").removeprefix(" ")))
    return ""


def make_log(crate, edit, programs):
    """Checks the functions that an edit makes wrong, or the whole crate where a law is among them."""
    wrong = [program.function for program in programs if (program.crate, program.edit) == (crate, edit)]
    laws = any(function.endswith(".antt") for function in wrong)
    only = [] if laws else [word for function in wrong for word in ("--only", crate + "::" + function)]
    with tempfile.TemporaryDirectory() as folder:
        for part in PARTS:
            if os.path.isdir(os.path.join(ROOT, "crates", crate, part)):
                shutil.copytree(os.path.join(ROOT, "crates", crate, part), os.path.join(folder, part))
        said = apply(crate, edit, folder)
        if not said:
            command = [os.path.join(ROOT, ".ci", "over"), crate, folder, "check", "--jobs", "1", *only]
            streams = {"stdin": subprocess.DEVNULL, "stdout": subprocess.PIPE, "stderr": subprocess.STDOUT}
            said = subprocess.run(command, text=True, errors="replace", **streams).stdout
    os.makedirs(os.path.dirname(log_path(crate, edit)), exist_ok=True)
    with open(log_path(crate, edit), "w", encoding="utf-8") as file:
        file.write(said)


def make_logs(tally, programs):
    """The logs that are not there, or are older than what they are of: some at a time."""
    lacking = [(crate, edit) for crate, edit in edits() if not fresh(crate, edit)]
    crates = over().listed()
    for crate in sorted({crate for crate, _ in lacking} & set(crates)):
        over().ready(crate, crates)
    with ThreadPoolExecutor(os.cpu_count()) as pool:
        list(pool.map(lambda it: make_log(*it, programs), lacking))
    tally.say("wrong programs: %d edits were tried, the logs of %d were there" % (len(lacking), len(edits()) - len(lacking)))


def proofs_of(function):
    """Where a function's proof may stand: that of one which calls itself has a + before its name."""
    *modules, name = function.split("::")
    files = ("Invariants.antt", "Answers.antt", "Proof.antt")
    return ["/".join(["proofs", *modules, mark + name, file]) for mark in ("", "+") for file in files]


def first_error(log, wrong):
    """The place of the first error that is the function's own, or None."""
    verdict = re.search(r"^fn %s: (.*)$" % re.escape(wrong.crate + "::" + wrong.function), log, re.MULTILINE)
    law = wrong.function.endswith(".antt")
    if not law and (verdict is None or verdict.group(1) == "proved"):
        return None
    own = [wrong.function] if law else proofs_of(wrong.function)
    for path, place, words in ERROR.findall(log):
        if path in own and "was not admitted" not in words:
            return place if not MISSING.search(words) else "%s, where a name is missing: %s" % (place, words)
    closed = None if law else SEARCH.search(verdict.group(1))
    return closed and closed.group(1)


def wrong_head(crate, edit, programs):
    """What is wrong about the head of an edit: each line names a wrong program, and no two are of one function."""
    lines = head(crate, edit)
    functions = [wrong.function for wrong in programs if (wrong.crate, wrong.edit) == (crate, edit)]
    yield "" if lines else "it is empty"
    yield from ("%r names no wrong program" % line for line in lines if not HEAD.fullmatch(line))
    yield from ("%s is wrong twice" % function for function in sorted(set(functions)) if functions.count(function) > 1)


def check_heads(tally, programs):
    """An edit is one test."""
    for crate, edit in edits():
        tally.nothing_wrong("the head of %s/%s:" % (crate, edit), wrong_head(crate, edit, programs))


def listed():
    """The names that stand in the columns 'wrong program' of docs/CALLS.md."""
    for table in re.findall(r"(?:^\|.*\n)+", text("docs", "CALLS.md"), re.MULTILINE):
        rows = [[cell.strip() for cell in line.split("|")] for line in table.splitlines()]
        if "wrong program" in rows[0]:
            column = rows[0].index("wrong program")
            yield from (name for row in rows[2:] for name in re.findall(r"`(\w+)`", row[column]))


def check_page(tally, programs):
    """docs/CALLS.md names each wrong program, and in its tables no other."""
    names, said = {wrong.name for wrong in programs}, set(re.findall(r"`(\w+)`", text("docs", "CALLS.md")))
    tally.nothing_wrong("wrong programs of docs/CALLS.md:", [
        "" if names else "there are none",
        *("%s is not named" % name for name in sorted(names - said)),
        *("%s is listed and no edit has it" % name for name in sorted(set(listed()) - names)),
    ])


def run(tally):
    """Each wrong program is one test, beside those of heads and page."""
    programs = wrong_programs()
    check_heads(tally, programs)
    check_page(tally, programs)
    make_logs(tally, programs)
    for wrong in programs:
        path = log_path(wrong.crate, wrong.edit)
        log = text(path) if os.path.exists(path) else ""
        tally.equal("%s: %s is refused at" % (wrong.name, wrong.function), first_error(log, wrong), wrong.place)
    tally.say("wrong programs: %d in %d edits" % (len(programs), len(edits())))
