"""A promise is named once: the `ensures` of each public call is one proposition of specs/Promises.antt, and the theorem
of one value takes it twice.

So neither can be weakened without the other. A public call is a `pub fn` in lib.rt of a crate that C's functions or the
program stand on, or one of those functions themselves; each is one test.
"""

import glob
import os
import re

from rattle import ROOT

ARCHIVE = "erlensieg"
CRATES = ["bulletin", "sine", "earth", "session", "writer", "delay", "track", "predict", "fringe", "program"]
CALL = re.compile(
    r'^pub (?:extern "C" )?fn (\w+)(?:<[^(]*>)?\([^{]*?\)(?: -> [^{]*?)?\n((?:    (?:ensures|requires) .*\n(?:        .*\n)*)*)\{',
    re.MULTILINE,
)


def read(*path):
    with open(os.path.join(ROOT, "crates", *path), encoding="utf-8") as file:
        return file.read()


def calls(text):
    """The functions that are public, each with its contract."""
    return CALL.findall(text)


def cited(contract):
    """The one promise that is the whole of a contract, or None."""
    found = re.fullmatch(r"\s*ensures(?: \w+)? \{ (\w+Promise) [^×→{}]*\}\s*", contract)
    return found and found.group(1)


def theorems(crate):
    """The statements of the laws in proofs/."""
    for path in glob.glob(os.path.join(ROOT, "crates", crate, "proofs", "*.antt")):
        yield from re.findall(r"^\s*pub [\w'-]+ : .*(?:\n\s+→.*)*", read(path), re.MULTILINE)


def promises_of(crate):
    """The promises that a crate names."""
    return re.findall(r"^abbrev pub (\w+Promise) :", read(crate, "specs", "Promises.antt"), re.MULTILINE)


def wrong_call(crate, promise):
    """What is wrong about a public call that ensures this."""
    if promise not in promises_of(crate):
        yield "it ensures something else than one promise of its crate"
        return
    twice = [law for law in theorems(crate) if len(re.findall(r"\b%s\b" % promise, law)) == 2]
    yield "" if len(twice) == 1 else "%d theorems of one value take %s twice" % (len(twice), promise)


def check_crate(tally, crate):
    """Each public call has a promise of its own crate, and each promise is a call's."""
    kept = {name: cited(contract) for name, contract in calls(read(crate, "src", "lib.rt"))}
    for name, promise in kept.items():
        tally.nothing_wrong("%s::%s" % (crate, name), wrong_call(crate, promise))
    same = kept and sorted(filter(None, kept.values())) == sorted(promises_of(crate))
    tally.check("%s has a promise for each public call, and no other" % crate, same)


def check_exports(tally):
    """What C calls has the promise of the call under it, or, where it hands out another shape, one of its own."""
    named = {name for crate in [*CRATES, ARCHIVE] for name in promises_of(crate)}
    texts = [read(path) for path in sorted(glob.glob(os.path.join(ROOT, "crates", ARCHIVE, "src", "*.rt")))]
    exported = [call for text in texts for call in calls(text) if call[0].startswith("fringe_")]
    for name, contract in exported:
        tally.check("%s ensures a promise, and nothing else" % name, cited(contract) in named)
    tally.check("crate %s exports functions" % ARCHIVE, exported)


def run(tally):
    for crate in CRATES:
        check_crate(tally, crate)
    check_exports(tally)
