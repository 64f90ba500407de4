"""The header by itself: each language that it is for, what it declares, and what the archive needs of the C library."""

import glob
import os
import re
import tempfile

from c.compiler import PREFIX, RUNNER, compiled, done
from rattle import ROOT

STANDARDS = ("c99", "c11", "c++17")
HEADER = os.path.join(ROOT, "include", "erlensieg.h")
INCLUDE = ["-I" + os.path.join(ROOT, "include")]
ARCHIVE = os.path.join(ROOT, "crates", "erlensieg", "out", "liberlensieg.a")
LINK = ["-L" + os.path.dirname(ARCHIVE), "-lerlensieg"]

ALONE = """#include <erlensieg.h>
#include <erlensieg.h>
int nothing(void);
int nothing(void) { return FRINGE_ANSWERED; }
"""

# every function that stands in the header itself, and one of the archive's
USED = """#include <erlensieg.h>
#include <stdio.h>
int main(void)
{
	struct fringe_number made = fringe_track(fringe_no_numbers(), 0, 0, fringe_no_numbers(), 0);
	struct fringe_counts counts = fringe_check(fringe_no_bytes(), 0);
	printf("%s, %s\\n", fringe_refusal_text(made.refusal), fringe_refusal_text(counts.refusal));
	printf("%s, %s, %s\\n", fringe_section_name(FRINGE_KIND_MARKED_DAY), fringe_field_name(FRINGE_KIND_MARKED_DAY, 5),
	       FRINGE_VERSION);
	return FRINGE_VERSION_NUMBER > 65535;
}
"""


def read(path):
    with open(path, encoding="utf-8") as file:
        return file.read()


def code():
    """The header without its comments."""
    return re.sub(r"/\*.*?\*/", "", read(HEADER), flags=re.DOTALL)


VERSION = re.search(r'#define FRINGE_VERSION "(.*)"', code()).group(1)


def refusal_texts():
    """The words that the header has for each number."""
    numbers = {name: int(number) for name, number in re.findall(r"(FRINGE_\w+) = (\d+)", code())}
    return {numbers[name]: text for name, text in re.findall(r'case (FRINGE_\w+):\s+return "([^"]*)";', code())
            if not name.startswith("FRINGE_KIND_")}


def linked_and_run(standard, source):
    """What a source says when it is run, or what a compiler said; it needs nothing of C++ at run time: gcc links it."""
    object_file, program = source + ".o", source + ".out"
    made = compiled(standard, source, [*INCLUDE, "-c", "-o", object_file])
    if made == (0, ""):
        made = done([PREFIX + "gcc", object_file, *LINK, "-static", "-o", program])
    return done([*RUNNER, program]) if made == (0, "") else made


def compiles(tally, folder):
    """Alone, with none of its functions used; and with each used, linked and run."""
    texts, alone, used = refusal_texts(), os.path.join(folder, "alone"), os.path.join(folder, "used")
    for path, text in ((alone, ALONE), (used, USED)):
        with open(path, "w", encoding="utf-8") as file:
            file.write(text)
    wanted = "%s, %s\ndays, mark, %s\n" % (texts[2], texts[1], VERSION)
    for standard in STANDARDS:
        got = compiled(standard, alone, [*INCLUDE, "-c", "-o", os.devnull])
        tally.equal("the header alone as " + standard, got, (0, ""))
        tally.equal("each function of the header as " + standard, linked_and_run(standard, used), (0, wanted))
    for standard in ("c99", "c11"):
        got = compiled(standard, os.path.join(ROOT, "examples", "host.c"), [*INCLUDE, "-c", "-o", os.devnull])
        tally.equal("the example as " + standard, got, (0, ""))
    bare = done([PREFIX + "gcc", "-x", "c", used, "-x", "none", *INCLUDE, *LINK, "-o", used + ".bare"])
    tally.equal("the bare link line", bare, (0, ""))


def version(tally):
    """The version in words and as a number."""
    first, second, third = map(int, VERSION.split("."))
    number = int(re.search(r"#define FRINGE_VERSION_NUMBER (\d+)", code()).group(1))
    tally.equal("the version's number", number, 10_000 * first + 100 * second + third)


def declared(tally):
    """The header declares what the crate exports, and each must-fail edit of the crate makes all of it wrong."""
    inside = re.findall(r"^static inline [^(]*?\b(fringe_\w+)\(", code(), re.MULTILINE)
    found = sorted(set(re.findall(r"^(?!\s|static).*?\b(fringe_\w+)\(", code(), re.MULTILINE)) - set(inside))
    sources = glob.glob(os.path.join(ROOT, "crates", "erlensieg", "src", "*.rt"))
    exported = [name for path in sources for name in re.findall(r'^pub extern "C" fn (\w+)', read(path), re.MULTILINE)]
    tally.equal("the header declares what the crate exports", found, sorted(exported))
    for path in sorted(glob.glob(os.path.join(ROOT, "crates", "erlensieg", "must-fail", "*.edit"))):
        wrong = re.findall(r"^# \w+ \(\w+::(\w+), ", read(path), re.MULTILINE)
        tally.equal("%s makes every function wrong" % os.path.basename(path), sorted(wrong), found)


def needs(tally):
    """What the archive leaves to the C library."""
    status, said = done([PREFIX + "nm", "--undefined-only", ARCHIVE])
    lacking = set(re.findall(r"^ +U (\w+)$", said, re.MULTILINE))
    tally.check("the archive needs memcpy and memset at most", status == 0 and lacking <= {"memcpy", "memset"}, said)


def run(tally):
    with tempfile.TemporaryDirectory() as folder:
        compiles(tally, folder)
    version(tally)
    declared(tally)
    needs(tally)
    tally.say("the header: " + ", ".join(STANDARDS))
