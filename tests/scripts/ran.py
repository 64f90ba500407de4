"""Running what a reader runs, and what each script refuses."""

import os
import pty
import shutil
import subprocess
import tempfile
import tty

from rattle import ROOT

SESSION = os.path.join(ROOT, "examples", "session")


def contents(path):
    with open(path, "rb") as file:
        return file.read()


def ran(words, stdin=b"", folder=ROOT, env=None):
    """Status, standard output and standard error."""
    done = subprocess.run(words, input=stdin, capture_output=True, cwd=folder, env=env)
    return (done.returncode, done.stdout.decode(errors="replace"), done.stderr.decode(errors="replace"))


def refuses(tally, name, got, status, said):
    """A test that a run ended with this status, wrote nothing, and said this on standard error."""
    tally.check(name, got[0] == status and got[1] == "" and said in got[2], "%.300r" % (got,))


def without_rt(tally, script, *words):
    """A path that has bash and what the scripts call before they ask for rt, and no rt."""
    with tempfile.TemporaryDirectory() as folder:
        for tool in ("bash", "dirname"):
            os.symlink(shutil.which(tool), os.path.join(folder, tool))
        got = ran([os.path.join(ROOT, script), *words], env={"PATH": folder})
    refuses(tally, "%s without rt" % script, got, 2, "rt must be on the path")


def unreadable(tally, script):
    """Files that a script does not read: none of them is taken for the sample session."""
    command = os.path.join(ROOT, script)
    refuses(tally, "%s of an empty name" % script, ran([command, ""]), 2, "cannot read ''")
    refuses(tally, "%s of no such file" % script, ran([command, "no/such/file"]), 2, "cannot read 'no/such/file'")
    refuses(tally, "%s of a directory" % script, ran([command, "examples"]), 2, "'examples' is a directory")
    refuses(tally, "%s of two files" % script, ran([command, SESSION, SESSION]), 2, "usage:")
    without_rt(tally, script)


def lines(*said):
    return "".join(line + "\n" for line in said)


def breaks_off(file):
    """A descriptor that gives these bytes and then an error: a terminal's one end, after the other is closed."""
    ours, theirs = pty.openpty()
    tty.setraw(theirs)
    os.write(theirs, file)
    os.close(theirs)
    return ours
