"""Runs a proved program of the repository: the one that `rt ci` or `rt run` left in its crate's folder out/."""

import os
import subprocess

ROOT = os.path.dirname(os.path.dirname(os.path.abspath(__file__)))


def crates():
    """The names that crates.txt lists."""
    with open(os.path.join(ROOT, "crates.txt")) as lines:
        stripped = [line.split("#")[0].strip() for line in lines]
    return [line.split(":")[0].split()[0] for line in stripped if line]


def command(name):
    """The word that runs the program of crate NAME; an error where it was not built."""
    program = os.path.join(ROOT, "crates", name, "out", name)
    if not os.path.exists(program):
        raise FileNotFoundError("crates/%s/out/%s is not there: run `rt ci`, or `rt run` in crates/%s" % (name, name, name))
    return [program]


def run(words, stdin, kept=()):
    """What a program writes to standard output and standard error, and its status, given the bytes on its standard input.

    The descriptors that are kept stay open in it.
    """
    plain = {name: value for name, value in os.environ.items() if not name.startswith("QEMU_")}
    done = subprocess.run(words, input=stdin, capture_output=True, timeout=120, env=plain, pass_fds=kept)
    return (done.stdout, done.stderr, done.returncode)


def run_and_listen(words, stdin):
    """As `run`, and behind it what the program tells to descriptor 3."""
    ours, theirs = os.pipe()
    with open(ours, "rb") as listened:
        try:
            ran = run(["bash", "-c", 'exec 3>&%d "$@"' % theirs, "bash", *words], stdin, (theirs,))
        finally:
            os.close(theirs)
        return (*ran, listened.read())
