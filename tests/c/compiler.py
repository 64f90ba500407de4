"""The compilers for x86-64, and how its programs are run, elsewhere by an emulator. .ci/tools installs them."""

import platform
import subprocess

from rattle import ROOT

NATIVE = platform.machine() == "x86_64"
PREFIX = "" if NATIVE else "x86_64-linux-gnu-"
RUNNER = [] if NATIVE else ["qemu-x86_64"]
WARNINGS = "-Wall -Wextra -Wpedantic -Wconversion -Wsign-conversion -Wshadow -Wundef -Werror".split()


def done(words, folder=ROOT):
    """Status, and all that was written, of a command."""
    streams = {"stdin": subprocess.DEVNULL, "stdout": subprocess.PIPE, "stderr": subprocess.STDOUT}
    run = subprocess.run(words, cwd=folder, text=True, **streams)
    return (run.returncode, run.stdout)


def compiled(standard, source, words=(), folder=ROOT):
    """Compiles a source of a standard, as c99 or c++17, with all warnings as errors: status, and what was said."""
    compiler = PREFIX + ("g++" if "+" in standard else "gcc")
    language = "c++" if "+" in standard else "c"
    return done([compiler, "-std=" + standard, *WARNINGS, "-x", language, source, "-x", "none", *words], folder)
