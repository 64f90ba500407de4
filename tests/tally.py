"""Counting of tests. A test is one input: it passes, or it fails and is printed at once with what is wrong about it."""

import sys

MOST_SHOWN = 20


class Tally:
    def __init__(self):
        self.passed = 0
        self.failed = 0
        self.unsaid = 0

    def count(self):
        return self.passed + self.failed

    def check(self, name, holds, detail=""):
        """One test. Of many failures in a row the first ones are printed."""
        if holds:
            self.passed += 1
            return
        self.failed += 1
        self.unsaid += 1
        if self.unsaid <= MOST_SHOWN:
            print("FAILED %s %s" % (name, detail), flush=True)

    def equal(self, name, got, wanted):
        self.check(name, got == wanted, "" if got == wanted else "got %.300r wanted %.300r" % (got, wanted))

    def nothing_wrong(self, name, complaints):
        """One test of several conditions: it passes where none of them has a complaint."""
        said = [complaint for complaint in complaints if complaint]
        self.check(name, not said, "; ".join(said))

    def say(self, text):
        if self.unsaid > MOST_SHOWN:
            print("FAILED and %d more" % (self.unsaid - MOST_SHOWN))
        self.unsaid = 0
        print(text, flush=True)

    def finish(self):
        """Prints the closing line and ends the program, with status 1 where a test failed or none was made."""
        self.say("%d passed, %d failed" % (self.passed, self.failed))
        sys.exit(1 if self.failed or not self.passed else 0)


def alone(run):
    """Runs the tests of one module as a program."""
    tally = Tally()
    run(tally)
    tally.finish()
