"""Values as C writes them."""

import textwrap


class Name(str):
    """A word of C, which stands as it is."""


class Cells:
    """Tables of rows, and the lists of numbers that rows point to."""

    def __init__(self):
        self.lists = []

    def pointer(self, numbers):
        """The name of a list that a row points to; equal lists share one."""
        if numbers not in self.lists:
            self.lists.append(numbers)
        return "numbers_%d" % self.lists.index(numbers)

    def cell(self, value):
        """A name, a string, bytes, a number, numbers in place (a tuple), or a pointer to numbers (a list)."""
        if isinstance(value, Name):
            return value
        if isinstance(value, str):
            return '"%s"' % value
        if isinstance(value, bytes):
            return '"%s"' % "".join(map(character, value))
        if isinstance(value, int):
            return number(value)
        if isinstance(value, tuple):
            return "{%s}" % ", ".join(self.cell(each) for each in value)
        return self.pointer(value)

    def table(self, name, columns, rows):
        """A struct of a row, whose first column is the name of the test, and the rows."""
        lines = ["static const struct %s_row {\n\tconst char *what;\n\t%s\n} %s_rows[] = {\n" % (name, columns, name)]
        return "".join([*lines, *("\t%s,\n" % self.cell(row) for row in rows), "};\n"])

    def lists_text(self):
        return "".join(list_text(*numbered) for numbered in enumerate(self.lists))


def number(value):
    """A whole number, with or without a sign."""
    return {-(2**63): "INT64_MIN", 2**64 - 1: "UINT64_MAX"}.get(value, str(value))


def character(byte):
    """A byte inside a string of C."""
    return chr(byte) if 32 <= byte < 127 and byte not in b'"\\' else "\\%03o" % byte


def wrapped(text):
    return textwrap.fill(text, 112, subsequent_indent="\t") + "\n"


def list_text(index, numbers):
    """One list; one that is all zeros has its length alone."""
    shown = ", ".join(map(number, numbers)) if any(numbers) else "0"
    return wrapped("static const int64_t numbers_%d[%d] = {%s};" % (index, max(1, len(numbers)), shown))
