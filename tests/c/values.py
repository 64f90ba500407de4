"""The inputs of the C tests and what the reference answers to each, as tables in a header for C: tests/c/values.h.

`tests/remake` writes it. A row is one test: its name, the input of a call, and what is wanted.
"""

import os

from c import filerows, rows
from c.cells import Cells, number, wrapped
from inputs import sample

HEAD = """/* Made by tests/remake from the reference: do not edit. A row is one input of a call, and its answer. */
#ifndef VALUES_H
#define VALUES_H

#include <erlensieg.h>
"""


def file_text(name, file):
    """The numbers of a session file."""
    numbers = filerows.numbers_of(file)
    return wrapped("static const int64_t %s[%d] = {%s};" % (name, len(numbers), ", ".join(map(number, numbers))))


def text():
    cells = Cells()
    tables = [cells.table(*table) for table in rows.tables()]
    lent = [("sound_%d" % kind, file) for kind, file in filerows.FILES.items()] + [("sample_session", sample.session())]
    return "\n".join([HEAD, *(file_text(*named) for named in lent), cells.lists_text(), *tables, "#endif\n"])


def files():
    """Every file that is made: its path and its bytes."""
    yield (os.path.join(os.path.dirname(os.path.abspath(__file__)), "values.h"), text().encode())

