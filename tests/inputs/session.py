"""Questions on the reader of the session file: what is in each file, and where its fault lies."""

from reference import session

from . import generate
from .questions import CHECK, FAULT, MOST_LENT, PASS, STATION, Question

RECORDS = range(STATION, PASS + 1)
FAR_INDEXES = (63, 2**64 - 1)


def lent(file):
    """A file as it is lent to `answers`: of one that is over-long, enough to be over-long."""
    return file[:MOST_LENT]


def counts(file):
    """How many records of each kind are handed out."""
    return session.check(file)[1:5]


def questions_of(file):
    """Every record by its index, the first that is not there, and ones far out."""
    file = lent(file)
    yield Question(CHECK, lent=file)
    yield Question(FAULT, lent=file)
    for what, count in zip(RECORDS, counts(file), strict=True):
        far = [index for index in FAR_INDEXES if index > count]
        yield from (Question(what, index, lent=file) for index in [*range(count + 1), *far])


def questions():
    return [question for file in generate.files() for question in questions_of(file)]
