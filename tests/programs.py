"""The proved programs and their inputs, each with what the reference prints for it, worked out once a run.

`answers` is asked the questions of each topic; `tracks` is given session files, `days` words and rows.
"""

from functools import cache
from multiprocessing import get_context

import inputs.bulletin
import inputs.days
import inputs.delay
import inputs.earth
import inputs.lending
import inputs.program
import inputs.session
import inputs.single
import inputs.together
import inputs.track
import inputs.write
from inputs.questions import lines_of

TOPICS = {
    "lending": inputs.lending,
    "earth": inputs.earth,
    "session": inputs.session,
    "write": inputs.write,
    "delay": inputs.delay,
    "track": inputs.track,
    "together": inputs.together,
    "single": inputs.single,
    "bulletin": inputs.bulletin,
}

PROGRAMS = ("answers", "tracks", "days")
AT_A_TIME = 2


def worked_out(work, given):
    """The results of a function of many inputs, by two processes that share them out."""
    with get_context("fork").Pool(AT_A_TIME) as pool:
        return pool.map(work, given, chunksize=16)


@cache
def questions(topic):
    """Each question of a topic with the lines that the reference prints for it."""
    asked = TOPICS[topic].questions()
    return list(zip(asked, worked_out(lines_of, asked)))


@cache
def all_questions():
    return [known for topic in TOPICS for known in questions(topic)]


@cache
def sessions():
    """Each session file with what `tracks` prints for it."""
    files = inputs.program.inputs()
    return list(zip(files, worked_out(inputs.program.printed, files)))


@cache
def runs():
    """Each run of `days` with what it writes and tells."""
    made = inputs.days.runs()
    return list(zip(made, worked_out(inputs.days.outcome, made)))
