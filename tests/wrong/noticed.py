"""Wrong programs that the inputs must notice: document 01's shortcuts, the programs that it shuts out, and their like.

Each one puts a wrong function into the reference for a moment. Some input has to be answered in another way then;
otherwise a program with the same mistake would pass the comparison. A wrong program is one test.
"""

import random
from unittest.mock import patch

import programs
from inputs.days import outcome
from inputs.program import printed
from inputs.questions import lines_of
from tally import alone

from . import bulletin, days, delay, earth, marks, program, rowlists, session, single, together, track, write

WRONG = {
    "earth": earth.WRONG,
    "session": session.WRONG,
    "write": write.WRONG,
    "delay": (*delay.WRONG, *marks.WRONG),
    "track": track.WRONG,
    "together": together.WRONG,
    "single": single.WRONG,
    "bulletin": (*bulletin.WRONG, *rowlists.WRONG),
    "tracks": program.WRONG,
    "days": days.WRONG,
}
ANSWERS = {"tracks": printed, "days": outcome}
LONGEST_ROOM, LONGEST_TEXT = 2_100, 3_000


def known_of(topic):
    """The inputs of a topic and what is printed for them, without those that take long, in an order that mixes them."""
    if topic == "tracks":
        known = [(file, wrote) for file, wrote in programs.sessions() if len(wrote) < LONGEST_TEXT]
    elif topic == "days":
        known = programs.runs()
    else:
        known = [(question, lines) for question, lines in programs.questions(topic) if question.room < LONGEST_ROOM]
    return random.Random(7).sample(known, len(known))


def notices(topic, known, owner, name, instead):
    answer = ANSWERS.get(topic, lines_of)
    with patch.object(owner, name, instead):
        return any(answer(given) != wanted for given, wanted in known)


def run(tally):
    for topic, mistakes in WRONG.items():
        known = known_of(topic)
        for mistake, *change in mistakes:
            tally.check("%s would notice: %s" % (topic, mistake), notices(topic, known, *change))
    tally.say("wrong programs that the inputs notice: %d" % sum(map(len, WRONG.values())))


if __name__ == "__main__":
    alone(run)
