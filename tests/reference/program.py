"""What the program `tracks` prints for a session file: document 01, 'Numbers to meet', its last paragraph.

Run as a program it reads the file on standard input. A refused file, and a refused pass in place of its lines, is `refused` and the
number.
"""

import sys

from . import delay, session, together, track


def lines_of_pass(lists, index):
    number, count, room = together.pass_track_of(lists, lists[delay.PASSES][index], [0] * together.ENOUGH_ROOM)
    if number:
        return ["refused %d" % number]
    return ["pass %d %d" % (index, count)] + ["%d %d %d %d" % segment for segment in track.segments_of(room[:4 * count])]


def lines(file):
    number = session.refusal(file)
    if number:
        return ["refused %d" % number]
    lists = session.sections_of(file)
    return [line for index in range(len(lists[delay.PASSES])) for line in lines_of_pass(lists, index)]


if __name__ == "__main__":
    for line in lines(sys.stdin.buffer.read(session.LONGEST_FILE + 1)):
        print(line)
