"""Wrong track programs: what is wrong, the module and the function that it stands in for, and the wrong function."""

from reference import delay, program, session

from .marks import RECORDS

RIGHT_LINES, RIGHT_PASS = program.lines, program.lines_of_pass


def ends_at_a_refused_pass(file):
    made = RIGHT_LINES(file)
    refused = [i for i, line in enumerate(made) if line.startswith("refused")]
    return made[:refused[0] + 1] if refused else made


def pass_line_kept(lists, index):
    made = RIGHT_PASS(lists, index)
    return ["pass %d 0" % index] + made if made[0].startswith("refused") else made


def refused_passes_not_counted(file):
    """The index counts the passes that are printed."""
    made, index = [], 0
    for line in RIGHT_LINES(file):
        if line.startswith("pass"):
            line, index = "pass %d %s" % (index, line.split()[2]), index + 1
        made.append(line)
    return made


def passes_in_turn_about(file):
    """The last pass is printed first."""
    texts = []
    for line in RIGHT_LINES(file):
        if line.startswith(("pass", "refused")):
            texts.append([])
        texts[-1].append(line)
    return [line for text in reversed(texts) for line in text]


# The first three have the contracts of the right program: what is written, how often and in which order, no contract says.
WRONG = (
    ("nothing printed of a pass", program, "lines", lambda file: [line for line in RIGHT_LINES(file) if session.refusal(file)]),
    ("every pass printed twice", program, "lines_of_pass", lambda lists, index: 2 * RIGHT_PASS(lists, index)),
    ("the passes printed from the last to the first", program, "lines", passes_in_turn_about),
    ("nothing printed after a refused pass", program, "lines", ends_at_a_refused_pass),
    ("the pass line of a refused pass kept", program, "lines_of_pass", pass_line_kept),
    ("an index that leaves refused passes out", program, "lines", refused_passes_not_counted),
    ("marks not read", delay, "ut1r_of", RECORDS["the mark not read"]),
    ("a refused file printed as 1 always", session, "refusal", lambda file: 1 if session.fault(file)[0] else 0),
)
