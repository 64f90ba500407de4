"""The proved programs held to the reference: `answers` by questions, in a few long runs; `tracks` file by file; `days` run by run."""

from concurrent.futures import ThreadPoolExecutor

import inputs.program
import programs
import rattle
from inputs.questions import SINE, Question, head, stdin_of
from lines import difference

QUESTIONS_IN_A_RUN = 2_500
CUT_HEAD = stdin_of([Question(SINE)])[:-1]


def lines_of(wrote):
    """The lines of what a program wrote; one that no line feed ends is kept as it is, and marked."""
    *lines, rest = wrote.decode(errors="replace").split("\n")
    return lines + ([rest + " (and no line feed)"] if rest else [])


def judge(tally, part, ran):
    """One run of questions: each has its own lines, the next ones of what was written, and nothing may be left over.

    A question that is not answered is no test of its own: a line for it would be taken for the next one's.
    """
    wrote, said, status = ran
    lines, at = lines_of(wrote), sum(len(wanted) for _, wanted in part)
    ended = (status, said, lines[at:at + 2])
    if ended != (0, b"", []):
        tally.check("answers ended with", False, "status %d, standard error %.200r, lines left over %.200r" % ended)
    at = 0
    for question, wanted in part:
        got = lines[at:at + len(wanted)]
        at += len(wanted)
        if wanted:
            tally.check(head(question) + ":", got == wanted, difference(got, wanted))


def answers(tally, command=None, known=None):
    """All questions, or those that are given, by `answers` or by a program that reads as it does.

    A head that is cut short ends each run.
    """
    command, known = command or rattle.command("answers"), known or programs.all_questions()
    parts = [known[i:i + QUESTIONS_IN_A_RUN] for i in range(0, len(known), QUESTIONS_IN_A_RUN)]
    with ThreadPoolExecutor(programs.AT_A_TIME) as pool:
        asked = (stdin_of([question for question, _ in part]) + CUT_HEAD for part in parts)
        for part, ran in zip(parts, pool.map(lambda stdin: rattle.run(command, stdin), asked), strict=True):
            judge(tally, part, ran)
    tally.say("%d questions in %d runs" % (len(known), len(parts)))


def status(wanted):
    """The status that `tracks` tells where nothing is lost: 1 where the file or a pass is refused."""
    return 1 if any(line.startswith("refused") for line in lines_of(wanted)) else 0


def complaints(outcome, ran):
    """What is wrong about one run of a program: standard output, standard error, or the status that it tells."""
    (wanted, reasons, status), (wrote, said, ended, told) = outcome, ran
    for name, got, right in (("standard output", wrote, wanted), ("standard error", said, reasons)):
        yield "" if got == right else "%s, %s" % (name, difference(lines_of(got), lines_of(right)))
    told_right = told == b"%d\n" % status and ended == 0
    yield "" if told_right else "told the status %r, wanted %d, and ended with %d" % (told, status, ended)


def tracks(tally):
    command, known = rattle.command("tracks"), programs.sessions()
    with ThreadPoolExecutor(programs.AT_A_TIME) as pool:
        runs = pool.map(lambda file: rattle.run_and_listen(command, file), [file for file, _ in known])
        for i, ((file, wanted), ran) in enumerate(zip(known, runs, strict=True)):
            outcome = (wanted, inputs.program.said(file, wanted), status(wanted))
            tally.nothing_wrong("tracks, file %d" % i, complaints(outcome, ran))
    for line in inputs.program.report(known):
        tally.say(line)


def days(tally):
    command, known = rattle.command("days"), programs.runs()
    with ThreadPoolExecutor(programs.AT_A_TIME) as pool:
        ran = pool.map(lambda run: rattle.run_and_listen([*command, *run.words], run.rows), [run for run, _ in known])
        for (run, outcome), got in zip(known, ran, strict=True):
            tally.nothing_wrong("days %.60s" % " ".join(run.words), complaints(outcome, got))
    tally.say("%d runs" % len(known))


COMPARISONS = {"answers": answers, "tracks": tracks, "days": days}
