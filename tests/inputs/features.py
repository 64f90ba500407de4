"""What a heap of session files holds: how often each refusal and each trap of documents 01 and 02 occurs."""

from collections import Counter

from reference import delay, session
from reference.earth import DAY_MS

from . import marktraps


def traps_of_file(lists):
    """The traps that an accepted file's records set."""
    stations, sources, days, _ = lists
    return {
        "days before 51,544": days[0][0] < 51_544,
        "negative declination": any(source[2] < 0 for source in sources),
        "pole at 1,000,000 either side": any(abs(value) == 1_000_000 for day in days for value in day[1:3]),
        "station at 6,400,000,000 either side": any(abs(value) == 6_400_000_000 for station in stations for value in station[1:]),
        "differing TAI-UTC": len({day[4] for day in days}) > 1,
    }


def traps_of_pass(lists, planned):
    """The traps that one pass sets, and its refusal."""
    stations, sources, days, _ = lists
    names = [station[0] for station in stations]
    missing = planned[0] not in names or planned[1] not in names or planned[2] not in [source[0] for source in sources]
    epochs = delay.epochs_of(planned)
    pairs = [delay.two_days(days, day) for day in {day for day, _ in epochs}]
    covered = all(pairs)
    leaps = [tomorrow[4] - today[4] for today, tomorrow in pairs] if covered and not missing else []
    return {
        "pass over midnight": planned[4] + (planned[6] - 1) * planned[5] >= DAY_MS,
        "step 3,600,000": planned[5] == 3_600_000,
        "4,096 samples": planned[6] == 4_096,
        "pass on the file's last day": epochs[0][0] == days[-1][0],
        "one station named twice": planned[0] == planned[1],
        "TAI-UTC rises by the next day": any(k > 0 for k in leaps),
        "TAI-UTC rises by 99": 99 in leaps,
        "TAI-UTC falls by the next day": any(k < 0 for k in leaps),
        "TAI-UTC falls by 99": -99 in leaps,
        "pass refused with 5": missing,
        "pass refused with 6": not missing and not covered,
        "pass with samples": not missing and covered,
    }


def count(files):
    """Counts of all of these over a list of files."""
    counts = Counter()
    for file in files:
        number = session.refusal(file)
        counts["file refused with %d" % number if number else "file accepted"] += 1
        counts.update("file: %s" % trap for trap in marktraps.of_file(file))
        if number == 0:
            lists = session.sections_of(file)
            found = [traps_of_file(lists)] + [traps_of_pass(lists, planned) for planned in lists[3]]
            for traps in found:
                counts.update(name for name, set_here in traps.items() if set_here)
    return counts


def report(files):
    counts = count(files)
    return ["%6d files" % len(files)] + ["%6d %s" % (counts[name], name) for name in sorted(counts)]
