"""Lines of numbers: how the proved programs print, and where two outputs part."""

SHOWN = 100


def line(values):
    return " ".join(str(value) for value in values)


def text(lines):
    """The bytes of lines, each ended by a line feed."""
    return "".join(each + "\n" for each in lines).encode()


def parting(one, other):
    """The first place at which two lines differ."""
    return next((i for i, pair in enumerate(zip(one, other)) if pair[0] != pair[1]), min(len(one), len(other)))


def difference(got, wanted):
    """Where two lists of lines part, in words, with what each has there; nothing where they are equal."""
    for i in range(max(len(got), len(wanted))):
        one, other = (part[i] if i < len(part) else None for part in (got, wanted))
        if one != other:
            at = 0 if one is None or other is None else max(0, parting(one, other) - SHOWN // 2)
            shown = ["no line" if part is None else repr(part[at:at + SHOWN]) for part in (one, other)]
            return "line %d from character %d: got %s, wanted %s" % (i + 1, at, *shown)
    return ""
