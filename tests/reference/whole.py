"""Whole numbers: document 01, 'Numbers used'.

Python's `//` is the floor of document 01, toward minus infinity, and `%` with a positive divisor is at least 0.
"""


def R(a, b):
    """The nearest whole number to a/b, halves away from zero; b is above 0."""
    if a < 0:
        return -R(-a, b)
    return (2 * a + b) // (2 * b)


def within(value, low, high):
    """Whether a value lies in a range, both ends included."""
    return low <= value <= high
