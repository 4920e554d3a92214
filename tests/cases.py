"""The cases of the comparison with tests/reference.py: how many each function had, which answers came up, and what differed."""
from collections import Counter

import reference as ref
from lent import Lent, Null, huztiral

FILL = 170
cases = Counter()
came_up = Counter()  # by function, number, and whether a kind is withdrawn
differences = []


def compare(name, given, answer, expected, *parts):
    """one case; of a function's, `given` begins with the ceilings; parts are lent parts with what they have to hold"""
    cases[name] += 1
    if name in ref.ANSWERS:
        came_up[name, expected[0], 0 in given[0]] += 1
    if answer != expected:
        differences.append(f"{name} {given}: {answer}, expected {expected}")
    for lent, values in parts:
        if not lent.holds(values):
            differences.append(f"{name} {given}: a lent part or what stands around it is not as it should be")


def lend(rng, values, unit=1):
    return Null(unit) if not values and rng.random() < 0.5 else Lent(values, unit)


def refused(function, *arguments):
    try:
        return function(*arguments)
    except huztiral.Refused as refusal:
        return refusal.number, refusal.detail
