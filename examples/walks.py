#!/usr/bin/env python3
"""Walsh's order by two walks: prints each walk over an edition with the mixes that it comes to, and compares them with the engine's list.

    python3 examples/walks.py [CEILING .. TOTAL]      without numbers, ceilings 2 2 2 and total 3

The two functions `rising` and `falling` are this paragraph of document 01:

    For fixed g(i+1)..gn with sum t, gi runs through all values from max(0, r - t - (m1+..+m(i-1))) to min(mi, r - t). It rises by ones if t is even
    and falls by ones if t is odd. For i = n, t is 0. g1 is then r minus the rest. Mixes with the same ending stand together.

docs/ORDER.md has them as the engine makes them, with a picture.
"""
import os
import sys

sys.path.insert(0, os.path.join(os.path.dirname(os.path.abspath(__file__)), "..", "python"))
from huztiral import Edition, Refused


def rising(upper, total, kind, t, ending):
    """for an even sum t of the kinds to the right"""
    return walk("rises", values(upper, total, kind, t), upper, total, kind, t, ending)


def falling(upper, total, kind, t, ending):
    """for an odd one"""
    return walk("falls", values(upper, total, kind, t)[::-1], upper, total, kind, t, ending)


def values(upper, total, kind, t):
    """of a kind: from what the kinds to its left cannot hold to its ceiling, or to what is left"""
    return list(range(max(0, total - t - sum(upper[:kind - 1])), min(upper[kind - 1], total - t) + 1))


def walk(way, run, upper, total, kind, t, ending):
    """the mixes with this ending; for each value of a kind, the kinds to its left are handed to the walk that the sum to their right asks for"""
    indent = "    " * (len(upper) - kind)
    if kind == 1:  # it is what the others leave
        mix = run + ending
        print(f"{indent}{' '.join(map(str, mix))}")
        return [mix]
    print(f"{indent}kind {kind} {way}: {' '.join(map(str, run))}")
    mixes = []
    for v in run:
        shorter = falling if (t + v) % 2 else rising
        mixes += shorter(upper, total, kind - 1, t + v, [v] + ending)
    return mixes


def main():
    *upper, total = map(int, sys.argv[1:] or (2, 2, 2, 3))
    try:
        listed = Edition(upper, total).listing()
    except Refused as refused:
        return f"refused {refused.number}: {refused}"
    assert rising(upper, total, len(upper), 0, []) == listed
    print(f"{len(listed)} mix{'es' * (len(listed) > 1)}, as the engine lists them")


if __name__ == "__main__":
    sys.exit(main())
