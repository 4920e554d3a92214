"""Order numbers for the tests: those that pass the check of document 02, (vii), and what they become where they are mistyped; and what else was wrong
with the takes and bundles that had one that fails."""
from collections import Counter

import reference as ref

MOST = (1 << 32) - 1
FEW = 17, 24, 31, 48, 55, 62, 79, 86, 93  # the first that pass, but for 0


def passes(order):
    return ref.weighted_sum(order) % 10 == 0


def completed(tens):
    """of the ten numbers that begin with these digits, the one that passes"""
    return 10 * tens + -ref.weighted_sum(10 * tens) % 10


def row(tens, size):
    """so many numbers that pass, from these tens on"""
    return [completed(t) for t in range(tens, tens + size)]


def new_order(rng):
    """a number that passes, mostly of ten digits"""
    return completed(rng.randint(1, rng.choice((9, 99, 999_999, *(MOST // 10,) * 9))))


def digit_changed(order):
    """every number of 32 bits that has one digit another"""
    text = str(order)
    for at, digit in enumerate(text):
        numbers = (int(text[:at] + other + text[at + 1:]) for other in "0123456789" if other != digit)
        yield from (number for number in numbers if number <= MOST)


def neighbours_exchanged(order):
    """every number of 32 bits with two neighbours exchanged, after how far apart the two digits are"""
    text = str(order)
    for at, (a, b) in enumerate(zip(text, text[1:])):
        number = int(text[:at] + b + a + text[at + 2:])
        if number <= MOST:
            yield abs(int(a) - int(b)), number


def mistyped(rng, order):
    """a number that fails: one digit of this one is another"""
    text = str(order)
    while True:
        at = rng.randrange(len(text))
        number = int(text[:at] + rng.choice("0123456789") + text[at + 1:])
        if number != order and number <= MOST and not passes(number):
            return number


def slip(rng, order):
    """the number with a digit mistyped or with neighbours exchanged, which is not found where these are five apart"""
    exchanged = [*neighbours_exchanged(order)]
    ways = [mistyped(rng, order)], [number for _, number in exchanged], [number for apart, number in exchanged if apart == 5]
    return rng.choice(rng.choice([way for way in ways if way]))


def failing(rng):
    """any number that fails"""
    return rng.choice((1, 5, 1008, MOST, 0, 0, 0, 0)) or mistyped(rng, rng.choice((new_order(rng), 1007, rng.choice(FEW))))


def near(rng, order):
    """another number that passes and differs in one bit from this one, if there is one"""
    return rng.choice([number for bit in range(32) if (number := order ^ 1 << bit) and passes(number)] or [new_order(rng)])


# ---- what is answered where a number fails

TAKES = 0, 16, 17, 25, 6, 18, 19, 20
AGAINST = {"huz_claim": TAKES, "huz_claim_in": TAKES, "huz_claim_all": (*TAKES, 24)}
# by function, and by 16 or 24, answered before 26, or by what 26 was answered before, or 0 for nothing else; by 17 where a take is for 0, whose sum
# is a multiple of ten, or a bundle has 0 before a number that fails
against = Counter()


def met(function, number, paper, serial, order, item):
    """a take, or the take of a bundle that is the first to fail: its number, and the paper register before it; none where it is 16"""
    if number == 26:
        others = [25] * (not 1 <= item <= ref.MOST_ITEM) + [paper.place(serial)[0]] * (paper.place(serial)[0] != 0)
        against.update((function, other) for other in (others + [20] * ((order, item) in paper.lowest) or [0]))
    elif number == 17 or number == 16 and not passes(order):
        against[function, number] += 1


def missing():
    yield from (f"{function} has not been called with an order number that fails and {number}"
                for function, numbers in AGAINST.items() for number in numbers if not against[function, number])


def report():
    for function, numbers in AGAINST.items():
        said = [f"{n} instead of 26 {against[function, n]} times" for n in numbers if n in (16, 24)]
        said += [f"26 instead of {n} {against[function, n]} times" for n in numbers if n not in (0, 16, 17, 24)]
        said += [f"17 for 0 {against[function, 17]} times"]
        print(f"{function} with an order number that fails: 26 alone {against[function, 0]} times,", ", ".join(said))
