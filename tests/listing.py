#!/usr/bin/env python3
"""The listing program against tests/reference.py: good slips, damaged ones and those at the ends of a range, and all that it prints, byte for byte.

    python3 tests/listing.py [SEED [PROGRAM [SECONDS]]]

The program is target/bin/list, proved and built where it is missing or old; then ./list is tested too, on inputs and outputs that fail. The last line
is `listing: N slips, 0 differences`; any difference makes the exit status 1. A machine that is too slow for all slips drawn at random draws no more
after SECONDS.
"""
import os
import random
import subprocess
import sys
import time
from collections import Counter

import inputs
import reference as ref

TOP = os.path.dirname(os.path.dirname(os.path.abspath(__file__)))
PROGRAM = os.path.join(TOP, "target", "bin", "list")
SCRIPT = os.path.join(TOP, "list")
MANY = 20_000  # the most lines that are listed but for near_the_million
# by whether a ceiling is 0, which is said only of a slip that has the form
REFUSALS = {False: (1, 2, 3, 4, 5, 14, 22), True: (1, 2, 3, 4, 5, 14)}
WORDS = {False: "no ceiling of 0", True: "a ceiling of 0"}


def slip(ms, r):
    return b"mixes\n%s\n%d\n" % (b" ".join(b"%d" % m for m in ms), r)


DOCUMENT = slip((2, 2, 2), 3)
LONGEST = slip((1,) * 124, 1)  # 256 bytes
TWENTY_FOUR = slip((1, 12, 3, 60, 2, 9) * 4, 1)


# ---- slips, each alone or with the lengths after which it comes in a further piece

def editions():
    """those of the documents, and those at the ends of each range; where a number has four digits, the slip is 22"""
    yield DOCUMENT
    for ms, r in ((2, 2, 2), 5), ((3, 2, 1), 3), ((2, 1), 1), ((1, 1), 1), ((4, 3, 2, 1), 5):
        yield slip(ms, r)
    for ms, r in inputs.EDGES + inputs.LIMITS:
        yield slip(ms, r)
    for ms in (10,) * 24, inputs.stairs(24), (60, 60, 60, 60, 15):
        for r in range(sum(ms) + 2):
            if few(slip(ms, r)):
                yield slip(ms, r)
    for n in range(1, 25):
        for ms in (1,) * n, (60,) * n, inputs.stairs(n):
            yield slip(ms, 0)
            yield slip(ms, sum(ms))
        for r in range(3):
            yield slip((0,) * n, r)
            yield slip((0,) * (n - 1) + (2,), r)
            yield slip((2,) + (0,) * (n - 1), r)


def numbers():
    """numbers as a ceiling and as a total, and words that are none"""
    for v in *range(320), *range(510, 580), *range(766, 775), *range(990, 1030):
        yield slip((2, v), 1)
        yield slip((3, 2, 1), v)
    for word in (b"00 01 03 07 007 010 000 0000 0060 9999 10000 65538 4294967298 18446744073709551618 1000000000000000000000 -1 -0 +2 2. 2.0 2, 2;2 "
                 b"0x2 2e0 / : x 2x x2 2- \xb2 \xd9\xa2 \xb2\xb2 2\0 \0 \x002 2\r 2\t 2\x0b 2\xa0").split(b" "):
        yield b"mixes\n%s 2 2\n3\n" % word
        yield b"mixes\n0 %s 0\n0\n" % word
        yield b"mixes\n2 %s 2\n3\n" % word
        yield b"mixes\n2 2 %s\n3\n" % word
        yield b"mixes\n%s\n3\n" % word
        yield b"mixes\n2 2 2\n%s\n" % word


def forms():
    """slips that miss the form, by the line and by what is wrong with it"""
    for word in (b"", b"Mixes", b"MIXES", b"mixe", b"mixess", b"mixed", b"ixes", b" mixes", b"mixes ", b"mixes\r", b"mixes\0", b"\0mixes",
                 b"\xef\xbb\xbfmixes", b"mixes:", b"mixes 2 2 2", b"mixes\n", b"\nmixes", b"mixes\nmixes", b"refused 22", b"2 2 2"):
        yield word + b"\n2 2 2\n3\n"
    for ceilings in b"", b" ", b"  ", b"2  2", b" 2 2", b"2 2 ", b"2 2  2 2", b"2\t2", b"2,2", b"2, 2", b"2 2\r", b"2 2\0", b"\0", b"2\n2", b"2\n", \
            b"0 0 ", b" 0 2", b"0  2", b"00 2", b"2 00", b"2 0 \0", b"-0 2":
        yield b"mixes\n" + ceilings + b"\n3\n"
    for total in b"", b" ", b"3 ", b" 3", b"3 1", b"3\r", b"3\0", b"\0", b"\n3", b"3\t", b"mixes":
        yield b"mixes\n2 2 2\n" + total + b"\n"
    for end in b"", b" ", b"\r", b"\r\n", b"\0", b"\n\n", b"\n3", b"\n3\n", b"\n ", b"\n\0", b"\n\r\n", b"\n" + DOCUMENT:
        yield b"mixes\n2 2 2\n3" + end
    for text in DOCUMENT, TWENTY_FOUR, LONGEST:
        yield text.replace(b"\n", b"\r\n")
        yield text.replace(b"\n", b"\r")
        yield text.replace(b"\n", b"\0")
        yield text.replace(b" ", b"\t")
        yield text.replace(b"\n", b"")
        yield text.upper()
        yield text * 2
        yield b"\n" + text
        for at in range(len(text)):
            yield text[:at]
            yield text[:at] + b"x" + text[at + 1:]


def lengths():
    """25 ceilings and more, and slips on both sides of 256 bytes"""
    for n in range(24, 130):
        yield slip((1,) * n, 1)
        yield slip((0,) * n, 0)
    for ceiling in 7, 60, 61, 100, 999:
        for n in range(25, 130):
            if 250 < len(slip((ceiling,) * n, 10)) < 262:
                yield from (slip((ceiling,) * n, r) for r in (1, 10, 100, 999))
    for more in b"\n", b" ", b"1", b"\0", b" 1", b"\n\n", b"1\n", DOCUMENT, b"\0" * 256, b"1" * 100_000, b" 1" * 1_000_000:
        yield LONGEST + more  # the first 256 bytes are good
    for text in DOCUMENT, b"", b"mixes\n", b"mixes\n1", b"mixes\n2 2 2\n":
        for fill in b" ", b"\n", b"\0", b"0", b"1":
            yield from (text.ljust(length, fill) for length in (255, 256, 257, 258, 512, 513, 65_536, 65_537))


def near_the_million():
    """one line fewer than may be listed, as many, and one more (14), at times with kinds withdrawn, then a listing of long lines"""
    more = 37, 38, 50, 26, 38
    for ms, r in ((37, 27, 47, 46, 43), 74), ((47, 0, 53, 33, 20, 0, 46), 81), (more, 78), ((0, *more), 78), ((60,) * 24, 5):
        yield slip(ms, r)


def drawn(rng):
    """the slip of an edition at random, at once and in pieces, and good slips damaged in some way"""
    text = few_of(lambda: slip(*rng.choice((inputs.any_edition, inputs.sound))(rng)))
    yield text
    yield (text, *sorted(rng.randint(0, min(len(text), 256)) for _ in range(rng.randint(1, 4))))
    for good in slip(*inputs.sound(rng, small=True)), DOCUMENT, TWENTY_FOUR, LONGEST:
        yield few_of(lambda: damaged(rng, good))


def few(text):
    """not a listing of so many lines that it takes long"""
    given = ref.slip(text)
    return not given or ref.edition(*given)[0] or not MANY < ref.number(*given) <= ref.MOST_LINES


def few_of(draw):
    """the first of the slips drawn that takes no such listing"""
    while not few(text := draw()):
        pass
    return text


def damaged(rng, text):
    """one byte changed, put in, left out or moved; at times two"""
    at, byte = rng.randrange(len(text)), bytes([rng.choice((rng.randrange(256), *b"0123456789 \n"))])
    way = rng.randrange(9)
    if way < 3:
        text = text[:at] + byte + text[at + 1:]
    elif way < 5:
        text = text[:at] + byte + text[at:]
    elif way < 7:
        text = text[:at] + text[at + 1:]
    elif way < 8:
        text = text[:at] + text[at:at + 2][::-1] + text[at + 2:]
    else:
        return damaged(rng, damaged(rng, text) or byte)
    return text


# ---- the comparison

def run(program, text, cuts):
    """the exit status of the program, and what it printed; the slip comes in pieces where there are cuts"""
    process = subprocess.Popen([program], stdin=subprocess.PIPE, stdout=subprocess.PIPE, stderr=subprocess.STDOUT, bufsize=0)
    start = 0
    try:
        for cut in cuts:
            process.stdin.write(text[start:cut])
            time.sleep(0.0005)
            start = cut
        return process.communicate(text[start:], timeout=60)[0], process.returncode
    except (BrokenPipeError, subprocess.TimeoutExpired) as error:
        process.kill()
        return process.communicate()[0], error


def withdrawn(text):
    """whether it is the slip of an edition with a withdrawn kind"""
    given = ref.slip(text)
    return given is not None and 0 in given[0]


def compare(program, text, cuts):
    """the refusal's number, or 0, and how the program differs, if it does"""
    number, expected = ref.printed(text)
    got, status = run(program, text, cuts)
    if (got, status) == (expected, 0):
        return number, None
    at = len(os.path.commonprefix([got, expected]))
    line = expected.count(b"\n", 0, at) + 1
    shown = text if len(text) < 300 else text[:300] + b".."
    return number, f"{shown}, {cuts}: line {line}, byte {at}: {got[at:at + 60]}, expected {expected[at:at + 60]}; exit status {status}"


# ---- ./list where it cannot read or write

def script(text, redirected=""):
    """the exit status of ./list with its input or output redirected by the shell, what it printed, and what it said on standard error"""
    command = ["bash", "-c", f'"$0" {redirected}; exit "${{PIPESTATUS[0]}}"', SCRIPT]
    run = subprocess.run(command, input=text, stdout=subprocess.PIPE, stderr=subprocess.PIPE, timeout=60)
    return run.returncode, run.stdout, run.stderr.decode()


def failures():
    """how ./list differs where a read or a write fails, which is said on standard error with status 1, and where none does, with status 0"""
    long, good, refused = slip((60,) * 4, 60), ref.printed(DOCUMENT)[1], b"refused 4\n"
    output, full = "list: standard output: ", "No space left on device\n"
    for text, redirected, expected in (
            (DOCUMENT, "", (0, good, "")),
            (slip((2, 2), 5), "", (0, refused, "")),
            (DOCUMENT, "| cat", (0, good, "")),
            (DOCUMENT, "2>&-", (0, good, "")),
            (DOCUMENT, "> /dev/full", (1, b"", output + full)),
            (b"", "> /dev/full", (1, b"", output + full)),
            (long, "> /dev/full", (1, b"", output + full)),
            (long, "| head -n 1", (1, ref.printed(long)[1].partition(b"\n")[0] + b"\n", output + "Broken pipe\n")),
            (long, "| head -c 100000 > /dev/null", (1, b"", output + "Broken pipe\n")),
            (DOCUMENT, ">&-", (1, b"", output + "closed\n")),
            (DOCUMENT, "<&-", (1, b"", "list: standard input: closed\n")),
            (DOCUMENT, "< /", (1, b"", "list: standard input: Is a directory\n")),
            (DOCUMENT, "< / 2>&-", (1, b"", "")),
    ):
        got = script(text, redirected)
        if got != expected:
            yield f"./list {redirected}: {got}, expected {expected}"


def all_of(rng, seconds, rounds=250):
    start = time.monotonic()
    for slips in editions, numbers, forms, lengths:
        yield from slips()
    for _ in range(rounds):
        if time.monotonic() - start < seconds:
            yield from drawn(rng)
    yield from near_the_million()


def said(number):
    return f"refused {number}" if number else "listed"


def missing(cases):
    for where, numbers in REFUSALS.items():
        yield from (f"no slip with {WORDS[where]} is {said(number)}" for number in (0, *numbers) if not cases[where, number])


def summary(cases):
    for where, words in WORDS.items():
        yield f"slips with {words}: " + ", ".join(f"{said(number)} {count}" for (there, number), count in sorted(cases.items()) if there == where)


def main(seed=1, program=PROGRAM, seconds=30):
    cases, differences = Counter(), []
    if program == PROGRAM:  # the script builds it
        subprocess.run([SCRIPT], check=True, stdin=subprocess.DEVNULL, stdout=subprocess.DEVNULL)
        differences += failures()
    for text in all_of(random.Random(int(seed)), float(seconds)):
        text, *cuts = text if isinstance(text, tuple) else (text,)
        number, difference = compare(program, text, cuts)
        cases[withdrawn(text), number] += 1
        if difference:
            differences.append(difference)
        if len(differences) > 50:
            break
    else:
        differences += missing(cases)
    print("\n".join(differences[:10]) or "\n".join(summary(cases)))
    print(f"listing: {sum(cases.values())} slips, {len(differences)} differences")
    return 1 if differences else 0


if __name__ == "__main__":
    sys.exit(main(*sys.argv[1:]))
