"""Sheet orders in plain Python, as the documents say them: a mix as a sheet order and back. tests/reference.py has the checks around it."""

# ---- By inversions (document 01)

def mix_of_order(p):
    return [sum(1 for later in p[i + 1:] if later < p[i]) for i in range(len(p) - 1)]


def inversions(p):
    return sum(mix_of_order(p))


def order_of_mix(mix):
    """each place takes the sheet that has as many smaller ones left as the mix says"""
    left = list(range(1, len(mix) + 2))
    return [left.pop(g) for g in mix] + left


# ---- By major index (document 02, (iii))

def major_index(p):
    """the sum of the places i at which sheet i is greater than sheet i + 1"""
    return sum(i for i, (here, after) in enumerate(zip(p, p[1:]), 1) if here > after)


def turned_right(p, i):
    """the first i sheets turned by one place"""
    return [p[i - 1], *p[:i - 1], *p[i:]]


def turned_left(p, i):
    return [*p[1:i], p[0], *p[i:]]


def order_of_code(mix):
    """start with 1..k; for i from k down to 1 turn the first i sheets right by t of row i"""
    k = len(mix) + 1
    t = {k + 1 - j: count for j, count in enumerate(mix, 1)} | {1: 0}
    p = list(range(1, k + 1))
    for i in range(k, 0, -1):
        for _ in range(t[i]):
            p = turned_right(p, i)
    return p


def in_a_ring(p):
    """they rise round the ring, on which the first sheet follows the last: but at one place, each is followed by a greater one"""
    return sum(here > after for here, after in zip(p, p[1:] + p[:1])) == 1


def code_of_order(p):
    """The turns undone, that of row 2 first. Before row i is turned the first i + 1 sheets rise round the ring: so they begin, with a sheet k + 1
    behind 1..k, and turning some or leaving out the last does not end it. Only so many turns back as t of row i make them rise again."""
    k = len(p)
    p, t = [*p, k + 1], {}
    for i in range(2, k + 1):
        t[i] = 0
        while not in_a_ring(p[:i + 1]):
            p = turned_left(p, i)
            t[i] += 1
    assert p == list(range(1, k + 2))
    return [t[k + 1 - j] for j in range(1, k)]


# Table 1 of source document 003: the mixes (there from right to left, after a 0) of total 4, each with its order of six sheets with that major index
TABLE_1 = (
    "00121 214356 00301 324156 00310 423156 00220 413256 00211 314256 01021 215346 01111 315246 "
    "01120 513246 01300 123546 01210 523146 01201 325146 03001 435126 03010 534126 03100 134526 "
    "04000 234516 02200 124536 02110 524136 02101 425136 02020 514236 02011 415236 20011 516234 "
    "20020 615234 20200 125634 20110 625134 20101 526134 21001 536124 21010 635124 21100 135624 "
    "22000 235614 40000 345612 31000 245613 30100 145623 30010 645123 30001 546123 12001 436125 "
    "12010 634125 12100 134625 13000 234615 11200 124635 11110 624135 11101 426135 11020 614235 "
    "11011 416235 10111 316245 10120 613245 10300 123645 10210 623145 10201 326145 10021 216345"
).split()
