#!/usr/bin/env python3
"""Write the cases of crates/geometry_cases: its input, and the answers by exact fractions.

The answers come from intervals. The boxes overlap from a first time to a last one, both included; that interval is
computed from the positions alone, and a moment is compared with its two ends. Run it from the repository's root.
"""
from fractions import Fraction
from pathlib import Path
from random import Random

LAST = 50000
FOLDER = Path("crates/geometry_cases")
dice = Random(50000)


def interval(p, g, q, h):
    """The times at which the boxes overlap: (first, last), None for no end, or False for no time at all."""
    a, v, reach = p[0] - q[0], p[1] - q[1], g + h
    if v == 0:
        return (None, None) if abs(a) <= reach else False
    ends = sorted([Fraction(-reach - a, v), Fraction(reach - a, v)])
    return ends[0], ends[1]


def overlaps(span, moment):
    time, side = moment
    if span is False:
        return False
    first, last = span
    return (first is None or (time, side) >= (first, 0)) and (last is None or (time, side) <= (last, 0))


def first_wrong(bit, p, g, q, h, moment):
    span = interval(p, g, q, h)
    if overlaps(span, moment) != bit:
        return moment
    if span is False or abs(p[1] - q[1]) > 16000:
        return None
    first, last = span
    if bit:
        answer = None if last is None else (last, 1)
    else:
        answer = (first, 0) if first is not None and moment < (first, 0) else None
    return answer if answer is not None and answer[0] <= LAST else None


def line():
    kind = dice.choice([0, 0, 1, 1, 2, 2, 3, 3, 4, 5])
    if kind == 0:
        return dice.randint(-40, 40), dice.randint(-3, 3)
    if kind == 1:
        return dice.randint(-100000, 100000), dice.randint(-9, 9)
    if kind == 2:
        return dice.randint(-1000000, 1000000), dice.randint(-1000, 1000)
    if kind == 3:
        return dice.randint(-400000000, 400000000), dice.randint(-8000, 8000)
    if kind == 4:
        return dice.choice([-1, 1]) * dice.randint(800000000, 808000000), dice.choice([-1, 1]) * dice.randint(7900, 8000)
    return dice.randint(-2**31, 2**31 - 1), dice.choice([dice.randint(-2**31, 2**31 - 1), dice.randint(-9000, 9000)])


def inside(a):
    return max(-2**31, min(2**31 - 1, a))


def pair():
    p, q = line(), line()
    kind = dice.randrange(8)
    if kind == 0:
        return p, (q[0], p[1])
    if kind == 1:
        return p, (inside(p[0] + dice.randint(-60, 60)), p[1])
    if kind == 2:
        return p, q
    # their centres meet at some time from 0 to a little past the last
    time = dice.choice([dice.randint(0, 60000), dice.randint(0, 100), dice.randint(49990, 50010)])
    return p, (inside(p[0] + (p[1] - q[1]) * time + dice.randint(-2100, 2100)), q[1])


def allowed(time):
    return 0 <= time <= LAST and time.denominator <= 16000


def moment(span):
    side = dice.randrange(2)
    if span is not False and dice.randrange(2) == 0:
        ends = [t for t in span if t is not None and allowed(t)]
        if ends:
            return dice.choice(ends), side
    kind = dice.choice([0, 0, 0, 1, 2, 3])
    if kind == 0:
        return Fraction(0), side
    if kind == 1:
        return Fraction(dice.randint(0, LAST)), side
    if kind == 2:
        d = dice.randint(1, 16000)
        return Fraction(dice.randint(0, LAST * d), d), side
    return Fraction(dice.choice([LAST, LAST - 1])), side


def half():
    return dice.choice([1, 1000, dice.randint(1, 1000), dice.randint(1, 30)])


def main():
    asked, answered = [], []
    for _ in range(4000):
        p, q = pair()
        axis = dice.randrange(3)
        sizes, others = [half() for _ in range(3)], [half() for _ in range(3)]
        g, h = sizes[axis], others[axis]
        span = interval(p, g, q, h)
        m = moment(span)
        now = overlaps(span, m)
        bit = now if dice.randrange(8) else not now
        k = first_wrong(bit, p, g, q, h, m)
        numbers = [int(bit), axis, *p, *q, *sizes, *others, m[0].numerator, m[0].denominator, m[1]]
        asked.append(" ".join(map(str, numbers)))
        told = "never" if k is None else f"{k[0].numerator}/{k[0].denominator} {k[1]}"
        answered.append(f"{int(now)} {told}")
    (FOLDER / "stdin").write_text("\n".join(asked) + "\n")
    (FOLDER / "stdout").write_text("\n".join(answered) + "\n")


main()
