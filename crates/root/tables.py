#!/usr/bin/env python3
"""Prints the function `part` of src/lib.rt, the parabolas of `guess`: python3 tables.py

`guess` is asked for the root of wide(z), for a z below 2 ^ 24. Part i of 256 holds the z = i * 65536 + d with d below 65536. There the guess is

    (height * 32768 + slope * d + bend * (65535 - d * d / 65536)) / 2097152

where each division drops its remainder. The three numbers are found one after the other: `bend` from the parabola through the root at three Chebyshev points, `slope` from the
line through what that leaves at two, and `height` from the middle of what is then left, with a half more, so that the last division rounds. Each is rounded before the next
is found. An entry of the table is slope * 2 ^ 43 + height * 2 ^ 13 + bend. Standard error says for what share of all z the guess is wrong.
"""
from decimal import Decimal, getcontext
import math, sys

getcontext().prec = 50
PARTS = 256
WIDTH = 65536
HALF = Decimal("0.5")


def wide(z):
    return (z + 2**23 if z < 2**23 else 2 * z) * 2**23


def points(n):
    return [WIDTH * (1 - Decimal(math.cos(math.pi * (2 * k + 1) / (2 * n)))) / 2 for k in range(n)]


def entry(i):
    root = lambda d: wide(i * WIDTH + d).sqrt()
    x = points(3)
    y = [root(d) for d in x]
    second = ((y[2] - y[1]) / (x[2] - x[1]) - (y[1] - y[0]) / (x[1] - x[0])) / (x[2] - x[0])
    bend = round(-second * WIDTH * 2**21)
    # d * d / 65536 drops a half on the average
    bent = lambda d: root(d) - Decimal(bend) / 2**21 * (WIDTH - 1 - d * d / WIDTH + HALF)
    x = points(2)
    slope = round((bent(x[1]) - bent(x[0])) / (x[1] - x[0]) * 2**21)
    left = [bent(d) - Decimal(slope) / 2**21 * d for d in (Decimal(WIDTH) * k / 64 for k in range(64))]
    height = round(((max(left) + min(left)) / 2 + HALF) * 2**6)
    assert slope < 2**21 and height < 2**30 and bend < 2**13
    return slope, height, bend


def wrong(entries):
    count = 0
    for z in range(0, 2**24, 97):
        (slope, height, bend), d = entries[z // WIDTH], z % WIDTH
        e = (height * 32768 + slope * d + bend * (65535 - d * d // 65536)) // 2097152
        count += not (e * e < wide(z) + e and wide(z) <= e * e + e)
    return count / (2**24 / 97)


entries = [entry(i) for i in range(PARTS)]
print("// The parabolas of `guess`, one for each of 256 parts, written by tables.py: nothing is proved of their numbers.")
print("// Slope, height and bend of part i, in 21, 30 and 13 binary digits.")
print("fn part(i: u32) -> u64 {\n    match i {")
for i, (slope, height, bend) in enumerate(entries):
    name = str(i) if i < PARTS - 1 else "_"
    print(f"        {name} => {slope * 2**43 + height * 2**13 + bend},")
print("    }\n}")
print(f"the guess is wrong for {wrong(entries):.2%} of all z", file=sys.stderr)
