"""Brackets with Python's whole numbers, asked over a pipe by the programs of src/bin.

A line of input has n, c, k, d and a factor. Its answer has both ends by the rule of chance.py, and the exact chance times 2^40 times the factor, rounded
down: where that is below a whole number, so is what was rounded. A chance that does not lie between the ends stops the program without an answer.
"""

import sys
from functools import cache

from chance import UNIT, chance, entries

row = cache(entries)
exact = cache(chance)


def answer(n, c, k, d, factor):
    low = sum(row(n, k, d)[c:])
    high = low + n * (n + 3) // 2
    times = UNIT * exact(n, c, k, d)
    if not low <= times <= high:
        sys.exit(f"n {n} c {c} k {k} d {d}: {low} .. {high} does not hold {times}")
    return low, high, times * factor // 1


for line in sys.stdin:
    print(*answer(*map(int, line.split())), flush=True)
