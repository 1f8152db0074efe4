"""The cases of crates/chance_cases, answered with Python's whole numbers.

    chance.py FOLDER    writes FOLDER/stdin and FOLDER/stdout

The entries and both ends follow the rule as it is worded. The exact chance is a sum of binomial terms over whole numbers, by `math.comb`; it has to lie
between the ends in every case, or no file is written.
"""

import random
import sys
from fractions import Fraction
from math import comb
from pathlib import Path

UNIT = 2**40
LARGEST = 2**64 - 1
LENT = 4100  # the most entries that the program lends


def refusal(n, c, k, d, room):
    """The first that applies."""
    if n > 4096 or c > n:
        return 19
    if k == 0 or k > 20:
        return 2
    if d == 0 or d >= 2**k:
        return 14
    if room < n + 1:
        return 7
    return 0


def entries(n, k, d):
    """The last row, each made from the whole row before it; a missing entry is 0."""
    row = [UNIT]
    for _ in range(n):
        old = [0] + row + [0]
        row = [(old[j + 1] * (2**k - d) + old[j] * d) // 2**k for j in range(len(row) + 1)]
    return row


def chance(n, c, k, d):
    """The exact chance of at least c positives, a fraction of whole numbers."""
    return Fraction(sum(comb(n, j) * d**j * (2**k - d) ** (n - j) for j in range(c, n + 1)), 2 ** (k * n))


def answer(n, c, k, d, room):
    """What the call answers, and the lent entries after it."""
    lent = [99] * room
    number = refusal(n, c, k, d, room)
    if number:
        return (number, 0, 0), lent
    row = entries(n, k, d)
    low = sum(row[c:])
    high = low + n * (n + 3) // 2
    exact = UNIT * chance(n, c, k, d)
    if not low <= exact <= high:
        sys.exit(f"n {n} c {c} k {k} d {d}: {low} .. {high} does not hold {exact}")
    return (0, low, high), row + lent[n + 1 :]


def refused():
    """Every refusal, at its edge, and beside each that comes after it."""
    for n, c in [(4097, 0), (4097, 4098), (LARGEST, 0), (LARGEST, LARGEST), (5, 6), (0, 1), (4096, 4097), (4096, LARGEST)]:
        yield n, c, 3, 4, 4100
        yield n, c, 0, 0, 0
    for k in [0, 21, 64, 2**32 + 3, LARGEST]:
        yield 5, 2, k, 1, 9
        yield 5, 2, k, 0, 0
    for k in [1, 3, 20]:
        for d in [0, 2**k, 2**k + 1, 2**32 + 1, LARGEST]:
            yield 5, 2, k, d, 9
            yield 5, 2, k, d, 0
    for n in [0, 1, 5, 99]:
        yield n, n, 3, 7, n
        yield n, 0, 20, 1, 0
    yield 4096, 4096, 20, 2**20 - 1, 4096
    yield 4096, 0, 1, 1, 4095


def edges():
    """No block, one and a few, at every width, at the least and the greatest probability and between; all counts; room to the entry and with some left."""
    for k in range(1, 21):
        for d in sorted({1, 2 ** (k - 1), 2**k * 2 // 3 or 1, 2**k - 1}):
            yield 0, 0, k, d, 1
            yield 1, 0, k, d, 2
            yield 1, 1, k, d, 4
            for c in [0, 3, 7]:
                yield 7, c, k, d, 8 + c
    for c in range(0, 13):
        yield 12, c, 3, 5, 13
    # the first block that rounds at one half, and the last before it
    for n in [40, 41]:
        for c in [0, n // 2, n]:
            yield n, c, 1, 1, n + 2


def long():
    """The longest rows: from none to all positive, with zeros at one end of the row, at both and at none; and a sheet's evaluation."""
    yield 2048, 1311, 3, 4, 2049
    for c, k, d in [(0, 1, 1), (2048, 1, 1), (4096, 1, 1), (2181, 5, 16), (1, 20, 1), (4096, 20, 2**20 - 1), (2731, 20, 699051), (0, 20, 2**20 - 1)]:
        yield 4096, c, k, d, LENT
    yield 4095, 2200, 4, 8, 4096


def drawn(draws, count):
    for _ in range(count):
        n = draws.randrange(61)
        k = draws.randrange(1, 21)
        yield n, draws.randrange(n + 1), k, draws.randrange(1, 2**k), n + 1 + draws.randrange(4)


def main():
    cases = list(refused()) + list(edges()) + list(long()) + list(drawn(random.Random(20261117), 150))
    given = [
        "# Made by tools/answers, program chance. Each case's answers are two lines of stdout.",
        "# Brackets: n, c, k, d and the number of lent entries, each 99. Answer: the refusal and both ends; every entry that was lent.",
        str(len(cases)),
    ]
    told = []
    for case in cases:
        given.append(" ".join(map(str, case)))
        told += ["".join(f"{number} " for number in line) for line in answer(*case)]
    folder = Path(sys.argv[1])
    (folder / "stdin").write_text("\n".join(given) + "\n")
    (folder / "stdout").write_text("\n".join(told) + "\n")
    print(f"{folder}: {len(cases)} cases", file=sys.stderr)


if __name__ == "__main__":
    main()
