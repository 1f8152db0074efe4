#!/usr/bin/env python3
"""A second source for sweeps: the rules in plain Python, none of the repository's code.

    diff <(python3 include/example/sweep.py) <(grep -A 2 '^sweep, .*tested$' include/example/expected | grep -v '^--')
    python3 include/example/sweep.py FILE BLOCK_SIZE LEVEL [--low-first]

The first makes the lines of the C example for its sweeps that are not refused, in half a minute; the second sweeps a file, LEVEL being in units of 2^-40, and takes
long where that is. Python's floats are IEEE 754 doubles, and its operations and math.sqrt round once; the chance is made of whole numbers."""
import itertools
import math
import sys


def plan(size, length):
    sizes, top, at = [8], max(size, 512), size
    while at <= top:
        sizes += [at] if at != 8 else []
        at *= 2
    width = lambda b: 4 if length <= 10_000_000 and b < 128 else 3 if length < 2_000_000_000 and b < 256 else 2
    return [(b, 8 if i == 0 else width(b)) for i, b in enumerate(sizes)]


def blocks_of(raw, size):
    return [raw[at:at + size // 8] for at in range(0, len(raw) - size // 8 + 1, size // 8)]


def rows_of(blocks, size, low_first):
    """Of each bit the blocks that have it set, as the bits of a number."""
    rows = [0] * size
    for e, block in enumerate(blocks):
        for b in range(size):
            rows[b] |= (block[b // 8] >> (b % 8 if low_first else 7 - b % 8) & 1) << e
    return rows


def counts_of(rows, n, bits):
    """Bin by bin: the blocks with the bit clear, then those with it set."""
    parts = [2 ** n - 1]
    for b in bits:
        parts = [part & ~rows[b] for part in parts] + [part & rows[b] for part in parts]
    return tuple(part.bit_count() for part in parts)


def ranking(n, k, counts):
    """The bin order, the division and z."""
    order = sorted(range(2 ** k), key=lambda v: (-counts[v], v))
    division, z, c = 1, 0.0, 0
    for i in range(1, 2 ** k):
        c += counts[order[i - 1]]
        p = i / 2 ** k
        size = abs((c - p * n) / math.sqrt(p * (1.0 - p) * n))
        if z < size:
            division, z = i, size
    return order, division, z


def search(blocks, size, k, low_first):
    """Subsets that have the same counts are ranked once."""
    best, ranked, rows = None, {}, rows_of(blocks, size, low_first)
    for bits in itertools.combinations(range(size), k):
        counts = counts_of(rows, len(blocks), bits)
        if counts not in ranked:
            ranked[counts] = ranking(len(blocks), k, counts)
        order, division, z = ranked[counts]
        if best is None or best[3] < z:
            best = bits, order, division, z
    return best


def bracket(n, c, k, d):
    row = [2 ** 40]
    for _ in range(n):
        row = [(a * (2 ** k - d) + b * d) // 2 ** k for a, b in zip(row + [0], [0] + row)]
    return sum(row[c:]), sum(row[c:]) + n * (n + 3) // 2


def sweep(raw, size, low_first, level):
    """The verdict, how many pairs were tested, the best one and the last."""
    pairs = plan(size, len(raw))
    share, tested, below = level // len(pairs), 0, False
    best = last = None
    for b, k in pairs:
        blocks = blocks_of(raw, b)
        m = len(blocks)
        if m < 2:
            continue
        bits, order, division, z = search(blocks[:m // 2], b, k, low_first)
        testing = blocks[m // 2:][:4096]
        counts = counts_of(rows_of(testing, b, low_first), len(testing), bits)
        positive = sum(counts[v] for v in order[:division])
        low, high = bracket(len(testing), positive, k, division)
        last = b, k, list(bits), division, z, len(testing), positive, low, high
        tested += 1
        best = last if best is None or low < best[7] else best
        below = below or low < share
        if high < share:
            return 'rejected', tested, best, last
    return 'undecided' if below else 'not rejected', tested, best, last


def print_sweep(raw, size, low_first, level):
    verdict, tested, best, last = sweep(raw, size, low_first, level)
    print(f'sweep, length {len(raw)}, level {level}: {verdict}, {tested} pairs tested')
    for name, (b, k, bits, division, z, n, positive, low, high) in ('best', best), ('last', last):
        print(f'  {name}: B {b}, bits {" ".join(map(str, bits))}, division {division}, z {z:g}', end='')
        print(f', positive {positive} of {n}, 2^-40 times {low} to {high}')


def generate(length, weak):
    """The bytes of the C example."""
    state, out = 1, []
    for i in range(length):
        state = (state * 1664525 + 1013904223) % 2 ** 32
        byte = state >> 24
        out.append(byte & 0xFE | out[-1] >> 7 if weak and i % 2 else byte)
    return bytes(out)


if len(sys.argv) > 1:
    print_sweep(open(sys.argv[1], 'rb').read(), int(sys.argv[2]), '--low-first' in sys.argv, int(sys.argv[3]))
else:
    for length, weak, level in (512, True, 2 ** 30), (512, True, 7 * 8384), (512, True, 7 * 560), (64, False, 2 ** 30):
        print_sweep(generate(length, weak), 16, False, level)
