#!/usr/bin/env python3
"""A second source for a sheet: the rules of docs/RULES.md in plain Python, block by block and subset by subset, none of the repository's code.

    diff <(python3 samples/check.py 16 3 samples/weak-source.bin) <(./lotcheck --raw 16 3 samples/weak-source.bin)

Python's floats are IEEE 754 doubles, and its operations and math.sqrt round once. For input that is not refused."""
import itertools
import math
import struct
import sys


def bin_of(block, bits):
    return sum((block[b // 8] >> 7 - b % 8 & 1) << i for i, b in enumerate(bits))


def counts_of(blocks, bits):
    counts = [0] * 2 ** len(bits)
    for block in blocks:
        counts[bin_of(block, bits)] += 1
    return counts


def z_score(n, c, p):
    return (c - p * n) / math.sqrt(p * (1.0 - p) * n)


def ranking(n, k, counts):
    """The bin order, the division and z."""
    order = sorted(range(2 ** k), key=lambda v: (-counts[v], v))
    division, z, c = 1, 0.0, 0
    for i in range(1, 2 ** k):
        c += counts[order[i - 1]]
        size = abs(z_score(n, c, i / 2 ** k))
        if z < size:
            division, z = i, size
    return order, division, z


def search(blocks, size, k):
    best = None
    for bits in itertools.combinations(range(size), k):
        order, division, z = ranking(len(blocks), k, counts_of(blocks, bits))
        if best is None or best[3] < z:
            best = bits, order, division, z
    return best


def pattern(z):
    return struct.unpack('>Q', struct.pack('>d', z))[0]


def line(width, numbers):
    print(''.join(str(number).rjust(width) for number in numbers))


size, k = int(sys.argv[1]), int(sys.argv[2])
raw = open(sys.argv[3], 'rb').read()
blocks = [raw[at:at + size // 8] for at in range(0, len(raw) - size // 8 + 1, size // 8)]
training, testing = blocks[:len(blocks) // 2], blocks[len(blocks) // 2:]
bits, order, division, z = search(training, size, k)
counts = counts_of(testing, bits)
positive = sum(counts[v] for v in order[:division])
line(8, [size, k, len(training), len(testing), division, positive])
line(8, bits)
line(20, [pattern(z), pattern(z_score(len(testing), positive, division / 2 ** k))])
