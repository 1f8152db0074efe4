#!/usr/bin/env python3
"""Makes weak-source.bin, a recording of a weak source: python3 samples/make.py >samples/weak-source.bin

4,096 blocks of 16 bits, two bytes each, the highest bit of the first byte being bit 0. The bits are drawn (xorshift64*, a fixed seed), but bit 12
is made from two others: in five blocks of eight, drawn too, it is the XOR of bits 3 and 7, in the others the opposite. Each bit by itself and
each pair of bits is fair; only the three together show it."""
import sys

state = 20261115


def draw():
    """The next 64 bits of xorshift64*."""
    global state
    state ^= state >> 12
    state = (state ^ state << 25) % 2**64
    state ^= state >> 27
    return state * 0x2545F4914F6CDD1D % 2**64


def block():
    word = draw()
    bits = [word >> 63 - b & 1 for b in range(16)]
    opposite = word >> 45 & 7 >= 5
    bits[12] = bits[3] ^ bits[7] ^ opposite
    return sum(bit << 15 - b for b, bit in enumerate(bits)).to_bytes(2, 'big')


sys.stdout.buffer.write(b''.join(block() for _ in range(4096)))
