#!/usr/bin/env python3
"""Makes lotcheck's lines readable: .. | python3 tools/sheet.py

It turns the two bit patterns into decimals and names each number; it adds no judgement of its own."""
import struct
import sys

REFUSALS = {
    1: 'B is no multiple of 8 from 8 on',
    2: 'k is 0',
    8: 'fewer than two whole blocks',
    15: 'the input is malformed or too large',
}


def fields(line, width):
    return [int(line[at:at + width]) for at in range(0, len(line), width)]


def number(pattern):
    return struct.unpack('>d', pattern.to_bytes(8, 'big'))[0]


def main():
    lines = sys.stdin.read().splitlines()
    if not lines:
        sys.exit('nothing was printed')
    if len(lines) == 1:
        refusal = int(lines[0])
        print(f'refused: {refusal} ({REFUSALS.get(refusal, "unknown")})')
        return
    block_size, k, training, testing, division, positive = fields(lines[0], 8)
    bits = fields(lines[1], 8)
    found, judged = (number(pattern) for pattern in fields(lines[2], 20))
    print(f'block size       {block_size} bits')
    print(f'width            {k} bits')
    print(f'chosen bits      {" ".join(map(str, bits))}')
    print(f'division         first {division} of {2 ** k} bins')
    print(f'training blocks  {training}')
    print(f'testing blocks   {testing}, of which {positive} positive')
    print(f'z in training    {found!r}')
    print(f'z in testing     {judged!r}')


main()
