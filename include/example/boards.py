#!/usr/bin/env python3
"""A second source for boards: the rules in plain Python, none of the repository's code.

    diff <(python3 include/example/boards.py) <(sed -n '/^boards/,/^sweep/p' include/example/expected | grep -v '^sweep')

It makes the lines of the C example for boards that take turns and for the carry-over, with blocks of two bytes, of which 64 are capacity."""
SIZE, CAPACITY = 2, 64


def whole(data):
    """The whole blocks of bytes, and what is past them."""
    end = len(data) - len(data) % SIZE
    return [data[at:at + SIZE] for at in range(0, end, SIZE)], data[end:]


def print_state(blocks, tails):
    print(f'blocks {len(blocks)}, unfinished', *(f'[{tail.hex().upper()}]' for tail in tails))


def feed(blocks, tails, board, piece):
    print(f'  board {board}, length {len(piece)}: ', end='')
    if board > 3:
        return print('refusal 21')
    new, rest = whole(tails[board] + piece)
    if len(blocks) + len(new) > CAPACITY:
        return print('refusal 5')
    blocks += new
    tails[board] = rest
    print_state(blocks, tails)


def carry_over(data, taken):
    """Of a recording under the earlier rule: its blocks, and its unfinished bytes as board 0's."""
    print(f'carried over, length {taken}: ', end='')
    if taken > CAPACITY * SIZE:
        return print('refusal 4')
    blocks, rest = whole(data[:taken])
    tails = [rest, b'', b'', b'']
    print_state(blocks, tails)
    return blocks, tails


def print_blocks(blocks):
    for e, block in enumerate(blocks):
        print(f'  block {e}: ' + ''.join(f'{byte:08b}' for byte in block))


print('boards that take turns')
blocks, tails = [], [b''] * 4
for board, piece in (0, '12'), (1, '345678'), (0, '9A'), (2, 'BC'), (1, 'DEF0'):
    feed(blocks, tails, board, bytes.fromhex(piece))
print_blocks(blocks)
for board, length in (4, 1), (3, 122), (1, 1), (0, 1), (4, 2):
    feed(blocks, tails, board, bytes(length))

data = bytes.fromhex('A50FC3')
carry_over(data, 129)
blocks, tails = carry_over(data, 3)
feed(blocks, tails, 1, bytes.fromhex('1122'))
feed(blocks, tails, 0, bytes.fromhex('3C'))
print_blocks(blocks)
