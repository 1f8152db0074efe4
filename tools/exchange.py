#!/usr/bin/env python3
"""A second source for findings as text: the rules of docs/RULES.md, 9, and the grammar of RFC 8259 in plain Python, none of the repository's code.

    python3 tools/exchange.py <cases

A case is a line, each list of numbers with commas between them:

    read TEXT ORDER SCRATCH                    the text's bytes, the entries of the order buffer and of the scratch
    write NUMBERS INDICES SCRATCH OUT          block size, width, division, z, 20 bits and low_first; the order; the entries of the scratch and of the output

Every entry of a buffer is 99 before. A reading's answer is three lines: the refusal and the finding's 25 numbers; the order buffer; the scratch. A
writing's: the refusal and the length; the output; the scratch. Each text is judged a second time, by Python's json: where both differ it ends."""
import json
import re
import sys

LENT = 99
LARGEST = 2 ** 32 - 1
WIDEST = 20

# RFC 8259, its rules' names; white space stands around tokens. The four keys hold int alone, low_first true or false.
WS = r'[ \t\n\r]*'
INT = r'(?:0|[1-9][0-9]*)'
NUMBER = rf'-?{INT}(?:\.[0-9]+)?(?:[eE][+-]?[0-9]+)?'
ARRAY = rf'\[{WS}(?:{INT}{WS}(?:,{WS}{INT}{WS})*)?\]'
MEMBER = rf'"(?:(?:bits|sorted_indices)"{WS}:{WS}{ARRAY}|(?:best_division|block_size)"{WS}:{WS}{INT}|low_first"{WS}:{WS}(?:true|false)|z_score"{WS}:{WS}{NUMBER})'
TEXT = re.compile(rf'{WS}\{{{WS}{MEMBER}{WS}(?:,{WS}{MEMBER}{WS})*\}}{WS}')
PAIR = re.compile(rf'"(\w+)"{WS}:([^"}}]*)')
ARRAYS = 'bits', 'sorted_indices'
WHOLES = 'best_division', 'block_size'


def numbers(digits):
    """The numbers of these digits, or None where one is above 2^32 - 1. None of them has a leading zero."""
    if all(len(d) <= 10 and int(d) <= LARGEST for d in digits):
        return [int(d) for d in digits]
    return None


def said(text):
    """What a text says, as a dictionary of the four keys and low_first; None where it is no such object."""
    text = text.decode('latin-1')
    if not TEXT.fullmatch(text):
        return None
    pairs = PAIR.findall(text)
    values = dict(pairs)
    if len(values) != len(pairs) or not values.keys() >= {*ARRAYS, *WHOLES}:
        return None
    found = {key: numbers(re.findall('[0-9]+', values[key])) for key in ARRAYS + WHOLES}
    if None in found.values():
        return None
    low_first = 'true' in values.get('low_first', 'false')
    return {key: value if key in ARRAYS else value[0] for key, value in found.items()} | {'low_first': low_first}


class Number(str):
    """A number as it is written, which json would turn into another."""


def refuse(name):
    raise ValueError(name)


def said_by_json(text):
    """The same by Python's json. It hides escapes, but no text that says something has one, or a byte above 127."""
    try:
        pairs = json.loads(text.decode('ascii'), object_pairs_hook=tuple, parse_int=Number, parse_float=Number, parse_constant=refuse)
    except (ValueError, RecursionError):
        return None
    if type(pairs) is not tuple or b'\\' in text:
        return None
    values = dict(pairs)
    low_first = values.pop('low_first', False)
    if len(dict(pairs)) != len(pairs) or type(low_first) is not bool:
        return None
    if type(values.pop('z_score', Number())) is not Number or values.keys() != {*ARRAYS, *WHOLES}:
        return None
    for key, value in values.items():
        digits = value if key in ARRAYS else [value]
        if type(digits) is not list or not all(type(d) is Number and d.isdigit() for d in digits) or numbers(digits) is None:
            return None
        values[key] = numbers(digits) if key in ARRAYS else int(value)
    return values | {'low_first': low_first}


def check_refusal(block_size, width, bits, division, order, scratch):
    """The first number of the check that applies, 0 for none. `bits` has at least as many as are chosen where the width is none to refuse."""
    if block_size % 8 != 0 or not 8 <= block_size <= 4096:
        return 1
    if not 1 <= width <= WIDEST:
        return 2
    bits, bins = bits[:width], 2 ** width
    if any(a >= b for a, b in zip(bits, bits[1:])):
        return 9
    if any(bit >= block_size for bit in bits):
        return 10
    if len(order) != bins:
        return 11
    if scratch < bins:
        return 7
    if sorted(order) != list(range(bins)):
        return 13
    if not 1 <= division < bins:
        return 14
    return 0


def checked(refusal, width, scratch):
    """A scratch of so many entries after the check."""
    cleared = 2 ** width if refusal in (0, 13, 14) else 0
    return [0] * cleared + [LENT] * (scratch - cleared)


def read(text, order, scratch):
    """The refusal, the finding, the order buffer and the scratch."""
    values = said(text)
    assert values == said_by_json(text), text
    if values is None:
        return 16, [0] * 25, [LENT] * order, [LENT] * scratch
    bits, indices, division, block_size = values['bits'], values['sorted_indices'], values['best_division'], values['block_size']
    if len(indices) > order:
        return 17, [0] * 25, [LENT] * order, [LENT] * scratch
    width = len(bits)
    refusal = check_refusal(block_size, width, bits, division, indices, scratch)
    finding = [0] * 25 if refusal else [block_size, width, division, 0] + bits + [0] * (WIDEST - width) + [int(values['low_first'])]
    return refusal, finding, indices + [LENT] * (order - len(indices)), checked(refusal, width, scratch)


def text_of(bits, indices, division, block_size, low_first):
    low_first = 'true' if low_first else 'false'
    bits, indices = (','.join(map(str, ns)) for ns in (bits, indices))
    return f'{{"bits":[{bits}],"sorted_indices":[{indices}],"best_division":{division},"block_size":{block_size},"low_first":{low_first}}}'.encode()


def write(finding, order, scratch, out):
    """The refusal, the length, the output and the scratch."""
    block_size, width, division, _, *bits, low_first = finding
    refusal = check_refusal(block_size, width, bits, division, order, scratch)
    text = b'' if refusal else text_of(bits[:width], order, division, block_size, low_first)
    after = checked(refusal, width, scratch)
    if len(text) > out:
        refusal, text = 17, b''
    return refusal, len(text), list(text) + [LENT] * (out - len(text)), after


def listed(field):
    return [int(number) for number in field.split(',') if number]


def line(ns):
    return ''.join(f'{n} ' for n in ns)


def main():
    for case in sys.stdin:
        kind, *fields = case.rstrip('\n').split(' ')
        if kind == 'read':
            refusal, finding, order, scratch = read(bytes(listed(fields[0])), int(fields[1]), int(fields[2]))
            answer = [refusal] + finding, order, scratch
        else:
            refusal, length, out, scratch = write(listed(fields[0]), listed(fields[1]), int(fields[2]), int(fields[3]))
            answer = [refusal, length], out, scratch
        print(*map(line, answer), sep='\n', flush=True)


if __name__ == '__main__':
    main()
