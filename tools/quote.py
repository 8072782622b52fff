#!/usr/bin/env python3
"""What the program quote must write.

    python3 tools/quote.py > crates/quote/stdout
    python3 tools/quote.py crates/quote/out/quote

The first writes the text for crates/quote/stdin. The second runs the program on more inputs, says nothing and ends with 0
where all agree; else it names the inputs that differ and ends with 1. The numbers come from tools/cases.py, with the
generators of the large fields from tools/trial.py.
"""
import subprocess
import sys
from pathlib import Path

import cases
import trial  # gives cases the generators of the large fields

STORED = 'crates/quote/stdin'
WORDS = {1: 'field', 2: 'shape', 3: 'strengths', 4: 'clash', 14: 'shortening'}


def sheet(given):
    """q, m, v, then if v is 1 to 3 t_0 to t_v, and s in two bytes; what is missing is 0."""
    q, m, v, *rest = list(given) + [0] * 9
    if not 1 <= v <= 3:
        return (q, m, v, 0, 0, 0, 0, 0)
    t, (low, high) = rest[:v + 1], rest[v + 1:v + 3]
    return (q, m, v, *t, *[0] * (3 - v), low + 256 * high)


def given(sheet):
    """The input of a sheet with s in two bytes."""
    return bytes(sheet[:4 + sheet[2]]) + sheet[7].to_bytes(2, 'little') if 1 <= sheet[2] <= 3 else bytes(sheet[:7])


def said(given):
    s = sheet(given)
    numbers = lambda xs: ''.join(' %d' % x for x in xs)
    head = 'sheet: q %d, m %d, v %d, t%s%s\n' % (*s[:3], numbers(t for t in s[3:7] if t), ', s %d' % s[7] if s[7] else '')
    code = cases.refusal(s)
    if code:
        return head + 'refused %d: %s\n' % (code, WORDS[code])
    return head + ('check bits of each level:%s\ndata bits of each block:%s\nblocks: %d bytes\npage: %d bytes\ndistance: %d bits\n'
            % (numbers(cases.degree(s, a) for a in range(s[2] + 1)), numbers(cases.block_bits(s)), cases.data_bytes(s), cases.page_bytes(s), cases.distance(s)))


def inputs():
    for s in trial.SHEETS + trial.SHORTENED + trial.REFUSED + trial.EDGES:
        if s[7] < 65536:
            yield given(s)
            yield given(s)[:4 + s[2]]       # without s
            yield bytes(s[:7])              # the places past v are read as s
    large = given(trial.shortened(trial.LARGE, 1900))
    for k in range(len(large)):
        yield large[:k]
    yield large + b'\xff'                   # what follows is not read
    yield bytes([12, 8, 3, 28, 32, 39, 58])
    for k in (3, 6, 7, 255, 256, 259, 512, 65535):
        yield given(trial.shortened(trial.A, k))
    for t in (1, 2, 3, 4, 6):
        yield bytes([4, 2, 1, t, 7])


def run(program):
    wrong = 0
    for given in dict.fromkeys(inputs()):
        out = subprocess.run([program], input=given, capture_output=True, timeout=60).stdout.decode()
        if out != said(given):
            print('%s: %r, and not %r' % (given.hex(' '), out, said(given)), file=sys.stderr)
            wrong = 1
    return wrong


if __name__ == '__main__':
    if len(sys.argv) > 1:
        sys.exit(run(sys.argv[1]))
    sys.stdout.write(said(Path(STORED).read_bytes()))
