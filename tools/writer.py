#!/usr/bin/env python3
"""Runs the writer program and compares what it writes with what another encoder works out.

    python3 tools/writer.py crates/writer/out/writer

Says nothing and ends with 0 where all agree; else it names the inputs that differ and ends with 1. The expected bytes
come from tools/cases.py, with the generators of the large fields from tools/trial.py. Inputs come whole, in pieces, and
without end.
"""
import subprocess
import sys
import time

from cases import A, B, CLASH, SMALL, all_but_one, all_ones, block_bits, block_bytes, data_bytes, some_blocks, writer
from trial import BYTE                     # it gives cases the generators of the large fields

DEEP = (12, 4, 3, 1, 2, 2, 3, 0)
LARGEST = (12, 8, 1, 1, 2, 0, 0, 0)
LONGEST = 4092                             # bytes of the longest accepted input
SECONDS = 60


def given(sheet, width, blocks):
    q, m, v, *t, s = sheet
    assert s == 0
    return [q, m, v, width] + t[:v + 1] + blocks


def stray(sheet, blocks):
    """The blocks, with the first unused bit of the first block that has one."""
    blocks, at = list(blocks), 0
    for bits, size in zip(block_bits(sheet), block_bytes(sheet)):
        at += size
        if bits % 8:
            blocks[at - 1] |= 1 << bits % 8
            return blocks
    raise AssertionError('no unused bit')


def program(path, pieces):
    """What the program writes when standard input comes in these pieces; it may end before they do."""
    run = subprocess.Popen([path], stdin=subprocess.PIPE, stdout=subprocess.PIPE)
    limit = time.monotonic() + SECONDS
    try:
        try:
            for piece in pieces:
                run.stdin.write(bytes(piece))
                run.stdin.flush()
                assert time.monotonic() < limit, 'it reads on'
            run.stdin.close()
        except BrokenPipeError:
            pass
        run.stdin = None
        out = run.communicate(timeout=SECONDS)[0]
    finally:
        run.kill()
    assert run.returncode == 0, 'status %d' % run.returncode
    return list(out)


def endless(start, again):
    yield start
    while True:
        yield again


def cases_of():
    """Each a name, the pieces, and the bytes that are to be written."""
    def case(name, data, number=None):
        expected = writer(data)
        assert number is None or expected == [number], (name, expected)
        return name, [data], expected

    yield case('empty', [], 1)
    yield 'example', [[4, 2, 1, 8, 1, 2, 1, 1, 0]], [0, 0xC2, 1, 0x13, 0]
    for q in (0, 3, 5, 13, 255):
        yield case('field %d' % q, given((q, *A[1:]), 8, [1, 1, 0]), 1)
    for m, v in ((2, 0), (2, 4), (1, 1), (9, 1), (3, 3), (255, 255)):
        yield case('shape %d %d' % (m, v), [4, m, v, 8, 1, 2, 3, 4, 1, 1, 0], 2)
    for t in ((0, 1), (1, 1), (2, 1), (1, 8), (255, 255)):
        yield case('strengths %d %d' % t, [4, 2, 1, 8, *t, 1, 1, 0], 3)
    yield case('clash', given(CLASH, 8, [0] * 7), 4)
    for width in (0, 65, 255):
        yield case('width %d' % width, given(A, width, [1, 1, 0]), 5)
    for k in range(len(given(A, 8, [1, 1, 0])) + 2):
        yield case('first %d' % k, (given(A, 8, [1, 1, 0]) + [0, 0])[:k])
    for sheet in (A, B, BYTE, DEEP):
        exact = some_blocks(sheet)
        yield case('blocks short', given(sheet, 8, exact[:-1]), 6)
        yield case('blocks long', given(sheet, 8, exact + [0]), 6)
        yield case('no blocks', given(sheet, 8, []), 6)
        yield case('stray', given(sheet, 8, stray(sheet, exact)), 8)
        page = writer(given(sheet, 1, exact))
        for width in (1, 7, 64):
            yield 'page, width %d' % width, [given(sheet, width, exact)], page
        yield case('zeros', given(sheet, 1, [0] * data_bytes(sheet)))
    for sheet in (A, B, SMALL, BYTE, DEEP):
        ones = all_ones(sheet)
        for width in (1, 64):
            yield case('ones, width %d' % width, given(sheet, width, ones), 13)
        yield case('ones, width 0', given(sheet, 0, ones), 5)
        yield case('ones, short', given(sheet, 8, ones[:-1]), 6)
        yield case('ones, stray', given(sheet, 8, stray(sheet, ones)), 8)
        for i in (0, sheet[1] - 1):
            yield case('ones but one of block %d' % i, given(sheet, 8, all_but_one(sheet, i, block_bits(sheet)[i] - 1)))
    longest = given(LARGEST, 64, some_blocks(LARGEST))
    page = writer(longest)
    assert len(longest) == LONGEST and len(page) == 4097
    yield 'longest', [longest], page
    yield 'longest in pieces', [longest[k:k + 97] for k in range(0, LONGEST, 97)], page
    yield case('longest of ones', given(LARGEST, 64, all_ones(LARGEST)), 13)
    yield 'longest and one', [longest + [0]], [6]
    yield 'longest and more', [longest, [0] * 5000], [6]
    yield 'longest and no end', endless(longest, [0] * 4096), [6]
    yield 'no end', endless([], [121, 10] * 2048), [1]
    yield 'no end, clash', endless([4, 4, 2, 8, 1, 2, 3], [0] * 4096), [4]
    yield 'no end, width', endless([4, 2, 1, 0, 1, 2], [0] * 4096), [5]


def differing(path, cases):
    """Names the inputs for which the program does not write what is expected, and gives their number."""
    failed = 0
    for name, pieces, expected in cases:
        try:
            out = program(path, pieces)
        except (subprocess.TimeoutExpired, AssertionError) as reason:
            out = repr(reason)
        if out != expected:
            failed += 1
            print('%s: writes %s, expected %s' % (name, str(out)[:200], str(expected)[:200]), file=sys.stderr)
    return failed


if __name__ == '__main__':
    sys.exit(1 if differing(sys.argv[1], cases_of()) else 0)
