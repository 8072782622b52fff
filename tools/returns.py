#!/usr/bin/env python3
"""Runs the returns desk's program and compares what it writes with what another decoder works out.

    python3 tools/returns.py crates/returns/out/returns

Says nothing and ends with 0 where all agree; else it names the inputs that differ and ends with 1. The expected bytes
come from tools/cases.py, of the large fields with what tools/trial.py gives it. Inputs come whole, in pieces, and without end.
"""
import sys

import cases
from cases import A, ALIKE, B, BYTE, CLASH, DEEP, EIGHT, EVEN, LARGE, SMALL, THREE, TIGHT, TWELVE, TWO, WIDE
from cases import below, erased, flipped, mender, page_bytes, some_damage, some_member, some_page, some_places, strength
from trial import FULL                     # it gives cases what the large fields need
from writer import differing, endless, given

LARGEST = (12, 8, 3, 2, 3, 4, 5, 0)
LONGEST = 4104                             # bytes of the longest accepted input
DRAWN = 12                                 # pages drawn of each small sheet


def damaged(sheet, page, counts, wanted):
    """The member with so many flips in its sub-words in turn, drawn until it is mended as wanted: what comes of it, and the rounds or why nothing
    does."""
    while True:
        bad = flipped(sheet, page, *[(i, k) for i, count in enumerate(counts) for k in some_places(sheet, count)])
        if cases.mended(sheet, bad) == wanted:
            return bad


def cases_of():
    """Each a name, the pieces, and the bytes that are to be written."""
    def case(name, data, number=None):
        expected = mender(data)
        assert number is None or expected == [number], (name, expected)
        return name, [data], expected

    def back(name, sheet, page, counts, rounds):
        return '%s, %s %s' % (name, sheet, counts), [given(sheet, below(256), damaged(sheet, page, counts, (page, rounds)))], [0] + page

    # refusals of the sheet, of the page, and missing bytes
    page = some_member(A)
    yield case('empty', [], 1)
    for q in (0, 3, 5, 13, 255):
        yield case('field %d' % q, given((q, *A[1:]), 8, page), 1)
    for m, v in ((2, 0), (2, 4), (1, 1), (9, 1), (3, 3), (255, 255)):
        yield case('shape %d %d' % (m, v), [4, m, v, 8, 1, 2, 3, 4] + page, 2)
    for t in ((0, 1), (1, 1), (2, 1), (1, 8), (255, 255)):
        yield case('strengths %d %d' % t, [4, 2, 1, 8, *t] + page, 3)
    yield case('clash', given(CLASH, 8, [0] * 8), 4)
    for width in (0, 65, 255):
        yield 'width %d' % width, [given(A, width, page)], [0] + page
    for k in range(len(given(A, 8, page)) + 3):
        yield case('first %d' % k, (given(A, 8, page) + [0, 0])[:k])
    for sheet in (A, TWO, BYTE, LARGEST):
        page, size = some_member(sheet), page_bytes(sheet)
        yield 'page short, %s' % (sheet,), [given(sheet, 8, page[:-1])], [7]
        yield 'page long, %s' % (sheet,), [given(sheet, 8, page + [0])], [7]
        yield 'no page, %s' % (sheet,), [given(sheet, 8, [])], [7]
        for i in range(sheet[1]):
            yield 'stray %d, %s' % (i, sheet), [given(sheet, 8, flipped(sheet, page, (i, 2 ** sheet[0] - 1)))], [8]
        yield 'page, %s' % (sheet,), [given(sheet, 8, page)], [0] + page
        yield 'zeros, %s' % (sheet,), [given(sheet, 8, [0] * size)], [0] + [0] * size
        yield 'blank, %s' % (sheet,), [given(sheet, 8, erased(sheet, [0] * sheet[1]))], [17]
        yield 'erased, %s' % (sheet,), [given(sheet, 8, erased(sheet, [1] * sheet[1]))], [8]

    # small sheets: flips drawn, up to one more than t_v in each, and pages drawn
    ends = set()
    for sheet in (A, B, ALIKE, WIDE, DEEP, TIGHT, TWO, THREE, SMALL, EVEN):
        for k in range(DRAWN):
            bad = some_page(sheet) if k % 4 == 0 else some_damage(sheet, [below(strength(sheet, sheet[2]) + 2) for _ in range(sheet[1])])[1]
            ends.add(cases.mended(sheet, bad)[1])
            yield case('drawn %d of %s' % (k, sheet), given(sheet, below(256), bad))
    for counts in ((3, 2, 1), (1, 0, 3), (2, 3, 2)):
        yield back('round', TWO, some_member(TWO), counts, 1)
    assert ends >= {0, 1, 'other', 'many', 'blank'}, ends

    # large sheets: t_0 flips in each sub-word; where a word of more can be left, as many in v of them as a round mends, v rounds, and one more
    for sheet in (EIGHT, BYTE, FULL, TWELVE, LARGE, LARGEST):
        q, m, v, *t, s = sheet
        page = some_member(sheet)
        yield back('first pass', sheet, page, (t[0],) * m, 0)
        if t[0] > 1:
            yield back('%d beyond' % v, sheet, page, (t[1],) * v + (t[0],) * (m - v), 1)
            yield back('%d rounds' % v, sheet, page, (0,) * (m - v) + tuple(t[1:v + 1]), v)
            many = damaged(sheet, page, (0,) * (m - v - 1) + (t[0] + 1,) * (v + 1), (None, 'many'))
            yield case('more than %d beyond, %s' % (v, sheet), given(sheet, 8, many), 17)

    # the longest input, in pieces and without end
    page = some_member(LARGEST)
    longest = given(LARGEST, 64, damaged(LARGEST, page, (2, 4, 2, 0, 5, 1, 3, 2), (page, 3)))
    assert len(longest) == LONGEST
    yield 'longest', [longest], [0] + page
    yield 'longest in pieces', [longest[k:k + 97] for k in range(0, LONGEST, 97)], [0] + page
    yield 'longest and one', [longest + [0]], [7]
    yield 'longest and more', [longest, [0] * 5000], [7]
    yield 'longest and no end', endless(longest, [0] * 4096), [7]
    yield 'no end', endless([], [121, 10] * 2048), [1]
    yield 'no end, clash', endless([4, 4, 2, 8, 1, 2, 3], [0] * 4096), [4]
    yield 'no end, small', endless(given(A, 8, []), some_member(A) * 1024), [7]


if __name__ == '__main__':
    sys.exit(1 if differing(sys.argv[1], cases_of()) else 0)
