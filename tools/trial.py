#!/usr/bin/env python3
"""The input of crates/gate_trial, and what it must write.

    python3 tools/trial.py crates/gate_trial

writes stdin and stdout there. The answers come from tools/cases.py, another encoder written from the requirement
(docs/REQUIREMENT.md). For the large fields four of its parts are done again here: generators by the product of
x + alpha^s over the roots, the elimination on the code's conditions with its columns as numbers, near multiples by
Euclid's algorithm on the syndromes, with a division to confirm them, and the errors of a round by an elimination on the
nested words' syndromes and Euclid's algorithm on each error's. Nothing is drawn at random but from its fixed sequence.
"""
import sys
from functools import lru_cache
from itertools import cycle, product as tuples
from pathlib import Path

import cases
from cases import A, A3, A6, ALIKE, B, B4, BYTE, CLASH, DEEP, DEEP4, EIGHT, EVEN, FIELD, LARGE, PAIR, PAIR24, SMALL, THREE, TIGHT, TWELVE, TWO, TWO4, U32, U64, WIDE
from cases import below, exponents, largest, nesting, number, refusal, shortened, some_bytes, some_places, strength

TEST, NESTING, GENERATORS, ELEMENTS, OPEN, FEED, REMAINDER, SHORT, NESTED, SYNDROMES, NESTED_SYNDROMES, JUDGE, READ_OUT, WRITE, QUOTE, WRITE_MANY, ALTER, MEND, ALL, MEND_PAGE = range(20)
WIDTHS = (1, 7, 8, 63, 64)

FULL = (8, 5, 3, 2, 4, 6, 7, 0)
SHEETS = (A, B, ALIKE, WIDE, DEEP, TIGHT, SMALL, BYTE, FULL, EIGHT, LARGE)
# Shortened by a few coefficients, by half of them, and by nearly all; n - s a multiple of 8, and one off it.
SHORTENED = (A3, B4, PAIR24, shortened(BYTE, 6), shortened(TWELVE, 1903))
WHOLE_REFUSED = (
    (5, 2, 1, 1, 2, 0, 0), (0, 0, 0, 0, 0, 0, 0), (4, 2, 0, 1, 2, 0, 0), (8, 9, 1, 1, 2, 0, 0), (12, 3, 3, 1, 2, 3, 4),
    (4, 2, 1, 2, 2, 0, 0), (4, 2, 1, 0, 2, 0, 0), (12, 8, 3, 28, 32, 39, 65), (4, 2, 1, 1, 2, 1, 0), (4, 6, 1, 1, 2, 0, 0),
    (255, 2, 1, 1, 2, 0, 0), (4, 255, 1, 1, 2, 0, 0), (4, 2, 255, 1, 2, 0, 0), (4, 2, 1, 1, 255, 0, 0), (4, 4, 3, 1, 2, 2, 255), (255,) * 7)
REFUSED = tuple((*s, 0) for s in WHOLE_REFUSED) + ((255,) * 7 + (U32,), shortened(CLASH, U32), shortened(A, 7), shortened(A, U32), shortened(LARGE, 3405))
# The edges of the rules on a sheet: field, shape, strengths, clashes; and, of s, with numbers that are small in their lowest byte or two.
WHOLE_EDGES = (
    (3, 9, 4, 0, 0, 0, 1), (16, 2, 1, 1, 2, 0, 0), (4, 1, 1, 1, 2, 0, 0), (4, 2, 2, 1, 2, 2, 0), (4, 3, 3, 1, 2, 2, 2), (4, 5, 4, 1, 2, 2, 2),
    (4, 9, 1, 1, 2, 0, 0), (4, 8, 1, 1, 2, 0, 0), (4, 0, 0, 9, 9, 9, 9), (8, 8, 1, 1, 2, 0, 0), (4, 2, 1, 0, 1, 0, 0), (4, 2, 1, 1, 1, 0, 0),
    (4, 2, 1, 2, 1, 0, 0), (4, 2, 1, 1, 2, 2, 0), (4, 2, 1, 1, 2, 0, 1), (4, 3, 2, 1, 2, 1, 0), (4, 3, 2, 1, 2, 2, 2), (4, 3, 2, 1, 2, 0, 0),
    (4, 4, 3, 1, 2, 3, 2), (4, 4, 3, 1, 2, 2, 3), (4, 4, 3, 1, 1, 2, 2), (4, 2, 1, 6, 7, 0, 0), (4, 2, 1, 7, 8, 0, 0), (4, 3, 2, 6, 7, 8, 0),
    (4, 4, 2, 1, 2, 3, 0), (4, 4, 1, 1, 2, 0, 0), (8, 2, 1, 1, 64, 0, 0), (8, 2, 1, 1, 65, 0, 0), (8, 4, 3, 1, 2, 3, 43), (8, 4, 3, 1, 2, 3, 42),
    (12, 8, 3, 61, 62, 63, 64), (12, 8, 3, 61, 62, 63, 65), (12, 8, 3, 61, 61, 63, 64), (12, 8, 3, 0, 62, 63, 64))
EDGES = tuple((*s, 0) for s in WHOLE_EDGES) + tuple(shortened(s, k) for s, k in (
    (A, 1), (A, 6), (B, 5), (SMALL, 1), (A, 256), (A, 65536), (A, 2 ** 24 + 3), (A, 2 ** 31), (EIGHT, 238), (EIGHT, 239), (LARGE, 1900), (LARGE, 3404), (LARGE, 65536)))


# ---- the field by shifts, generators by their roots

def product(q, a, b):
    out = 0
    while b:
        if b & 1:
            out ^= a
        a <<= 1
        if a >> q:
            a ^= FIELD[q]
        b >>= 1
    return out


def power(q, a, k):
    out = 1
    for _ in range(k):
        out = product(q, out, a)
    return out


@lru_cache(None)
def alphas(q):
    """alpha^0 to alpha^(n - 1)."""
    out = [1]
    for _ in range(2 ** q - 2):
        out.append(product(q, out[-1], 2))
    return out


@lru_cache(None)
def generator(q, t):
    out = [1]
    for s in sorted(exponents(q, t)):
        root = alphas(q)[s]
        out = [(out[k - 1] if k else 0) ^ (product(q, root, out[k]) if k < len(out) else 0) for k in range(len(out) + 1)]
    assert set(out) <= {0, 1}
    return out


small = cases.generator
for q, t in ((4, 1), (4, 2), (4, 3), (8, 1), (8, 2)):
    assert generator(q, t) == small(q, t)
cases.generator = generator


# ---- the elimination: a unit at place k of sub-word i gives alpha^(j k) there, and alpha^(j (k + l i)) in nested word l

@lru_cache(None)
def columns(sheet, unknown, nested_words):
    """The reduced columns of the unknown places, by their leading bits, and the places that each flips."""
    q, m, v, *t, s = sheet
    alpha = cases.powers(q)
    part = lambda k, count: sum(alpha[j * k % len(alpha)] << q * (j - 1) for j in range(1, count + 1))
    starts, at = {}, 2 * t[0] * m
    for l in nested_words:
        starts[l] = at
        at += 2 * t[v - l]
    basis = {}
    for b, (i, k) in enumerate(unknown):
        value = part(k, 2 * t[0]) << q * 2 * t[0] * i
        value += sum(part(k + l * i, 2 * t[v - l]) << q * starts[l] for l in nested_words)
        flips = 1 << b
        while value.bit_length() in basis:
            other, more = basis[value.bit_length()]
            value, flips = value ^ other, flips ^ more
        assert value, 'more than one page'
        basis[value.bit_length()] = value, flips
    return basis


def solved(sheet, ws, unknown, nested_words, free):
    basis = columns(shortened(sheet, 0), tuple(unknown), tuple(nested_words))
    rest, flips = cases.conditions(sheet, ws, nested_words), 0
    while rest:
        other, more = basis[rest.bit_length()]
        rest, flips = rest ^ other, flips ^ more
    ws = [list(w) for w in ws]
    for b, (i, k) in enumerate(unknown):
        ws[i][k] ^= flips >> b & 1
    assert cases.conditions(sheet, ws, nested_words) == 0
    return ws


def ones():
    return [cases.page_of_blocks(s, cases.all_ones(s)) for s in (A, B)]


other = ones()
cases.solved = solved
cases.encoded.cache_clear()
assert ones() == other


# ---- near multiples: the locator of at most t faults by Euclid's algorithm, its roots, and a division

def times(q, a, b):
    """Of two elements, by their logarithms."""
    return alphas(q)[(logs(q)[a] + logs(q)[b]) % (2 ** q - 1)] if a and b else 0


@lru_cache(None)
def logs(q):
    return {x: k for k, x in enumerate(alphas(q))}


def locator(q, syndromes):
    """Of S_1 to S_2t the polynomial, the coefficient of z^0 first, whose roots are the inverses of alpha^k over t faulty places k at most."""
    f, g, a, b = [0] * len(syndromes) + [1], cases.trimmed(syndromes), [], [1]
    while len(g) > len(syndromes) // 2:
        inverse = -logs(q)[g[-1]]
        while len(f) >= len(g):
            shift, c = len(f) - len(g), alphas(q)[(logs(q)[f[-1]] + inverse) % (2 ** q - 1)]
            less = lambda x, y: cases.trimmed(cases.added(x, [0] * shift + [times(q, c, e) for e in y]))
            f, a = less(f, g), less(a, b)
        f, g, a, b = g, f, b, a
    return b


def divides(g, word):
    """By numbers, the sooner."""
    f, g = number(word), number(g)
    while f.bit_length() >= g.bit_length():
        f ^= g << f.bit_length() - g.bit_length()
    return f == 0


def roots(s, syndromes):
    """The stored places, rising, that the locator has."""
    q, places = s[0], []
    terms = [(logs(q)[c], k) for k, c in enumerate(locator(q, syndromes)) if c]
    for k in range(cases.stored(s)):
        value = 0
        for c, e in terms:
            value ^= alphas(q)[(c - e * k) % (2 ** q - 1)]
        if value == 0:
            places.append(k)
    return places


def faults(s, page, i):
    q, t, word = s[0], strength(s, 0), cases.words(s, page)[i]
    places = roots(s, cases.syndromes(q, word, 2 * t))
    if len(places) > t:
        return None
    for k in places:
        word[k] ^= 1
    return places if divides(cases.gen(s, 0), word) else None


by_multiples = cases.faults
cases.faults = faults


# ---- rounds: nested word l has at alpha^j the sum of the errors' values there, that of sub-word k times alpha^(j k l)

def eliminated(q, rows):
    """The unknowns of as many equations: rows of coefficients, then the sum."""
    for c in range(len(rows)):
        at = next(r for r in range(c, len(rows)) if rows[r][c])
        rows[c], rows[at] = rows[at], rows[c]
        inverse = alphas(q)[-logs(q)[rows[c][c]] % (2 ** q - 1)]
        rows[c] = [times(q, inverse, x) for x in rows[c]]
        rows = [row if r == c else [x ^ times(q, row[c], y) for x, y in zip(row, rows[c])] for r, row in enumerate(rows)]
    return [row[-1] for row in rows]


def round_found(s, ws, left):
    q, t = s[0], strength(s, s[2] - len(left) + 1)
    nested = [cases.syndromes(q, cases.nested(s, ws, l), 2 * t) for l in range(len(left))]
    values = [eliminated(q, [[alphas(q)[j * k * l % (2 ** q - 1)] for k in left] + [sums[j - 1]] for l, sums in enumerate(nested)])
              for j in range(1, 2 * t + 1)]
    found = {}
    for i, syndromes in zip(left, zip(*values)):
        places = roots(s, syndromes)
        word = cases.bits(sum(1 << k for k in places))
        found[i] = tuple(places) if len(places) <= t and cases.syndromes(q, word, 2 * t) == list(syndromes) else None
    return found


by_trying = cases.round_found
cases.round_found = round_found
mended = cases.mended
of_page = lru_cache(None)(lambda s, page: mended(s, list(page)))
cases.mended = lambda s, page: of_page(s, tuple(page))


# ---- records

given, expected = bytearray(), bytearray()
seen = [set() for _ in range(20)]


def le(x, size=8):
    return x.to_bytes(size, 'little')


def record(call, sheet, answer, i=0, l=0, width=0, page=(), size=0, u=0, count=0):
    given.extend(bytes([call, *sheet[:7], i, l, width, 0]) + le(len(page), 2) + le(size, 2) + le(u) + le(count) + le(sheet[7], 4) + bytes(page))
    expected.extend(answer)
    seen[call].add(answer[0])


def words(xs):
    return b''.join(le(x) for x in xs)


def strengths():
    """A sheet for each strength of the large fields."""
    return [(q, 2, 1, t, t + 1, 0, 0, 0) for q in (8, 12) for t in range(1, 64)]


def tests():
    def test(s):
        code = refusal(s)
        record(TEST, s, le(code, 1) + (words(s) if code == 0 else b''))
        return code

    for s in SHEETS + SHORTENED + REFUSED + EDGES:
        code = test(s)
        rows = [number(cases.gen(s, a)) if code == 0 and a <= s[2] else 0 for a in range(4)]
        record(GENERATORS, s, le(code, 1) + b''.join(le(g, 104) for g in rows))
    every = cases.every()
    assert len(every) == 104
    for s in every + [(4, m, 1, t0, t1, 0, 0, 0) for m in (2, 3, 4, 6) for t0 in range(9) for t1 in range(9)]:
        test(s)
    # the largest s of every other strength, and one more
    for s in strengths()[::2]:
        assert [test(shortened(s, largest(s) + k)) for k in (0, 1)] == [0, 14]


def quotes():
    def quote(s, size):
        code = refusal(s, room=(size, lambda: 12))
        record(QUOTE, s, le(code, 1) + b''.join(le(x, 2) for x in ([42405] * size if code else cases.quote(s))), size=size)

    for s in SHEETS + REFUSED + EDGES:
        for size in (12, 0, 4, 11, 13, 24):
            quote(s, size)
    for s in SHORTENED:
        for size in (12, 11):
            quote(s, size)
    for s in cases.every():
        for k in range(largest(s) + 1):
            quote(shortened(s, k), 12)
    # t 16 and 17 of q 8 have one degree
    assert len(exponents(8, 16)) == len(exponents(8, 17))
    for s in strengths():
        quote(s, 12)
    assert seen[QUOTE] == {0, 1, 2, 3, 4, 10, 14}


def nestings():
    for i in range(10):
        for l in range(10):
            record(NESTING, A, le(9, 1) if max(i, l) > 7 else b'\0' + le(number(nesting(i, l))), i=i, l=l)
    for i, l in ((255, 0), (0, 255), (255, 255)):
        record(NESTING, A, le(9, 1), i=i, l=l)


def elements():
    for q in (0, 3, 5, 16, 255):
        record(ELEMENTS, (q, 0, 0, 0, 0, 0, 0, 0), le(1, 1), u=1, count=1)
    for q in (4, 8, 12):
        size = 2 ** q
        pairs = [(0, 0), (1, size - 1), (size - 1, size - 1), (0, 7), (size, 1), (1, size), (65535, 65535)]
        for a, b in pairs + [(below(size), below(size)) for _ in range(12)]:
            for k in (0, 1, below(256)):
                made = lambda ok, x: b'\0' + le(x) if ok else le(8, 1)
                both = a < size and b < size
                record(ELEMENTS, (q, 0, 0, 0, 0, 0, 0, 0),
                       made(both, a ^ b) + made(both, both and product(q, a, b)) + made(a < size, a < size and power(q, a, k)) + made(True, power(q, 2, k)),
                       width=k, u=a, count=b)


def shown(code, register):
    level, count, rest = register
    return le(code, 1) + le(level) + le(count) + le(rest, 96)


def registers():
    for s in SHEETS + SHORTENED + REFUSED:
        for level in (0, 1, 2, 3, 4, 255):
            record(OPEN, s, shown(*cases.opened(s, level)), i=level)
    def feed(s, width, register, u):
        step = cases.fed(s, width, register, u)
        record(FEED, s, shown(*step), i=register[0], width=width, page=le(register[2], 96), u=u, count=register[1])
        return step[1]
    for s in SHEETS + SHORTENED:
        n = cases.stored(s)
        for width in WIDTHS:
            for level in range(s[2] + 1) if s in SHEETS else [s[2]]:
                register = (level, 0, 0)
                for _ in range(min(n // width, 14) + 1):
                    register = feed(s, width, register, below(2 ** 32) * 2 ** 32 % 2 ** width | below(2 ** min(width, 32)))
        w = cases.degree(s, 0)
        top = 2 ** w - 1
        for width, register, u in ((0, (0, 0, 0), 0), (65, (0, 0, 0), 0), (255, (9, 2 ** 64 - 1, 0), 1), (1, (0, 0, 0), 2), (7, (0, 0, 0), 128), (63, (0, 0, 0), 2 ** 63), (64, (0, 2 ** 64 - 1, 0), 2 ** 64 - 1),
                                   (1, (0, n, 0), 1), (1, (0, n - 1, top), 1), (8, (0, n - 8, top), 255), (8, (0, n - 7, top), 255), (1, (s[2] + 1, 0, 0), 1), (1, (0, 0, 2 * top + 1), 1), (1, (0, 0, 2 ** w), 0),
                                   (4, (s[2], 0, 2 ** cases.degree(s, s[2]) - 1), 15), (1, (255, 0, 2 ** 768 - 1), 1), (1, (0, n, 2 ** 768 - 1), 1), (1, (0, 2 ** 64 - 1, 0), 0)):
            feed(s, width, register, u)
    for s in REFUSED:
        feed(s, 0, (255, 2 ** 64 - 1, 2 ** 768 - 1), 1)
        feed(s, 1, (0, 0, 0), 1)
    # registers made up by hand: several conditions at once, and each edge of a count and of a remainder
    for width, register, u in ((0, (2, 16, 0x10), 1), (65, (2, 16, 0x10), 2 ** 64 - 1), (3, (2, 16, 0x10), 8), (3, (2, 16, 0x10), 7), (3, (2, 12, 0x10), 7),
                               (3, (1, 12, 0xFF), 7), (3, (1, 12, 0x100), 7), (3, (1, 13, 0xFF), 7), (3, (0, 12, 0xF), 7), (3, (0, 12, 0x10), 7), (1, (0, 15, 0), 2),
                               (4, (0, 0, 9), 5), (8, (1, 0, 0xAB), 0xCD), (1, (1, 7, 0x80), 0), (1, (1, 7, 0x80), 1), (15, (1, 0, 0xFF), 0x7FFF), (16, (0, 0, 0), 0),
                               (15, (0, 0, 0xF), 0x1234), (15, (0, 0, 0), 0x8000), (1, (0, 0, 2 ** 64 - 1), 0), (1, (1, 0, 2 ** 704), 1), (64, (1, 2 ** 64 - 1, 0), 0)):
        feed(A, width, register, u)
    for width, register, u in ((5, (2, 4, 0x3FF), 0x1F), (5, (2, 4, 0x400), 0x1F), (5, (3, 4, 0), 0)):
        feed(B, width, register, u)
    for s in (PAIR, (12, 2, 1, 1, 2, 0, 0, 0), shortened(PAIR, 100), (12, 2, 1, 1, 2, 0, 0, 2049)):
        for count in (cases.stored(s) - 63, cases.stored(s) - 64):
            feed(s, 64, (0, count, 0), 0)
    # opened with sheet B and fed with another
    for level in (1, 2):
        register = feed(B, 7, (level, 0, 0), 0x55)
        for s in (A, ALIKE, DEEP, EIGHT):
            feed(s, 8, register, 0x99)


def all_spare(s):
    """All spare bits of a sub-word, as a number."""
    return 2 ** cases.spare_bits(s) - 1


def ends_of_spare(s):
    """The places of the lowest and the highest spare bit; none where there is none."""
    first, end = cases.stored(s), 8 * cases.word_bytes(s)
    return sorted({first, end - 1}) if first < end else []


def one_word():
    calls = ((REMAINDER, 'sub_word', lambda s, l: 96, cases.remainder_bytes, 1), (SHORT, 'nested_word', lambda s, l: 96, cases.short_bytes, 1),
             (NESTED, 'nested_word', lambda s, l: cases.nested_size(s), cases.nested_bytes, 1), (SYNDROMES, 'sub_word', lambda s, l: strength(s, 0), cases.syndrome_list, 2),
             (NESTED_SYNDROMES, 'nested_word', lambda s, l: strength(s, s[2] - l), cases.nested_syndrome_list, 2))

    def each(s, page, i, wrong):
        for call, part, room, answer, unit in calls:
            known = refusal(s) == 0
            size = (room(s, i) if known and not (part == 'nested_word' and i >= s[2]) else 2) + wrong
            code = refusal(s, page=page, room=(size, lambda: room(s, i)), **{part: i})
            out = answer(s, page, i) if code == 0 else [(165, 42405)[unit - 1]] * size
            record(call, s, le(code, 1) + b''.join(le(x, unit) for x in out), i=i, page=page, size=size)

    for s in SHEETS + SHORTENED:
        size, small = cases.word_bytes(s), s[0] < 12
        page = some_bytes(s[1] * size)
        for i in range(s[1]):
            page[(i + 1) * size - 1] &= 255 >> cases.spare_bits(s)
        for i in (0, 1, s[2] - 1, s[2], s[1] - 1, s[1], 255):
            each(s, page, i, 0)
        each(s, page, 0, 1)
        each(s, page, 0, -1)
        each(s, page, 255, 1)
        each(s, page[:-1], 0, 0)
        each(s, page + [0], 255, 1)
        spoiled = page
        for i in range(s[1]) if small else (0, s[1] - 1):
            for k in ends_of_spare(s):
                spoiled = cases.flipped(s, page, (i, k))
                each(s, spoiled, 0, 0)
        each(s, [0] * (s[1] * size), 0, 0)
        # an erased page is a page like any other here
        for spare in sorted({0, all_spare(s)}):
            each(s, cases.erased(s, [spare] * s[1]), 0, 0)
        if small:
            each(s, page, s[2] - 1, 1)
            each(s, page[:-1], 255, -1)
            each(s, spoiled, 255, -1)
            top = cases.flipped(s, [0] * (s[1] * size), *[(i, cases.stored(s) - 1) for i in range(s[1])])
            for l in range(s[2]):
                each(s, top, l, 0)
    for s in REFUSED:
        each(s, [255], 255, 5)


def verdict(k):
    return le(k // 32 * 32, 1) + le(k % 32) if 32 <= k < cases.BLANK else le(k, 1)


def judge_and_read(s, page, size):
    record(JUDGE, s, verdict(cases.judged(s, page)[0]), page=page)
    k, *blocks = cases.read_out(s, page, [165] * size)
    record(READ_OUT, s, verdict(k) + bytes(blocks), page=page, size=size)


def write(s, width, blocks, size):
    record(WRITE, s, bytes(cases.write(s, width, blocks, [165] * size)), width=width, page=blocks, size=size)


def pages():
    # multiples of g_0, added to the first sub-words, that nested words below l do not show
    nests = ([[1]], [[1], [1]], [[0, 1], [1, 1], [1]])
    for s in SHEETS + SHORTENED:
        n, m = cases.stored(s), s[1]
        few = range(m) if s[0] < 12 else (0, m - 1)
        size, room = cases.data_bytes(s), cases.page_bytes(s)
        blocks = cases.some_blocks(s)
        page = cases.page_of_blocks(s, blocks)
        for width in WIDTHS + (0, 65, 255):
            write(s, width, blocks, room)
        for k in (room - 1, room + 1, 0):
            write(s, 8, blocks, k)
        for x in (blocks[:-1], blocks + [0], [], [255] * size, [0] * (size - 1) + [128]):
            write(s, 64, x, room)
        write(s, 0, [255] * (size + 1), room + 1)
        write(s, 1, [255] * (size + 1), room + 1)
        write(s, 1, [255] * size, room + 1)
        judge_and_read(s, page, size)
        judge_and_read(s, [0] * room, size)
        judge_and_read(s, cases.some_page(s), size)
        for i in few:
            judge_and_read(s, cases.flipped(s, page, (i, below(n))), size)
            for k in ends_of_spare(s):
                judge_and_read(s, cases.flipped(s, page, (i, k)), size)
        for nest in nests[:s[2]]:
            ws = cases.words(s, page)
            for i, f in enumerate(nest):
                ws[i] = cases.added(ws[i], cases.multiplied(f, cases.gen(s, 0)))
            judge_and_read(s, cases.page_of_words(s, ws), size)
        for x, k in ((page[:-1], size), (page + [0], size), (page, size - 1), (page, size + 1), ([255] * room, size + 1), ([255] * (room + 1), size)):
            judge_and_read(s, x, k)
    # a single bit in each block; each unused bit; every pair of a wrong length and a stray bit
    for s in (A, B, WIDE, DEEP, TIGHT, SMALL, DEEP4):
        size, room = cases.data_bytes(s), cases.page_bytes(s)
        ends = [sum(cases.block_bytes(s)[:i + 1]) for i in range(s[1])]
        for i, (b, end) in enumerate(zip(cases.block_bits(s), ends)):
            write(s, WIDTHS[i % 5], cases.one_bit(s, i, 0 if i >= s[2] else b - 1), room)
            for k in range(b % 8 or 8, 8):
                write(s, 8, [0] * (end - 1) + [1 << k] + [0] * (size - end), room)
        for k in (size - 1, size, size + 1):
            for to in (room - 1, room, room + 1):
                write(s, 8, [255] * k, to)
    # the all-ones word is a multiple of every g here; g_0 alone in sub-word 0
    for s, page in ((ALIKE, [0xFF, 0x7F, 0x00, 0x00]), (B, [0x13] + [0] * 5)):
        judge_and_read(s, page, cases.data_bytes(s))
    for s in REFUSED:
        write(s, 0, [255], 5)
        judge_and_read(s, [255], 5)


def blanks():
    """Erased pages with spare bits clear, set and mixed, blocks of ones, and both with a 0 in them."""
    for s in SHEETS[:-1] + (TWELVE,) + SHORTENED:
        n, m = cases.stored(s), s[1]
        size, room = cases.data_bytes(s), cases.page_bytes(s)
        clear, full, mixed = [cases.erased(s, [all_spare(s) * (spare >> i & 1) for i in range(m)]) for spare in (0, 255, 0x55)]
        for x in (clear, full, mixed):
            judge_and_read(s, x, size)
        for x, k in ((full[:-1], size), (full + [255], size), (full, size - 1), (full[:-1], size - 1)):
            judge_and_read(s, x, k)
        # a coefficient 0, at both ends of a sub-word and of a byte within; a whole sub-word
        for i in range(m):
            for k in (0, n // 2, n // 2 + 1, n - 1):
                for x in (clear, mixed):
                    judge_and_read(s, cases.flipped(s, x, (i, k)), size)
        for i in (0, m - 1):
            judge_and_read(s, cases.flipped(s, clear, *[(i, k) for k in range(n)]), size)
        ones, unused = cases.all_ones(s), list(cases.all_ones(s))
        unused[-1] |= 128
        for width, blocks, k in ((1, ones, room), (64, ones, room), (65, ones, room), (8, ones[:-1], room), (8, ones, room - 1), (8, unused, room),
                                 (8, cases.all_but_one(s, 0, 0), room), (8, cases.all_but_one(s, m - 1, cases.block_bits(s)[-1] - 1), room)):
            write(s, width, blocks, k)
    for s in cases.every() + [LARGE]:
        judge_and_read(s, cases.erased(s, [1] * s[1]), cases.data_bytes(s))
        write(s, 8, cases.all_ones(s), cases.page_bytes(s))
    for s in REFUSED:
        judge_and_read(s, [255] * 16, 5)


def shortened_pages():
    """Every s of the sheets of q = 4, and some of larger ones: blocks of ones are written, their page is a member, and an erased page blank."""
    large = [shortened(TWELVE, largest(TWELVE))] + [shortened(LARGE, k) for k in (1900, largest(LARGE))]
    for s in [shortened(s, k) for s in cases.every() for k in range(1, largest(s) + 1)] + large:
        ones, spare = cases.all_ones(s), [below(all_spare(s) + 1) for _ in range(s[1])]
        write(s, 8, ones, cases.page_bytes(s))
        for x, answer in ((cases.page_of_blocks(s, ones), 0), (cases.erased(s, spare), cases.BLANK)):
            assert cases.verdict(s, x) == answer
            judge_and_read(s, x, len(ones))


def many_pages():
    """Many pages in one call: blocks that fit, stray ones and blocks of ones in every place, and what refuses the call whole."""
    widths, listed = cycle(WIDTHS), set()

    def many(s, width, count, blocks, size, room):
        code, pages, said = cases.write_many(s, width, count, blocks, [165] * size, [165] * room)
        record(WRITE_MANY, s, bytes([code, *pages, *said]), width=width, page=blocks, size=size, u=room, count=count)
        listed.update(said if code == 0 else ())

    def made(s, sets):
        many(s, next(widths), len(sets), [x for data in sets for x in data], len(sets) * cases.page_bytes(s), len(sets))

    def stray(s):
        """Blocks with an unused bit set, the lowest and the highest of each block in turn."""
        out, end = [], 0
        for b, size in zip(cases.block_bits(s), cases.block_bytes(s)):
            end += size
            for k in sorted({b % 8, 7}) if b % 8 else ():
                data = cases.some_blocks(s)
                data[end - 1] |= 1 << k
                out.append(data)
        return out

    # every order of the three kinds among three pages
    for s in (A, B, SMALL, A3, DEEP4, PAIR, PAIR24, shortened(BYTE, 6)):
        good, bad, ones = [cases.some_blocks(s) for _ in range(3)], stray(s), cases.all_ones(s)
        turns = cycle(bad)
        for kinds in tuples((0, 8, 13) if bad else (0, 13), repeat=3):
            made(s, [next(turns) if kind == 8 else ones if kind == 13 else good[k] for k, kind in enumerate(kinds)])
    # one page, two, and sixteen: all written, all refused, and both in turn
    for s in (A, B, WIDE, DEEP, TIGHT, A3, B4, EIGHT):
        good, bad, ones = [cases.some_blocks(s) for _ in range(16)], stray(s), cases.all_ones(s)
        for count in (1, 2, 16):
            made(s, good[:count])
            made(s, (bad + [ones] * 16)[:count])
        made(s, [(good[k], bad[k % len(bad)], ones)[k % 3] for k in range(16)])
    good, bad = [cases.some_blocks(A) for _ in range(16)], cycle(stray(A))
    for k in range(16):
        for x in (next(bad), cases.all_ones(A)):
            made(A, good[:k] + [x] + good[k + 1:])
    # the large field: three pages, and two that fill the room
    for s in (TWELVE, shortened(TWELVE, 1903)):
        made(s, [cases.some_blocks(s), stray(s)[-1], cases.some_blocks(s)])
        made(s, [stray(s)[0], cases.all_ones(s)])
    made(LARGE, [cases.some_blocks(LARGE), cases.all_but_one(LARGE, 7, 0)])
    # the call refused whole: all wrong, then one condition less with each; one alone; the lengths of a page more and of one fewer
    for s in (A, B, B4, PAIR):
        size, room = cases.data_bytes(s), cases.page_bytes(s)
        for width, count, k, to, length in ((0, 17, 1, 1, 1), (65, 0, 0, 0, 0), (8, 17, 1, 1, 1), (8, 2, 1, 1, 1), (8, 2, 2 * size, 1, 1), (8, 2, 2 * size, 2 * room, 1)):
            many(s, width, count, [255] * k, to, length)
        for count in (1, 2, 3, 16):
            right = [count * size, count * room, count]
            for at, unit in enumerate((size, room, 1)):
                for d in sorted({-unit, -1, 1, unit}):
                    k, to, length = [x + d * (at == j) for j, x in enumerate(right)]
                    many(s, 64, count, [0] * k, to, length)
            for other in (count - 1, count + 1):
                many(s, 1, count, [0] * (other * size), other * room, other)
            for width in (0, 65, 255):
                many(s, width, count, [0] * right[0], right[1], count)
        for count in (0, 17, 18, 32, 256, 257, 65536 + 2, 2 ** 31, U32):
            given = count if count <= 32 else count % 16
            many(s, 8, count, [0] * (given * size), given * room, given)
    for s in REFUSED:
        many(s, 0, 17, [255], 5, 3)
        many(s, 8, 1, [0, 0, 0], 4, 1)
    assert listed == {0, 8, 13} and seen[WRITE_MANY] == {*range(8), 9, 10, 14}


def alterations():
    """One bit altered: of members and of any pages, at each block's first and last bit, at an equal value and at another; and what refuses it."""
    def alter(s, page, i, r, b):
        code, *after = cases.alter(s, page, i, r, b)
        record(ALTER, s, bytes([code, *after]), page=page, u=r << 32 | i, count=b)
        return code

    def both(s, page, place):
        return {alter(s, page, *place, b) for b in (0, 1)}

    for s in SHEETS + SHORTENED:
        m, room, small = s[1], cases.page_bytes(s), s[0] < 12
        blocks = range(m) if small else (0, m - 1)
        first, last = (0, 0), (m - 1, cases.block_bits(s)[-1] - 1)
        data = cases.some_blocks(s)
        member, page = cases.page_of_blocks(s, data), cases.some_page(s)
        for i, r in [(i, r) for i in blocks for r in sorted({0, cases.block_bits(s)[i] - 1})] if small else (first, last):
            for b in (0, 1):
                code = alter(s, member, i, r, b)
                if small:
                    wanted = [x | y if b else x & ~y for x, y in zip(data, cases.one_bit(s, i, r))]
                    assert code == refusal(s, blocks=wanted) and cases.altered(s, member, i, r, b) == cases.page_of_blocks(s, wanted)
            assert alter(s, page, i, r, below(2)) == 0
        # bits, blocks and values that are none
        for i in blocks:
            assert alter(s, page, i, cases.block_bits(s)[i], below(2)) == 9
        for i, r, b in ((m, 0, 1), (0, 0, 2), (m - 1, cases.block_bits(s)[-1], 2), (U32, U32, U32)):
            assert alter(s, page, i, r, b) == 9
        # lengths, spare bits; blank pages with them, and without
        for x in (page[:-1], page + [0], [255] * (room + 1)):
            assert alter(s, x, m, 0, 0) == 7
        clear, full, mixed = [cases.erased(s, [all_spare(s) * (spare >> i & 1) for i in range(m)]) for spare in (0, 255, 0x55)]
        for k in ends_of_spare(s):
            for i in blocks:
                assert alter(s, cases.flipped(s, (member, clear)[below(2)], (i, k)), 0, 0, below(2)) == 8
            assert alter(s, cases.flipped(s, page, (m - 1, k)), m, 0, 2) == 8
        if cases.spare_bits(s):
            assert both(s, full, first) | both(s, mixed, last) == {8}
        assert alter(s, clear, m, 0, 1) == alter(s, clear, 0, 0, 2) == 9
        for i, r in (first, last):
            near = cases.altered(s, clear, i, r, 0)
            assert [alter(s, x, i, r, b) for x in (clear, near) for b in (0, 1)] == [0, 13, 0, 13]
        assert both(s, [0] * room, last) == {0}
    # every bit, and numbers that are small in their lowest byte or two
    for s in (A, B4, DEEP4):
        page = cases.some_page(s)
        for i, b in enumerate(cases.block_bits(s)):
            for r in range(b):
                alter(s, page, i, r, below(2))
    for s in (A, PAIR24):
        page = cases.some_member(s)
        for x in (256, 65536, 2 ** 24, 2 ** 31, U32):
            for given in ((x, 0, 1), (0, x, 0), (1, 0, x), (0, 1, x + 1 & U32), (x, x, x)):
                alter(s, page, *given)
    for s in REFUSED:
        alter(s, [255], 255, 255, 255)
        alter(s, [0] * 4, 0, 0, 1)
    assert seen[ALTER] == {0, 1, 2, 3, 4, 7, 8, 9, 13, 14}


def with_multiples(s):
    """A page of the sheet whose sub-words are multiples of g_0."""
    ws = []
    for _ in range(s[1]):
        word, g = 0, number(cases.gen(s, 0))
        for k in range(cases.stored(s) - cases.degree(s, 0)):
            word ^= (g << k) * below(2)
        ws.append(cases.bits(word, cases.length(s)))
    return cases.page_of_words(s, ws)


def mendings():
    """A sub-word mended: multiples of g_0 with flips, up to t_0 and past it, pages of ones, of zeros and any; and what refuses it."""
    flipped = lambda s, page, i, places: cases.flipped(s, page, *[(i, k) for k in places])

    def mend(s, page, i, size, count=0):
        code, after, places, counted = cases.mend(s, page, i, [42405] * size, count)
        record(MEND, s, bytes([code, *after]) + b''.join(le(k, 2) for k in places) + bytes([counted]), page=page, size=size, u=i, count=count)
        return code, counted

    def near(s, counts):
        """So many flips in a sub-word; the others are damaged too."""
        t = strength(s, 0)
        for f in counts:
            i, page = below(s[1]), with_multiples(s)
            for j in range(s[1]):
                page = flipped(s, page, j, some_places(s, f if i == j else below(t + 3)))
            code, counted = mend(s, page, i, t, 165)
            assert f > t or (code, counted) == (0, f)

    for s in (A, A6, B4, TWO, TWO4, THREE, ALIKE, SMALL, PAIR24):
        for f in range(strength(s, 0) + 3):
            page = flipped(s, with_multiples(s), 1, some_places(s, f))
            assert faults(s, page, 1) == by_multiples(s, page, 1)
    for s in (A, A3, A6, B, B4, WIDE, DEEP, DEEP4, TWO, TWO4, THREE, TIGHT, ALIKE, SMALL, PAIR24, BYTE, FULL, EIGHT, shortened(BYTE, 6), shortened(TWELVE, 1903)):
        t, n, m, room = strength(s, 0), cases.stored(s), s[1], cases.page_bytes(s)
        near(s, range(t + 3))
        page = with_multiples(s)
        # the ends of a sub-word
        for i, places in ((0, [0]), (m - 1, [n - 1]), (below(m), [0, n - 1][:t])):
            assert mend(s, flipped(s, page, i, places), i, t, 165) == (0, len(places))
        clear, full, mixed = [cases.erased(s, [all_spare(s) * (spare >> i & 1) for i in range(m)]) for spare in (0, 255, 0x55)]
        assert mend(s, [0] * room, m - 1, t, 255) == (0, 0)
        assert s[7] or mend(s, clear, 0, t, 7) == (0, 0)
        mend(s, cases.some_page(s), below(m), t, 7)
        # a fault in the top s places alone, and with others
        if s[7]:
            mend(s, clear, 0, t, 7)
            for top, f in ((n, 0), (cases.length(s) - 1, t - 1)):
                word = cases.divided([0] * top + [1], cases.gen(s, 0))[1]
                x = cases.page_of_words(s, [cases.bits(number(word), cases.length(s))] + [[0] * cases.length(s)] * (m - 1))
                assert mend(s, flipped(s, x, 0, some_places(s, f)), 0, t, 165) == (15, 165)
        # lengths, spare bits, indices, lists: all wrong, then one condition less with each; each alone
        stray = [flipped(s, x, i, [k]) for x in (page, clear) for i in (0, m - 1) for k in ends_of_spare(s)]
        for x in (page[:-1], page + [0], [255] * (room + 1)):
            assert mend(s, x, m, t + 1, 165) == (7, 165)
        for x in stray[:1] + [full, mixed] * bool(stray):
            assert mend(s, x, m, t + 1, 165) == (8, 165)
        for x in stray:
            assert mend(s, x, 0, t, 3) == (8, 3)
        for i in (m, 255):
            assert mend(s, page, i, t + 1, 165) == (9, 165)
        for size in sorted({0, t - 1, t + 1, 2 * t}):
            assert mend(s, page, m - 1, size, 165) == (10, 165)
    # many faults; a strength whose generator is that of the next; nearly every place shortened away
    same = (8, 2, 1, 16, 17, 0, 0, 0)
    assert cases.gen(same, 0) == cases.gen(same, 1)
    for s in (same, (8, 2, 1, 63, 64, 0, 0, 0), (12, 2, 1, 63, 64, 0, 0, 0), shortened(LARGE, largest(LARGE)), LARGE):
        t = strength(s, 0)
        near(s, (0, 1, 2, t - 1, t, t + 1, t + 2) if s != LARGE else (t, t + 1))
        mend(s, cases.erased(s, [0] * s[1]), s[1] - 1, t, 165)
    # indices that are small in their lowest byte or two
    page = with_multiples(A)
    for i in (256, 257, 65536, 2 ** 31, 2 ** 32, 2 ** 32 + 1, U64 - 1, U64):
        assert mend(A, page, i, 1, 165) == (9, 165)
    for s in REFUSED:
        mend(s, [255], 255, 5, 165)
        mend(s, [0] * 4, 0, 1)
    assert seen[MEND] == {0, 1, 2, 3, 4, 7, 8, 9, 10, 14, 15}


def all_from_odd():
    """All syndromes from the odd ones: of words, of numbers drawn and of numbers that are no elements, at every level; and what refuses them."""
    def given(s, level, odd, size):
        code, *after = cases.all_from(s, level, odd, [42405] * size)
        record(ALL, s, le(code, 1) + b''.join(le(x, 2) for x in after), page=cases.low_byte_first(odd), size=size, u=level)
        return code

    for s in SHEETS + SHORTENED + tuple(strengths()[::9]):
        q, v = s[0], s[2]
        for a in range(v + 1):
            t, word = strength(s, a), [below(2) for _ in range(cases.length(s))]
            odd = cases.odd_syndromes(q, word, t)
            assert cases.all_syndromes(q, odd) == cases.syndromes(q, word, 2 * t)
            # of a word, of 0 and of one place; numbers drawn, elements and any
            for x in (odd, [0] * t, cases.odd_syndromes(q, [0] * below(cases.length(s)) + [1], t), [below(2 ** q) for _ in range(t)], [below(65536) for _ in range(t)]):
                assert given(s, a, x, 2 * t) == 0
            # lengths: one off, none, of the other list, of bytes; both wrong
            for k in sorted({0, t - 1, t + 1, 2 * t} - {t}):
                assert given(s, a, [below(2 ** q) for _ in range(k)], 2 * t) == 10
            for k in sorted({0, t, 2 * t - 1, 2 * t + 1, min(4 * t, 256)} - {2 * t}):
                assert given(s, a, odd, k) == 10
            assert given(s, a, odd[1:], 2 * t - 2) == given(s, a, odd + [1], 2 * t + 2) == 10
        # levels above v go before lengths; the lengths of level v, and of none
        for level in (v + 1, 4, 255, 256, 65536, 2 ** 31, U32):
            assert given(s, level, [1] * strength(s, v), 2 * strength(s, v)) == given(s, level, [1], 1) == 9
        # lists of other levels
        for a, b in tuples(range(v + 1), repeat=2):
            t = strength(s, b)
            assert given(s, a, [1] * t, 2 * t) == (0 if strength(s, a) == t else 10)
    # every number near a power of 2 and near the field polynomial, alone; every element at q 4
    for s in (A, PAIR, TWELVE):
        q = s[0]
        for x in sorted({2 ** k + d for k in range(17) for d in (-1, 0, 1)} | {FIELD[q] + d for d in range(-2, 3)} | set(range(16))):
            if x < 65536:
                assert given(s, 0, [x], 2) == 0
        for _ in range(20):
            x, y = below(65536), 2 ** q + below(65536 - 2 ** q)
            assert given(s, 1, [x, y], 4) == given(s, 1, [y, x], 4) == 0
    for s in REFUSED + EDGES:
        given(s, U32, [65535] * 3, 5)
        given(s, 0, [1], 2)
    assert seen[ALL] == {0, 1, 2, 3, 4, 9, 10, 14}


def page_mendings():
    """A page mended: members with flips, up to what rounds mend and past it, blank pages, pages of zeros and any; and what refuses it."""
    ends = set()

    def mend(s, page):
        code, *after = cases.mend_page(s, page)
        record(MEND_PAGE, s, bytes([code, *after]), page=page)
        if code in (0, 17):
            ends.add(cases.mended(s, page)[1])
        return code, after

    def some_words(s, count):
        """So many different sub-words, in an order drawn."""
        left = list(range(s[1]))
        return [left.pop(below(len(left))) for _ in range(count)]

    def damaged(s, page, counts, order=None):
        """So many flips in its sub-words, in an order drawn or given."""
        return cases.flipped(s, page, *[(i, k) for i, f in zip(order or some_words(s, len(counts)), counts) for k in some_places(s, f)])

    def outside(s, page, top, f):
        """The page with a fault in a place that is not stored, as all syndromes have it, and so many flips, in sub-word 0."""
        ws = cases.words(s, page)
        ws[0] = cases.added(ws[0], cases.divided([0] * top + [1], cases.gen(s, s[2]))[1])
        return cases.flipped(s, cases.page_of_words(s, ws), *[(0, k) for k in some_places(s, f)])

    for s in (A3, A6, B, B4, TWO, TWO4, DEEP, DEEP4, EVEN):
        for b in range(1, s[2] + 1):
            for _ in range(4):
                left = sorted(some_words(s, b))
                ws = cases.words(s, damaged(s, cases.some_member(s), [below(strength(s, s[2]) + 2) for _ in left], left))
                assert round_found(s, ws, left) == by_trying(s, ws, left)

    gate = (8, 8, 3, 6, 9, 12, 25, 0)
    for s in (A, A3, A6, B, B4, WIDE, DEEP, DEEP4, TWO, TWO4, THREE, TIGHT, ALIKE, SMALL, EVEN, PAIR24, BYTE, EIGHT, shortened(BYTE, 6), gate, shortened(gate, 50), shortened(TWELVE, 1903)):
        q, m, v, *t, short = s
        n, room = cases.stored(s), cases.page_bytes(s)
        page = cases.drawn(lambda: cases.some_member(s), lambda x: not cases.blank(s, x))
        assert mend(s, page) == (0, page)
        assert mend(s, [0] * room) == (0, [0] * room)
        mend(s, cases.some_page(s))
        # up to t_0 in each; b sub-words with t_(v-b+1); one more a round; one too many; more than v sub-words; any
        assert mend(s, damaged(s, page, [t[0]] * m)) == (0, page)
        for b in range(1, v + 1):
            mend(s, damaged(s, page, [t[v - b + 1]] * b + [t[0]] * (m - b)))
        mend(s, damaged(s, page, t[v:0:-1] + [t[0]] * (m - v)))
        mend(s, damaged(s, page, [t[v] + 1]))
        mend(s, damaged(s, page, [t[1]] * (v + 1)))
        for _ in range(4 if q == 4 else 2):
            mend(s, damaged(s, page, [below(t[v] + 2) for _ in range(m)]))
        # at the ends of a sub-word
        mend(s, cases.flipped(s, page, (0, 0), (m - 1, 0), (m - 1, n - 1)))
        clear, full, mixed = [cases.erased(s, [all_spare(s) * (spare >> i & 1) for i in range(m)]) for spare in (0, 255, 0x55)]
        assert short or mend(s, clear)[0] == mend(s, damaged(s, clear, [t[0]] * m))[0] == 17
        # faults in the top s places
        if short:
            mend(s, clear)
            assert mend(s, outside(s, page, n, 0)) == (17, outside(s, page, n, 0))
            mend(s, outside(s, page, cases.length(s) - 1, t[v] - 1))
        # lengths, spare bits
        for x in (page[:-1], page + [0], [255] * (room + 1)):
            assert mend(s, x) == (7, x)
        for k in ends_of_spare(s):
            for x in (cases.flipped(s, page, (0, k)), cases.flipped(s, damaged(s, clear, [1]), (m - 1, k))):
                assert mend(s, x) == (8, x)
        if cases.spare_bits(s):
            assert mend(s, full)[0] == mend(s, mixed)[0] == 8
    # many faults, in pages of zeros
    for s in ((8, 2, 1, 63, 64, 0, 0, 0), (12, 2, 1, 63, 64, 0, 0, 0), (12, 8, 3, 61, 62, 63, 64, 0)):
        m, v, *t = s[1:7]
        zeros = [0] * cases.page_bytes(s)
        for past in (0, 1):
            code, after = mend(s, damaged(s, zeros, [t[v] + past] + t[v - 1:0:-1] + [t[0]] * (m - v)))
            assert (code, after) == (0, zeros) if past == 0 else code == 17
    # document 002's sheet: the flips, and the rounds or why none mends it
    most = ((58, 39, 32) + (28,) * 5, 3)
    for s, tries in ((LARGE, (((), 0), most, ((39, 39), 1), ((32, 32, 32), 1), ((58, 30), 2), ((59,), 'stuck'), ((58, 40), 'stuck'), ((29,) * 4, 'many'))),
                     (shortened(LARGE, 1900), (most, ((28,) * 7 + (59,), 'stuck')))):
        page = cases.some_member(s)
        for counts, end in tries:
            x = damaged(s, page, counts)
            assert mend(s, x) == ((17, x) if isinstance(end, str) else (0, page)) and cases.mended(s, x)[1] == end
    for s in REFUSED:
        mend(s, [255])
        mend(s, [0] * 4)
    assert ends == {0, 1, 2, 3, 'many', 'stuck', 'other', 'blank'} and seen[MEND_PAGE] == {0, 1, 2, 3, 4, 7, 8, 14, 17}


if __name__ == '__main__':
    tests()
    quotes()
    nestings()
    elements()
    registers()
    one_word()
    pages()
    blanks()
    shortened_pages()
    many_pages()
    alterations()
    mendings()
    all_from_odd()
    page_mendings()
    assert seen[JUDGE] == {0, 1, 2, 3, 4, 7, 8, 14, 32, 64, 96} and seen[READ_OUT] == seen[JUDGE] | {6} and seen[WRITE] == {*range(9), 13, 14}
    room = Path(sys.argv[1])
    (room / 'stdin').write_bytes(given)
    (room / 'stdout').write_bytes(expected)
