#!/usr/bin/env python3
"""Worked cases for the definitions of crates/code: another encoder and judge, written from the requirement
(docs/REQUIREMENT.md).

    python3 tools/cases.py
    python3 tools/cases.py --check

The first writes the tables of crates/cases/specs/Own.antt and crates/cases_mended/specs/Own.antt, in rt fmt's layout; the
second says nothing where they stand there already, else it names the files that differ and ends with 1. A row has what a definition gives, as a term, and what this program works out, as
numbers; the rows are of definitions that no compiled call gives back, and of the calls on erased pages, on shortened
sheets, on many pages, on one bit of a page, on a sub-word to mend, on a page to mend and on odd syndromes. What the calls give is compared by programs: tools/trial.py,
tools/counter.py, tools/writer.py and tools/returns.py take their answers from here.

It shares no method with the definitions: generators by trying every polynomial, pages by elimination on the code's
linear conditions, membership by evaluation at the roots, nested words by turning lists of bits, remainders by long
division, near multiples of g_0 by looking at every multiple, the errors' values in a round by trying every element, even syndromes by logarithms. Degrees are counted as the requirement says, and tested against those generators. Nothing is drawn at random but from the fixed sequence of `below`.
"""
import sys
from functools import lru_cache
from itertools import combinations, product as tuples
from pathlib import Path

ROOT = Path(__file__).resolve().parent.parent
OWN = 'crates/cases/specs/Own.antt'
MENDED = 'crates/cases_mended/specs/Own.antt'

FIELD = {4: 19, 8: 285, 12: 4179}
BLANK = 96                                 # the number of the answer blank
NO_PLACE = 65535                           # what stands in a list for no place


# ---- polynomials over 0 and 1: lists of bits, the coefficient of x^0 first

def bits(number, count=0):
    out = []
    while number or len(out) < count:
        out.append(number & 1)
        number >>= 1
    return out


def number(word):
    return sum(b << k for k, b in enumerate(word))


def trimmed(word):
    word = list(word)
    while word and not word[-1]:
        word.pop()
    return word


def added(a, b):
    size = max(len(a), len(b))
    return [x ^ y for x, y in zip(a + [0] * (size - len(a)), b + [0] * (size - len(b)))]


def multiplied(a, b):
    out = [0] * (len(a) + len(b))
    for i, x in enumerate(a):
        for j, y in enumerate(b):
            out[i + j] ^= x & y
    return out


def divided(f, g):
    """Long division: the quotient and the remainder."""
    f, g = trimmed(f), trimmed(g)
    quotient = [0] * max(len(f) - len(g) + 1, 0)
    for shift in reversed(range(len(quotient))):
        if f[shift + len(g) - 1]:
            quotient[shift] = 1
            for k, b in enumerate(g):
                f[shift + k] ^= b
    return quotient, trimmed(f)


# ---- the field, and generators

@lru_cache(None)
def powers(q):
    """alpha^0 to alpha^(n - 1)."""
    out = [1]
    for _ in range(2 ** q - 2):
        out.append(number(divided([0] + bits(out[-1]), bits(FIELD[q]))[1]))
    assert len(set(out)) == 2 ** q - 1
    return out


def syndrome(q, word, j):
    """The sum over k of the coefficient of x^k times alpha^(j k)."""
    alpha, n, out = powers(q), 2 ** q - 1, 0
    for k, b in enumerate(word):
        if b:
            out ^= alpha[j * k % n]
    return out


def syndromes(q, word, count):
    """S_1 to S_count."""
    return [syndrome(q, word, j) for j in range(1, count + 1)]


def odd_syndromes(q, word, t):
    """S_1, S_3, .., t of them."""
    return syndromes(q, word, 2 * t)[::2]


def all_syndromes(q, odd):
    """S_1, S_2, .. from S_1, S_3, ..: where j is o 2^k with o odd, S_j is S_o to the power 2^k, by its logarithm. A number that is no
    element is taken as it is, and its powers as those of its remainder by the field polynomial."""
    alpha, out = powers(q), []
    for j in range(1, 2 * len(odd) + 1):
        o, times = j, 1
        while o % 2 == 0:
            o, times = o // 2, 2 * times
        x = odd[o // 2]
        if times > 1:
            x = number(divided(bits(x), bits(FIELD[q]))[1])
            x = x and alpha[alpha.index(x) * times % len(alpha)]
        out.append(x)
    return out


def has_roots(q, word, t):
    return all(syndrome(q, word, j) == 0 for j in range(1, 2 * t + 1))


@lru_cache(None)
def generator(q, t):
    """The smallest number, so the least degree, that has the roots."""
    return next(bits(c) for c in range(1, 2 ** 18) if has_roots(q, bits(c), t))


@lru_cache(None)
def exponents(q, t):
    """The exponents of the generator's roots: the different values of j 2^k modulo n."""
    return {j * 2 ** k % (2 ** q - 1) for j in range(1, 2 * t + 1) for k in range(q)}


# ---- a sheet: q, m, v, t_0 to t_3, s

def shortened(sheet, s):
    return (*sheet[:7], s)


def length(sheet):
    """The coefficients of a sub-word and of a nested word: n."""
    return 2 ** sheet[0] - 1


def stored(sheet):
    """Those of a sub-word that a page stores: all but the top s."""
    return length(sheet) - sheet[7]


def word_bytes(sheet):
    """The bytes of a stored sub-word."""
    return -(-stored(sheet) // 8)


def spare_bits(sheet):
    return 8 * word_bytes(sheet) - stored(sheet)


def nested_size(sheet):
    return 2 ** sheet[0] // 8


def strength(sheet, a):
    return sheet[3 + a]


def gen(sheet, a):
    return generator(sheet[0], strength(sheet, a))


def degree(sheet, a):
    return len(exponents(sheet[0], strength(sheet, a)))


def largest(sheet):
    """The largest s that the sheet's other numbers allow: block 0 keeps one bit."""
    return length(sheet) - degree(sheet, sheet[2]) - 1


def check_bits(sheet, i):
    return degree(sheet, sheet[2] - i) if i < sheet[2] else degree(sheet, 0)


def block_bits(sheet):
    return [stored(sheet) - check_bits(sheet, i) for i in range(sheet[1])]


def block_bytes(sheet):
    return [-(-b // 8) for b in block_bits(sheet)]


def data_bytes(sheet):
    return sum(block_bytes(sheet))


def page_bytes(sheet):
    return sheet[1] * word_bytes(sheet)


def distance(sheet):
    q, m, v, *t, s = sheet
    return min([(v + 1) * (2 * t[0] + 1)] + [b * (2 * t[v - b + 1] + 1) for b in range(1, v + 1)])


def quote(sheet):
    """The degrees in four places and the data bits in eight, 0 in those that are left."""
    degrees = [degree(sheet, a) for a in range(sheet[2] + 1)]
    return degrees + [0] * (4 - len(degrees)) + block_bits(sheet) + [0] * (8 - sheet[1])


# ---- layout

def bits_of_bytes(data):
    return [byte >> k & 1 for byte in data for k in range(8)]


def bytes_of_bits(word, count):
    word = word + [0] * (8 * count - len(word))
    return [number(word[8 * k:8 * k + 8]) for k in range(count)]


def words_with_spare(sheet, page):
    size = word_bytes(sheet)
    return [bits_of_bytes(page[size * i:size * i + size]) for i in range(sheet[1])]


def words(sheet, page):
    """The sub-words, n coefficients each."""
    return [w[:stored(sheet)] + [0] * sheet[7] for w in words_with_spare(sheet, page)]


def page_of_words(sheet, ws):
    assert not any(any(w[stored(sheet):]) for w in ws)
    return [b for w in ws for b in bytes_of_bits(w[:stored(sheet)], word_bytes(sheet))]


def blocks_with_unused(sheet, data):
    out, at = [], 0
    for size in block_bytes(sheet):
        out.append(bits_of_bytes(data[at:at + size]))
        at += size
    return out


def blocks_of_page(sheet, page):
    out = []
    for i, w in enumerate(words(sheet, page)):
        out += bytes_of_bits(w[check_bits(sheet, i):stored(sheet)], block_bytes(sheet)[i])
    return out


# ---- the code

def turned(word, places):
    """x^places times the word, where x^n = 1."""
    cut = -places % len(word)
    return word[cut:] + word[:cut]


def nested(sheet, ws, l):
    out = [0] * length(sheet)
    for i, w in enumerate(ws):
        out = added(out, turned(w, l * i))
    return out


def blank(sheet, page):
    """Every stored coefficient is 1, whatever the spare bits are."""
    return all(all(w[:stored(sheet)]) for w in words(sheet, page))


def failing(sheet, page):
    """The first word that fails: 32 + i or 64 + l; 0 for none."""
    q, m, v, *t, s = sheet
    ws = words(sheet, page)
    for i in range(m):
        if not has_roots(q, ws[i], t[0]):
            return 32 + i
    for l in range(v):
        if not has_roots(q, nested(sheet, ws, l), t[v - l]):
            return 64 + l
    return 0


def conditions(sheet, ws, nested_words):
    """The values that must vanish, all their bits in one number: linear in the words."""
    q, m, v, *t, s = sheet
    values = [syndrome(q, w, j) for w in ws for j in range(1, 2 * t[0] + 1)]
    values += [x for l in nested_words for x in syndromes(q, nested(sheet, ws, l), 2 * t[v - l])]
    return sum(x << q * k for k, x in enumerate(values))


def solved(sheet, ws, unknown, nested_words, free):
    """The words with their unknown places chosen so that the conditions hold; `free` gives the undetermined ones."""
    ws = [list(w) for w in ws]
    rows = []
    for i, k in unknown:
        unit = [[0] * length(sheet) for _ in ws]
        unit[i][k] = 1
        rows.append((conditions(sheet, unit, nested_words), {(i, k)}))
    basis = []                             # reduced columns with a leading bit of their own, and the places they flip
    for value, places in rows:
        for lead, other, flips in basis:
            if value >> lead & 1:
                value, places = value ^ other, places ^ flips
        if value:
            basis.append((value.bit_length() - 1, value, places))
        elif free is None:
            raise AssertionError('more than one page')
        elif free():
            for i, k in places:
                ws[i][k] ^= 1
    rest = conditions(sheet, ws, nested_words)
    for lead, other, flips in basis:
        if rest >> lead & 1:
            rest ^= other
            for i, k in flips:
                ws[i][k] ^= 1
    assert rest == 0, 'no page'
    assert conditions(sheet, ws, nested_words) == 0
    return ws


def page_of_blocks(sheet, data):
    """The one page whose blocks are these and whose words meet every condition."""
    return list(encoded(sheet, tuple(data)))


@lru_cache(None)
def encoded(sheet, data):
    ws, unknown = [], []
    for i, block in enumerate(blocks_with_unused(sheet, data)):
        w = check_bits(sheet, i)
        ws.append([0] * w + block[:stored(sheet) - w] + [0] * sheet[7])
        unknown += [(i, k) for k in range(w)]
    page = page_of_words(sheet, solved(sheet, ws, unknown, range(sheet[2]), None))
    assert failing(sheet, page) == 0 and blocks_of_page(sheet, page) == list(data)
    return page


def page_failing_at(sheet, l):
    """A page whose sub-words and nested words below l hold, and nested word l does not."""
    everywhere = [(i, k) for i in range(sheet[1]) for k in range(stored(sheet))]
    empty = [[0] * length(sheet) for _ in range(sheet[1])]
    while True:
        page = page_of_words(sheet, solved(sheet, empty, everywhere, range(l), lambda: below(2)))
        if failing(sheet, page) == 64 + l:
            return page


@lru_cache(None)
def nesting(i, l):
    if l == 0:
        return [1]
    if i < l:
        return []
    return trimmed(added(nesting(i - 1, l - 1), [0] * l + nesting(i - 1, l)))


def newton(sheet, page, l):
    out = []
    for i, w in enumerate(words(sheet, page)):
        if i >= l:
            out = added(out, multiplied(nesting(i, l), w))
    return out


def carried(ws, i):
    """What the words after sub-word i add to its rule."""
    out = []
    for k in range(i + 1, len(ws)):
        out = added(out, multiplied(nesting(k, i), ws[k]))
    return out


def divisor(sheet, l):
    """g_(v-l) / g_0."""
    quotient, none = divided(gen(sheet, sheet[2] - l), gen(sheet, 0))
    assert none == []
    return quotient


def cut(word, widths):
    """A word of as many bits in parts of these widths, the highest first."""
    out, top = [], len(word)
    for width in widths:
        out.append(number(word[top - width:top]))
        top -= width
    assert top == 0
    return out


# ---- the calls, each after its refusal

def remainder_bytes(sheet, page, i):
    return bytes_of_bits(divided(words(sheet, page)[i], gen(sheet, 0))[1], 96)


def short_bytes(sheet, page, l):
    return bytes_of_bits(divided(nested(sheet, words(sheet, page), l), divisor(sheet, l))[1], 96)


def nested_bytes(sheet, page, l):
    return bytes_of_bits(nested(sheet, words(sheet, page), l), nested_size(sheet))


def syndrome_list(sheet, page, i):
    return odd_syndromes(sheet[0], words(sheet, page)[i], strength(sheet, 0))


def nested_syndrome_list(sheet, page, l):
    return odd_syndromes(sheet[0], nested(sheet, words(sheet, page), l), strength(sheet, sheet[2] - l))


def low_byte_first(numbers):
    return [byte for x in numbers for byte in (x % 256, x // 256)]


def all_refusal(sheet, level, odd, out, unit=1):
    """Of the lengths of both lists; a number takes so many units."""
    return refusal(sheet, opening=level, room=((odd, out), lambda: (unit * strength(sheet, level), unit * 2 * strength(sheet, level))))


def all_from(sheet, level, odd, old):
    """The call's number, and the list of all syndromes."""
    code = all_refusal(sheet, level, len(odd), len(old))
    return [code] + (old if code else all_syndromes(sheet[0], odd))


def differences(sheet, x, y):
    return sum(a != b for u, w in zip(words(sheet, x), words(sheet, y)) for a, b in zip(u, w))


# a register: level, count, the remainder's number
def opened(sheet, level):
    code = refusal(sheet, opening=level)
    return (code, (level if code == 0 else 0, 0, 0))


def fed(sheet, width, register, u):
    code = refusal(sheet, width=width, fed=u, register=register)
    if code:
        return code, register
    level, count, rest = register
    formed = bits(u, width) + bits(rest)          # rest times x^width, and u below it
    return 0, (level, count + width, number(divided(formed, gen(sheet, level))[1]))


# ---- the refusals: the requirement's table (docs/REQUIREMENT.md, "Refusals"), in the order of its tests

def broken(sheet):
    q, m, v, *t, s = sheet
    used, past = t[:v + 1], t[v + 1:]
    rises = all(a <= b for a, b in zip(used[1:], used[2:]))
    return not (1 <= used[0] < used[1] and rises and used[v] <= 64 and 2 * used[v] <= length(sheet) - 1 and not any(past))


def refusal(sheet, width=None, blocks=None, page=None, fed=None, sub_word=None, nested_word=None, opening=None, room=None, register=None, count=None, bit=None, mending=False, whole=False):
    """The first number whose condition holds among a call's parts, 0 for none.

    blocks and page are lists where they are read, and lengths where they are to be written; room is the length of
    the buffer for another result, and the exact one. With a count, blocks and page are the lengths of so many. bit is
    a block's index, that of a bit in it and the bit's value to come. With mending, the sub-word must have a multiple near it;
    with whole, a member must come of the page.
    """
    q, m, v, *t, s = sheet
    times = 1 if count is None else count
    size = lambda buffer: buffer if isinstance(buffer, int) else len(buffer)
    read = lambda buffer: isinstance(buffer, list)
    stray = lambda pieces, used: any(any(p[u:]) for p, u in zip(pieces, used))
    table = [
        (1, lambda: q not in FIELD),
        (2, lambda: v not in (1, 2, 3) or not v + 1 <= m <= 8),
        (3, lambda: broken(sheet)),
        (4, lambda: any(d * j % length(sheet) == 0 for d in range(1, m) for j in range(1, 2 * t[v] + 1))),
        (14, lambda: s > largest(sheet)),
        (5, lambda: width is not None and not 1 <= width <= 64),
        (9, lambda: count is not None and not 1 <= count <= 16),
        (6, lambda: blocks is not None and size(blocks) != times * data_bytes(sheet)),
        (7, lambda: page is not None and size(page) != times * page_bytes(sheet)),
        (8, lambda: read(blocks) and stray(blocks_with_unused(sheet, blocks), block_bits(sheet))
            or read(page) and stray(words_with_spare(sheet, page), [stored(sheet)] * m)
            or fed is not None and len(bits(fed)) > width),
        (9, lambda: sub_word is not None and sub_word >= m or nested_word is not None and nested_word >= v or opening is not None and opening > v
            or bit is not None and not names_bit(sheet, *bit)),
        (10, lambda: room is not None and room[0] != room[1]()),
        (11, lambda: register is not None and register[1] + width > stored(sheet)),
        (12, lambda: register is not None and (register[0] > v or len(bits(register[2])) > degree(sheet, register[0]))),
        (13, lambda: read(blocks) and blank(sheet, page_of_blocks(sheet, blocks)) or bit is not None and blank(sheet, altered(sheet, page, *bit))),
        (15, lambda: mending and faults(sheet, page, sub_word) is None),
        (17, lambda: whole and mended(sheet, page)[0] is None),
    ]
    return next((k for k, holds in table if holds()), 0)


def write(sheet, width, blocks, old):
    code = refusal(sheet, width=width, blocks=blocks, page=len(old))
    return [code] + (old if code else page_of_blocks(sheet, blocks))


def pieces(data, count):
    """A list in `count` pieces of one length."""
    size = len(data) // count
    return [data[size * k:size * k + size] for k in range(count)]


def write_many(sheet, width, count, blocks, pages, old):
    """The call's number, the pages and the list of each page's own number: what single calls give."""
    code = refusal(sheet, width=width, count=count, blocks=len(blocks), page=len(pages), room=(len(old), lambda: count))
    if code:
        return code, pages, old
    made = [write(sheet, width, data, page) for data, page in zip(pieces(blocks, count), pieces(pages, count))]
    return 0, [x for answer in made for x in answer[1:]], [answer[0] for answer in made]


def names_bit(sheet, i, r, b):
    return i < sheet[1] and r < block_bits(sheet)[i] and b in (0, 1)


def altered(sheet, page, i, r, b):
    """The page with bit r of block i made b: where it is the other, the one page whose blocks are this bit alone is added."""
    if words(sheet, page)[i][check_bits(sheet, i) + r] == b:
        return page
    return [x ^ y for x, y in zip(page, page_of_blocks(sheet, one_bit(sheet, i, r)))]


def alter(sheet, page, i, r, b):
    code = refusal(sheet, page=page, bit=(i, r, b))
    return [code] + (page if code else altered(sheet, page, i, r, b))


@lru_cache(None)
def multiples(sheet):
    """Every multiple of g_0 that is 0 in its top s places, as a number."""
    out = [0]
    for k in range(stored(sheet) - degree(sheet, 0)):
        out += [x ^ number(gen(sheet, 0)) << k for x in out]
    return out


def faults(sheet, page, i):
    """The places, rising, at which sub-word i differs from the multiple of g_0 within t_0 places of it; None where there is no such multiple."""
    word = number(words(sheet, page)[i])
    near = [c for c in multiples(sheet) if bin(c ^ word).count('1') <= strength(sheet, 0)]
    assert len(near) <= 1
    return [k for k, b in enumerate(bits(near[0] ^ word)) if b] if near else None


def mend(sheet, page, i, places, count):
    """The call's number, the page, the list of places and their number."""
    code = refusal(sheet, page=page, sub_word=i, room=(len(places), lambda: strength(sheet, 0)), mending=True)
    if code:
        return code, page, places, count
    found = faults(sheet, page, i)
    return 0, flipped(sheet, page, *[(i, k) for k in found]), found + [NO_PLACE] * (len(places) - len(found)), len(found)


@lru_cache(None)
def error_values(sheet, ws, left, j):
    """The values at alpha^j of the errors of the sub-words left, where no others have errors: nested word l has the sum of the values, each
    times alpha^(j k l). Found by trying all elements."""
    alpha = powers(sheet[0])
    wanted = [syndrome(sheet[0], nested(sheet, [list(w) for w in ws], l), j) for l in range(len(left))]
    fit = []
    for logs in tuples([None, *range(len(alpha))], repeat=len(left)):
        for l, x in enumerate(wanted):
            for k, e in zip(left, logs):
                x ^= 0 if e is None else alpha[(e + j * k * l) % len(alpha)]
            if x:
                break
        else:
            fit.append([0 if e is None else alpha[e] for e in logs])
    assert len(fit) == 1
    return fit[0]


@lru_cache(None)
def errors(sheet, t):
    """The lists of at most t stored places, by the syndromes S_1 to S_2t of the word that is 1 there."""
    out = {}
    for count in range(t + 1):
        for places in combinations(range(stored(sheet)), count):
            word = [int(k in places) for k in range(stored(sheet))]
            assert out.setdefault(tuple(syndromes(sheet[0], word, 2 * t)), places) == places
    return out


def error_syndromes(sheet, ws, left, i):
    """S_1 to S_2t of the error of sub-word i, t of the level v - b + 1."""
    t = strength(sheet, sheet[2] - len(left) + 1)
    return [error_values(sheet, tuple(map(tuple, ws)), tuple(left), j)[left.index(i)] for j in range(1, 2 * t + 1)]


def round_found(sheet, ws, left):
    """The places of the errors of the sub-words left, by the nested words; None for an error of more than the level's strength."""
    given = errors(sheet, strength(sheet, sheet[2] - len(left) + 1))
    return {i: given.get(tuple(error_syndromes(sheet, ws, left, i))) for i in left}


def mended(sheet, page):
    """The member that comes of the page, and the number of rounds; or None, and why: more broken words than v, a round that leaves as many,
    an end that is no member, a blank one."""
    ws, rounds = words(sheet, page), 0
    found = {i: faults(sheet, page, i) for i in range(sheet[1])}
    left = []
    while True:
        for i, places in found.items():
            for k in places or ():
                ws[i][k] ^= 1
        rest, left = left, [i for i, places in found.items() if places is None]
        if not left:
            break
        if len(left) > sheet[2]:
            return None, 'many'
        if rest == left:
            return None, 'stuck'
        found = round_found(sheet, ws, left)
        rounds += 1
    after = page_of_words(sheet, ws)
    if blank(sheet, after):
        return None, 'blank'
    return (None, 'other') if failing(sheet, after) else (after, rounds)


def mend_page(sheet, page):
    code = refusal(sheet, page=page, whole=True)
    return [code] + (page if code else mended(sheet, page)[0])


def verdict(sheet, page, **lent):
    """The number of judge's and read out's answer: blank goes before 8."""
    code = refusal(sheet, page=page, **lent)
    if code in (0, 8) and blank(sheet, page):
        return BLANK
    return code or failing(sheet, page)


def read_out(sheet, page, old):
    answer = verdict(sheet, page, blocks=len(old))
    return [answer] + (old if 0 < answer < 32 else blocks_of_page(sheet, page))


def judged(sheet, page):
    """The answer's number, and its values."""
    answer = verdict(sheet, page)
    return [answer] + ([answer % 32] if 32 <= answer < BLANK else [])


def head(data):
    """Of a program's input the sheet, the width and the rest."""
    lead = lambda k: data[k] if k < len(data) else 0
    q, m, v, width = [lead(k) for k in range(4)]
    count = v + 1 if v in (1, 2, 3) else 0
    return (q, m, v, *[lead(4 + a) if a < count else 0 for a in range(4)], 0), width, data[4 + count:]


def writer(data):
    sheet, width, blocks = head(data)
    code = refusal(sheet, width=width, blocks=blocks)
    return [code] if code else [0] + page_of_blocks(sheet, blocks)


def mender(data):
    sheet, width, page = head(data)
    code, *after = mend_page(sheet, page)
    return [code] if code else [0] + after


# ---- the fixed sequence

state = 20


def below(bound):
    global state
    state = (state * 6364136223846793005 + 1442695040888963407) % 2 ** 64
    return (state >> 33) % bound


def some_bytes(count):
    return [below(256) for _ in range(count)]


def some_blocks(sheet):
    """Blocks that fit."""
    out = []
    for b, size in zip(block_bits(sheet), block_bytes(sheet)):
        out += bytes_of_bits([below(2) for _ in range(b)], size)
    return out


def all_ones(sheet):
    return [x for b, size in zip(block_bits(sheet), block_bytes(sheet)) for x in bytes_of_bits([1] * b, size)]


def one_bit(sheet, i, r):
    return [x for k, (b, size) in enumerate(zip(block_bits(sheet), block_bytes(sheet)))
            for x in bytes_of_bits([int((k, j) == (i, r)) for j in range(b)], size)]


def all_but_one(sheet, i, r):
    return [x ^ y for x, y in zip(all_ones(sheet), one_bit(sheet, i, r))]


def erased(sheet, spare):
    """A blank page with these spare bits: of each sub-word a number, the lowest bit first."""
    return [b for x in spare for b in bytes_of_bits([1] * stored(sheet) + bits(x), word_bytes(sheet))]


def some_page(sheet):
    """A page with clear spare bits."""
    return page_of_words(sheet, [[below(2) for _ in range(stored(sheet))] for _ in range(sheet[1])])


def some_member(sheet):
    return page_of_blocks(sheet, some_blocks(sheet))


def flipped(sheet, page, *places):
    page = list(page)
    for i, k in places:
        page[i * word_bytes(sheet) + k // 8] ^= 1 << k % 8
    return page


def some_places(sheet, count):
    """So many different stored places, rising."""
    left = list(range(stored(sheet)))
    return sorted(left.pop(below(len(left))) for _ in range(count))


# ---- the tables as text

TABLES = {OWN: [], MENDED: []}
into = OWN                                 # the file that tables and rows go to


def table(name, about, unfolding):
    """Declares a table; rows go to the last one declared."""
    TABLES[into].append((name, about, unfolding, []))


def hexed(xs):
    return ['0x%02X' % x for x in xs]


def listed(items):
    """A list; the last items as `replicate` where six or more are alike."""
    items = [str(x) for x in items]
    run = 0
    while run < len(items) and items[-1 - run] == items[-1]:
        run += 1
    if run < 6:
        return ' ∷ '.join(items + ['[]'])
    return ' ∷ '.join(items[:-run] + ['replicate %d %s' % (run, items[-1])])


def data(xs):
    return '[]' if not xs else '(%s)' % listed(hexed(xs))


# the sheets with a name in OWN
NAMES = {(4, 2, 1, 1, 2, 0, 0, 0): 'A', (4, 3, 2, 1, 2, 3, 0, 0): 'B'}


def named(sheet):
    return into == OWN and NAMES.get(sheet) or '(sheet %s)' % ' '.join(map(str, sheet))


def row(term, expected):
    TABLES[into][-1][3].append((term, expected))


WIDTH = 140


def filled(text, indent):
    """A text in lines of WIDTH at most, in rt fmt's layout: broken before `∷`, or else before a record."""
    out, line = [], ' ' * indent
    for part in text.replace(' ∷ ', '\n∷ ').split('\n'):
        joined = line + ' ' + part if line.strip() else line + part
        if len(joined) < WIDTH:
            line = joined
            continue
        words = [line, part] if line.strip() else joined.split(' (record ')
        out += words[:-1]
        line = ' ' * (indent + 4) + (part if line.strip() else '(record ' + words[-1])
    return '\n'.join(out + [line])


def laid(name, rows):
    """A table's definition in rt fmt's layout."""
    out = [name + ' =']
    for k, (term, expected) in enumerate(rows):
        line = '    %s(%s, %s)' % ('∷ ' if k else '', term, expected)
        if len(line) <= WIDTH:
            out.append(line)
            continue
        indent = 4 if k else 0
        opened = '    ∷ (' if k else out.pop() + ' ('
        out += [opened] + [filled(text, indent + 2) + ',' for text in (term, expected)] + [' ' * indent + ')']
    return '\n'.join(out + ['    ∷ []'])


def equations(rows):
    """Rows as equations, in rt fmt's layout: a long one is broken before `≡`."""
    out = []
    for term, expected in rows:
        line = '(%s ≡ %s)' % (term, expected)
        out.append(line if len(line) < WIDTH - 6 else '(%s\n    ≡ %s)' % (term, expected))
    return '\n    × '.join(out)


def call(name, *arguments):
    """A call's text: sheets by name, lists as bytes, numbers as they are."""
    text = [named(a) if isinstance(a, tuple) else data(a) if isinstance(a, list) else str(a) for a in arguments]
    return ' '.join([name] + text)


def numbers(term, expected):
    row(term, listed(expected))


def alone(term, x):
    row(term + ' ∷ []', listed([x]))


# ---- the sheets

A = (4, 2, 1, 1, 2, 0, 0, 0)
B = (4, 3, 2, 1, 2, 3, 0, 0)
ALIKE = (4, 2, 1, 4, 5, 0, 0, 0)           # g_1 = g_0
WIDE = (4, 5, 2, 1, 2, 2, 0, 0)            # x^(l i) with l i above 3
DEEP = (4, 5, 3, 1, 2, 2, 2, 0)
TIGHT = (4, 3, 2, 2, 5, 7, 0, 0)           # two blocks of one bit
TWO = (4, 3, 1, 2, 3, 0, 0, 0)             # t_0 = 2 and 3
THREE = (4, 2, 1, 3, 7, 0, 0, 0)
SMALL = (4, 3, 2, 6, 7, 7, 0, 0)           # all blocks of one bit, g_0 = g_1 = g_2
EVEN = (4, 3, 2, 2, 3, 3, 0, 0)            # t_0 = 2, so that words are left, and v = 2
CLASH = (4, 4, 2, 1, 2, 3, 0, 0)
EIGHT = (8, 8, 3, 1, 2, 2, 2, 0)
PAIR = (8, 2, 1, 1, 2, 0, 0, 0)
BYTE = (8, 4, 2, 3, 5, 9, 0, 0)
TWELVE = (12, 3, 2, 1, 2, 3, 0, 0)
LARGE = (12, 8, 3, 28, 32, 39, 58, 0)
CHOSEN = [A, B, ALIKE, WIDE, DEEP, TIGHT, SMALL, (4, 4, 1, 1, 2, 0, 0, 0), (4, 5, 1, 1, 2, 0, 0, 0), TWO, THREE,
          (4, 3, 2, 1, 3, 3, 0, 0), (4, 4, 3, 1, 2, 2, 2, 0)]
A3, A6, B3, B4, DEEP4, TWO4 = shortened(A, 3), shortened(A, 6), shortened(B, 3), shortened(B, 4), shortened(DEEP, 4), shortened(TWO, 4)
PAIR24, PAIR25 = shortened(PAIR, 231), shortened(PAIR, 230)     # 24 coefficients stored, with no spare bit, and 25, with seven
SHORTENED = [A3, A6, B4, DEEP4, PAIR24, PAIR25]
BYTE_SHORT, TWELVE_SHORT = shortened(BYTE, 180), shortened(TWELVE, 4050)
U32, U64 = 2 ** 32 - 1, 2 ** 64 - 1


def every():
    """Every accepted sheet of q = 4."""
    return [(4, m, v, *t, 0) for v in (1, 2, 3) for m in range(v + 1, 9) for t in tuples(range(8), repeat=4) if refusal((4, m, v, *t, 0)) == 0]


def least_weight(sheet):
    """The fewest ones of a member that is not 0, by trying every one."""
    basis = [number(bits_of_bytes(page_of_blocks(sheet, one_bit(sheet, i, r)))) for i, b in enumerate(block_bits(sheet)) for r in range(b)]
    members = [0]
    for x in basis:
        members += [x ^ y for y in members]
    return min(bin(x).count('1') for x in members if x)


def short_test(sheet):
    """At every s from 1 to the largest: the words of blocks are those at s = 0 of the blocks with s zeros on top; blocks of ones are
    written, and ones in every stored place are no words of the code; one more is 14."""
    most = next(s for s in range(length(sheet)) if min(block_bits(shortened(sheet, s))) == 1)
    assert [refusal(shortened(sheet, s)) for s in (most, most + 1)] == [0, 14]
    for short in (shortened(sheet, s) for s in range(1, most + 1)):
        data = all_ones(short)
        blocks = [block[:b] for block, b in zip(blocks_with_unused(short, data), block_bits(short))]
        whole = [x for block, size in zip(blocks, block_bytes(sheet)) for x in bytes_of_bits(block, size)]
        code, *page = write(short, 8, data, [0] * page_bytes(short))
        assert code == 0 and words(short, page) == words(sheet, page_of_blocks(sheet, whole))
        assert failing(short, erased(short, [0] * short[1])) and (sum(block_bits(short)) > 16 or least_weight(short) >= distance(short))


def self_test():
    """The requirement's own numbers (docs/REQUIREMENT.md, "On the counter"), degrees by generators, the equal form as a whole, the
    distance by trial, that a page is blank where every data bit is 1, and what shortening leaves as it was."""
    assert [number(generator(4, t)) for t in (1, 2, 3, 4, 7)] == [0x13, 0x1D1, 0x537, 0x7FFF, 0x7FFF]
    assert page_of_blocks(A, [0x00, 0x01, 0x00]) == [0x13, 0x00, 0x13, 0x00]
    assert page_of_blocks(A, [0x01, 0x01, 0x00]) == [0xC2, 0x01, 0x13, 0x00]
    assert page_of_blocks(B, one_bit(B, 2, 0)) == [0x26, 0x00, 0x35, 0x00, 0x13, 0x00]
    assert judged(A, [0xFF, 0x7F, 0xFF, 0x7F]) == judged(A, [0xFF, 0xFF, 0xFF, 0xFF]) == [96]
    assert judged(A, [0x01, 0x00, 0x00, 0x00]) == [32, 0] and judged(A, [0x13, 0x00, 0x00, 0x00]) == [64, 0]
    assert read_out(A, [0xFF, 0xFF, 0xFF, 0xFF], [0x00] * 3) == [96, 0x7F, 0xFF, 0x07]
    assert write(A, 8, [0x7F, 0xFF, 0x07], [0x00] * 4) == [13] + [0x00] * 4
    assert syndromes(4, bits(2), 4) == all_syndromes(4, [2, 8]) == [2, 4, 8, 3] and odd_syndromes(4, bits(2), 2) == [2, 8]
    assert refusal(CLASH) == 4 and refusal((4, 4, 2, 1, 2, 2, 0, 0)) == 0
    assert refusal((8, 4, 1, 1, 42, 0, 0, 0)) == 0 and refusal((8, 4, 1, 1, 43, 0, 0, 0)) == 4
    assert distance(LARGE) == 117 and page_bytes(LARGE) == 4096
    assert number(nesting(2, 1)) == 0b11 and number(nesting(4, 2)) == 0b11011
    assert writer([0x04, 0x02, 0x01, 0x08, 0x01, 0x02, 0x01, 0x01, 0x00]) == [0x00, 0xC2, 0x01, 0x13, 0x00] and writer([]) == [1]
    for s in CHOSEN:
        whole = lambda x: all(has_roots(4, newton(s, x, l), strength(s, s[2] - l)) for l in range(s[2]))
        assert whole(some_member(s)) and not any(whole(page_failing_at(s, l)) for l in range(s[2]) if degree(s, s[2] - l) > degree(s, 0))
    small = [s for s in every() if sum(block_bits(s)) <= 16 or s == A]
    assert least_weight(A) == distance(A) and all(least_weight(s) >= distance(s) for s in small)
    assert all(refusal(s, blocks=all_ones(s)) == 13 for s in CHOSEN)
    assert all(len(exponents(q, t)) == len(generator(q, t)) - 1 for q, t in [(4, t) for t in range(1, 8)] + [(8, 1), (8, 2)])
    for s in CHOSEN:
        short_test(s)
    assert [refusal(s) for s in SHORTENED] == [0] * len(SHORTENED) and [spare_bits(s) for s in SHORTENED] == [4, 7, 5, 5, 0, 7]


# ---- the cases

def as_list(xs):
    return '(%s)' % listed(xs)


def layouts():
    table('offsets', 'Where each block begins.', 'block_offset range')
    for s in [A, B, TIGHT, EIGHT]:
        numbers('map (block_offset %s) (range 0 %d)' % (named(s), s[1]), [sum(block_bytes(s)[:i]) for i in range(s[1])])
    table('placed_bits', 'Coefficients of a page and bits of blocks, read off their bytes.', 'block_offset range')
    for s, i in [(A, 0), (B, 2), (WIDE, 4)]:
        x = some_page(s)
        numbers('map (%s %d) (range 0 15)' % (call('coefficient_of', s, x), i), words(s, x)[i])
    for s, i in [(A, 1), (B, 2), (TIGHT, 1)]:
        blocks, b = some_blocks(s), block_bits(s)[i]
        numbers('map (%s %d) (range 0 %d)' % (call('block_bit', s, blocks), i, b), blocks_with_unused(s, blocks)[i][:b])


def equal_form():
    table('nestings', 'N(i, l) past what the call gives: i above 7, and l above i.', 'N range')
    numbers('map (N 9) (range 0 11)', [number(nesting(9, l)) for l in range(11)])
    numbers('map (λ i. N i 4) (range 0 10)', [number(nesting(i, 4)) for i in range(10)])
    table('newton_sums', 'The sums Σ N(i, l) × c_i of the equal form.', 'words_of combine N')
    for s, l in [(A, 0), (B, 0), (B, 1), (WIDE, 1), (DEEP, 2)]:
        x = some_page(s)
        alone('newton %d (%s)' % (l, call('words_of', s, x)), number(newton(s, x, l)))
    table('carries', 'What the later words add to the rule of sub-word i, at its level: nothing at level 0.', 'carried words_of')
    for s, i in [(A, 0), (B, 1), (DEEP, 0), (DEEP, 3)]:
        x = some_page(s)
        level = max(s[2] - i, 0)
        alone('carried %d %d (drop %d (%s))' % (level, i, i + 1, call('words_of', s, x)), number(carried(words(s, x), i)) if level else 0)


def divisors():
    table('divisors', 'g_(v-l) / g_0; 1 where the two are one.', 'divisor range pow')
    for s in [B, ALIKE, DEEP]:
        numbers('map (divisor %s) (range 0 %d)' % (named(s), s[2]), [number(divisor(s, l)) for l in range(s[2])])


def page_differences():
    table('bits_apart', 'Two pages: at how many places they differ; their spare bits count for nothing.', 'differences')
    x, y = some_page(B), some_page(B)
    for s, a, b in [(B, x, y), (B, x, x), (B, x, flipped(B, x, (1, 14), (0, 0))), (A, [0x00] * 4, [0xFF] * 4)]:
        alone(call('differences', s, a, b), differences(s, a, b))
    table('distances', 'The distance.', 'distance')
    sheets = CHOSEN + [EIGHT, LARGE]
    numbers('map distance %s' % as_list(map(named, sheets)), [distance(s) for s in sheets])
    table('sums', 'Lists added place by place; the longer list keeps its tail.', 'xor')
    for a, b in [(some_bytes(4), some_bytes(4)), (some_bytes(3), some_bytes(5))]:
        row('add %s %s' % (data(a), data(b)), listed(hexed([x ^ y for x, y in zip(a, b)] + max(a, b, key=len)[min(len(a), len(b)):])))


def fed_in_parts(sheet, level, widths):
    word = [below(2) for _ in range(sum(widths))]
    numbers('held (feedings %s (empty %d) (cut 0x%X %s))' % (named(sheet), level, number(word), as_list(widths)),
            [level, len(word), number(divided(word, gen(sheet, level))[1])] + [0] * 11)


def parts():
    table('cuts', 'A polynomial cut for feeding, highest power first: the parts\' widths, and the parts.', 'sum')
    word, widths = [below(2) for _ in range(15)], [3, 8, 4]
    text = 'cut 0x%X %s' % (number(word), as_list(widths))
    numbers('map (λ u. u.0) (%s)' % text, widths)
    numbers('map (λ u. u.1) (%s)' % text, cut(word, widths))
    table('fed_parts', 'The parts fed in turn from the empty register: level, count and words.', 'fed sum pow')
    for s, level, widths in [(B, 2, [7, 1, 7]), (TIGHT, 0, [4, 11])]:
        fed_in_parts(s, level, widths)


def field_sums():
    table('field_sums', 'The powers of α, and a syndrome as the sum Σ c_k α^(j k).', 'power sum_below xor range')
    numbers('map (power 4) (range 0 16)', [powers(4)[k % 15] for k in range(16)])
    word = [below(2) for _ in range(15)]
    alone('sum_below 15 (λ k. coefficient 0x%X k * power 4 (3 * k))' % number(word), syndrome(4, word, 3))


def bytes_for_c():
    table('byte_pairs', 'Numbers as C takes them, two bytes each, low byte first, and read back.', 'as_bytes as_numbers')
    xs = [0, 255, 256, 4095, 65535]
    row('as_bytes %s' % as_list(xs), listed(hexed(low_byte_first(xs))))
    numbers('as_numbers (as_bytes %s)' % as_list(xs), xs)
    for xs in ([], [0x12], [0x34, 0x12], [0x34, 0x12, 0x56], [0xFF, 0xFF, 0x00, 0x01, 0x01, 0x00]):
        numbers('as_numbers %s' % data(xs), [a + 256 * b for a, b in zip(xs[::2], xs[1::2])])


def writings():
    table('writings', 'The writer program\'s answer where strengths are missing: they are 0.', 'writer pow')
    for x in [[4, 3, 2, 8, 1, 2], [4, 3, 2, 8, 1, 2, 3], [4, 4, 3, 8, 1, 2, 2]]:
        row('writer %s' % data(x), listed(hexed(writer(x))))


def feedings(sheet, steps):
    """What refuses each of some feedings: width, level, count, number."""
    in_turn([call('feed_refusal', sheet, width, '(record { level = %d; count = %d; remainder = replicate 12 0 })' % (level, count), u) for width, level, count, u in steps],
            [refusal(sheet, width=width, fed=u, register=(level, count, 0)) for width, level, count, u in steps])


def huge_numbers():
    """Numbers that would not end if a range, a power or a list were made of them."""
    table('huge_numbers', 'Huge numbers: sheets; a register, its width and what is fed; an index.', 'sheet_refusal feed_refusal word_refusal')
    sheets = [(U32, 2, 1, 1, 2, 0, 0, 0), (4, U32, 1, 1, 2, 0, 0, 0), (4, 2, U32, 1, 2, 0, 0, 0), (4, 2, 1, 1, U32, 0, 0, 0), (4, 2, 1, 1, 2, 0, U32, 0),
              (12, 8, 3, 1, 2, 3, U32, 0)]
    numbers('map sheet_refusal %s' % as_list(map(named, sheets)), [refusal(s) for s in sheets])
    steps = [(U32, U32, U64, U64), (64, 0, U64, U64), (1, U32, 0, 1)]
    feedings(A, steps)
    page = [0xC2, 0x01, 0x13, 0x00]
    alone('%s %d 0' % (call('remainder_refusal', A, page), U64), refusal(A, page=page, sub_word=U64, room=(0, lambda: 96)))


def each(function, pages, answer):
    numbers('map (%s) %s' % (function, as_list(map(data, pages))), map(answer, pages))


def in_turn(terms, expected):
    """A row of several terms."""
    numbers(as_list(terms)[1:-1], expected)


def old(size):
    return '(replicate %d 0xA5)' % size


def answered(number, leaves, answer):
    row('%s ∷ %s' % (number, leaves), listed(answer[:1] + hexed(answer[1:])))


def written(sheet, blocks):
    size = page_bytes(sheet)
    answered(call('write_refusal', sheet, 8, blocks, size), call('write_leaves', sheet, 8, blocks, old(size)), write(sheet, 8, blocks, [0xA5] * size))


def read(sheet, page, size):
    answered(call('read_number', sheet, page, old(size)), call('read_leaves', sheet, page, old(size)), read_out(sheet, page, [0xA5] * size))


def erased_pages():
    patterns = [erased(A, spare) for spare in tuples((0, 1), repeat=2)]
    clear, full = patterns[0], patterns[-1]
    near = [[flipped(A, x, (i, k)) for i in (0, 1) for k in (0, 6, 14)] for x in (clear, full)]
    half = [[y for word in ([0x00, 0x00], [0x13, 0x00], [0x01, 0x00]) for y in (x[:2] + word, word + x[2:])] for x in (clear, full)]

    table('erased_judged', 'Judge on erased pages and on pages that are nearly so: spare bits in all patterns, all clear, all set.',
          'judge_number judge_values pow')
    for pages in [patterns, *near, *half, [[0xFF] * size for size in (0, 3, 5, 6)]]:
        each('judge_number A', pages, lambda x: judged(A, x)[0])
    refused = [(5, 2, 1, 1, 2, 0, 0, 0), (4, 1, 1, 1, 2, 0, 0, 0), (4, 2, 1, 2, 2, 0, 0, 0), CLASH]
    for given in [[(B, erased(B, (0, 1, 0))), (SMALL, erased(SMALL, (1, 0, 1)))], [(PAIR, [0xFF] * 64), (PAIR, [0xFE] + [0xFF] * 63)],
                  [(s, [0xFF] * (2 * s[1])) for s in refused]]:
        in_turn([call('judge_number', s, x) for s, x in given], [judged(s, x)[0] for s, x in given])
    for x in (full, near[0][5]):
        numbers(call('judge_values', A, x), judged(A, x)[1:])

    table('erased_read', 'Read out on them: the number and what it leaves.', 'read_number read_leaves pow')
    for s, x, size in [*((A, x, 3) for x in patterns + [near[0][2], near[1][2]]), (B, erased(B, (0, 1, 0)), 4), (A, full, 2), (A, full[:-1], 3)]:
        read(s, x, size)

    table('ones_written', 'Write where every data bit is 1, or all but one: the number and what it leaves; 5, 6, 7 and 8 go before 13.',
          'write_refusal page_of writer pow')
    ones = all_ones(A)
    for s, blocks in [(A, ones), (A, all_but_one(A, 0, 0)), (A, all_but_one(A, 1, 10)), (A, [0xFF, 0xFF, 0x07]),
                      (B, all_ones(B)), (SMALL, all_ones(SMALL)), (SMALL, all_but_one(SMALL, 1, 0))]:
        written(s, blocks)
    wrong = [(0, ones, 4), (8, ones[:-1], 4), (8, ones, 5)]
    in_turn([call('write_refusal', A, *given) for given in wrong], [refusal(A, width, blocks, size) for width, blocks, size in wrong])
    x = [4, 2, 1, 8, 1, 2] + ones
    row('writer %s' % data(x), listed(hexed(writer(x))))

    table('erased_words', 'One word of an erased page, as of any other: 8 with a spare bit set, else worked out.',
          'word_refusal remainder_bytes nested_word_bytes syndrome_list nested_syndrome_list pow')
    for name, part, size in [('remainder_refusal', 'sub_word', 96), ('nested_refusal', 'nested_word', 2), ('syndromes_refusal 1', 'sub_word', 1)]:
        each('λ x. %s A x 0 %d' % (name, size), patterns, lambda x: refusal(A, page=x, room=(size, lambda: size), **{part: 0}))
    row(call('remainder_bytes', A, clear, 1), listed(hexed(remainder_bytes(A, clear, 1))))
    for s in (A, B):
        x = erased(s, [0] * s[1])
        row(call('nested_word_bytes', s, x, s[2] - 1), listed(hexed(nested_bytes(s, x, s[2] - 1))))
    numbers(call('syndrome_list', A, clear, 1), syndrome_list(A, clear, 1))
    numbers(call('nested_syndrome_list', A, clear, 0), nested_syndrome_list(A, clear, 0))


def short_sheets():
    table('short_sheets', 'Sheets with s: accepted up to n - w_v - 1, 14 above it, behind 1 to 4 and before every other number.',
          'sheet_refusal write_refusal judge_number read_number word_refusal open_refusal feed_refusal quote_refusal')
    edges = [shortened(s, k) for s in (A, B, SMALL, EIGHT, TWELVE) for k in (largest(s), largest(s) + 1)]
    behind = [(5, 2, 1, 1, 2, 0, 0, U32), (4, 1, 1, 1, 2, 0, 0, U32), (4, 2, 1, 2, 2, 0, 0, U32), shortened(CLASH, U32), shortened(A, U32)]
    for sheets in (edges, behind):
        numbers('map sheet_refusal %s' % as_list(map(named, sheets)), [refusal(s) for s in sheets])
    register, page = '(record { level = 9; count = 99; remainder = replicate 12 0 })', [0xFF] * 5
    for s in (A6, shortened(A, 7)):
        in_turn([call('write_refusal', s, 0, page, 5), call('judge_number', s, page), call('read_number', s, page, page), call('remainder_refusal', s, page, 9, 5),
                 call('open_refusal', s, 9), call('feed_refusal', s, 0, register, 1), call('quote_refusal', 1, s, 5)],
                [refusal(s, width=0, blocks=page, page=5), judged(s, page)[0], read_out(s, page, page)[0], refusal(s, page=page, sub_word=9, room=(5, lambda: 96)),
                 opened(s, 9)[0], fed(s, 0, (9, 99, 0), 1)[0], refusal(s, room=(5, lambda: 12))])


def short_sizes():
    table('short_sizes', 'Sizes by s: bytes of page and blocks where n - s passes a multiple of 8, where blocks begin, and the quote.',
          'data_bytes block_offset distance quote range')
    steps = [0, 6, 7, 8, 230, 231]
    for name, size in (('page_bytes', page_bytes), ('data_bytes', data_bytes)):
        numbers('map (λ s. %s (sheet %s s)) %s' % (name, ' '.join(map(str, PAIR[:7])), as_list(steps)), [size(shortened(PAIR, s)) for s in steps])
    s = shortened(EIGHT, 233)
    numbers('map (block_offset %s) (range 0 8)' % named(s), [sum(block_bytes(s)[:i]) for i in range(8)])
    numbers('map distance %s' % as_list(map(named, SHORTENED)), [distance(s) for s in SHORTENED])
    for s in (B4, s):
        numbers('quote %s' % named(s), quote(s))


def short_pages():
    table('short_places', 'Coefficients, bits of blocks and differences of pages, of sub-words that take three bytes and four.', 'block_offset differences range')
    x = some_page(PAIR24)
    numbers('map (%s 1) (range 0 24)' % call('coefficient_of', PAIR24, x), words(PAIR24, x)[1][:24])
    x = some_blocks(PAIR25)
    numbers('map (%s 1) (range 0 17)' % call('block_bit', PAIR25, x), blocks_with_unused(PAIR25, x)[1][:17])
    in_turn([call('differences', s, [0x00] * page_bytes(s), [0xFF] * page_bytes(s)) for s in (A3, PAIR24, PAIR25)],
            [differences(s, [0x00] * page_bytes(s), [0xFF] * page_bytes(s)) for s in (A3, PAIR24, PAIR25)])

    table('short_written', 'Write: the number and what it leaves; blocks of ones are written too.', 'write_refusal page_of pow')
    for s, blocks in [*((s, some_blocks(s)) for s in (A3, DEEP4, PAIR24)), *((s, all_ones(s)) for s in (shortened(A, 1), B4)), (A3, [0x10, 0x00])]:
        written(s, blocks)

    table('short_judged', 'Judge: members and words that fail; each spare bit; blank pages, their spare bits clear and set, and pages nearly so.', 'judge_number pow')
    x, y = some_member(A3), some_member(B4)
    strays = lambda s, x: [flipped(s, x, (i, k)) for i in range(s[1]) for k in range(stored(s), 8 * word_bytes(s))]
    blanks = lambda s, *spare: [erased(s, [a, b]) for a, b in spare]
    nearly = lambda s, spare: [flipped(s, erased(s, [spare] * s[1]), (i, k)) for i in range(s[1]) for k in (0, stored(s) - 1)]
    for s, pages in [(A3, [x, flipped(A3, x, (0, 11)), flipped(A3, x, (1, 0)), page_failing_at(A3, 0), x[:-1], [0x00] * 4]),
                     (B4, [y, *(page_failing_at(B4, l) for l in (0, 1))]), (A3, strays(A3, x) + [page_of_blocks(A, [0x40, 0x00, 0x04])]),
                     (A6, strays(A6, [0x00] * 4)[7:]), (A3, blanks(A3, (0, 0), (0, 1), (8, 0), (15, 15)) + nearly(A3, 0) + nearly(A3, 15)),
                     (PAIR24, blanks(PAIR24, (0, 0)) + nearly(PAIR24, 0) + [[0xFF] * size for size in (5, 7, 64)]),
                     (PAIR25, blanks(PAIR25, (0, 0), (64, 1), (127, 127)) + nearly(PAIR25, 127))]:
        each('judge_number %s' % named(s), pages, lambda x: judged(s, x)[0])

    table('short_read', 'Read out: the number and what it leaves.', 'read_number read_leaves pow')
    for s, page in [(A3, x), (A3, flipped(A3, x, (1, 11))), (A3, flipped(A3, x, (1, 12))), (A6, *blanks(A6, (64, 127))), (PAIR25, *blanks(PAIR25, (127, 0)))]:
        read(s, page, data_bytes(s))


def short_words():
    table('short_words', 'One word of a page: each spare bit; a nested word, where x^(l i) takes a coefficient past the stored ones and past n.',
          'word_refusal remainder_bytes short_bytes nested_word_bytes syndrome_list nested_syndrome_list pow')
    x = some_page(A6)
    each('λ x. %s' % call('syndromes_refusal', 1, A6, 'x', 0, 1), [x] + [flipped(A6, x, (0, k)) for k in range(9, 16)],
         lambda x: refusal(A6, page=x, sub_word=0, room=(1, lambda: 1)))
    page = some_page(PAIR24)
    in_turn([call('nested_refusal', PAIR24, page, 0, size) for size in (3, 32)], [refusal(PAIR24, page=page, nested_word=0, room=(size, lambda: nested_size(PAIR24))) for size in (3, 32)])
    x = flipped(DEEP4, [0x00] * 10, (4, 10))
    for l in (1, 2):
        row(call('nested_word_bytes', DEEP4, x, l), listed(hexed(nested_bytes(DEEP4, x, l))))
    x, long = some_page(DEEP4), (8, 3, 2, 1, 2, 2, 0, 231)
    for s, page in [(DEEP4, x), (long, some_page(long))]:
        row(call('nested_word_bytes', s, page, s[2] - 1), listed(hexed(nested_bytes(s, page, s[2] - 1))))
    row(call('remainder_bytes', DEEP4, x, 2), listed(hexed(remainder_bytes(DEEP4, x, 2))))
    row(call('short_bytes', DEEP4, x, 1), listed(hexed(short_bytes(DEEP4, x, 1))))
    numbers(call('syndrome_list', DEEP4, x, 3), syndrome_list(DEEP4, x, 3))
    numbers(call('nested_syndrome_list', DEEP4, x, 2), nested_syndrome_list(DEEP4, x, 2))


def short_registers():
    table('short_fed', 'Registers: fed up to n - s, and what refuses a feeding there and past it.', 'fed feed_refusal sum pow')
    fed_in_parts(A3, 1, [5, 7])
    feedings(A3, [(1, 0, 11, 1), (1, 0, 12, 1), (12, 0, 0, 0), (13, 0, 0, 0), (1, 0, 14, 1)])
    feedings(PAIR24, [(24, 0, 0, 0), (25, 0, 0, 0), (64, 0, 191, 0)])


def many_refused():
    table('many_refused', 'Many pages in one call, refused whole: the numbers in their order, counts, and lengths that are one off or of a page more or fewer.',
          'many_refusal')
    exact = lambda s, count: [count * data_bytes(s), count * page_bytes(s), count]

    def whole(*given):
        in_turn([call('many_refusal', *g) for g in given],
                [refusal(s, width=width, count=count, blocks=blocks, page=pages, room=(room, lambda: count)) for s, width, count, blocks, pages, room in given])

    def with_lengths(s, count):
        """Each of the three lengths wrong, the others exact."""
        right, units = exact(s, count), (data_bytes(s), page_bytes(s), 1)
        wrong = [(at, right[at] + d) for at in range(3) for d in sorted({-units[at], -1, 1, units[at]})] + [(at, U64) for at in range(3)]
        whole(*[(s, 8, count, *right[:at], x, *right[at + 1:]) for at, x in wrong])

    sheets = [(5, 2, 1, 1, 2, 0, 0, U32), (4, 1, 1, 1, 2, 0, 0, U32), (4, 2, 1, 2, 2, 0, 0, U32), shortened(CLASH, U32), shortened(A, 7)]
    whole(*[(s, 0, 17, 1, 1, 1) for s in sheets])
    # one condition less with each; then one or two alone
    whole(*[(A, *g) for g in ((0, 17, 1, 1, 1), (8, 17, 1, 1, 1), (8, 2, 1, 1, 1), (8, 2, 6, 1, 1), (8, 2, 6, 8, 1), (8, 2, 6, 8, 2))])
    whole(*[(A, *g) for g in ((65, 2, 6, 8, 2), (0, 2, 6, 8, 1), (8, 0, 3, 4, 1), (8, 17, 6, 8, 2), (8, 2, 5, 8, 1), (8, 2, 6, 9, 1), (8, 2, 5, 9, 2))])
    for counts in ((0, 1, 2, 15, 16, 17, 18), (256, 257, 2 ** 16 + 1, U32, 2 ** 32 + 1, U64, 2 ** 64 + 1)):
        whole(*[(A, 8, count, *exact(A, count)) for count in counts])
    whole(*[(A, width, 3, *exact(A, 3)) for width in (0, 1, 64, 65, U32)])
    # lengths of other counts, all three
    whole(*[(A, 8, count, *exact(A, other)) for count, other in ((1, 2), (2, 1), (16, 15), (16, 17), (1, 0), (0, 1), (17, 16), (U32, 1))])
    for s, count in [(A, 1), (A, 3), (A, 16), (B4, 2)]:
        with_lengths(s, count)
    whole(*[(s, 8, count, *exact(s, k)) for s in (EIGHT, PAIR24) for count, k in ((16, 16), (16, 15))])


def many_pages():
    table('many_listed', 'Many pages in one call: the list, then the pages. Stray blocks (8) and blocks of ones (13; written where s is above 0), in every place, and alone.',
          'statuses pages_by pow')

    def made(s, width, *sets):
        count, blocks, pages = len(sets), [x for data in sets for x in data], some_bytes(len(sets) * page_bytes(s))
        code, after, said = write_many(s, width, count, blocks, pages, [0xA5] * count)
        assert code == 0 and len(after) == len(pages) and len(said) == count
        row(call('many', s, width, count, blocks, pages), listed(said + hexed(after)))
        return said

    def stray(s, i):
        """Blocks with the highest unused bit of block i set."""
        blocks, end = some_blocks(s), sum(block_bytes(s)[:i + 1])
        assert block_bits(s)[i] % 8
        return blocks[:end - 1] + [blocks[end - 1] | 128] + blocks[end:]

    full = [0xFF, 0xFF, 0x07]              # of ones, and stray
    assert made(A, 8, some_blocks(A)) == [0] and made(A, 8, stray(A, 1)) == [8] and made(A, 8, all_ones(A)) == [13]
    assert made(A, 1, some_blocks(A), stray(A, 0), all_ones(A)) == [0, 8, 13]
    assert made(A, 64, all_ones(A), some_blocks(A), stray(A, 1), some_blocks(A)) == [13, 0, 8, 0]
    assert made(A, 8, stray(A, 0), all_ones(A), some_blocks(A)) == [8, 13, 0]
    assert made(A, 7, stray(A, 1), all_ones(A), full) == [8, 13, 8]
    x = some_blocks(A)
    assert made(A, 8, x, x, all_but_one(A, 0, 6)) == [0, 0, 0]
    sets = [some_blocks(A), stray(A, 0), all_ones(A), some_blocks(A)]
    assert made(A, 8, *[sets[k * 7 % 4] for k in range(16)]) == [0, 0, 13, 8] * 4
    assert made(B, 8, all_ones(B), stray(B, 2), some_blocks(B), stray(B, 1)) == [13, 8, 0, 8]
    assert made(SMALL, 63, all_but_one(SMALL, 1, 0), all_ones(SMALL), stray(SMALL, 2)) == [0, 13, 8]
    assert made(A3, 8, all_ones(A3), stray(A3, 0), some_blocks(A3)) == [0, 8, 0]
    assert made(A6, 8, stray(A6, 1), stray(A6, 0)) == [8, 8]
    assert made(B4, 33, some_blocks(B4), all_ones(B4), stray(B4, 1)) == [0, 0, 8]


def ends_of_blocks(sheet):
    """The first bit and the last of the first block, of a middle one and of the last."""
    return [(i, r) for i in sorted({0, sheet[1] // 2, sheet[1] - 1}) for r in sorted({0, block_bits(sheet)[i] - 1})]


def alter_refused():
    code = lambda s, page, i, r, b: refusal(s, page=page, bit=(i, r, b))
    whole = lambda *given: in_turn([call('alter_refusal', *g) for g in given], [code(*g) for g in given])
    blocks = lambda s, page, indices, r, b: numbers('map (λ i. %s) %s' % (call('alter_refusal', s, page, 'i', r, b), as_list(indices)), [code(s, page, i, r, b) for i in indices])
    places = lambda s, page, i, indices, b: numbers('map (λ r. %s) %s' % (call('alter_refusal', s, page, i, 'r', b), as_list(indices)), [code(s, page, i, r, b) for r in indices])
    values = lambda s, page, i, r, bits: numbers('map (%s) %s' % (call('alter_refusal', s, page, i, r), as_list(bits)), [code(s, page, i, r, b) for b in bits])

    table('alter_refused', 'One bit altered, refused: the numbers in their order; lengths, spare bits, and bits that are none.', 'alter_refusal pow')
    sheets = [(5, 2, 1, 1, 2, 0, 0, U32), (4, 1, 1, 1, 2, 0, 0, U32), (4, 2, 1, 2, 2, 0, 0, U32), shortened(CLASH, U32), shortened(A, 7)]
    whole(*[(s, [0xFF], 9, 99, 9) for s in sheets])
    # one condition less with each, then one or two alone
    x, clear, full = some_member(A), erased(A, (0, 0)), erased(A, (1, 1))
    whole(*[(A, *g) for g in (([0xFF] * 5, 2, 7, 2), (full, 2, 7, 2), (clear, 2, 7, 2), (clear, 0, 6, 1), (clear, 0, 6, 0))])
    whole(*[(A, *g) for g in ((x[:3], 0, 0, 0), ([0xFF] * 3, 0, 0, 1), ([], 0, 0, 0), ([0x00] * 64, 0, 0, 0), (x[:3], 0, 0, 2), (full, 0, 7, 1), (full, 0, 0, 1), (full, 0, 0, 0))])
    # each spare bit, of members and of erased pages, at an equal value and at another
    for s, base in [(A, x), (A, clear), (B4, some_member(B4)), (A6, erased(A6, (0, 0)))]:
        strays = [flipped(s, base, (i, k)) for i in range(s[1]) for k in range(stored(s), 8 * word_bytes(s))]
        b = below(2)
        each('λ x. %s' % call('alter_refusal', s, 'x', 0, 0, b), strays, lambda x: code(s, x, 0, 0, b))
    # blocks, bits and values at their ends, past them and far past them; on a blank page they go before 13
    for s in (A, B, A6, PAIR24):
        page = some_page(s)
        blocks(s, page, [0, s[1] - 1, s[1], s[1] + 1, U32], 0, 1)
        for i, b in enumerate(block_bits(s)):
            places(s, page, i, sorted({0, b - 1, b, b + 1, 256, U32}), 0)
        values(s, page, 0, 0, [0, 1, 2, 3, U32])
    blocks(A, clear, [0, 1, 2, 256, 2 ** 32, U64, 2 ** 64], 0, 1)
    places(A, clear, 0, [0, 6, 7, 8, 10, 256, 2 ** 32, U64, 2 ** 64], 1)
    places(A, clear, 1, [0, 6, 7, 8, 10, 11, 256, 2 ** 32, U64, 2 ** 64], 1)
    values(A, clear, 1, 10, [0, 1, 2, 256, 257, 2 ** 32, U64, 2 ** 64 + 1])

    table('alter_blanks', 'A blank page, at an equal value and at another; a page that another value would make blank, and pages near it.', 'alter_refusal pow')
    for s, ends in [(A, ends_of_blocks(A)), (A6, ends_of_blocks(A6)), (B4, [(0, 0), (2, 6)])]:
        ones = erased(s, [0] * s[1])
        near = [(altered(s, ones, i, r, 0), i, r) for i, r in ends]
        assert all(bool(failing(s, page)) == (s[7] > 0) for page, i, r in near)
        for i, r in ends:
            values(s, ones, i, r, [0, 1])
        for page, i, r in near:
            values(s, page, i, r, [0, 1, 2])
        (page, i, r), (other, j, k) = near[0], near[-1]
        if s == A6:
            values(s, page, j, k, [0, 1])
            values(s, other, i, r, [0, 1])
        values(s, flipped(s, page, (0, 0)), i, r, [1])


def alter_made():
    def made(s, page, i, r, b):
        answer = alter(s, page, i, r, b)
        row(call('alter', s, page, i, r, b), listed(answer[:1] + hexed(answer[1:])))
        return answer[0]

    def values(s, page, *places):
        assert {made(s, page, i, r, b) for i, r in places for b in (0, 1)} == {0}

    def other(s, page, i, r):
        assert made(s, page, i, r, 1 - words(s, page)[i][check_bits(s, i) + r]) == 0

    # the page of the blocks with that bit set
    for s in CHOSEN + SHORTENED:
        data = some_blocks(s)
        for (i, r), b in tuples(ends_of_blocks(s), (0, 1)):
            blocks = [x | y if b else x & ~y for x, y in zip(data, one_bit(s, i, r))]
            code, *page = alter(s, page_of_blocks(s, data), i, r, b)
            assert refusal(s, blocks=blocks) == code and (code or page == page_of_blocks(s, blocks))
    table('alter_members', 'One bit of a member altered: the number, then the page. First and last bits of blocks, both values.', 'alter_refusal altered pow')
    values(A, some_member(A), *ends_of_blocks(A))
    for s, i, r in [(B4, 0, 0), (B4, 1, 2), (B4, 2, 6), (DEEP, 1, 6), (DEEP, 4, 10)]:
        other(s, some_member(s), i, r)

    table('alter_pages', 'Of a page that is none.', 'alter_refusal altered pow')
    page = some_page(B)
    assert failing(B, page)
    values(B, page, *ends_of_blocks(B))
    for s, i, r in [(A6, 0, 0), (A6, 1, 4), (WIDE, 2, 10), (ALIKE, 1, 0), (DEEP4, 3, 0), (PAIR24, 0, 7)]:
        other(s, some_page(s), i, r)

    table('alter_rest', 'Of the zero page, of a blank one and of one that would be blank; and refused, the page as it was.', 'alter_refusal altered pow')
    for s in (A, SMALL, B4):
        zeros, ones = [0x00] * page_bytes(s), erased(s, [0] * s[1])
        i, r = s[1] - 1, block_bits(s)[-1] - 1
        values(s, zeros, (i, r))
        assert [made(s, ones, i, r, b) for b in (0, 1)] == [0, 13]
        assert [made(s, altered(s, ones, i, r, 0), i, r, b) for b in (0, 1)] == [0, 13]
    x, full = some_member(A), erased(A, (1, 1))
    refused = [(full, 1, 10, 0), (full, 1, 10, 1), (flipped(A, x, (1, 15)), 0, 0, 0), (x, 1, 11, 0), (x, 2, 0, 0), (x, 0, 0, 2), (x + [0x00], 0, 0, 0), (x[:-1], 0, 0, 1)]
    assert [made(A, *g) for g in refused] == [8, 8, 8, 9, 9, 9, 7, 7]
    assert made(CLASH, [0x00] * 8, 0, 0, 1) == 4 and made(shortened(A, 7), x, 0, 0, 1) == 14


def faults_test(sheet):
    """Near multiples again, by flipping every choice of at most t_0 stored places and looking at the roots: of words drawn, and of multiples
    with 0 to t_0 + 2 places flipped."""
    t, places = strength(sheet, 0), range(stored(sheet))
    drawn = [some_page(sheet)] + [flipped(sheet, some_member(sheet), *[(0, k) for k in some_places(sheet, f)]) for f in range(t + 3)]
    for page in drawn:
        tries = [list(chosen) for f in range(t + 1) for chosen in combinations(places, f)]
        good = [R for R in tries if has_roots(sheet[0], words(sheet, flipped(sheet, page, *[(0, k) for k in R]))[0], t)]
        assert good == [faults(sheet, page, 0)] or not good and faults(sheet, page, 0) is None


def mend_refused():
    code = lambda s, page, i, size, unit=1: refusal(s, page=page, sub_word=i, room=(size, lambda: unit * strength(s, 0)), mending=True)
    whole = lambda *given: in_turn([call('mend_refusal', 1, *g) for g in given], [code(*g) for g in given])
    indices = lambda s, page, places: numbers('map (λ i. %s) %s' % (call('mend_refusal', 1, s, page, 'i', strength(s, 0)), as_list(places)), [code(s, page, i, strength(s, 0)) for i in places])
    sizes = lambda s, page, unit, lengths: numbers('map (%s) %s' % (call('mend_refusal', unit, s, page, 0), as_list(lengths)), [code(s, page, 0, k, unit) for k in lengths])

    table('mend_refused', 'A sub-word to mend, refused: the numbers in their order; lengths, spare bits, indices, and lists of numbers and of bytes.', 'mend_refusal pow')
    sheets = [(5, 2, 1, 1, 2, 0, 0, U32), (4, 1, 1, 1, 2, 0, 0, U32), (4, 2, 1, 2, 2, 0, 0, U32), shortened(CLASH, U32), shortened(A, 7)]
    whole(*[(s, [0xFF], 9, 9) for s in sheets])
    # one condition less with each, then one or two alone
    short, ones = shortened(A, 1), [0xFF] * 4
    clear = erased(short, (0, 0))
    assert code(short, clear, 1, 1) == 15
    whole(*[(short, *g) for g in ((ones + [0xFF], 2, 0), (ones, 2, 0), (clear, 2, 0), (clear, 1, 0), (clear, 1, 1), ([0x00] * 4, 1, 1))])
    x = some_page(A)
    whole(*[(A, *g) for g in ((x[:3], 0, 1), ([], 0, 1), ([0xFF] * 5, 0, 1), (ones, 1, 1), (ones, 2, 1), (x, 2, 2), (x, 0, 2), (x, 0, 1))])
    # each spare bit, of any page and of a blank one
    for s, base in [(A, x), (A, erased(A, (0, 0))), (B4, some_page(B4)), (short, clear)]:
        strays = [flipped(s, base, (i, k)) for i in range(s[1]) for k in range(stored(s), 8 * word_bytes(s))]
        each('λ x. %s' % call('mend_refusal', 1, s, 'x', 0, 1), strays, lambda x: code(s, x, 0, 1))
    for s in (A, B, TWO, THREE, PAIR24):
        page = some_member(s)
        indices(s, page, [0, s[1] - 1, s[1], s[1] + 1, 256, 2 ** 32, U64, 2 ** 64])
        t = strength(s, 0)
        for unit in (1, 2):
            sizes(s, page, unit, sorted({0, t - 1, t, t + 1, 2 * t - 1, 2 * t, 2 * t + 1, 4 * t, 256, U64}))

    table('mend_nowhere', 'Words drawn, and each pair of neighbours alone: 15 where no multiple of g_0 is near, else 0.', 'mend_refusal pow')
    answers = set()
    neighbours = lambda s: [flipped(s, [0x00] * page_bytes(s), (0, k), (0, k + 1)) for k in range(stored(s) - 1)]
    for s, pages in [(A6, neighbours(A6)), (B4, neighbours(B4))] + [(s, [some_page(s) for _ in range(count)]) for s, count in ((A6, 12), (B4, 10), (TWO, 4), (TWO4, 6))]:
        for page in pages:
            answers.add(code(s, page, 0, strength(s, 0)))
            row(call('mend_refusal', 1, s, page, 0, strength(s, 0)), str(code(s, page, 0, strength(s, 0))))
    assert answers == {0, 15}


def mend_made():
    def made(s, page, i, places=None):
        """The row, with a list and a number that are no results."""
        places, count = [258 + k for k in range(strength(s, 0))] if places is None else places, below(256)
        code, after, listing, counted = mend(s, page, i, places, count)
        row(call('mend', s, page, i, as_list(places) if places else '[]', count), listed([code] + hexed(after) + listing + [counted]))
        return code, counted

    def damaged(s, count, i):
        """A member with so many flips in sub-word i, and one in each other."""
        return flipped(s, some_member(s), *[(j, k) for j in range(s[1]) for k in some_places(s, count if j == i else 1)])

    for s in (A, TWO, THREE, ALIKE, A3, A6, B4, TWO4, PAIR24):
        faults_test(s)
    table('mend_members', 'A member with flips, 0 to t_0 of them, in one sub-word, and one in each other: the number, then page, list and number of flips.',
          'mend_refusal mending flipped place_list pow')
    for s in (A, A3, B4, TWO, TWO4, THREE, ALIKE):
        for f in range(strength(s, 0) + 1 if s != ALIKE else 2):
            i = below(s[1])
            assert made(s, damaged(s, f, i), i) == (0, f)
    # the ends of a word and of a byte, of the first sub-word and of the last
    for i, s, places in [(0, A, (0,)), (1, A, (14,)), (0, A6, (8,)), (1, A6, (7,)), (0, TWO, (0, 14)), (2, TWO, (7, 8)), (2, TWO4, (0, 10)), (0, PAIR24, (23,)), (1, PAIR24, (16,))]:
        assert made(s, flipped(s, some_member(s), *[(i, k) for k in places]), i) == (0, len(places))

    table('mend_pages', 'More flips than t_0, any page, pages of zeros and of ones: a multiple, or 15 and nothing changed.', 'mend_refusal mending flipped place_list pow')
    answers = set()
    for s in (A, A6, B4, TWO, TWO4):
        for page in [damaged(s, strength(s, 0) + f, 0) for f in (1, 2)] + [some_page(s)]:
            answers.add(made(s, page, 0)[0])
    assert answers == {0, 15}
    for s in (A, A3, TWO, THREE):
        assert made(s, [0x00] * page_bytes(s), s[1] - 1) == (0, 0)
        assert (made(s, erased(s, [0] * s[1]), 0) == (0, 0)) == (s[7] == 0)
    # a multiple with ones in its top s places, these left out: near without s alone
    for s, top in [(A3, 12), (A3, 14), (TWO4, 11)]:
        whole = shortened(s, 0)
        word = next(c for c in multiples(whole) if c >> stored(s) == 1 << top - stored(s))
        page = page_of_words(s, [bits(word % 2 ** stored(s), 15)] + [[0] * 15] * (s[1] - 1))
        assert faults(whole, page_of_words(whole, words(s, page)), 0) == [top]
        assert made(s, page, 0)[0] == 15 and made(whole, page_of_words(whole, words(s, page)), 0) == (0, 1)
    x, clear = some_page(A), erased(A, (0, 1))
    given = [(x[:-1], 0, [1]), (x + [0x00], 0, [1]), (flipped(A, x, (1, 15)), 0, [1]), (clear, 0, [1]), (x, 2, [1]), (x, 0, []), (x, 0, [1, 2])]
    assert [made(A, *g)[0] for g in given] == [7, 7, 8, 8, 9, 10, 10]
    assert made(CLASH, [0x00] * 8, 0)[0] == 4 and made(shortened(A, 7), x, 0)[0] == 14

    table('flipped_places', 'Places flipped in a sub-word, and places in lists: 65535 from their end on.', 'flipped place_list pow')
    for s in (A, TWO4, PAIR24):
        page, i, R = some_page(s), below(s[1]), some_places(s, 3)
        row(call('flipped', s, page, i, as_list(R)), listed(hexed(flipped(s, page, *[(i, k) for k in R]))))
    for k, R in [(1, []), (1, [14]), (2, [3]), (3, [0, 9]), (6, [4094]), (2, [0, 1])]:
        numbers('place_list %d %s' % (k, as_list(R)), R + [NO_PLACE] * (k - len(R)))


def some_word(count):
    return [below(2) for _ in range(count)]


def hex_number(word):
    return '0x%X' % number(word)


# a word for each: sheet, t, and the word's length
WORDS = [(A, 2, 15), (B, 3, 15), (THREE, 7, 15), (EIGHT, 2, 40), (BYTE, 5, 9), (TWELVE, 3, 20), (TWELVE, 1, 50), (LARGE, 4, 13)]


def odd_lists():
    table('odd_lists', 'Lists of odd syndromes, S_1, S_3, ..: of words, and of sub-words and nested words of pages.',
          'odd_syndromes syndrome_list nested_syndrome_list')
    for s, t, count in WORDS + [(B, 0, 15), (B, 1, 15), (B, 12, 15), (EIGHT, 1, 255), (EIGHT, 1, 0), (TWELVE, 1, 130)]:
        word = some_word(count)
        numbers('odd_syndromes %s %d %s' % (named(s), t, hex_number(word)), odd_syndromes(s[0], word, t))
    for s in (B, THREE, DEEP4, PAIR24, TWELVE_SHORT):
        page, i, l = some_page(s), below(s[1]), below(s[2])
        numbers(call('syndrome_list', s, page, i), syndrome_list(s, page, i))
        numbers(call('nested_syndrome_list', s, page, l), nested_syndrome_list(s, page, l))

    table('list_lengths', 'Their lengths: t_0 of a sub-word, t_(v-l) of nested word l, in C twice as many bytes.', 'word_refusal')
    for s in (B, THREE, BYTE_SHORT, TWELVE_SHORT):
        page = some_page(s)
        for name, part, t in [('syndromes_refusal', 'sub_word', strength(s, 0)), ('nested_syndromes_refusal', 'nested_word', strength(s, s[2]))]:
            for unit in (1, 2):
                sizes = sorted({0, t - 1, t, t + 1, 2 * t - 1, 2 * t, 2 * t + 1, 4 * t, U64})
                numbers('map (%s) %s' % (call(name, unit, s, page, 0), as_list(sizes)), [refusal(s, page=page, room=(size, lambda: unit * t), **{part: 0}) for size in sizes])


def all_by_odd():
    table('all_by_odd', 'All syndromes from the odd ones, even ones by squares: those of the word.', 'all_syndromes odd_syndromes syndromes range sum')
    for s, t, count in WORDS:
        word = some_word(count)
        every, odd = syndromes(s[0], word, 2 * t), odd_syndromes(s[0], word, t)
        assert all_syndromes(s[0], odd) == every
        numbers('syndromes %s %d %s' % (named(s), 2 * t, hex_number(word)), every)
        numbers('all_syndromes %s %s' % (named(s), as_list(odd)), every)
        numbers('all_syndromes %s (odd_syndromes %s %d %s)' % (named(s), named(s), t, hex_number(word)), every)
    # every element alone, squared
    numbers('map (λ x. sum (drop 1 (all_syndromes A (x ∷ [])))) (range 0 16)', [all_syndromes(4, [x])[1] for x in range(16)])

    table('all_others', 'Lists of no word: none, of any length, and numbers that are no elements, squared as polynomials.', 'all_syndromes')
    numbers('all_syndromes A []', [])
    for s in (A, EIGHT, TWELVE):
        q = s[0]
        size, f = 2 ** q, FIELD[q]
        for odd in ([below(size) for _ in range(5)], [size - 1], [size], [size + 1], [f], [f ^ 1], [65535], [below(65536) for _ in range(4)],
                    [0, size, 0, 65535, f], [U64, 1]):
            numbers('all_syndromes %s %s' % (named(s), as_list(odd)), all_syndromes(q, odd))

    table('past_remainders', 'A nested word past 2t_0: the remainder by g_0 has its S_1 and another S_3, the short remainder its S_3 and another S_1.',
          'odd_syndromes all_syndromes nested_syndrome_list short_remainder rem gen degree nested words_of pow xor')
    for page in ([0x10, 0x00, 0x00, 0x00], some_page(A), some_page(A)):
        word = nested(A, words(A, page), 0)
        right, rest, short = [odd_syndromes(4, w, 2) for w in (word, divided(word, gen(A, 0))[1], divided(word, divisor(A, 0))[1])]
        assert right[0] == rest[0] != short[0] and right[1] == short[1] != rest[1]
        numbers(call('nested_syndrome_list', A, page, 0), right)
        numbers('odd_syndromes A 2 (remainder A 0 (nested A 0 (%s)))' % call('words_of', A, page), rest)
        numbers('odd_syndromes A 2 (short_remainder A 0 (%s))' % call('words_of', A, page), short)
        numbers('all_syndromes A (%s)' % call('nested_syndrome_list', A, page, 0), syndromes(4, word, 4))


def all_refused():
    whole = lambda unit, *given: in_turn([call('all_refusal', unit, *g) for g in given], [all_refusal(*g, unit) for g in given])
    table('all_refused', 'All from the odd ones, refused: the numbers in their order; levels, and the lengths of both lists, of numbers and of bytes.', 'all_refusal')
    sheets = [(5, 2, 1, 1, 2, 0, 0, U32), (4, 1, 1, 1, 2, 0, 0, U32), (4, 2, 1, 2, 2, 0, 0, U32), shortened(CLASH, U32), shortened(A, 7)]
    for unit in (1, 2):
        whole(unit, *[(s, 9, 99, 99) for s in sheets])
        # one condition less with each, then one or two alone
        t = unit * strength(A, 1)
        whole(unit, *[(A, *g) for g in ((2, 99, 99), (1, 99, 99), (1, t, 99), (1, 99, 2 * t), (1, t, 2 * t), (2, t, 2 * t), (2, 99, 2 * t), (2, t, 99))])
        whole(unit, *[(s, a, 0, 0) for s in (A, B) for a in (0, s[2], s[2] + 1, 4, 256, U32)])
        # lengths one off, of another level, of the other list, of the other unit
        for s, a in [(A, 0), (A, 1), (B, 1), (THREE, 0), (DEEP4, 3), (EIGHT, 3), (TWELVE, 2)]:
            t = unit * strength(s, a)
            odds = sorted({0, t - 1, t, t + 1, 2 * t, unit * strength(s, 0), 2 * unit * strength(s, 0), strength(s, a), 256, U64})
            outs = sorted({0, t, 2 * t - 1, 2 * t, 2 * t + 1, 4 * t, 2 * unit * strength(s, 0), 2 * strength(s, a), 256, U64})
            numbers('map (λ k. %s) %s' % (call('all_refusal', unit, s, a, 'k', 2 * t), as_list(odds)), [all_refusal(s, a, k, 2 * t, unit) for k in odds])
            numbers('map (%s) %s' % (call('all_refusal', unit, s, a, t), as_list(outs)), [all_refusal(s, a, t, k, unit) for k in outs])


def all_made():
    def made(s, level, odd, size):
        answer = all_from(s, level, odd, [258 + k for k in range(size)])
        row('all %s %d %s %s' % (named(s), level, as_list(odd) if odd else '[]', as_list([258 + k for k in range(size)]) if size else '[]'), listed(answer))
        return answer[0]

    table('all_made', 'The call: the number, then what it leaves in the list.', 'all_refusal all_syndromes')
    for s in (A, B, THREE, DEEP4, EIGHT, TWELVE):
        for level in range(s[2] + 1):
            t = strength(s, level)
            assert made(s, level, odd_syndromes(s[0], some_word(30), t), 2 * t) == 0
    assert made(B, 1, [65535, 19], 4) == 0
    refused = [(2, [1], 2), (1, [1], 2), (1, [1], 4), (0, [1], 4), (0, [], 0), (0, [1, 2], 2), (0, [1], 1), (0, [1], 3)]
    assert [made(A, *g) for g in refused] == [9] + [10] * 7
    assert made(CLASH, 0, [1], 2) == 4 and made(shortened(A, 7), 0, [1], 2) == 14

    table('all_bytes', 'In C\'s bytes.', 'all_syndromes as_bytes as_numbers')
    for s, t in [(A, 2), (EIGHT, 2), (TWELVE, 3)]:
        odd = [below(2 ** s[0]) for _ in range(t)]
        row('as_bytes (all_syndromes %s (as_numbers %s))' % (named(s), data(low_byte_first(odd))), listed(hexed(low_byte_first(all_syndromes(s[0], odd)))))


def drawn(page_of, wanted):
    """The first page drawn for which the test holds."""
    return next(x for x in (page_of() for _ in range(2000)) if wanted(x))


def flips_between(sheet, x, y):
    """The places, rising, at which two pages differ, sub-word by sub-word."""
    return [tuple(k for k in range(stored(sheet)) if a[k] != b[k]) for a, b in zip(words(sheet, x), words(sheet, y))]


def hoped(sheet, page, damaged):
    """Whether the change request's supposition holds, by the flips themselves: no mending in the first pass or in a round gives a wrong word,
    at most v are left by the first pass, and each round finds one."""
    q, m, v, *t, s = sheet
    flips = flips_between(sheet, page, damaged)
    found = {i: faults(sheet, damaged, i) for i in range(m)}
    left = list(found)
    while True:
        if any(R is not None and tuple(R) != flips[i] for i, R in found.items()):
            return False
        rest, left = left, [i for i in left if found[i] is None]
        if not left:
            return True
        if len(left) > v or rest == left:
            return False
        level = t[v - len(left) + 1]
        word = lambda i: [int(k in flips[i]) for k in range(stored(sheet))]
        found = {i: errors(sheet, level).get(tuple(syndromes(q, word(i), 2 * level))) for i in left}


def some_damage(sheet, counts):
    """A member, and it with so many flips in its sub-words in turn."""
    page = some_member(sheet)
    return page, flipped(sheet, page, *[(i, k) for i, count in enumerate(counts) for k in some_places(sheet, count)])


def mended_test(sheet):
    """Flips drawn: what comes is a member that is not blank, and it is the one that was damaged exactly where the supposition holds."""
    seen = set()
    for _ in range(100):
        page, damaged = some_damage(sheet, [below(strength(sheet, sheet[2]) + 1) for _ in range(sheet[1])])
        after = mended(sheet, damaged)[0]
        assert after is None or verdict(sheet, after) == 0
        assert (after == page) == (hoped(sheet, page, damaged) and not blank(sheet, page))
        seen.add(after == page)
    assert seen == {False, True}


def mend_page_errors():
    table('error_syndromes', 'The syndromes of one error out of those of the nested words, of words drawn: S_1 to S_2t of the level of so many broken words.',
          'error_syndrome pow range')
    for s, left in [(A, [0]), (A6, [1]), (B3, [2]), (B3, [0, 1]), (B4, [0, 2]), (B, [1, 2]), (DEEP4, [3]), (DEEP4, [1, 4]), (DEEP4, [0, 2, 3]), (DEEP4, [2, 3, 4]), (EVEN, [0, 2])]:
        ws = [[below(2) for _ in range(stored(s))] + [0] * s[7] for _ in range(s[1])]
        for i in left:
            others = [k for k in left if k != i]
            found = error_syndromes(s, ws, left, i)
            row('map (error_syndrome %s %s %s %d) (range 1 %d)' % (named(s), as_list(map(hex, map(number, ws))), as_list(others) if others else '[]', i, len(found)), listed(found))


def mend_page_refused():
    code = lambda s, page: refusal(s, page=page, whole=True)
    whole = lambda *given: in_turn([call('mend_page_refusal', *g) for g in given], [code(*g) for g in given])
    table('page_refused', 'A page to mend, refused: the numbers in their order; lengths, and each spare bit.', 'mend_page_refusal pow')
    sheets = [(5, 2, 1, 1, 2, 0, 0, U32), (4, 1, 1, 1, 2, 0, 0, U32), (4, 2, 1, 2, 2, 0, 0, U32), shortened(CLASH, U32), shortened(A, 7)]
    whole(*[(s, [0xFF]) for s in sheets])
    ones, x = [0xFF] * 4, some_member(A)
    clear = drawn(lambda: some_page(A6), lambda x: code(A6, x) == 17)
    whole((A6, ones + [0xFF]), (A6, ones), (A6, clear), (A6, [0x00] * 4), (A, x[:3]), (A, []), (A, x + [0x00]), (A, ones), (A, x))
    for s, base in [(A, x), (A6, clear)]:
        strays = [flipped(s, base, (i, k)) for i in range(s[1]) for k in range(stored(s), 8 * word_bytes(s))]
        each('λ x. %s' % call('mend_page_refusal', s, 'x'), strays, lambda x: code(s, x))


def mend_page_made():
    def made(s, page):
        """The row; what came, and the rounds or why nothing did."""
        after, why = mended(s, page)
        row(call('mended_page', s, page), 'none' if after is None else 'some ' + data(after))
        return after, why

    for s in (A, A3, A6, B, B3, B4, TWO, TWO4, DEEP4, EVEN):
        mended_test(s)
    table('page_back', 'Members as they are, and with flips in their sub-words that the first pass and rounds mend: the member.', 'mended_page pow')
    for s in (A, B3, EVEN):
        page = some_member(s)
        assert made(s, page) == (page, 0)
    # flips in the sub-words in turn, and the rounds; where 15 places are stored more than t_0 flips are at high ones, the sooner found
    high = lambda s, x: s[7] or all(len(R) <= strength(s, 0) or R[0] > 8 for R in flips_between(s, *x))
    for s, counts, rounds in [(A, (1, 1), 0), (B, (0, 1, 1), 0), (DEEP4, (1, 1, 1, 1, 1), 0), (A3, (2, 1), 1), (A6, (0, 2), 1), (B4, (2, 2, 1), 1), (B4, (2, 0, 3), 2),
                              (TWO, (3, 2, 1), 1), (TWO4, (2, 3, 0), 1), (DEEP4, (2, 1, 2, 0, 2), 1), (DEEP4, (0, 1, 2, 2, 1), 1)]:
        page, damaged = drawn(lambda: some_damage(s, counts), lambda x: high(s, x) and hoped(s, *x) and not blank(s, x[0]))
        assert made(s, damaged) == (page, rounds)

    table('page_else', 'Other pages: another member where words were mended wrong, or none: no member at the end, a blank one, more than v sub-words left, a round that finds none.',
          'mended_page pow')
    for s, ends in [(A, ('other', 0)), (A6, ('other', 'many', 'stuck', 1)), (B4, ('other', 'stuck')), (TWO, ('many',)), (TWO4, ('stuck', 1)), (DEEP4, ('other', 'stuck'))]:
        for end in ends:
            damage = lambda: some_damage(s, [below(strength(s, s[2]) + 1) for _ in range(s[1])])
            page, damaged = drawn(damage, lambda x: mended(s, x[1])[1] == end and mended(s, x[1])[0] != x[0])
            after = made(s, damaged)[0]
            assert after != page and (after is None) == isinstance(end, str)
    # a blank page, and one with flips; of a shortened sheet it may be any
    for s, counts in [(A, (0, 0)), (A, (1, 1)), (B, (0, 1, 0)), (TWO, (2, 0, 1))]:
        page = flipped(s, erased(s, [0] * s[1]), *[(i, k) for i, count in enumerate(counts) for k in some_places(s, count)])
        assert made(s, page) == (None, 'blank')
    for s in (A3, A6):
        made(s, erased(s, [0] * s[1]))
    assert made(B, [0x00] * 6) == ([0x00] * 6, 0)
    for s in (A3, B4):
        made(s, some_page(s))

    table('page_called', 'The call: the number, then what it leaves in the page.', 'mend_page_refusal mended_page pow')
    x = some_member(A)
    given = [(A, x), (A, flipped(A, x, (0, 3), (1, 14))), (A6, drawn(lambda: some_damage(A6, (2, 1)), lambda y: hoped(A6, *y))[1]),
             (A6, drawn(lambda: some_page(A6), lambda y: mended(A6, y)[0] is None)), (A, erased(A, (0, 0))),
             (A, x[:3]), (A, x + [0x00]), (A, flipped(A, x, (0, 15))), (A, erased(A, (0, 1))), (CLASH, [0x00] * 8), (shortened(A, 7), x)]
    assert [mend_page(*g)[0] for g in given] == [0, 0, 0, 17, 17, 7, 7, 8, 8, 4, 14]
    for g in given:
        row(call('mend_paged', *g), listed(mend_page(*g)[:1] + hexed(mend_page(*g)[1:])))


HEADS = {
    OWN: '''-- Cases of our own, of definitions that no compiled call gives back, and of the calls on erased pages, on shortened sheets,
-- on many pages, on one bit of a page and on odd syndromes: each row has what a definition gives and what an independent program says.
-- Written by tools/cases.py, which works every number out by other means; see there. The calls' own cases are run: tools/trial.py.
use Rattle.std.specs.Prelude.{◌≡◌, refl, List, [], ◌∷◌, map, ◌*◌, drop, replicate}
use Rattle.polynomial.specs.Bits.{coefficient}
use Rattle.polynomial.specs.Division.{rem}
use Rattle.polynomial.specs.Sums.{add}
use Rattle.polynomial.specs.Xor.{xor}
use Rattle.field.specs.Elements.{power, sum_below}
use Rattle.field.specs.Field.{pow}
use Rattle.code.specs.Lists.{range, sum}
use Rattle.code.specs.Parameters.{sheet, sheet_refusal}
use Rattle.code.specs.Code.{all_syndromes, carried, combine, degree, distance, divisor, gen, N, nested, newton, odd_syndromes}
use Rattle.code.specs.Code.{remainder, short_remainder, syndromes}
use Rattle.code.specs.Layout.{altered, block_offset, words_of, page_of, page_bytes, data_bytes, coefficient_of, block_bit, differences}
use Rattle.code.specs.Refusals.{write_refusal, word_refusal, remainder_refusal, nested_refusal, syndromes_refusal, nested_syndromes_refusal, all_refusal}
use Rattle.code.specs.Refusals.{many_refusal, alter_refusal, open_refusal, feed_refusal, quote_refusal}
use Rattle.code.specs.Calls.{as_bytes, as_numbers, empty, fed, judge_number, judge_values, read_number, read_leaves, write_leaves, quote}
use Rattle.code.specs.Calls.{statuses, pages_by}
use Rattle.code.specs.Calls.{remainder_bytes, short_bytes, nested_word_bytes, syndrome_list, nested_syndrome_list}
use Rattle.code.specs.Registers.{cut, feedings}
use Rattle.code.specs.Writer.{writer}
use Rattle.cases.specs.Sheets.{Row, A, B, held, many, alter, all}
''',
    MENDED: '''-- Cases of our own of a sub-word to mend and of a page to mend: each equation has what a definition gives and what an independent program says.
-- Written by tools/cases.py, which works every number out by other means; see there. The calls' own cases are run: tools/trial.py.
use Rattle.std.specs.Prelude.{◌≡◌, refl, [], ◌∷◌, map, replicate}
use Rattle.std.proofs.Math.Option.{none, some}
use Rattle.field.specs.Field.{pow}
use Rattle.code.specs.Lists.{range}
use Rattle.code.specs.Parameters.{sheet}
use Rattle.code.specs.Layout.{flipped, mended_page, mending, place_list}
use Rattle.code.specs.Nest.{error_syndrome}
use Rattle.code.specs.Refusals.{mend_page_refusal, mend_refusal}
use Rattle.cases_mended.specs.Calls.{mend, mend_paged}
''',
}


def printed(file):
    """In OWN a table is a list of rows with one proof; in MENDED, whose rows are long to compute, equations, the quicker form."""
    out = [HEADS[file]]
    for name, about, unfolding, rows in TABLES[file]:
        if file == MENDED:
            out.append('-- %s\npub %s :\n    %s\nunfolding %s\n%s = (%s)\n' % (about, name, equations(rows), unfolding, name, ', '.join(['refl'] * len(rows))))
            continue
        out.append('-- %s\npub %s : List Row\n%s\n' % (about, name, laid(name, rows)))
        out.append('pub %s-hold : map (λ r. r.0) %s ≡ map (λ r. r.1) %s\nunfolding %s %s\n%s-hold = refl\n' % (name, name, name, name, unfolding, name))
    return '\n'.join(out)


# by the file that they write to, in the order in which they draw
PARTS = [
    (OWN, (layouts, equal_form, divisors, page_differences, parts, field_sums, bytes_for_c, writings, huge_numbers, erased_pages,
           short_sheets, short_sizes, short_pages, short_words, short_registers, many_refused, many_pages, alter_refused, alter_made)),
    (MENDED, (mend_refused, mend_made)),
    (OWN, (odd_lists, all_by_odd, all_refused, all_made)),
    (MENDED, (mend_page_errors, mend_page_refused, mend_page_made)),
]


def main(words):
    global into
    self_test()
    for into, some in PARTS:
        for part in some:
            part()
    differ = [file for file in HEADS if not (ROOT / file).is_file() or (ROOT / file).read_text(encoding='utf-8') != printed(file)]
    if words == ['--check']:
        for file in differ:
            print('%s is not what tools/cases.py makes' % file, file=sys.stderr)
        return 1 if differ else 0
    for file in differ:
        (ROOT / file).write_text(printed(file), encoding='utf-8')
    return 0


if __name__ == '__main__':
    sys.exit(main(sys.argv[1:]))
