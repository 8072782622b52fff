#!/usr/bin/env python3
"""What crates/gate_counter must write.

    python3 tools/counter.py > crates/gate_counter/stdout

The answers come from tools/cases.py, another encoder written from the requirement (docs/REQUIREMENT.md); the generators
of the large field from tools/trial.py. Each misreading of the layout is worked out too, and must give something else in
its case.
"""
import cases
import trial  # gives cases its generators of the large field
from cases import added, bits, data_bytes, degree, multiplied, number, page_bytes, powers, refusal, syndrome, word_bytes, words

A, B, LARGE = trial.A, trial.B, trial.LARGE
FIVE = (4, 5, 2, 1, 2, 2, 0, 0)
FOUR = (4, 4, 3, 1, 2, 2, 2, 0)
OLD = 0xAA


# ---- lines

def shown(data):
    return ''.join(' %02X' % b for b in data)


def refused(code):
    return ' refused %d' % code


def outcome(code):
    return refused(code) if code else ' done'


def verdict(answer):
    alone = {0: ' member', cases.BLANK: ' blank'}
    if answer in alone:
        return alone[answer]
    return (' refused %d', ' sub-word %d', ' nested word %d')[answer // 32] % (answer % 32)


def line(name, given, answer):
    print('%s:%s:%s' % (name, shown(given), answer))


def named(sheet):
    print('sheet' + ''.join(' %d' % x for x in sheet))


# ---- calls

def measured(sheet):
    named(sheet)

    def size(value, **part):
        code = refusal(sheet, **part)
        return refused(code) if code else ' %d' % value()

    print('degrees' + ''.join(size(lambda: degree(sheet, a), opening=a) for a in range(4)))
    print('data' + size(lambda: data_bytes(sheet)))
    print('page' + size(lambda: page_bytes(sheet)))
    print('distance' + size(lambda: cases.distance(sheet)))


def write(sheet, width, blocks, old):
    code, *page = cases.write(sheet, width, blocks, old)
    line('write at %d' % width, blocks, outcome(code) + shown(page))
    return page


def judge(sheet, page):
    line('judge', page, verdict(cases.judged(sheet, page)[0]))


def read_out(sheet, page, old):
    answer, *blocks = cases.read_out(sheet, page, old)
    line('read out', page, verdict(answer) + shown(blocks))
    return blocks


def nested_word(sheet, l, page):
    """Nested word l, as a polynomial."""
    assert refusal(sheet, page=page, nested_word=l) == 0
    line('nested word %d' % l, page, ' done' + shown(cases.nested_bytes(sheet, page, l)))
    return cases.nested(sheet, words(sheet, page), l)


def nested_syndromes(sheet, l, page):
    """All of them; the call's odd ones are shown, then all from these."""
    assert refusal(sheet, page=page, nested_word=l) == 0
    odd = cases.nested_syndrome_list(sheet, page, l)
    code, *out = cases.all_from(sheet, sheet[2] - l, odd, [0] * (2 * len(odd)))
    assert code == 0
    for name, numbers in (('syndromes of nested word', odd), ('all syndromes of nested word', out)):
        line('%s %d' % (name, l), page, ' done' + ''.join(' %d' % s for s in numbers))
    return out


def short_remainder(sheet, l, page):
    """A page with the short remainder as its first word, and no other."""
    assert refusal(sheet, page=page, nested_word=l) == 0
    out = cases.short_bytes(sheet, page, l)
    size = word_bytes(sheet)
    assert not any(out[size:])
    alone = out[:size] + [0] * (page_bytes(sheet) - size)
    line('short remainder of nested word %d' % l, page, ' done' + shown(alone))
    return alone


# ---- misreadings, of a page's words

def by_block_bits(sheet, ws):
    """The sum of the words with bit 0 of each block at one place."""
    checks = [cases.check_bits(sheet, i) for i in range(sheet[1])]
    out = []
    for w, k in zip(ws, checks):
        out = added(out, [0] * (max(checks) - k) + w)
    return number(out)


def by_highest(ws):
    """The sum of the words with the highest coefficient of each at one place."""
    tops = [len(cases.trimmed(w)) for w in ws]
    out = []
    for w, k in zip(ws, tops):
        out = added(out, [0] * (max(tops) - k) + w)
    return number(out)


def dropped(sheet, ws, l):
    """Nested word l without the bits that leave at the top."""
    out = []
    for i, w in enumerate(ws):
        out = added(out, ([0] * (l * i) + w)[:len(w)])
    return number(out)


def folded(sheet, ws, l):
    """Nested word l with the stored places alone, what passes them returning at the bottom."""
    out = []
    for i, w in enumerate(ws):
        out = added(out, cases.turned(w[:cases.stored(sheet)], l * i))
    return number(out)


def reduced(sheet, ws, l):
    """Nested word l with x^(l i) reduced by the field polynomial."""
    n, out = cases.length(sheet), []
    for i, w in enumerate(ws):
        out = added(out, multiplied(bits(powers(sheet[0])[l * i % n]), w))
    return number(added(out[:n], out[n:]))


# ---- the counter

def large():
    assert [degree(LARGE, a) for a in range(4)] == [336, 384, 462, 690]
    assert (data_bytes(LARGE), page_bytes(LARGE), cases.distance(LARGE)) == (3695, 4096, 117)
    for s, code in ((0, 0), (1900, 0), (3404, 0), (3405, 14)):
        sheet = cases.shortened(LARGE, s)
        assert refusal(sheet) == code
        measured(sheet)


def shortened():
    A3 = cases.A3
    named(A3)
    for page in ([0xFF, 0x0F, 0xFF, 0x0F], [0xFF, 0xFF, 0xFF, 0xFF]):
        assert cases.judged(A3, page) == [cases.BLANK]
        judge(A3, page)
    blocks = read_out(A3, [0xFF, 0xFF, 0xFF, 0xFF], [OLD] * 2)
    assert blocks == cases.all_ones(A3) == [0x0F, 0xFF]
    page = write(A3, 8, blocks, [OLD] * 4)
    assert cases.judged(A3, page) == [0]
    judge(A3, page)
    for page in ([0x00, 0x10, 0x00, 0x00], [0x00, 0x00, 0x00, 0x80]):
        assert cases.judged(A3, page) == [8]
        judge(A3, page)


def counter():
    named(A)
    blocks, old = [0x01, 0x01, 0x00], [OLD] * 4
    for width, code in ((0, 5), (65, 5), (64, 0)):
        assert refusal(A, width=width, blocks=blocks, page=4) == code
        write(A, width, blocks, old)
    for size in (3, 5):
        assert refusal(A, width=8, blocks=blocks, page=size) == 7
        write(A, 8, blocks, [OLD] * size)
    for size in (3, 5):
        judge(A, [OLD] * size)
    for size in (3, 5):
        read_out(A, [OLD] * size, blocks)


def erased():
    for page in ([0xFF, 0xFF, 0xFF, 0xFF], [0xFF, 0x7F, 0xFF, 0x7F]):
        assert cases.judged(A, page) == [cases.BLANK]
        judge(A, page)
    blocks = read_out(A, [0xFF, 0xFF, 0xFF, 0xFF], [OLD] * 3)
    assert blocks == [0x7F, 0xFF, 0x07] and refusal(A, width=8, blocks=blocks, page=4) == 13
    write(A, 8, blocks, [OLD] * 4)


def added_by_powers():
    shifted, highest = [], []
    for blocks in ([0x01, 0x01, 0x00], [0x40, 0x00, 0x04]):
        page = write(A, 8, blocks, [OLD] * 4)
        right = number(nested_word(A, 0, page))
        shifted.append(by_block_bits(A, words(A, page)) != right)
        highest.append(by_highest(words(A, page)) != right)
    assert all(shifted) and any(highest)


def past_short():
    page = [0x10, 0x00, 0x00, 0x00]
    right = nested_syndromes(A, 0, page)
    wrong = nested_syndromes(A, 0, short_remainder(A, 0, page))
    assert right == cases.syndromes(4, words(A, page)[0], 4)
    assert right[0] != wrong[0] and right[2] == wrong[2] and right[3] != wrong[3]
    assert syndrome(4, cases.gen(A, 0), 4) == 0


def turned():
    named(B)
    for page in ([0x00, 0x00, 0x00, 0x40, 0x00, 0x00], [0x00, 0x00, 0x00, 0x00, 0x00, 0x60]):
        assert number(nested_word(B, 1, page)) != dropped(B, words(B, page), 1)


def not_reduced():
    def only(sheet, l, i):
        page = cases.flipped(sheet, [0] * page_bytes(sheet), (i, 0))
        assert number(nested_word(sheet, l, page)) != reduced(sheet, words(sheet, page), l)

    named(FIVE)
    write(FIVE, 8, [0x00, 0x00, 0x00, 0x00, 0x00, 0x00, 0x01, 0x00], [OLD] * 10)
    only(FIVE, 1, 4)
    named(FOUR)
    only(FOUR, 2, 2)
    only(FOUR, 2, 3)


def kept_places():
    deep, page = cases.DEEP4, cases.flipped(cases.DEEP4, [0] * 10, (4, 10))
    named(deep)
    for l in (1, 2):
        assert number(nested_word(deep, l, page)) != folded(deep, words(deep, page), l)
    assert page_bytes(cases.PAIR24) == 6 != 2 * cases.nested_size(cases.PAIR24)
    named(cases.PAIR24)
    write(cases.PAIR24, 8, [0x01, 0x01, 0x00], [OLD] * 6)


def cosets():
    assert degree(B, 2) == 10 != B[0] * B[5]
    measured(B)
    measured(cases.CLASH)


if __name__ == '__main__':
    large()
    shortened()
    counter()
    erased()
    added_by_powers()
    past_short()
    turned()
    not_reduced()
    kept_places()
    cosets()
