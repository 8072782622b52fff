#!/usr/bin/env python3
"""Draws the layout of a page, docs/layout.svg: sub-words, check bits, data, spare bits, what shortening leaves out, nesting,
two pages bit by bit.

    python3 tools/layout.py docs/layout.svg

The numbers and the pages of the worked examples come from tools/cases.py. In texts ^{..} raises and _{..} lowers.
"""
import re
import sys

import cases

LEFT, WIDTH, HIGH, STEP, CELL = 150, 760, 30, 62, 38
CHECK, DATA, SPARE, EDGE, FAINT = "#f4c7a1", "#bcd8f0", "#e8e8e8", "#333", "#555"
out = []


# ---- parts

def rich(words, size):
    """The words as tspans: each raised or lowered part smaller and off the line, the next one back on it."""
    parts, back = [], 0
    for piece in re.split(r"([\^_]\{[^}]*\})", words):
        if not piece:
            continue
        mark = re.fullmatch(r"([\^_])\{([^}]*)\}", piece)
        off = 0 if not mark else -0.38 * size if mark[1] == "^" else 0.22 * size
        small = f' font-size="{0.72 * size:.1f}"' if mark else ""
        move = f' dy="{off - back:.1f}"' if off != back else ""
        inner = (mark[2] if mark else piece).replace("&", "&amp;").replace("<", "&lt;")
        parts.append(f"<tspan{move}{small}>{inner}</tspan>")
        back = off
    return "".join(parts)


def text(x, y, words, size=13, anchor="middle", style=""):
    out.append(f'<text x="{x:.1f}" y="{y:.1f}" font-size="{size}" text-anchor="{anchor}" xml:space="preserve" {style}>{rich(words, size)}</text>')


def title(y, words):
    text(20, y, words, 15, "start", 'font-weight="bold"')


def rect(x, y, w, high, fill, style=""):
    out.append(f'<rect x="{x:.1f}" y="{y:.1f}" width="{w:.1f}" height="{high}" fill="{fill}" stroke="{EDGE}"{style}/>')


def box(x, y, w, fill, label, low, high, style=""):
    """A field with its name, and the powers of x at its two ends."""
    rect(x, y, w, HIGH, fill, style)
    text(x + w / 2, y + 20, label)
    text(x + 3, y + HIGH + 14, f"x^{{{low}}}", 11, "start")
    text(x + w - 3, y + HIGH + 14, f"x^{{{high}}}", 11, "end")


# ---- the panels

def page(y, sheet, head, share, left=()):
    """Sub-words from byte 0 on, least power at the left; `share` gives the drawn part of the check bits, `left` the sub-words left out."""
    q, m, v, *t, s = sheet
    n, stored, size, count = cases.length(sheet), cases.stored(sheet), cases.word_bytes(sheet), cases.spare_bits(sheet)
    gone = 150 if s else 0
    spare = 50 if s else 34
    title(y, head)
    y += 22
    for i in range(m):
        if i in left:
            if i == left[0]:
                text(LEFT - 10, y + 8, "⋮", 18, "end")
                text(LEFT, y + 8, f"sub-words {left[0]} to {left[-1]} likewise" + (f", as sub-word {v}" if left[0] > v else ""), 12, "start", f'fill="{FAINT}"')
                y += 30
            continue
        w = cases.check_bits(sheet, i)
        text(LEFT - 10, y + 14, f"sub-word {i}", 13, "end")
        text(LEFT - 10, y + 28, f"bytes {i * size:,} to {(i + 1) * size - 1:,}", 10, "end", f'fill="{FAINT}"')
        room = WIDTH - spare - gone
        check = share(w, stored) * room
        box(LEFT, y, check, CHECK, f"{w} check bits", 0, w - 1)
        box(LEFT + check, y, room - check, DATA, f"block {i}: {stored - w:,} data bits, bit r at x^{{{w} + r}}", w, stored - 1)
        rect(LEFT + room, y, spare, HIGH, SPARE)
        text(LEFT + room + spare / 2, y + 20, "0" if count == 1 else "0 … 0")
        text(LEFT + room + spare / 2, y + HIGH + 14, "spare" if count == 1 else f"{count} spare", 10)
        if s:
            box(LEFT + room + spare, y, gone, "none", f"{s:,} × 0, not stored", stored, n - 1, ' stroke-dasharray="4 3"')
        text(LEFT + WIDTH + 12, y + 20, f"= c_{{{i}}}, a multiple of g_{{0}}", 13, "start")
        y += STEP
    return y


def nesting(y, v):
    title(y, "Nested words, with x^{n} = 1: what passes the top returns at the bottom")
    y += 26
    for l in range(v):
        terms = " + ".join((f"x^{{{l * i}}} " if l * i > 1 else "x " if l * i else "") + f"c_{{{i}}}" for i in range(3))
        text(LEFT, y, f"nested word {l}:   {terms} + …   is a multiple of g_{{{f'v−{l}' if l else 'v'}}}", 14, "start")
        y += 26
    return y


def cells(y, bits, fills, name, note):
    """A word, a cell for each coefficient."""
    text(LEFT - 10, y + 20, name, 13, "end")
    for k, (b, fill) in enumerate(zip(bits, fills)):
        rect(LEFT + k * CELL, y, CELL, HIGH, fill)
        text(LEFT + (k + 0.5) * CELL, y + 20, str(b), 14, style='font-weight="bold"' if b else "")
    for place, words in enumerate(note):
        text(LEFT + 16 * CELL + 12, y + 12 + 17 * place, words, 13, "start")


def brackets(y, first, data):
    """Under a sub-word, its two bytes."""
    for k, byte in enumerate(data):
        low, high = LEFT + 8 * k * CELL + 4, LEFT + 8 * (k + 1) * CELL - 4
        out.append(f'<path d="M {low} {y + 4} v 6 H {high} v -6" fill="none" stroke="{FAINT}"/>')
        text((low + high) / 2, y + 25, f"byte {first + k}: bits 0 to 7 from the left, {byte:02X}", 11, style=f'fill="{FAINT}"')


def powers(y, count):
    """Over the cells, the powers of x."""
    for k in range(count):
        text(LEFT + (k + 0.5) * CELL, y, f"x^{{{k}}}", 12)


def terms(bits):
    """A polynomial's terms, greatest first."""
    return " + ".join("1" if k == 0 else "x" if k == 1 else f"x^{{{k}}}" for k, b in reversed(list(enumerate(bits))) if b)


def example(y, sheet, name, blocks, said):
    """A page's coefficients and its nested words, with what is said of each of these."""
    made, size, stored = cases.page_of_blocks(sheet, blocks), cases.word_bytes(sheet), cases.stored(sheet)
    assert size == 2 and cases.judged(sheet, made) == [0]
    shown = lambda data: " ".join(f"{b:02X}" for b in data)
    parts, at = [], 0
    for k in cases.block_bytes(sheet):
        parts.append(shown(blocks[at:at + k]))
        at += k
    title(y, f"{name}, blocks {' / '.join(parts)}, page {shown(made)}")
    y += 22
    powers(y, stored)
    text(LEFT + (stored + 16) * CELL / 2, y, "spare", 11)
    y += 8
    words = cases.words(sheet, made)
    for i, word in enumerate(words):
        w = cases.check_bits(sheet, i)
        note = [f"c_{{{i}}} = {terms(word)}", f"{w} check bits; block {i} = {parts[i]} from x^{{{w}}} on"]
        cells(y, word[:stored] + [0] * (16 - stored), [CHECK] * w + [DATA] * (stored - w) + [SPARE] * (16 - stored), f"sub-word {i}", note)
        brackets(y + HIGH, 2 * i, made[2 * i:2 * i + 2])
        y += STEP + 6
    if stored < 15:
        y += 20
        powers(y - 8, 15)
    for l, note in enumerate(said):
        nested = cases.nested(sheet, words, l)
        sums = " + ".join(("" if l * i == 0 else "x " if l * i == 1 else f"x^{{{l * i}}} ") + f"c_{{{i}}}" for i in range(sheet[1]))
        cells(y, nested, ["white"] * 15, f"nested word {l}", [f"{sums} = {terms(nested) or 0}", note])
        y += HIGH + 20
    return y + 6


def main():
    if len(sys.argv) != 2:
        sys.exit(__doc__)
    to_scale, too_wide = lambda w, n: w / n, lambda w, n: 0.2 + w / n
    y = page(40, cases.B, "q 4, m 3, v 2, t 1, 2, 3: n = 15, two bytes a sub-word (to scale)", to_scale)
    y = page(y + 16, cases.LARGE, "q 12, m 8, v 3, t 28, 32, 39, 58: n = 4,095, 512 bytes a sub-word (not to scale: check bits are drawn too wide)", too_wide, range(4, 7))
    short = cases.shortened(cases.LARGE, 1900)
    y = page(y + 16, short, f"The same with s 1,900: {cases.stored(short):,} coefficients are stored, {cases.word_bytes(short)} bytes a sub-word", too_wide, range(1, 7))
    y = nesting(y + 16, 3)
    text(20, y + 4, "The coefficient of x^{k} of a sub-word is bit k mod 8, least first, of its byte k div 8. Sub-word i has the check bits of level v − i for i < v, of level 0 from i = v on.", 12, "start")
    text(20, y + 22, "The top s coefficients of a sub-word are 0 and not stored; the bits above the last stored one, 0 to 7, are spare and 0. Nested words keep n places at any s.", 12, "start")
    y = example(y + 62, cases.A, "One page bit by bit: q 4, m 2, v 1, t 1, 2", [0x01, 0x01, 0x00], ["= g_{1}, and g_{0} divides c_{0} and c_{1}: a member"])
    y = example(y + 24, cases.B4, "And one of a shortened sheet: q 4, m 3, v 2, t 1, 2, 3, s 4", [0x00, 0x04, 0x40],
                ["a multiple of g_{2}", "a multiple of g_{1}, with x^{11} and x^{12}"])
    head = f'<svg xmlns="http://www.w3.org/2000/svg" viewBox="0 0 1100 {y}" width="1100" height="{y}" font-family="DejaVu Sans, Verdana, sans-serif">'
    with open(sys.argv[1], "w", encoding="utf-8") as f:
        f.write("\n".join([head, f'<rect width="1100" height="{y}" fill="white"/>', *out, "</svg>"]) + "\n")


main()
