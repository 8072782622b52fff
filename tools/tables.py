#!/usr/bin/env python3
"""Makes the constants of crates/tables: powers of alpha, their logs, and the generators.

    python3 tools/tables.py            writes src/powers.rt, logs.rt and generators.rt of crates/tables, and proofs/Lists.antt
    python3 tools/tables.py --check    compares them with what is stored; ends with 1 and the files that differ

The powers come by shifting and reducing by the field polynomial, the logs undo them. The generator of strength t is the
product of the minimal polynomials of alpha^j over the odd j below 2t that are the least of their cosets; the minimal
polynomial of alpha^j is the product of x + alpha^s over the s in the coset of j. The constants have a generator's words of
64 bits, lowest first, as many as the largest of the field needs, and 16 generators each: a read of a constant copies it
whole. Lists.antt has the generators as numbers, which the proofs test and compare the constants with.
crates/tables proves what every entry is, so nothing rests on this program. All files are in rt fmt's layout.
"""
import sys
import textwrap
from pathlib import Path

ROOT = Path(__file__).resolve().parent.parent
TABLES = "crates/tables"
FIELDS = {4: 19, 8: 285, 12: 4179}
WORDS = {4: 1, 8: 4, 12: 12}               # of a generator
BLOCK = 16                                 # generators in a constant
COLUMNS = 100                              # what is longer takes a line an entry
SHORT = 11                                # numbers of so many characters, their comma among them, stand several to a line


def times_alpha(q, a):
    a <<= 1
    return a ^ FIELDS[q] if a >> q else a


def product(q, a, b):
    out = 0
    while b:
        if b & 1:
            out ^= a
        a, b = times_alpha(q, a), b >> 1
    return out


def powers(q):
    """alpha^0 to alpha^(n - 1)."""
    out = [1]
    while len(out) < 2**q - 1:
        out.append(times_alpha(q, out[-1]))
    assert times_alpha(q, out[-1]) == 1 and len(set(out)) == len(out)
    return out


def logs(q):
    """Entry a is the k with alpha^k = a; entry 0 is 0."""
    out = [0] * 2**q
    for k, a in enumerate(powers(q)):
        out[a] = k
    return out


def coset(q, j):
    return {j * 2**s % (2**q - 1) for s in range(q)}


def minimal(q, j):
    """The minimal polynomial of alpha^j: bit k is the coefficient of x^k."""
    out = [1]                              # elements, the coefficient of x^0 first
    for s in coset(q, j):
        root = powers(q)[s]
        out = [low ^ product(q, root, high) for low, high in zip([0] + out, out + [0])]
    assert set(out) <= {0, 1}
    return sum(c << k for k, c in enumerate(out))


def times(a, b):
    """The product of two polynomials over GF(2)."""
    return times(a << 1, b >> 1) ^ (a if b & 1 else 0) if b else 0


def generators(q):
    """The generators, one for each strength that the field allows: up to 64, and 2t <= n - 1."""
    out = [1]
    for j in range(1, 2 * min(64, (2**q - 2) // 2), 2):
        out.append(times(out[-1], minimal(q, j)) if j == min(coset(q, j)) else out[-1])
    assert out[-1] >> 64 * WORDS[q] == 0
    return out[1:]


def words(q, rows):
    return [g >> 64 * i & 2**64 - 1 for g in rows for i in range(WORDS[q])]


def constant(name, kind, entries):
    head = f"pub const {name}: [{kind}; {len(entries)}] = ["
    line = head + ", ".join(map(str, entries)) + "];"
    if len(line) <= COLUMNS:
        return line
    texts = [f"{x}," for x in entries]
    if max(map(len, texts)) <= SHORT:
        rows = textwrap.wrap(" ".join(texts), COLUMNS - 1, initial_indent="    ", subsequent_indent="    ", break_on_hyphens=False)
    else:
        rows = [f"    {x}" for x in texts]
    return "\n".join([head, *rows, "];"])


def rattle(about, constants):
    return f"// {about}\n" + "\n\n".join(constants) + "\n"


def blocks(q):
    rows = generators(q)
    if len(rows) < BLOCK:
        return [constant(f"GENERATORS{q}", "u64", words(q, rows))]
    return [constant(f"GENERATORS{q}_{k // BLOCK}", "u64", words(q, rows[k : k + BLOCK])) for k in range(0, len(rows), BLOCK)]


def listed(q):
    name, entries = f"generators{q}", [*map(str, generators(q)), "[]"]
    line = f"{name} = " + " ∷ ".join(entries)
    rows = line if len(line) <= COLUMNS else f"{name} =\n    " + "\n    ∷ ".join(entries)
    return f"abbrev pub {name} : List ℕ\n{rows}\n"


LISTS = """-- The generators in the three fields as numbers, from strength 1 on. Made by tools/tables.py; tested in Generated.
use mathlib.Core.List.{List, [], ◌∷◌}
use Prim.Native.Nat.{ℕ}

"""

FILES = {
    "src/powers.rt": rattle(
        "The powers of alpha in the three fields: entry k is alpha^k.", [constant(f"POWERS{q}", "u16", powers(q)) for q in FIELDS]
    ),
    "src/logs.rt": rattle(
        "The logs of the elements in the three fields: entry a is the k with alpha^k = a; entry 0 is not used, and is 0.",
        [constant(f"LOGS{q}", "u16", logs(q)) for q in FIELDS],
    ),
    "src/generators.rt": rattle(
        "The generators in the three fields, 1, 4 and 12 words each, lowest first; constant _b has those of strength 16 b + 1 to 16 b + 16.",
        [c for q in FIELDS for c in blocks(q)],
    ),
    "proofs/Lists.antt": LISTS + "\n".join(listed(q) for q in FIELDS),
}


def main():
    if sys.argv[1:] == ["--check"]:
        differ = [file for file in FILES if not (ROOT / TABLES / file).is_file() or (ROOT / TABLES / file).read_text() != FILES[file]]
        for file in differ:
            print(f"{TABLES}/{file} is not what tools/tables.py makes")
        sys.exit(1 if differ else 0)
    if sys.argv[1:]:
        sys.exit(__doc__)
    for file in FILES:
        (ROOT / TABLES / file).write_text(FILES[file])


main()
