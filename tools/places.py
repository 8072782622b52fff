#!/usr/bin/env python3
"""Counts, in crates/*/src, the places of docs/DESIGN-PASS.md, a point a section.

    tools/places.py [-v] [FOLDER]    FOLDER is the top of a checkout (.), -v lists each place

What a line counts is said by its regular expression below: text alone is read, nothing of what it means."""
import re
import sys
from pathlib import Path

PLACES = [
    ("1 enums with a case for a refusal's number", r"^[^/\n]*\bRefused\(u8\)"),
    ("1 functions that answer with a refusal's number", r"^ *(?:pub )?fn \w*(?:refus|lengths|number)\w*\([^{]*?\) -> u8\b"),
    ("1 refusals handed on by a test for 0", r"^ *if \w+ != 0 \{\n *return (?:\w+::Refused\(\w+\)|\w+|[\w:()]+\.refused\(\w+\));"),
    ("2 switches on a field's q", r"^ *if \w+\.q == 4 \{|^ *(?:return )?match \w+\.q \{"),
    ("3 loops by while", r"^ *while "),
    ("3 of them, with an index counted by hand", r"^( *)while [^\n]*\n(?:\1 [^\n]*\n|\n)*?\1 +\w+ [+-]= \w+;\n(?:\1 [^\n]*\n|\n)*?\1\}"),
    ("4 bytes of a number by division or product", r"^[^/\n]*(?:/ 256\b|\b256 \*|\* 256\b|/ 65536 % 256|\* 65536\b)"),
    ("4 tests by a chain of returns of false", r"^ *if [^\n]*\{\n *return false;\n"),
    ("5 contracts that ask Accepted", r"requires(?: \w+)? \{[^}]*\bAccepted\b"),
    ("5 contracts that ask Degrees", r"requires(?: \w+)? \{[^}]*\bDegrees\b"),
    ("5 contracts that ask the rows of the generators", r"requires(?: \w+)? \{[^}]*rows ≡ generators"),
    ("5 contracts that ask Sized, Tables, Roots or Lent", r"requires(?: \w+)? \{[^}]*\b(?:Sized|Tables|Roots|Lent)\b"),
    ("5 contracts that ask a length of 12, 13, 3072 or 12288", r"requires(?: \w+)? \{[^}]*≡ (?:12|13|3072|12288)\b"),
    ("6 a slice and, behind it, how much of it counts", r"\w+: &(?:mut )?\[u\d+\],\s+(?:b|c|k|n|count): usize"),
    ("6 structs of a count and its array", r"^ *pub count: usize,\n *pub \w+: \["),
    ("7 flags that choose what runs", r"^[^/\n]*\b\w+: bool\b"),
]


def twins(texts):
    """Functions whose bodies differ in nothing but names, types and numbers; bodies of fewer than three lines are left out."""
    alike = {}
    for f, t in texts:
        for m in re.finditer(r"^( *)(?:pub )?(?:extern \"C\" )?fn (\w+)[^{;]*?(?:\{[^}\n]*\}[^{;]*?)*\n\1\{\n(.*?)\n\1\}", t, re.M | re.S):
            body = re.sub(r"//[^\n]*", "", m.group(3))
            if body.count("\n") >= 2:
                shape = re.sub(r"\s+", " ", re.sub(r"\b[A-Za-z_]\w*\b|\b\d\w*\b", lambda w: w.group(0) if w.group(0) in WORDS else "_", body))
                alike.setdefault(shape, []).append((f, t.count("\n", 0, m.start()) + 1, m.group(2)))
    return [g for g in alike.values() if len(g) > 1]


WORDS = set("let mut if else for while in return match as true false self".split())


def main():
    verbose = "-v" in sys.argv[1:]
    top = Path(next((a for a in sys.argv[1:] if a != "-v"), "."))
    files = sorted((top / "crates").glob("*/src/*.rt"))
    texts = [(f.relative_to(top / "crates"), f.read_text()) for f in files if f.read_text().count("\n") < 1200]
    for name, pattern in PLACES:
        found = [(f, t.count("\n", 0, m.start()) + 1, m.group(0).strip().split("\n")[0])
                 for f, t in texts for m in re.finditer(pattern, t, re.M)]
        print(f"{len(found):4}  {name}")
        if verbose:
            for f, line, text in found:
                print(f"        {f}:{line}: {text[:90]}")
    groups = twins(texts)
    print(f"{sum(map(len, groups)):4}  2 functions whose bodies differ in names, types and numbers alone, in {len(groups)} groups")
    if verbose:
        for g in groups:
            print("        " + ", ".join(f"{f}:{line} {name}" for f, line, name in g))
    answers = sum(len(re.findall(r"^pub [^\n]* : goal\.", f.read_text(), re.M)) for f in (top / "crates").glob("*/proofs/**/Answers.antt"))
    print(f"{answers:4}  8 answers")


main()
