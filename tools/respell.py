#!/usr/bin/env python3
"""Brings the repository's own definitions and lemmas to the spelling of the kit's library: words in snake case, a dash only between names.

usage: python3 tools/respell.py      at the top, once, right after the kit's port.py

A name of an .antt file that has lower camel case between its dashes, as `octetsAt` or `length-beBytes`, becomes `octets_at` and
`length-be_bytes`; a field of a record that was spelled with a dash gets a `_` in its place. The same names are turned where the clauses
and comments of src/ cite them. Functions, fields, constants and strings of src/ keep their names: none of them is in lower camel case.
It stops, before it writes, where two names would fall together in one file.
"""

import glob
import re
import sys

# fields of records
FIELDS = """sound-record first-table second-table image-back current-round mutation-round key-round entry-round cookie-value-round
config-round inspection-round""".split()

# named by the prover, after a function of src/
GENERATED = {"from_Fields"}

# a field of src/ has the name that the rule gives: the definition takes that of the method that it mirrors
METHODS = {"lifecycleOpen": "is_lifecycle_open", "retirementClosed": "is_retirement_closed"}

# looked at: in the files where both names stand, the other one is a module or a function of src/ that the definition mirrors
MIRRORED = set("""lifecycleOpen retirementClosed encodeNumber usableIpv4 usableIpv6 configView inspectionView sameAddress cookieValue isUnder""".split())

WORD = re.compile(r"(?<![\w'◌.\\-])[A-Za-zℕ◌][\w'◌]*(?:-[\w'◌]+)*|(?<=\.)[A-Za-zℕ◌][\w'◌]*(?:-[\w'◌]+)*")
CAMEL = re.compile(r"(?:^|-)[a-z][a-z0-9_]*[A-Z]")
STRING = re.compile(r'b?"(?:[^"\\]|\\.)*"')


def snake(name):
    if name in FIELDS:
        return name.replace("-", "_")
    if name in METHODS:
        return METHODS[name]
    parts = name.split("-")
    return "-".join(re.sub(r"_?([A-Z])", lambda m: "_" + m.group(1).lower(), p) if re.match("[a-z]", p) else p for p in parts)


def read(path):
    with open(path, encoding="utf-8") as f:
        return f.read()


def main():
    proofs = sorted(p for p in glob.glob("crates/**/*.antt", recursive=True) if "/out/" not in p)
    sources = sorted(p for p in glob.glob("crates/**/*.rt", recursive=True) if "/out/" not in p)
    texts = {p: read(p) for p in proofs + sources}
    turned = {}
    for p in proofs:
        code = "\n".join(line.split("--")[0] if line.lstrip().startswith("--") else line for line in texts[p].split("\n"))
        for w in WORD.findall(STRING.sub('""', code)):
            if w in FIELDS or (CAMEL.search(w) and w not in GENERATED):
                turned[w] = snake(w)

    # names that would fall together
    clash = False
    for p in proofs:
        words = set(WORD.findall(texts[p]))
        for w in words:
            if w in turned and turned[w] in words and w not in MIRRORED:
                print(f"{p}: {w} falls on {turned[w]}")
                clash = True
    back = {}
    for w, s in turned.items():
        if back.setdefault(s, w) != w:
            print(f"{w} and {back[s]} both become {s}")
            clash = True
    if clash:
        print("nothing was written", file=sys.stderr)
        raise SystemExit(1)

    def turn(text):
        def word(m):
            return turned.get(m.group(), m.group())
        at, out = 0, []
        for m in STRING.finditer(text):
            out += [WORD.sub(word, text[at:m.start()]), m.group()]
            at = m.end()
        return "".join(out + [WORD.sub(word, text[at:])])

    written = 0
    for p, t in texts.items():
        new = turn(t)
        if new != t:
            written += 1
            with open(p, "w", encoding="utf-8") as f:
                f.write(new)
    for w in sorted(turned):
        print(f"{w} -> {turned[w]}")
    print(f"{len(turned)} names turned in {written} files")


main()
