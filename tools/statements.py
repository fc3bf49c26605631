#!/usr/bin/env python3
"""Lists the statements of theorems, lemmas and definitions that differ between two checkouts, by text.

usage: python3 tools/statements.py OLD NEW      folders with crates/

Compared are the signatures in specs/ and in the lemma files of proofs/; those of a single function's proof (Answers, Invariants, Proof) are
not, since its contract says what is proved. What a module's head says of its parameters is not read: a reader looks at that. The status is 1
where a statement is gone or differs.
"""

import glob
import os
import re
import sys

OF_A_FUNCTION = re.compile(r"(Proof|Answers|Invariants)\.antt$")
SIGNATURE = re.compile(r"^(\s*)(?:(?:abbrev|unfoldable|pub)\s+)*([A-Za-z][^\s:{(]*) :(\s.*|$)")
NO_NAME = ("let ", "use ", "--")


def statements(root):
    """By crate, file and name: what follows the colon, on one line."""
    found = {}
    for part in ("proofs", "specs"):
        for path in sorted(glob.glob(os.path.join(root, "crates", "*", part, "**", "*.antt"), recursive=True)):
            if OF_A_FUNCTION.search(path):
                continue
            with open(path, encoding="utf-8") as f:
                lines = f.read().split("\n")
            for i, line in enumerate(lines):
                m = SIGNATURE.match(line)
                if m is None or line.lstrip().startswith(NO_NAME):
                    continue
                text = [m.group(3).strip()]
                for more in lines[i + 1 :]:
                    if not more.strip() or len(more) - len(more.lstrip()) <= len(m.group(1)):
                        break
                    text.append(more.strip())
                found[os.path.relpath(path, os.path.join(root, "crates")), m.group(2)] = " ".join(" ".join(text).split())
    return found


def main():
    if len(sys.argv) != 3:
        raise SystemExit(__doc__.strip())
    old, new = statements(sys.argv[1]), statements(sys.argv[2])
    same = 0
    for key in sorted(old):
        if old[key] == new.get(key):
            same += 1
            continue
        moved = [f for f, name in new if name == key[1] and new[f, name] == old[key]]
        print(f"{key[0]}: {key[1]}: " + (f"stands in {moved[0]}" if moved else "differs" if key in new else "is gone"))
        if not moved:
            print(f"  - {old[key]}")
            if key in new:
                print(f"  + {new[key]}")
    for key in sorted(new):
        if key not in old:
            print(f"{key[0]}: {key[1]}: new")
    print(f"{same} of {len(old)} statements are the same; there are {len(new)} now")
    return 0 if same == len(old) else 1


sys.exit(main())
