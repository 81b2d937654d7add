#!/usr/bin/env python3
"""Brings the names of definitions and lemmas to today's spelling: words in snake case, types in camel case.

usage: python3 tools/snake_case.py, at the top of the repository, after the kit's own script.

It renames what specs/ and proofs/*.antt define, and what cites it in clauses and proofs. Names that Rattle makes of the code
(goals, steps, invariants) and names of the library are left as they are.
"""

import os
import re

# Names of two joined words, of which the first is a definition's, keep their dash.
JOINED = {
    "highest-append": "highest-append",
    "sums-append": "sums_of-append",
    "sumBy-times": "sum_by-times",
    "ones-in": "ones_in-ones",
}

# A definition in camel case.
CAMEL = {
    "meanDifference": "mean_difference",
}

# Records that are facts.
FACTS = {
    "Hands-out": "HandsOut",
    "Hands-back": "HandsBack",
    "Handed-back": "HandedBack",
    "Is-head": "IsHead",
}

WORD = r"[\w'≤◌+*-]"


def files():
    for folder, folders, names in os.walk("crates"):
        folders[:] = sorted(f for f in folders if f != "out")
        for name in sorted(names):
            if name.endswith((".antt", ".rt")):
                yield os.path.join(folder, name)


def read(path):
    with open(path, encoding="utf-8") as f:
        return f.read()


def own_names():
    """The dashed names that a file of definitions or lemmas defines."""
    found = set()
    for path in files():
        if not path.endswith(".antt") or ("/proofs/" in path and os.path.basename(path) in ("Answers.antt", "Invariants.antt")):
            continue
        text = re.sub(r"--.*", "", read(path))
        found |= set(re.findall(r"(?m)^\s*(?:abbrev |unfoldable |pub |lemma )*([\w'-]+)\s*:(?!=)", text))
        found |= set(re.findall(r"(?:record|data)\s+([\w'-]+)", text))
    return {n for n in found if "-" in n.strip("-")}


def local_names():
    """The dashed names of parameters, fields and `let`s, but for those that Rattle makes."""
    found = set()
    for path in files():
        if not path.endswith(".antt"):
            continue
        text = re.sub(r"--.*", "", read(path))
        found |= set(re.findall(r"\blet\s+([a-z][\w']*(?:-[\w']+)+)", text))
        for group in re.findall(r"\(([a-z][\w' -]*?)\s+:\s", text):
            found |= {n for n in group.split() if "-" in n.strip("-") and n != "-"}
        found |= set(re.findall(r"(?m)^\s+([a-z][\w']*(?:-[\w']+)+)\s+:\s", text))
    return found


def main():
    names = (own_names() | local_names()) - set(JOINED.values()) | set(CAMEL)
    new = {n: CAMEL.get(n) or FACTS.get(n) or JOINED.get(n) or n.replace("-", "_") for n in names}
    targets = {}
    for n, to in sorted(new.items()):
        if to in targets.values():
            raise SystemExit(f"two names become {to}")
        targets[n] = to
    every = "|".join(re.escape(n) for n in sorted(new, key=len, reverse=True))
    pattern = re.compile(rf"(?<!{WORD})({every})(?!{WORD})")
    for path in files():
        text = read(path)
        turned = pattern.sub(lambda m: new[m[1]], text)
        # Products in comments, that the kit's script took for names.
        turned = re.sub(r"\b([A-Z]²?)-as-([A-Z])\b", r"\1·\2", turned).replace("// T².W,", "// T²·W,")
        if turned != text:
            with open(path, "w", encoding="utf-8") as f:
                f.write(turned)
    for n in sorted(new):
        print(n, new[n])


main()
