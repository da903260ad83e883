#!/usr/bin/env python3
"""Brings this repository's own definitions and lemmas to today's spelling: words in snake case, types and facts in camel case.

usage: python3 tools/respell.py        at the top of the repository, once, right after port.py and before any edit by hand

Only names that a file of specs/ or proofs/ declares are touched (definitions, lemmas, fields, constructors), wherever they
stand as a whole word in .antt files, in the contracts of .rt files and in must-fail edits. Names that Rattle makes (of goals,
of steps of the code) keep their dashes, and so does what a file imports from the library under the same name.
"""

import os
import re
import sys

PART = r"[\w'≤≢¬ℕ]+"
DASHED = re.compile(r"(?<![\w'≤≢¬ℕ-])" + PART + r"(?:-" + PART + r")+(?![\w'≤≢¬ℕ-])")
DECLARED = re.compile(r"^\s*(?:(?:pub|abbrev|unfoldable|record|data)\s+)*((?:" + PART + r"(?:-" + PART + r")*)(?:,\s*" + PART + r"(?:-" + PART + r")*)*)\s+(?:\{[^}]*\}\s*|\([^)]*\)\s*)*:\s(.*)")
MADE = re.compile(r"^(?:invariant-loop|decreases-loop|loop|returns|overflow|bounds|slice_bounds|nonzero_div|nonzero_rem|offset_bounds)-|-(?:requires|init|preserved|smaller)$")
LIBRARY = re.compile(r"use (?!Rattle\.(?:truth_tables|kinds|maps|rows|text|grammar|papers|player|formats|uxml|worked_examples)\b)([\w.·'-]+)\.\{([^}]*)\}")
# Names that would fall together with a function's or with the library's.
APART = {
    "all-items": "all_items_lem",
    "bit-and": "bit_of_and",
    "bit-or": "bit_of_or",
    "documents-exact": "documents_exact_lem",
    "documents-read-back": "documents_read_back_lem",
    "queries-exact": "queries_exact_lem",
    "queries-read-back": "queries_read_back_lem",
    "zero-item-gives-nothing": "zero_item_gives_nothing_lem",
}
# A step of the code, behind `c.`, has the name of the code's function.
STEP = re.compile(r"(?<=\bc\.)all-items(?![\w'-])")


def files(*ends):
    for folder, dirs, names in os.walk("crates"):
        dirs[:] = sorted(d for d in dirs if d != "out")
        for name in sorted(names):
            if name.endswith(ends):
                yield os.path.join(folder, name)


def today(name):
    if name in APART:
        return APART[name]
    parts = name.split("-")
    if name[0].isupper():
        return "".join(p[0].upper() + p[1:] for p in parts)
    return "_".join(parts)


def declared():
    own = set()
    for path in files(".antt"):
        with open(path) as f:
            for line in f:
                m = DECLARED.match(line)
                if m and not m.group(2).startswith("goal."):
                    own |= {n for n in re.split(r",\s*", m.group(1)) if "-" in n and not MADE.search(n)}
    return own


def imported(text):
    return {x.strip().split(" as ")[-1].strip() for m in LIBRARY.finditer(text) for x in m.group(2).split(",")}


def main():
    own = declared()
    plain = set()
    for path in files(".antt", ".rt"):
        with open(path) as f:
            plain |= set(re.findall(r"(?<![\w'-])" + PART + r"(?![\w'-])", f.read()))
    for name in sorted(own):
        if today(name) in plain:
            print(f"falls together: {name} -> {today(name)}")
    for path in files(".antt", ".rt", ".edit"):
        with open(path) as f:
            old = f.read()
        kept = imported(old)
        new = STEP.sub("all_items", old)
        new = DASHED.sub(lambda m: today(m.group(0)) if m.group(0) in own and m.group(0) not in kept else m.group(0), new)
        for name in sorted(kept & own):
            print(f"kept, the library's: {name} in {path}")
        if new != old:
            with open(path, "w") as f:
                f.write(new)
    print(f"{len(own)} names")


if __name__ == "__main__":
    sys.exit(main())
