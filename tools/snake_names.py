#!/usr/bin/env python3
"""Brings the repository's own definitions, lemmas and fields to snake case.

    python3 tools/snake_names.py            at the top; once, after the kit's port.py

A name counts as the repository's own where a line of specs/ or proofs/ declares it:
a definition, a lemma, a field, a constructor. Names of goals, of the library and of
src/ keep their spelling. The script stops where a new name is taken by another one
and neither OTHER nor APART says what becomes of it.
"""
import glob
import re
import sys

# a lemma that would have its function's name
OTHER = {"laws-over-runs": "laws_over_runs_lem"}

# names that a function, a parameter or a field of src/ has too, or a field of another
# record: the language keeps them apart
APART = {
    "at-most-rows", "column-memory", "combined-rows", "join-type", "key-column", "key-columns",
    "node-memory", "or-zero", "pair-to", "pair-with-last", "pair-with-next", "product-of",
    "right-below", "to-next", "union-width",
}

NAME = r"[A-Za-z][A-Za-z0-9_']*(?:-[A-Za-z0-9_']+)+"
TOKEN = re.compile(r"(?<![A-Za-z0-9_'\-])[A-Za-z_][A-Za-z0-9_']*(?:-[A-Za-z0-9_']+)*(?![A-Za-z0-9_'\-])")
GOALS = re.compile(r"^\s*(?:abbrev\s+)?(?:pub\s+)?(" + NAME + r")\s+:\s*(?:goal|given)\.", re.M)


def main():
    antt = sorted(glob.glob("crates/*/specs/**/*.antt", recursive=True) + glob.glob("crates/*/proofs/**/*.antt", recursive=True))
    rt = sorted(glob.glob("crates/*/src/**/*.rt", recursive=True))
    texts = {f: open(f, encoding="utf-8").read() for f in antt + rt}
    own, goals, every = set(), set(), set()
    for f in antt:
        goals |= {m[1] for m in GOALS.finditer(texts[f])}
        own |= {m[1] for m in re.finditer(r"^\s*(?:abbrev\s+|unfoldable\s+|pub\s+)*(" + NAME + r")\s+:(?!\s*(?:goal|given)\.)\s", texts[f], re.M)}
    own -= goals
    for t in texts.values():
        every |= set(TOKEN.findall(t))
    new = {n: OTHER.get(n, n.replace("-", "_")) for n in own}
    clashes = sorted(n for n, w in new.items() if w in every and n not in APART)
    twice = sorted(w for w in set(new.values()) if list(new.values()).count(w) > 1)
    for w in clashes + twice:
        print("taken:", w)
    if clashes or twice:
        return 1
    for f, t in texts.items():
        s = TOKEN.sub(lambda m: new.get(m[0], m[0]), t)
        if s != t:
            open(f, "w", encoding="utf-8").write(s)
    print(len(new), "names")
    return 0


if __name__ == "__main__":
    sys.exit(main())
