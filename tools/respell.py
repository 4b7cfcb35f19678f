#!/usr/bin/env python3
"""Brings the repository's own definitions, lemmas and fields to the toolchain's spelling, after port.py: words in snake case, types and modules in camel case.

usage: python3 tools/respell.py     at the top of the repository, once, after port.py

It turns every word in lower camel case of specs/, proofs/, the must-fail edits, the pages (but docs/CHANGES.md, whose notes keep the names of their
time), and of comments and clauses in src/; functions of src/, exported names, inputs and outputs have no such word. It does not spare strings in
specs/: the text in upper case of cases/specs/Example was put right afterwards (docs/PORT.md). It also writes `#![tactic(auto)]` near the head of each
root file. No two names fall together: those that would have are respelled by hand in OTHERWISE.
"""
import glob
import re

CAMEL = re.compile(r"(?<![A-Za-z0-9_'`])`?[a-z][a-z0-9_]*[A-Z][A-Za-z0-9_]*(?!`?[A-Za-z0-9_])|(?<![A-Za-z0-9_'])[a-z][a-z0-9_]*[A-Z][A-Za-z0-9_]*")
# the toolchain's own
KEEP = {"in_List", "next_Way", "shr_slice_Lawful", "shr_slice_Tells", "uint_Lawful", "uint_Makes", "uint_Tells", "walk_Meets"}
# words that would fall together with a name that stands: (file, word before, word after)
OTHERWISE = [
    ("crates/lists/proofs/Rows.antt", "on_row", "row-lent"),
    ("crates/eigen_block/proofs/orthonormal/orthonormalize_column/Proof.antt", "on_row", "row-lent"),
    ("crates/eigen_rotations/proofs/rotate_columns/Proof.antt", "on_row", "row-lent"),
    ("crates/float/proofs/Units.antt", "units_of", "units-is"),
    ("crates/lot/proofs/Relabelled.antt", "same_length", "same-length"),
    ("crates/lot/proofs/Relabelled.antt", "same_kept", "same-kept"),
    ("crates/lot/proofs/Relabelled.antt", "same_names", "same-names"),
    ("crates/exhaustive_hits/proofs/WaysHandedIn.antt", "no_other", "none-other"),
    ("crates/ordination_hash_pca/proofs/CallHalves.antt", "told_of", "told-same"),
]
GIVEN = {"getD": "get_or"}


def snake(word):
    return re.sub(r"([a-z0-9])([A-Z]+)", lambda m: m.group(1) + "_" + m.group(2).lower(), word).lower()


def respelled(text, known=None):
    def one(m):
        word = m.group(0)
        tick = word.startswith("`")
        bare = word[1:] if tick else word
        if bare in KEEP:
            return word
        new = GIVEN.get(bare, snake(bare))
        if known is not None and new not in known:
            return word
        return ("`" if tick else "") + new

    return CAMEL.sub(one, text)


def ghost(text):
    """A .rt file: all but string literals and the code itself has words to turn; code has none in lower camel case."""
    return "".join(p if i % 2 else respelled(p) for i, p in enumerate(re.split(r'("(?:[^"\\\n]|\\.)*")', text)))


def put(path, text, was):
    if text != was:
        with open(path, "w", encoding="utf-8") as f:
            f.write(text)


def read(path):
    with open(path, encoding="utf-8") as f:
        return f.read()


def main():
    for path, before, after in OTHERWISE:
        was = read(path)
        put(path, re.sub(r"(?<![A-Za-z0-9_'-])" + before + r"(?![A-Za-z0-9_'-])", after, was), was)
    antt = sorted(p for d in ("specs", "proofs") for p in glob.glob(f"crates/*/{d}/**/*.antt", recursive=True))
    for path in antt:
        was = read(path)
        put(path, respelled(was), was)
    for path in sorted(glob.glob("crates/*/src/**/*.rt", recursive=True)):
        was = read(path)
        put(path, ghost(was), was)
    known = set()
    for path in antt:
        known.update(re.findall(r"[A-Za-z_][A-Za-z0-9_]*", read(path)))
    for path in sorted(glob.glob("crates/*/must-fail/*.edit")):
        was = read(path)
        put(path, respelled(was, known), was)
    for path in ["README.md", "crates/README.md"] + sorted(set(glob.glob("docs/*.md")) - {"docs/CHANGES.md"}):
        was = read(path)
        put(path, respelled(was, known), was)
    for path in sorted(glob.glob("crates/*/src/lib.rt") + glob.glob("crates/*/src/main.rt")):
        was = read(path)
        if "#![tactic" in was:
            continue
        lines = was.split("\n")
        k = 0
        while k < len(lines) and lines[k].startswith("//"):
            k += 1
        lines[k:k] = ["#![tactic(auto)]"] + ([""] if k < len(lines) and lines[k] else [])
        put(path, "\n".join(lines), was)


main()
