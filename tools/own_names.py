#!/usr/bin/env python3
"""Lists the names that the definitions and lemmas of this repository declare: what stands in specs/ and beside the
functions' folders in proofs/.

usage: own_names.py [ROOT]      a line a name: the name, its kind (def, ctor, field, data, record) and its file
"""
import os
import re
import sys

WORD = r"[^\s(){}.;,@\"«»\[\]\\:]+"
SIGNATURE = re.compile(r"^\s*(?:(?:abbrev|unfoldable|pub|private|axiom)\s+)*(" + WORD + r"(?:\s+" + WORD + r")*)\s*:\s")
HEADING = re.compile(r"^\s*(?:(?:abbrev|unfoldable|pub)\s+)*(data|record)\s+(" + WORD + r")")


def logic_files(root):
    """Every .antt file of specs/ and proofs/, with whether it declares names of our own and no goals of a function."""
    for crate in sorted(os.listdir(os.path.join(root, "crates"))):
        for kind in ("specs", "proofs"):
            base = os.path.join(root, "crates", crate, kind)
            for folder, folders, names in os.walk(base):
                folders.sort()
                for name in sorted(names):
                    if name.endswith(".antt"):
                        path = os.path.join(folder, name)
                        yield path, kind == "specs" or folder == base


def declared(path):
    """The names that a file declares, each with its kind."""
    inside, depth = None, 0
    for line in open(path):
        words = line.strip()
        if not words or words.startswith(("--", "use ")):
            continue
        indent = len(line) - len(line.lstrip())
        if inside and indent <= depth:
            inside = None
        if heading := HEADING.match(line):
            inside, depth = heading[1], indent
            yield heading[2], inside
            continue
        signature = SIGNATURE.match(line)
        if not signature or any(w == "=" or "↦" in w or "λ" in w for w in signature[1].split()):
            continue
        for name in signature[1].split():
            if name in ("let", "in", "module", "where", "elim"):
                break
            yield name, {"data": "ctor", "record": "field"}.get(inside, "def")


if __name__ == "__main__":
    root = sys.argv[1] if len(sys.argv) > 1 else "."
    for path, own in logic_files(root):
        if own:
            for name, kind in declared(path):
                print(name, kind, os.path.relpath(path, root), sep="\t")
