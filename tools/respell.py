#!/usr/bin/env python3
"""Spells the definitions and lemmas of this repository in snake case, by respelled.tsv beside this file.

usage: tools/respell.py [FILE..]     with no FILE: every .rt and .antt file below crates/

It goes word by word: a word of antt ends at a space, a bracket, a comma, a semicolon, a colon or a dot. A name of Rattle's own behind `Need-`,
`Then-` and the like is another word and stays. Run once, after port.py.
"""
import glob
import os
import re
import sys

HERE = os.path.dirname(os.path.realpath(__file__))
WORD = re.compile(r"[^\s(){}\[\].;,@\"«»:`]+")
# Names that were in snake case already, and that a definition would meet now: a lemma that would have its function's name ends in _lem.
IN_FILE = {
    "crates/plan/proofs/StackLines.antt": {"load_line": "load_line_lem"},
    "crates/meaning/proofs/Stopped.antt": {"part_bytes": "part_bytes_lem"},
}


def main(argv):
    table = {}
    with open(os.path.join(HERE, "respelled.tsv"), encoding="utf-8") as f:
        for line in f:
            old, new = line.rstrip("\n").split("\t")
            table[old] = new
    root = os.path.dirname(HERE)
    files = argv or sorted(glob.glob(root + "/crates/*/**/*.antt", recursive=True) + glob.glob(root + "/crates/*/src/*.rt"))
    for path in files:
        if "/out/" in path:
            continue
        with open(path, encoding="utf-8") as f:
            text = f.read()
        names = table
        for end, more in IN_FILE.items():
            if os.path.realpath(path).endswith("/" + end):
                names = table | more
        turned = WORD.sub(lambda m: names.get(m.group(0), m.group(0)), text)
        if turned != text:
            with open(path, "w", encoding="utf-8") as f:
                f.write(turned)


if __name__ == "__main__":
    main(sys.argv[1:])
