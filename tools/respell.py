#!/usr/bin/env python3
"""Spells the repository's own definitions and lemmas in snake case: each name of respelled.tsv, beside this file, as its row says.

usage: tools/respell.py     at the top, once, after the toolchain's port.py and before any edit by hand

It reads crates/*/specs, crates/*/proofs and the clauses of crates/*/src. Functions of src/, exported names, strings and edits keep
their text. A lemma that would have its function's name gets `_lem`.
"""

import os
import subprocess
import sys
import tempfile

HERE = os.path.dirname(os.path.realpath(__file__))
SNAKE = "port/notes/2026-11-18-names-are-in-snake-case/snake.py"
# Names that the toolchain makes of the source, which follow a dot in a function's proof file.
MADE = ["at-centre", "has-bit", "radius-at", "longest-length", "in-range"]


def main():
    kit = os.path.dirname(subprocess.run(["rt", "doc"], capture_output=True, text=True, check=True).stdout.strip())
    with tempfile.NamedTemporaryFile("w", suffix=".txt", encoding="utf-8") as made:
        made.write("".join(name + "\n" for name in MADE))
        made.flush()
        table = os.path.join(HERE, "respelled.tsv")
        return subprocess.run([sys.executable, os.path.join(kit, SNAKE), "--table", table, "--keep-after-dot", made.name, "crates"]).returncode


if __name__ == "__main__":
    sys.exit(main())
