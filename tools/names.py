#!/usr/bin/env python3
"""Lists which names of specifications and lemmas a respelling changed.

usage: python3 tools/names.py OLD NEW      two folders that hold the same files, before and after

For each crate a line for specs/ and one for proofs/, with the names that differ, old and new, in the files' order.
"""

import glob
import os
import re
import sys

HEAD = re.compile(r"^\s*(?:abbrev |unfoldable |mutual |pub )*(?:(?:record|data) ([A-Za-z][\w'-]*)|([A-Za-z][\w'-]*) :)", re.M)


def names(path):
    with open(path, encoding="utf-8") as f:
        return [a or b for a, b in HEAD.findall(f.read())]


def main(old, new):
    for crate in sorted(os.listdir(os.path.join(old, "crates"))):
        for kind in ("specs", "proofs"):
            pairs = []
            for p in sorted(glob.glob(os.path.join(old, "crates", crate, kind, "*.antt"))):
                q = os.path.join(new, os.path.relpath(p, old))
                a, b = names(p), names(q)
                if len(a) != len(b):
                    print(f"look: {p} has {len(a)} names and {q} {len(b)}")
                pairs += [(x, y) for x, y in zip(a, b) if x != y]
            seen = dict(pairs)
            if seen:
                print(f"- `{crate}`, {kind}/: " + ", ".join(f"{x} → {y}" for x, y in seen.items()))


if __name__ == "__main__":
    main(*sys.argv[1:])
