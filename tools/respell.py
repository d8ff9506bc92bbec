#!/usr/bin/env python3
"""Respells the repository's own names in specifications and proofs: words in snake case, types in camel case.

usage: python3 tools/respell.py            at the top of the repository

A name is the repository's own where one of its files declares it: a definition, a lemma, a field, a constructor or a
parameter. Names that Rattle makes (goals, steps) and names of its library keep their dashes, and so does everything in
src/ outside of ghost text. Stops, with nothing written, where two names of one file would become one.
"""

import glob
import os
import re
import sys

IDENT = r"[A-Za-zα-ωΑ-Ωℕℤ0-9_'’·-]"
TOKEN = re.compile(r"(?<![A-Za-z0-9_'α-ω-])([A-Za-z][A-Za-z0-9_']*(?:-[A-Za-z0-9_']+)+)(?![A-Za-z0-9_'-])")
SPECIAL = {"Example-12-35": "Example12Point35"}
GENERATED = re.compile(r"^\s*(?:abbrev )?pub ([^\s:]+) : (?:goal|given)\.")


def camel(name):
    return "".join(p[:1].upper() + p[1:] for p in name.split("-"))


def respelled(name):
    if name in SPECIAL:
        return SPECIAL[name]
    return camel(name) if name[0].isupper() else name.replace("-", "_")


def files():
    for c in sorted(glob.glob("crates/*")):
        for kind, ends in (("specs", ".antt"), ("proofs", ".antt"), ("src", ".rt")):
            for folder, dirs, names in os.walk(os.path.join(c, kind)):
                for n in sorted(names):
                    if n.endswith(ends):
                        yield os.path.join(folder, n)


def imported(text):
    """Names that a file takes from elsewhere than the repository's own specs and proofs."""
    found = set()
    for path, names in re.findall(r"(?:pub )?(?:ghost )?use ([\w.◌]+)\.\{([^}]*)\}", text):
        own = any(path.startswith(f"Rattle.{c}.") for c in CRATES)
        if not own:
            found |= {n.strip() for n in names.split(",")}
    return found


def declared(text):
    """Names that a file of specs/ or proofs/ declares, apart from those that answer a goal."""
    found = set()
    for line in text.splitlines():
        if GENERATED.match(line) or re.match(r"\s*(?:pub )?(?:ghost )?use ", line) or line.strip().startswith("--"):
            continue
        m = re.match(r"\s*(?:abbrev |unfoldable |mutual |pub )*(?:record |data )?([A-Za-z][\w'-]*) (?::|\()", line)
        if m:
            found.add(m[1])
        for group in re.findall(r"[({]([\w' -]+) : ", line):
            found |= set(group.split())
        for group in re.findall(r"λ \(?([\w' ,-]+?)\)?\.", line):
            found |= set(re.split(r"[ ,]+", group))
        found |= set(re.findall(r"\blet ([\w'-]+) [:=]", line))
    return {n for n in found if re.fullmatch(r"[A-Za-z][\w']*(-[\w']+)+", n)}


def ghost_lines(text):
    """Per line of a source file: whether it is ghost text."""
    out, depth = [], 0
    for line in text.splitlines(keepends=True):
        begins = re.match(r"\s*(?:pub )?(?:ghost |requires|ensures|#\[tactic)", line) is not None
        ghost = depth > 0 or begins
        out.append((line, ghost))
        if ghost:
            depth = max(0, depth + line.count("{") - line.count("}"))
    return out


CRATES = [os.path.basename(c) for c in glob.glob("crates/*")]


def main():
    texts = {p: open(p, encoding="utf-8").read() for p in files()}
    own = set()
    for p, t in texts.items():
        if p.endswith(".antt"):
            own |= declared(t)
    foreign = set()
    for t in texts.values():
        foreign |= imported(t)
    both = sorted(own & foreign)
    if both:
        print("both the repository's own and the library's, left as they are:", *both)
        own -= foreign
    table = {n: respelled(n) for n in own}
    bad, made = False, {}
    for n, to in table.items():
        made.setdefault(to, set()).add(n)
    tokens = {p: set(re.findall(r"[A-Za-z][\w'-]*", t)) for p, t in texts.items() if p.endswith(".antt")}
    for to, ns in made.items():
        if len(ns) > 1:
            bad = True
            print("fall together:", to, sorted(ns))
        for p, ts in tokens.items():
            if to in ts and ts & ns:
                print(f"look: {p} has {to} beside {sorted(ts & ns)}")
    if bad:
        return 2
    left = {}
    for p, t in texts.items():
        parts = [(t, True)] if p.endswith(".antt") else ghost_lines(t)
        new = ""
        for part, ghost in parts:
            if ghost:
                def turn(m):
                    n = m[1]
                    if n in table:
                        return table[n]
                    if n not in foreign:
                        left.setdefault(n, set()).add(p)
                    return n
                part = TOKEN.sub(turn, part)
            new += part
        if new != t:
            with open(p, "w", encoding="utf-8") as f:
                f.write(new)
    print(len(table), "names respelled")
    if "--left" in sys.argv:
        for n in sorted(left):
            print("dashed still:", n, sorted(left[n])[:2], len(left[n]))
    return 0


if __name__ == "__main__":
    raise SystemExit(main())
