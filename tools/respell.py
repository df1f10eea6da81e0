#!/usr/bin/env python3
"""Respells this repository's own definitions, lemmas and local names in snake case.

usage: python3 tools/respell.py [TOP]      once, at the top of the repository, after the kit's port.py

Names that begin with a small letter and have a dash or a capital inside get underscores. Left alone are names of the
kit's library, names that Rattle makes (goals, steps of a proof), types and facts, file and module names, strings, and the
functions of src/, which may share a definition's name. Names that would fall together in a file of specs/ or proofs/ are
printed, and then nothing is written.
"""

import glob
import os
import re
import sys

EDGE = r"[^\s(){}\[\];,.λ|⌜⌝:]"
NAME = r"[^\s(){}\[\];,.λ|⌜⌝:\"]+"
TOKEN = re.compile(rf"(?<!{EDGE}){NAME}(?!{EDGE})")
STRING = re.compile(r'"(?:[^"\\]|\\.)*"')
MADE = re.compile(
    r"^(loop|returns|if|then|else|invariant|decreases|overflow|bounds|slice_bounds|slice-bounds|offset_bounds|ghost"
    r"|nonzero|branch|unreachable)-|-(requires|requires-2|init|preserved|smaller)$|^prove-"
)

# The library has a function of the plain spelling, so the lemma on it says that it is one.
OTHER = {"bit-or": "bit_or_lem"}


def wanted(name):
    return bool(re.match(r"[a-z]", name)) and ("-" in name or re.search(r"[a-z][A-Z]", name)) and not MADE.search(name)


def spelled(name):
    if name in OTHER:
        return OTHER[name]
    return re.sub(r"(?<=[a-z])([A-Z])", lambda m: "_" + m.group(1).lower(), name).replace("-", "_")


def files(top):
    for p in sorted(glob.glob(os.path.join(top, "crates", "*", "**", "*.antt"), recursive=True)):
        if "/out/" not in p:
            yield p


def sources(top):
    for p in sorted(glob.glob(os.path.join(top, "crates", "*", "src", "**", "*.rt"), recursive=True)):
        yield p


def own_path(path, crates):
    m = re.match(r"Rattle\.(\w+)\.", path)
    return bool(m) and m.group(1) in crates


def foreign(text, crates):
    """The names that a file imports from elsewhere than this repository, under the name that it uses."""
    out = set()
    for path, items in re.findall(r"use ([\w.]+)\.\{([^}]*)\}", text):
        if not own_path(path + ".", crates) or ".declared." in path + ".":
            for it in items.split(","):
                out.add(it.strip().split(" as ")[-1].strip())
    return out


def defined(text, walk):
    """The names that a file defines or binds; of a proof of a function (walk) not the answers, which are public."""
    out = set()
    for line in text.splitlines():
        m = re.match(rf"\s*(?:abbrev |unfoldable )?(pub )?({NAME})\s+:\s", line)
        if m and not (walk and m.group(1)):
            out.add(m.group(2))
        for group in re.findall(r"[({]([^(){}:]+) : ", line):
            out.update(group.split())
        out.update(re.findall(rf"\blet ({NAME})", line))
        for group in re.findall(r"λ ([^.]+)\.", line):
            out.update(TOKEN.findall(group))
        if re.match(r"\s*pub record|\s*pub data|\s*record|\s*data", line):
            out.update(re.findall(rf"\(({NAME})", line))
    return {n for n in out if wanted(n)}


def main(argv):
    top = argv[0] if argv else "."
    crates = set(os.listdir(os.path.join(top, "crates")))
    names = set()
    for p in files(top):
        inside = p.split("/proofs/")[-1] if "/proofs/" in p else ""
        with open(p, encoding="utf-8") as f:
            names |= defined(f.read(), "/" in inside)
    clashes, written = [], 0
    turned = {}
    for p in [*files(top), *sources(top)]:
        with open(p, encoding="utf-8") as f:
            text = f.read()
        keep = foreign(text, crates)
        here = set(TOKEN.findall(STRING.sub("", text)))

        def turn(piece):
            def one(m):
                n = m.group(0)
                return spelled(n) if n in names and n not in keep else n

            return TOKEN.sub(one, piece)

        for n in sorted(here) if p.endswith(".antt") else ():
            if n in names and n not in keep and spelled(n) in here:
                clashes.append((p, n, spelled(n)))
        out, at = [], 0
        for m in STRING.finditer(text):
            out += [turn(text[at:m.start()]), m.group(0)]
            at = m.end()
        new = "".join(out) + turn(text[at:])
        if new != text:
            turned[p] = new
    for p, n, m in clashes:
        print(f"falls together: {p}: {n} and {m}")
    if clashes:
        return 1
    for p, new in turned.items():
        with open(p, "w", encoding="utf-8") as f:
            f.write(new)
        written += 1
    print(f"{len(names)} names, {written} files")
    return 0


if __name__ == "__main__":
    raise SystemExit(main(sys.argv[1:]))
