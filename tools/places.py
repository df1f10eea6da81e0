#!/usr/bin/env python3
"""Lists the places of src/ that may want a newer form, for each of seven points, and counts them.

usage: python3 tools/places.py [TOP]

What it prints are candidates, found by text alone: what was done with each is in docs/DESIGN-PASS.md.
"""

import glob
import os
import re
import sys
from collections import defaultdict

# A point's patterns: what is looked for, and the expression, tried at each line.
LINES = {
    1: [
        ("an enum of its own", r"^\s*(pub(\(crate\))? )?enum "),
        ("a flag beside a value", r"\bfn .*\b\w+: bool\b"),
        ("a number for a case", r"=> -?\d+,$"),
        ("a test or a pattern that makes an Option", r"^\s*(None|return None;)$"),
        ("an outcome taken apart", r"\b(Ok|Err)\(.*\) => .*\b(Ok|Err|\d+)\b|\.is_(ok|err|some|none)\(\)"),
        ("a refusal where an Option is none", r"let Some\(.*\) = .* else"),
        ("a place that cannot be reached", r"unreachable\(\)"),
    ],
    3: [
        ("a loop over a range", r"\bfor (?!_ )\w+ in [^{]*\.\.[^{]*\{"),
        ("a loop that answers from inside", r"^\s{8,}return (true|false|Some\(.*\));"),
        ("words one by one", r"\[0\].*\[1\]|^\s*\w+\[0\] \|"),
    ],
    4: [
        ("an impl of Drop", r"^impl.* Drop for "),
        ("a conversion by a method", r"\bfn (value|number|word|symbol|of_symbol|seen|row_bytes|from)\b"),
        ("text made by hand", r"push_str\(|\.push\(hex|format!\(|print(ln)?!\(rt"),
    ],
    6: [
        ("an array of fixed length", r"\[[^\[\]]+; ?(\d{2,}|MARKABLE|MOST_\w+)\]"),
        ("an array of a few words", r"\[u\d+; ?[2-9]\]"),
    ],
    7: [
        ("a match on a case that picks a step", r"\bmatch (find_\w+|kind|step|command)\b"),
        ("a table of functions", r"\[fn\(|dyn Fn|: fn\("),
    ],
}


def functions(text):
    """Each function of a file: its line, name, parameters and clauses, and body."""
    for found in re.finditer(r"\bfn (\w+)(<[^(]*>)?\(", text):
        depth, at = 1, found.end()
        while depth:
            depth += {"(": 1, ")": -1}.get(text[at], 0)
            at += 1
        parameters = text[found.end() : at - 1]
        head = re.match(r"(?:(?!\n\s*\{\n|;\n| \{\n).|\n(?!\s*\{\n))*", text[at:]).group(0)
        rest = text[at + len(head) :]
        body = re.match(r"\s*\{\n(.*?)^(\s*)\}$", rest, re.S | re.M)
        end = body_end(rest)
        line = text.count("\n", 0, found.start()) + 1
        yield line, found.group(1), parameters, head, rest[:end]


def body_end(rest):
    start = rest.find("{")
    stop = rest.find(";")
    if start < 0 or (0 <= stop < start):
        return 0
    depth = 0
    for at in range(start, len(rest)):
        depth += {"{": 1, "}": -1}.get(rest[at], 0)
        if depth == 0:
            return at + 1
    return len(rest)


def shape(body):
    """A body with its names and numbers taken away, so that twins are alike."""
    words = {"if", "else", "for", "in", "match", "let", "mut", "return", "while", "Some", "None", "Ok", "Err", "self", "true", "false"}
    body = re.sub(r"//.*", "", body)
    body = re.sub(r"\"[^\"]*\"", "S", body)
    body = re.sub(r"\b\d\w*\b", "N", body)
    body = re.sub(r"\b[A-Za-z_]\w*\b", lambda m: m.group(0) if m.group(0) in words else "x", body)
    return re.sub(r"\s+", "", body)


def conjuncts(head):
    """What the clauses of a function state of its parameters, part by part, with the names of values taken away."""
    for clause in re.findall(r"requires(?: \w+)? \{ (.*) \}", head):
        for part in re.split(r" × ", clause):
            yield re.sub(r"\b(\w+)\.(now|old|new)\b", r"_", part.strip("() "))


def main():
    top = sys.argv[1] if len(sys.argv) > 1 else "."
    found = defaultdict(list)
    shapes, facts, pairs = defaultdict(list), defaultdict(set), defaultdict(set)
    for path in sorted(glob.glob(os.path.join(top, "crates/*/src/*.rt"))):
        text = open(path, encoding="utf-8").read()
        name = os.path.relpath(path, os.path.join(top, "crates"))
        for number, line in enumerate(text.split("\n"), 1):
            if line.lstrip().startswith("//") or "ghost use" in line:
                continue
            for point, patterns in LINES.items():
                for what, pattern in patterns:
                    if re.search(pattern, line):
                        found[point, what].append((f"{name}:{number}", line.strip()))
        for line, fn, parameters, head, body in functions(text):
            place = f"{name}:{line}"
            if len(shape(body)) > 12:
                shapes[shape(body)].append((place, fn))
            for part in conjuncts(head):
                facts[part].add((place, fn))
            named = re.findall(r"(\w+): ([^,]+)", parameters)
            for i, one in enumerate(named):
                for two in named[i + 1 :]:
                    pairs[tuple(sorted([one[0], two[0]]))].add((place, fn))
    for alike in shapes.values():
        if len(alike) > 1:
            found[2, "functions of one shape"].append((alike[0][0], ", ".join(f for _, f in alike)))
    for part, where in facts.items():
        if len(where) > 2:
            found[5, "a fact that three or more functions require"].append((min(where)[0], part))
    for pair, where in pairs.items():
        if len(where) > 2:
            found[5, "parameters that three or more functions take together"].append(
                (min(where)[0], " ".join(pair) + ": " + ", ".join(sorted({f for _, f in where})))
            )
    for point in range(1, 8):
        total = sum(len(v) for (p, _), v in found.items() if p == point)
        print(f"point {point}: {total}")
        for (p, what), places in sorted(found.items()):
            if p == point:
                print(f"  {what}: {len(places)}")
                for place, line in places:
                    print(f"    {place}: {line}")


main()
