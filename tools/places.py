#!/usr/bin/env python3
"""Counts the places of docs/DESIGN-PASS.md in the code of a commit, or of the working tree where none is named.

    python3 tools/places.py [COMMIT] [--list]

Each count is of what a pattern finds; the page says which of them are places of the point.
"""
import re
import subprocess
import sys


def sources(commit):
    if commit:
        out = subprocess.run(["git", "ls-tree", "-r", "--name-only", commit], capture_output=True, text=True, check=True).stdout
    else:
        out = subprocess.run(["git", "ls-files", "-co", "--exclude-standard"], capture_output=True, text=True, check=True).stdout
    names = sorted(n for n in out.split("\n") if re.match(r"crates/\w+/src/.*\.rt$", n))
    for n in names:
        if commit:
            yield n, subprocess.run(["git", "show", f"{commit}:{n}"], capture_output=True, text=True, check=True).stdout
        else:
            with open(n, encoding="utf-8") as f:
                yield n, f.read()


def code(text):
    return re.sub(r"//[^\n]*", "", text)


# name of the count, pattern over the code without its comments
PATTERNS = [
    ("1a enums", r"^\s*(?:pub(?:\(crate\))? )?enum (\w+)"),
    ("1b numbers and flags for kinds and refusals", r"^\s*(?:pub )?((?:refusal|begun|started|kind|more|accepted): (?:u8|u64|bool)),|\bfn (\w+)(?:<[^>]*>)?\([^{;]*?\) -> u8\b"),
    ("1c a number for none", r"\breturn (256|4|0);|\bif (256 <= \w+|number != 0|refusal != 0|more == 0|\w+\.refusal == \d)"),
    ("3 loops that count or search by hand", r"^\s*(?:'\w+: )?(while [^{]*|loop) \{"),
    ("3 loops by for", r"^\s*(?:'\w+: )?(for [^{]*) \{"),
    ("4 small functions that a method of the library may be", r"\bfn (wide|index|low|byte|whole|either|least|at_most|room|same|copy|fill|clear|lowest|length|symbol|replaces|times|composed|front|place)\("),
    ("6 an array with its count beside it", r"^\s*(?:pub )?(count: usize),\n\s*(?:pub )?at: \["),
    ("7 switches on a number", r"\bmatch (row\.kind|kind)\b|\bif (row\.kind [<=]=? \d)"),
]


def functions(text):
    """Each function: its name, parameters and body, by its braces."""
    for m in re.finditer(r"\bfn (\w+)(?:<[^>{]*>)?\(", text):
        depth, i = 1, m.end()
        while depth:
            depth += {"(": 1, ")": -1}.get(text[i], 0)
            i += 1
        params = text[m.end() : i - 1]
        start = re.compile(r"^\s*\{\n|\{$", re.M).search(text, i)
        if not start:
            continue
        depth, j = 1, start.end()
        while depth and j < len(text):
            depth += {"{": 1, "}": -1}.get(text[j], 0)
            j += 1
        yield m.group(1), params, text[start.end() : j - 1]


def shape(body):
    """The body with its names and numbers taken away."""
    words = {"if", "else", "while", "for", "in", "loop", "let", "mut", "return", "match", "break", "as", "usize", "u8", "u16", "u32", "u64", "true", "false"}
    s = re.sub(r'b?"[^"]*"|b?\'[^\']\'', "S", body)
    s = re.sub(r"\b\w+\b", lambda m: m.group(0) if m.group(0) in words else "N", s)
    return re.sub(r"\s+", " ", s).strip()


def main():
    listed = "--list" in sys.argv
    args = [a for a in sys.argv[1:] if not a.startswith("--")]
    files = [(n, code(t)) for n, t in sources(args[0] if args else None)]
    for name, pattern in PATTERNS:
        found = [(n, next(g for g in m.groups() if g)) for n, t in files for m in re.finditer(pattern, t, re.M)]
        print(f"{name}: {len(found)}")
        if listed:
            for n, what in found:
                print(f"    {n}: {' '.join(what.split())}")
    every = [(n, f, p, b) for n, t in files for f, p, b in functions(t)]
    shapes = {}
    for n, f, p, b in every:
        if b.count("\n") >= 3 and "crates/calls" not in n:
            shapes.setdefault(shape(b), []).append(f"{n}: {f}")
    twins = [fs for fs in shapes.values() if len(fs) > 1]
    print(f"2 functions of the same shape as another: {sum(map(len, twins))} in {len(twins)} groups")
    if listed:
        for fs in twins:
            print("    " + "; ".join(fs))
    travel = [f"{n}: {f}" for n, f, p, _ in every if re.search(r"\bheads:", p) and re.search(r"\btriples:", p) and re.search(r"\bsize:", p)]
    print(f"5a functions that take heads, triples and size: {len(travel)}")
    many = [f"{n}: {f} ({p.count(':')})" for n, f, p, _ in every if p.count(":") > 6]
    print(f"5b functions with more than six parameters: {len(many)}")
    if listed:
        for x in travel + many:
            print("    " + x)


main()
