#!/usr/bin/env python3
"""Brings the names of definitions and lemmas to the spelling of today's Rattle: words in snake case, a fact with its capital.

usage: tools/respell.py [--report] [FOLDER]      at the top of a repository that port.py has turned (FOLDER: its place, here if not given)

A name that specs/ or proofs/ define (definitions, lemmas, fields, constructors) changes in every .antt and .rt file and in must-fail edits:
headCount -> head_count, safe-right -> safe_right, All-of stays. Names of functions, of what Rattle generates and of its library stay.
A lemma that would have the name of a definition or a field gets _lem (APART, HERE). It is run once.
"""
import glob
import os
import re
import sys

TOKEN = re.compile(r"[^\s(){}.;,@\"«»\[\]\\]+")
DEFINED = re.compile(r"^(\s*)((?:(?:abbrev|unfoldable|data|record|pub|ruleset)\s+)*)([^\s:(){}\[\]=,;.]+(?:, [^\s:(){}\[\]=,;.]+)*)\s*:(?!:)")

# Names that would fall together with another one in a file: what they are called instead.
LEMMAS = (
    "head-count triple-count place-of class-of symbol-of class-steps states-after size-of read-text listing-of model-part next-kept rule-closed"
    " heads-left triples-left bit-and bit-or bit-xor both-pass class-at first-has line-of symbols-in rule-line triple-in product-in"
    " violation-bytes fault-of step-of safe-behind with-move steps-of head-cell"
)
APART = {"byRule": "way_by_rule", "byMove": "way_by_move", "byRank": "way_by_rank"}
APART.update({n: n.replace("-", "_") + "_lem" for n in LEMMAS.split()})
# Names of the library that files of ours define too: they stay where they are the library's.
LIBRARY = {"or-false", "and-true"}
# Lemmas that port.py had respelled already, with the files that name them.
HERE = {
    "decide/proofs/RoundTriples.antt": {"given_by": "given_by_lem"},
    "explain/proofs/Tried.antt": {"has_all": "has_all_lem"},
    "explain/proofs/why/is_lower/Proof.antt": {"has_all": "has_all_lem"},
    "recheck/proofs/Matrices.antt": {"head_in": "head_in_lem"},
}


def spelled(name):
    """A name in snake case; a dash stays beside a part with a capital, which is a fact or a type."""
    parts = name.split("-")
    if any(not p for p in parts):
        return name
    parts = [re.sub(r"([a-z0-9'])([A-Z])", lambda m: m[1] + "_" + m[2].lower(), p) if p[0].islower() else p for p in parts]
    out = parts[0]
    for before, p in zip(parts, parts[1:]):
        out += ("-" if p[0].isupper() or before[0].isupper() else "_") + p
    return out


def files(root, kinds):
    for kind in kinds:
        for f in sorted(glob.glob(os.path.join(root, "crates", "*", kind), recursive=True)):
            if "/out/" not in f:
                yield f


def defined(root):
    """The names that the repository itself defines, but for those of goals, which the check generates."""
    out = set()
    for f in files(root, ["specs/**/*.antt", "proofs/**/*.antt"]):
        deep = len(os.path.relpath(f, root).split("/")) > 4
        with open(f, encoding="utf-8") as it:
            for line in it:
                m = DEFINED.match(line)
                if not m or line.lstrip().startswith(("--", "use ")):
                    continue
                if deep and (m[1] or ": tie." in line or "statement M" in line or m[3].endswith("_spec")):
                    continue
                out.update(m[3].split(", "))
    return out


def main(argv):
    report = "--report" in argv
    argv = [a for a in argv if a != "--report"]
    root = argv[0] if argv else "."
    names = {n: APART.get(n, spelled(n)) for n in defined(root)}
    names = {n: to for n, to in names.items() if n != to}
    print(len(names), "names")
    for f in files(root, ["specs/**/*.antt", "proofs/**/*.antt", "src/**/*.rt", "must-fail/*.edit"]):
        with open(f, encoding="utf-8") as it:
            text = it.read()
        seen = {}
        here = dict(HERE.get(os.path.relpath(f, os.path.join(root, "crates")), {}))
        here.update({n: n for n in LIBRARY if re.search(r"use mathlib\.[^\n]*[{ ]" + n + "[,}]", text)})

        def turn(m):
            w = m[0]
            if w in here:
                seen[w] = here[w]
                return here[w]
            if w not in names:
                seen.setdefault(w, w)
                return w
            before = text[: m.start()]
            if before.endswith("tie."):
                return w
            seen[w] = names[w]
            return names[w]

        turned = TOKEN.sub(turn, text)
        back = {}
        for w, to in seen.items():
            back.setdefault(to, []).append(w)
        for to, ws in back.items():
            if len(ws) > 1:
                print("together:", os.path.relpath(f, root), ws)
        if turned != text and not report:
            with open(f, "w", encoding="utf-8") as it:
                it.write(turned)


if __name__ == "__main__":
    main(sys.argv[1:])
