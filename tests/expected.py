#!/usr/bin/env python3
"""Writes what the test program reads and must write, by the second program; with --check only says whether the stored files are those.

    python3 tests/expected.py [--check]

Its last line is 'N passed, M failed', a file each.
"""

import sys
from pathlib import Path

import generate
import second

TOP = Path(__file__).resolve().parent.parent
LARGEST = {"16384-bytes", "refused-1-0-16385-bytes"}  # of the texts of that size two are enough here
KINDS = {b"exit": 0, b"direct": 1, b"call": 2}


def texts():
    """Model texts for the reader: the vectors for `check`, and larger ones of the catalogue."""
    seen = []
    for path in sorted((TOP / "tests" / "vectors").glob("check-*.pd")):
        seen.append(path.read_bytes())
    for name, data in generate.large_models():
        if len(data) < 16384 or name in LARGEST:
            seen.append(data)
    return seen


def reading(data):
    """How a reading ends, and the whole record of an accepted one."""
    refusal, line, model = second.read_model(data)
    if refusal:
        return second.record(b"refused", refusal, line)
    rules = [n for rule in model.rules for n in (KINDS[rule.kind], rule.top, rule.first or 0, rule.second or 0)]
    moves = [n for move in model.moves for n in move]
    return b"".join([
        second.record(b"accepted", model.symbols, model.states, model.events, model.start_state, model.start_symbol,
                      len(model.rules), len(model.moves)),
        second.record(b"rules", *rules),
        second.record(b"moves", *moves),
        second.record(b"finals", *sorted(model.finals)),
        second.record(b"shows", *sorted(g * 16 + e for g, e in model.shows if e)),
    ])


SHORT = {1: "heads", 2: "triples", 3: "stack"}  # which array of the calls has no cells at all


def calls():
    """Models with a budget, a room and an array that is too short: the sharp cases, and every way that a call can refuse."""
    a, b = vector("check-model-a"), vector("check-model-b")
    sharp = [path.read_bytes() for path in sorted((TOP / "tests" / "vectors").glob("check-*.pd"))
             if "refused" not in path.name and path.stat().st_size < 400]
    last = generate.last_sharp_case().text()
    yield from ((data, 99999, 4096, 0) for data in sharp)
    yield from ((data, budget, 8, 0) for data in (a, b) for budget in range(6))
    yield from ((a, 24, room, 0) for room in (0, 1, 2, 3))
    yield (vector("check-start-state-final"), 0, 0, 0)  # an empty trace fits a room of 0
    yield from ((data, 24, 8, short) for data in (a, b) for short in SHORT)
    yield (b"", 24, 8, 0)  # no model is read: the empty record is refusal 6
    yield from ((last, 99999, room, 0) for room in (4096, 8192, 8193, 8194))


def vector(name):
    return (TOP / "tests" / "vectors" / f"{name}.pd").read_bytes()


def called(data, budget, room, short):
    """Every answer of the calls on one model, and the lent cells afterwards."""
    model = second.read_model(data)[2]
    heads, triples = [7] * (0 if short == 1 else 260), [7] * (0 if short == 2 else 2060)
    out, steps, stack = [], [9] * room, [5] * (0 if short == 3 else 8300)
    line = lambda word, a, b: out.append(second.record(word, a, b))
    refusal = 6 if model is None else 7 if short in (1, 2) else 0

    def check():
        if refusal:
            return line(b"check refused", refusal, 0)
        G, Q = model.symbols, model.states
        held = {(q, g): heads[q * G + g] for q in range(Q) for g in range(G) if heads[q * G + g] != 65535}
        erased = {(q, g, e): triples[(q * G + g) * Q + e] for q in range(Q) for g in range(G) for e in range(Q)
                  if triples[(q * G + g) * Q + e] != 65535}
        answer = second.check_table(model, held, erased)
        if answer == second.ACCEPTED:
            return line(b"accepted", 0, 0)
        reason, rule, move = answer
        return line(b"not closed", rule, move) if reason == 3 else line(b"check refused", 11, reason)

    check()
    if refusal:
        line(b"refused", refusal, 0)
        cells = (0, 0) if model is None else (model.symbols * model.states, model.symbols * model.states ** 2)
    else:
        G, Q = model.symbols, model.states
        cells = (G * Q, G * Q * Q)
        kind, rounds, held, erased = second.decide(model, budget)
        for q in range(Q):
            for g in range(G):
                heads[q * G + g] = held.get((q, g), 65535)
                for e in range(Q):
                    triples[(q * G + g) * Q + e] = erased.get((q, g, e), 65535)
        line(*((b"refused", 8, budget) if kind == "budget" else (kind.encode(), rounds, 0)))
    out.append(second.record(b"heads", *heads[:cells[0]]))
    out.append(second.record(b"triples", *triples[:cells[1]]))
    line(b"sevens", heads.count(7), triples.count(7))
    check()

    stored = 0
    if refusal:
        line(b"trace refused", refusal, 0)
    else:
        kind, rounds, _, _, found = second.trace(model, budget, room)
        stored = len(found)
        steps[:stored] = found
        said = {"budget": (b"trace refused", 8, budget), "safe": (b"trace refused", 9, rounds), "cut": (b"trace cut", rounds, room),
                "violation": (b"trace", rounds, stored)}
        line(*said[kind])
    out.append(second.record(b"steps", *steps[:12]))
    if model is None:
        line(b"replay refused", 6, 0)
    elif len(stack) < stored + 1:
        line(b"replay refused", 7, 0)
    else:
        answer = second.replay(model, steps[:stored])
        line(*((b"replayed", 0, 0) if answer == second.ACCEPTED else (b"replay refused", 12, answer)))
        stack[:stored + 1] = [0] * (stored + 1)
    line(b"cleared", stack.count(0), 0)
    return b"".join(out)


def files():
    """The rows of the test program `calls`: texts that are only read, then models that the calls are made on."""
    rows = [((data,), reading(data)) for data in texts()] + [(row, called(*row)) for row in calls()]
    yield "crates/calls/stdin", b"".join(second.record(b"%d" % len(data), *numbers) + data for (data, *numbers), _ in rows)
    yield "crates/calls/stdout", b"".join(written for _, written in rows)


def main():
    check, faults, total = "--check" in sys.argv, 0, 0
    for name, data in files():
        path, total = TOP / name, total + 1
        if not check:
            path.write_bytes(data)
        elif not path.exists() or path.read_bytes() != data:
            faults += 1
            print(f"{name} is not what the second program says")
    print(f"{total - faults} passed, {faults} failed")
    sys.exit(1 if faults else 0)


if __name__ == "__main__":
    main()
