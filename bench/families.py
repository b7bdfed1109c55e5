#!/usr/bin/env python3
"""Models that grow in one thing while the others stay, to see how the cost grows with it.

    python3 bench/families.py DIR           writes DIR/FAMILY-N.pd
    bench/run --fast DIR/*.pd               instructions of the whole programs
    bench/decision DIR/*.pd                 instructions of the decision alone

| family | N | the same in all of it |
|---|---|---|
| rounds | rounds, 33 to 1,930 | 34 rules, 24 moves |
| rules | rules, 34 to 256, all of them redone as the ring turns | 1,866 rounds, 32 moves |
| wide | rules, 32 to 256 | 3 rounds, 8 moves |
| moves | moves, 24 to 128 | 1,930 rounds, 34 rules |
| facts | facts, 49 to 2,177 | 3 rounds, 256 rules, 64 moves |
| steps | steps of the trace, 16 to 4,096 | 32 symbols, 2 moves |
"""

import sys
from itertools import cycle, islice
from pathlib import Path

sys.path.insert(0, str(Path(__file__).resolve().parent.parent / "tests"))
from generate import Draft, doubling  # noqa: E402
import second  # noqa: E402

BEHIND, LAST, AT_ONCE = 30, 31, 29  # the symbol behind the ring, the one left below its call, one that is erased at once


def repeated(things, count):
    """The same over and over, up to this many."""
    return list(islice(cycle(things), count))


def ring(wheel, states, step):
    """The ring of rank-direct-s: it turns through these states once for each end state, and adds about a fact a round.

    A symbol of the wheel goes to the next one, the last of them also behind the ring; `step` says by which rule.
    """
    draft = Draft(32, 8, 16)
    draft.events = [(i, 1) for i in range(wheel - 1)] + [(wheel - 1, 2), (LAST, 3), (BEHIND, 4)]
    draft.rules = [("exit", LAST), ("exit", BEHIND), ("call", BEHIND, 0, LAST)]
    draft.rules += [step(i, (i + 1) % wheel) for i in range(wheel)] + [step(wheel - 1, BEHIND)]
    draft.moves = [(s, 1, s) for s in range(states)] + [(s, 2, (s + 1) % states) for s in range(states)]
    draft.moves += [(s, 3, s + 1) for s in range(states - 1)] + [(0, 4, 0)]
    return draft


def by_direct(g, after):
    return ("direct", g, after)


def by_call(g, after):
    return ("call", g, AT_ONCE, after)


def rounds():
    """The ring turns through fewer states or more; what is saved in moves is filled with repeated ones."""
    for states in range(1, 9):
        draft = ring(30, states, by_direct)
        draft.moves = repeated(draft.moves, 24)
        yield second.decide(draft.model(), 1 << 32)[1], draft


def rules():
    """The ring by calls of a symbol that is erased at once, each written as often as the number asks for."""
    for count in (34, 64, 128, 192, 256):
        draft = ring(29, 8, by_call)
        draft.events += [(AT_ONCE, 6)]
        draft.moves += [(s, 6, s) for s in range(8)]
        calls = draft.rules[3:]
        draft.rules = [("exit", AT_ONCE)] + draft.rules[:3] + repeated(calls, count - 4)
        yield count, draft


def wide():
    """Callers 0 to 15, no rule twice, of symbols 16 to 31 that are erased at once: few rounds, whatever the number of rules."""
    pairs = [(16 + (i + k) % 16, 16 + (i * 7 + 3 * k) % 16) for k in range(15) for i in range(16)]
    for count in (32, 64, 128, 192, 256):
        draft = Draft(32, 8, 16)
        draft.rules = [("exit", 16 + i) for i in range(16)]
        draft.rules += [("call", i % 16, *pair) for i, pair in enumerate(pairs[:count - 16])]
        draft.moves = [(s, 0, (s + 1) % 8) for s in range(8)]
        yield count, draft


def moves():
    """The ring with its moves repeated."""
    for count in (24, 48, 72, 96, 128):
        draft = ring(30, 8, by_direct)
        draft.moves = repeated(draft.moves, count)
        yield count, draft


def facts():
    """The widest of `wide` with moves from every state to every state below a number, so that so many facts are held."""
    for states in range(1, 9):
        draft = list(wide())[-1][1]
        draft.moves = repeated([(s, 0, t) for s in range(states) for t in range(states)], 64)
        held = second.decide(draft.model(), 1 << 32)
        yield len(held[2]) + len(held[3]), draft


def steps():
    """Traces of a wanted length: a symbol calls the next one twice."""
    for count in (16, 64, 256, 1024, 4096):
        yield count, doubling(count)


def main():
    directory = Path(sys.argv[1])
    directory.mkdir(parents=True, exist_ok=True)
    for family in (rounds, rules, wide, moves, facts, steps):
        for number, draft in family():
            assert second.read_model(draft.text())[0] == 0, "not within the limits"
            (directory / f"{family.__name__}-{number:04d}.pd").write_bytes(draft.text())


if __name__ == "__main__":
    if len(sys.argv) != 2:
        sys.exit("usage: families.py DIR")
    main()
