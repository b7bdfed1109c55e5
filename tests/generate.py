#!/usr/bin/env python3
"""Inputs for the two programs: a catalogue with names, and random ones without end.

    from generate import cases
    for program, data in cases(seed, count): ...     program is "check" or "recheck", data is bytes

    python3 tests/generate.py vectors DIR    writes the small part of the catalogue, with answers, to DIR
    python3 tests/generate.py write SEED COUNT DIR    writes cases as DIR/000000.check and so on

The same seed gives the same cases. Names in the catalogue that say `refused-N-L` promise the answer:
refusal N, line L; `refused-11-R-r-m` promises reason, rule and move.
"""

import os
import random
import sys
from collections import namedtuple

import second

Case = namedtuple("Case", "name program data")


# ---------------------------------------------------------------- small tools

def line(*fields):
    """One record: a word and its numbers."""
    return b"\t".join(f if isinstance(f, bytes) else str(f).encode() for f in fields)


def text(lines):
    return b"".join(one + b"\n" for one in lines)


def lines_of(data):
    return data.split(b"\n")[:-1]


def put(lines, number, new):
    """The lines with line `number` (from 1) replaced; behind the last one it is added."""
    return lines[:number - 1] + [new] + lines[number:]


def before(lines, number, new):
    """The lines with a new one that gets this number."""
    return lines[:number - 1] + [new] + lines[number - 1:]


def without(lines, *numbers):
    return [one for number, one in enumerate(lines, 1) if number not in numbers]


class Draft:
    """A model while it is being made up; `lines` writes it as text."""

    def __init__(self, symbols, states, events):
        self.size = (symbols, states, events)
        self.start = (0, 0)
        self.finals, self.events, self.rules, self.moves = [], [], [], []

    def lines(self):
        out = [line("size", *self.size), line("start", *self.start)]
        out += [line("final", q) for q in self.finals]
        out += [line("event", g, e) for g, e in self.events]
        out += [line(*rule) for rule in self.rules]
        out += [line("move", *move) for move in self.moves]
        return out

    def text(self):
        return text(self.lines())

    def model(self):
        refusal, where, model = second.read_model(self.text())
        assert refusal == 0, (refusal, where)
        return model


# ---------------------------------------------------------------- models with a name

A = [
    line("size", 4, 2, 2), line("start", 0, 0), line("final", 1), line("event", 2, 1),
    line("call", 0, 2, 1), line("direct", 2, 3), line("exit", 3),
    line("move", 0, 0, 0), line("move", 0, 1, 1),
]
B = without(A, 4)
B_LISTING = [
    line("safe", 4, 4, 2),
    line("head", 0, 0, 0), line("head", 0, 1, 3), line("head", 0, 2, 1), line("head", 0, 3, 2),
    line("erase", 0, 2, 0, 2), line("erase", 0, 3, 0, 1),
]
TINY = [line("size", 1, 1, 1), line("start", 0, 0)]

# The published example. Symbols m0 m1 s0 to s6 are 0 to 8; s3 shows e1; `any` is event 0.
PAPER = [
    line("size", 9, 2, 2), line("start", 0, 0), line("final", 1), line("event", 5, 1),
    line("call", 0, 2, 1), line("direct", 1, 1), line("direct", 2, 3), line("direct", 2, 4),
    line("call", 3, 2, 5), line("direct", 5, 6), line("direct", 4, 6), line("exit", 6),
    line("direct", 2, 7), line("direct", 7, 8), line("direct", 8, 7), line("direct", 8, 6),
    line("move", 0, 0, 0), line("move", 0, 1, 1), line("move", 1, 0, 1),
]


def documented():
    """The worked models of the description, and the paper's."""
    yield "model-a", A
    yield "model-b", B
    yield "a-without-first-move", without(A, 8)
    yield "one-exit-into-final-over-empty-stack", [
        line("size", 1, 2, 2), line("start", 0, 0), line("final", 1), line("event", 0, 1),
        line("exit", 0), line("move", 0, 1, 1)]
    yield "start-state-final", TINY + [line("final", 0)]
    yield "no-rule", TINY
    yield "exit-and-move-meets-the-bound", TINY + [line("exit", 0), line("move", 0, 0, 0)]
    yield "paper", PAPER
    # Without a final state the listing is the whole erase relation of the paper's figure: 17 triples.
    yield "paper-without-final-has-17-triples", without(PAPER, 3)


def slips():
    """Models on which a likely mistake shows."""
    two = [line("size", 2, 2, 2), line("start", 0, 0), line("final", 1)]
    yield "event-is-of-the-symbol-before-the-step", two + [
        line("event", 1, 1), line("direct", 0, 1), line("move", 0, 1, 1)]
    yield "stuck-property-ends-the-run", two + [
        line("event", 1, 1), line("direct", 0, 1), line("direct", 1, 1), line("move", 0, 1, 1)]
    yield "wildcard-without-a-line", two + [line("direct", 0, 1), line("move", 0, 0, 1)]
    yield "wildcard-with-a-line", two + [
        line("event", 0, 0), line("direct", 0, 1), line("move", 0, 0, 1)]
    yield "order-after-size-is-free", [A[0]] + A[:0:-1]
    yield "repeated-final-and-event-change-nothing", A[:4] + [A[2], A[3]] + A[4:]
    yield "repeated-rules-and-moves-keep-numbers", A[:4] + [A[6]] * 2 + A[4:] + [A[8]] * 2
    yield "largest-numbers-in-range", [
        line("size", 32, 8, 16), line("start", 7, 31), line("final", 0), line("event", 31, 15),
        line("call", 31, 31, 31), line("direct", 31, 31), line("exit", 31), line("move", 7, 15, 7)]
    yield "unreached-erases-are-listed", [
        line("size", 3, 2, 1), line("start", 0, 0), line("exit", 2), line("direct", 1, 2),
        line("move", 1, 0, 1), line("move", 1, 0, 0)]
    yield "endless-recursion-is-safe", [
        line("size", 2, 2, 1), line("start", 0, 0), line("final", 1), line("call", 0, 0, 1),
        line("exit", 1), line("move", 0, 0, 0)]
    yield "recursion-must-come-back", [
        line("size", 2, 3, 3), line("start", 0, 0), line("final", 2), line("event", 0, 1),
        line("event", 1, 2), line("call", 0, 0, 1), line("exit", 0), line("exit", 1),
        line("move", 0, 0, 0), line("move", 0, 1, 1), line("move", 1, 2, 2)]


def choices():
    """Models on which the trace has a choice to make."""
    one = [line("size", 3, 3, 3), line("start", 0, 0)]
    yield "choice-heads-before-triples", one + [
        line("final", 1), line("exit", 0), line("direct", 0, 1), line("move", 0, 0, 1)]
    yield "choice-lowest-state", one + [
        line("final", 2), line("final", 1), line("direct", 0, 1), line("move", 0, 0, 2), line("move", 0, 0, 1)]
    yield "choice-lowest-symbol", one + [
        line("final", 1), line("direct", 0, 2), line("direct", 0, 1), line("move", 0, 0, 1)]
    yield "choice-lowest-end-state", one + [
        line("final", 1), line("final", 2), line("exit", 0), line("move", 0, 0, 2), line("move", 0, 0, 1)]
    yield "choice-first-rule-then-first-move", one + [
        line("final", 1), line("event", 0, 1), line("direct", 0, 1), line("direct", 0, 1),
        line("move", 0, 1, 1), line("move", 0, 0, 1)]
    # Rule 1 with move 0 gives head (0, 1) by entering and by returning, both in round 2.
    yield "choice-entering-before-returning", [
        line("size", 4, 3, 2), line("start", 0, 0), line("final", 2), line("event", 3, 1),
        line("direct", 0, 2), line("call", 2, 1, 1), line("exit", 1), line("direct", 1, 3), line("direct", 3, 3),
        line("move", 0, 0, 0), line("move", 0, 1, 2)]
    # Head (0, 2) has rank 3 both ways: rule 0 returns to it, rule 5 enters it. The earlier rule is taken.
    yield "choice-earlier-rule-that-returns", [
        line("size", 6, 2, 2), line("start", 0, 0), line("final", 1), line("event", 2, 1),
        line("call", 0, 1, 2), line("exit", 3), line("direct", 1, 3), line("direct", 0, 4),
        line("direct", 4, 5), line("call", 5, 2, 2), line("direct", 2, 2),
        line("move", 0, 0, 0), line("move", 0, 1, 1)]
    # Rule 0 would explain head (0, 1) out of a head of higher rank, which is not allowed.
    yield "choice-needs-lower-rank", [
        line("size", 3, 2, 2), line("start", 0, 0), line("final", 1), line("event", 1, 1),
        line("direct", 2, 1), line("direct", 1, 2), line("direct", 0, 1),
        line("move", 0, 0, 0), line("move", 0, 1, 1)]
    # g1 can be erased into states 1 and 2, g2 from both into 0: the middle is 1, though 2 comes first in text.
    yield "choice-lowest-middle-state", [
        line("size", 4, 4, 4), line("start", 0, 0), line("final", 3), line("event", 1, 1),
        line("event", 2, 2), line("event", 3, 3), line("call", 0, 1, 2), line("exit", 1), line("exit", 2),
        line("move", 0, 0, 0), line("move", 0, 1, 2), line("move", 0, 1, 1), line("move", 2, 2, 3),
        line("move", 1, 2, 3)]
    # Two callees inside a triple: their runs stand in the order in which they happen.
    yield "choice-runs-in-the-order-they-happen", [
        line("size", 6, 2, 2), line("start", 0, 0), line("final", 1), line("event", 5, 1),
        line("call", 0, 1, 5), line("call", 1, 2, 3), line("direct", 2, 4), line("exit", 3), line("exit", 4),
        line("direct", 5, 5), line("move", 0, 0, 0), line("move", 0, 1, 1)]
    # Heads (1, 3) and (2, 2) both come in round 2; the lower state's run passes through the other.
    yield "choice-does-not-stop-at-an-earlier-final-state", [
        line("size", 4, 3, 2), line("start", 0, 0), line("final", 1), line("final", 2), line("event", 1, 1),
        line("direct", 0, 1), line("call", 1, 2, 3), line("exit", 2),
        line("move", 0, 0, 0), line("move", 0, 1, 2), line("move", 2, 0, 1)]


# ---------------------------------------------------------------- refused model texts

def malformed_lines():
    """Refusal 2: A with line 5, `call 0 2 1`, spoiled in every way."""
    good = A[4]
    for why, bad in [
        ("empty-line", b""),
        ("unknown-word", line("jump", 0, 2, 1)),
        ("word-in-capitals", line("CALL", 0, 2, 1)),
        ("word-too-short", line("cal", 0, 2, 1)),
        ("word-too-long", line("calls", 0, 2, 1)),
        ("no-word", line("", 0, 2, 1)),
        ("word-of-a-listing-head", line("head", 0, 2, 1)),
        ("word-of-a-listing-safe", line("safe", 0, 2, 1)),
        ("word-alone", b"call"),
        ("field-missing", line("call", 0, 2)),
        ("field-too-many", good + b"\t1"),
        ("empty-field", line("call", 0, "", 1)),
        ("trailing-tab", good + b"\t"),
        ("leading-tab", b"\t" + good),
        ("two-tabs", b"call\t\t0\t2\t1"),
        ("spaces-for-tabs", b"call 0 2 1"),
        ("leading-space", b" " + good),
        ("trailing-space", good + b" "),
        ("space-in-a-field", b"call\t0\t 2\t1"),
        ("carriage-return", good + b"\r"),
        ("nul-at-the-end", good + b"\0"),
        ("nul-in-the-word", b"ca\0ll\t0\t2\t1"),
        ("nul-for-a-number", b"call\t0\t\0\t1"),
        ("byte-above-127", b"call\t0\t\xb2\t1"),
        ("digit-of-another-script", "call\t0\t\u0662\t1".encode()),
        ("vertical-tab", good + b"\x0b"),
        ("form-feed-for-tab", b"call\x0c0\t2\t1"),
        ("record-separator", good + b"\x1e" + good),
        ("six-digits", line("call", 0, "100000", 1)),
        ("six-digits-that-wrap", line("call", 0, 2 * 65536 + 2, 1)),
        ("six-zeros", line("call", 0, "000000", 1)),
        ("ten-digits-that-wrap", line("call", 0, "4294967298", 1)),
        ("leading-zero", line("call", 0, "02", 1)),
        ("zero-twice", line("call", "00", 2, 1)),
        ("plus-sign", line("call", 0, "+2", 1)),
        ("minus-sign", line("call", 0, "-2", 1)),
        ("minus-zero", line("call", "-0", 2, 1)),
        ("hexadecimal", line("call", 0, "0x2", 1)),
        ("underscore", line("call", 0, "1_0", 1)),
        ("decimal-point", line("call", 0, "2.", 1)),
        ("colon-follows-nine", line("call", 0, ":", 1)),
        ("slash-precedes-zero", line("call", 0, "/", 1)),
        ("letter-for-a-number", line("call", 0, "x", 1)),
        ("out-of-range-too", line("call", 99, "02", 1)),
        ("out-of-range-too-and-field-too-many", line("call", 99, 2, 1, 1)),
        ("second-start-malformed", line("start", 0)),
        ("second-start-malformed-number", line("start", 0, "00")),
        ("second-size-malformed", line("size", 4, 2)),
    ]:
        yield "refused-2-5-" + why, text(put(A, 5, bad))


def malformed_texts():
    """Refusal 2 by where the fault stands, not by what it is."""
    a = text(A)
    yield "refused-2-1-lone-line-feed", b"\n"
    yield "refused-2-1-empty-first-line", b"\n" + a
    yield "refused-2-1-one-letter", b"x"
    yield "refused-2-1-nul-alone", b"\0"
    yield "refused-2-1-size-without-line-feed", A[0]
    yield "refused-2-1-size-lacks-a-field", text(put(A, 1, line("size", 4, 2)))
    yield "refused-2-1-size-leading-zero", text(put(A, 1, line("size", "04", 2, 2)))
    yield "refused-2-1-byte-order-mark", b"\xef\xbb\xbf" + a
    yield "refused-2-1-carriage-returns-only", a.replace(b"\n", b"\r")
    yield "refused-2-1-carriage-returns-too", a.replace(b"\n", b"\r\n")
    yield "refused-2-1-not-size-and-malformed", text(put(A, 1, line("start", 0)))
    yield "refused-2-2-size-then-empty-line", A[0] + b"\n\n"
    yield "refused-2-9-last-line-feed-missing", a[:-1]
    yield "refused-2-9-last-line-feed-missing-out-of-range", text(A[:-1]) + line("move", 0, 9, 1)
    yield "refused-2-9-last-line-feed-missing-second-start", text(A[:-1]) + A[1]
    yield "refused-2-10-empty-last-line", a + b"\n"
    yield "refused-2-10-tab-behind-the-end", a + b"\t"
    yield "refused-2-10-nul-behind-the-end", a + b"\0"
    yield "refused-2-3-first-of-two-bad-lines", text(put(put(A, 3, b"final"), 6, line("direct", 2, 4)))
    yield "refused-2-3-start-absent-too", text(put(without(A, 2), 3, b"event"))


def misplaced():
    """Refusal 3."""
    yield "refused-3-0-empty-text", b""
    yield "refused-3-0-start-absent", text(without(A, 2))
    yield "refused-3-0-size-alone", text(A[:1])
    yield "refused-3-1-size-absent", text(without(A, 1))
    yield "refused-3-1-size-second", text([A[1], A[0]] + A[2:])
    yield "refused-3-1-size-last", text(A[1:] + A[:1])
    yield "refused-3-1-first-line-not-size-and-out-of-range", text(before(A, 1, line("exit", 99999)))
    yield "refused-3-1-start-alone", text([A[1]])
    yield "refused-3-2-size-twice", text(before(A, 2, A[0]))
    yield "refused-3-10-size-twice-at-the-end", text(A + [A[0]])
    yield "refused-3-5-size-twice-out-of-range", text(before(A, 5, line("size", 0, 9, 99999)))
    yield "refused-3-3-start-twice-the-same", text(before(A, 3, A[1]))
    yield "refused-3-10-start-twice-another", text(A + [line("start", 1, 3)])
    yield "refused-3-10-start-twice-out-of-range", text(A + [line("start", 2, 99999)])
    yield "refused-3-4-before-a-number-out-of-range", text(put(put(A, 4, A[1]), 6, line("exit", 4)))


A_NUMBERS = [  # word, line, its numbers, the first value too large for each
    ("size", 1, (4, 2, 2), (33, 9, 17)), ("start", 2, (0, 0), (2, 4)), ("final", 3, (1,), (2,)),
    ("event", 4, (2, 1), (4, 2)), ("call", 5, (0, 2, 1), (4, 4, 4)), ("direct", 6, (2, 3), (4, 4)),
    ("exit", 7, (3,), (4,)), ("move", 8, (0, 0, 0), (2, 2, 2)),
]


def outside(values_for):
    """Refusal 4: A with each of its numbers in turn replaced by each of these values."""
    for word, at, good, limits in A_NUMBERS:
        for place, limit in enumerate(limits):
            for value in values_for(word, good[place], limit):
                values = good[:place] + (value,) + good[place + 1:]
                yield "refused-4-%d-%s-field-%d-is-%d" % (at, word, place + 1, value), text(
                    put(A, at, line(word, *values)))


def just_outside():
    yield from outside(lambda word, good, limit: [limit, 0] if word == "size" else [limit])
    yield "refused-4-4-first-of-two-bad-lines", text(put(put(A, 4, line("event", 2, 2)), 5, b""))
    yield "refused-4-3-start-absent-too", text(put(without(A, 2), 3, line("event", 4, 1)))


def far_outside():
    """Where a number kept too narrow would wrap to the good one."""
    yield from outside(lambda word, good, limit: [256 + good, 65536 + good, 99999])


# ---------------------------------------------------------------- large model texts

WIDE = [line("size", 32, 8, 16), line("start", 0, 0)]


def many_rules(count, words=("exit", "direct", "call")):
    """Rule lines, the three words in turn."""
    fields = {"exit": 1, "direct": 2, "call": 3}
    return [line(w, *[(i + k) % 32 for k in range(fields[w])])
            for i in range(count) for w in [words[i % len(words)]]]


def many_moves(count):
    return [line("move", i % 8, i % 16, (i // 3) % 8) for i in range(count)]


def padded(lines, size):
    """The lines with repeated wildcard events behind, which change nothing, up to exactly this many bytes."""
    rest = size - len(text(lines))
    ten, eleven = line("event", 0, 0), line("event", 10, 0)  # with their line feeds 10 and 11 bytes
    longs = rest % 10
    assert rest >= 11 * longs
    return text(lines + [eleven] * longs + [ten] * ((rest - 11 * longs) // 10))


def large_models():
    """Counts and sizes at their limits, and one past them."""
    full = WIDE + many_rules(256) + many_moves(128)
    past = len(full) + 1
    yield "256-rules-128-moves", text(full)
    yield "refused-5-%d-rule-257" % past, text(full + [line("exit", 0)])
    yield "refused-5-%d-rule-257-call" % past, text(full + [line("call", 0, 0, 0)])
    yield "refused-4-%d-rule-257-out-of-range" % past, text(full + [line("direct", 0, 32)])
    yield "refused-2-%d-rule-257-malformed" % past, text(full + [line("direct", 0)])
    yield "refused-2-%d-rule-257-without-line-feed" % past, text(full) + line("exit", 0)
    yield "refused-3-%d-second-start-behind-256-rules" % past, text(full + [WIDE[1]])
    yield "refused-5-%d-move-129" % past, text(full + [line("move", 0, 0, 0)])
    yield "refused-4-%d-move-129-out-of-range" % past, text(full + [line("move", 0, 16, 0)])
    yield "refused-2-%d-move-129-malformed" % past, text(full + [line("move", 0, 0)])
    yield "refused-5-%d-first-of-rule-257-and-move-129" % past, text(
        full + [line("move", 0, 0, 0), line("exit", 0)])
    yield "refused-5-258-rule-257-start-absent", text(WIDE[:1] + many_rules(257))
    yield "refused-5-130-move-129-start-absent", text(WIDE[:1] + many_moves(129))
    yield "refused-5-259-only-exits", text(WIDE + many_rules(300, ["exit"]))
    yield "refused-4-3-before-rule-257", text(WIDE + [line("exit", 32)] + many_rules(257))
    yield "16384-bytes", padded(full, 16384)
    yield "16383-bytes", padded(full, 16383)
    yield "refused-1-0-16385-bytes", padded(full, 16385)
    yield "refused-1-0-16385-bytes-malformed-too", b"\n" * 16385
    yield "refused-2-1-16384-line-feeds", b"\n" * 16384
    yield "refused-2-1-16384-bytes-one-line", b"x" * 16384
    yield "refused-1-0-70000-bytes", padded(full, 70000)
    yield "refused-1-0-65536-bytes", padded(full, 65536)
    whole = padded(full, 16384)
    yield "refused-2-%d-16384-bytes-last-line-feed-missing" % len(lines_of(whole)), whole[:-1] + b"0"


# ---------------------------------------------------------------- listings

def shown(model_lines, listing_lines):
    return text(model_lines) + text(listing_lines)


def accepted_listings():
    l = B_LISTING
    yield "accepted-b", shown(B, l)
    yield "accepted-b-lines-in-another-order", shown(B, l[:1] + l[:0:-1])
    yield "accepted-ranks-are-not-looked-at", shown(B, [l[0]] + [x.rsplit(b"\t", 1)[0] + b"\t7" for x in l[1:]])
    yield "accepted-rounds-and-ranks-65534", shown(
        B, [line("safe", 65534, 4, 2)] + [x.rsplit(b"\t", 1)[0] + b"\t65534" for x in l[1:]])
    yield "accepted-rounds-0", shown(B, put(l, 1, line("safe", 0, 4, 2)))
    yield "accepted-b-with-two-more-triples", shown(
        B, [line("safe", 4, 4, 4)] + l[1:] + [line("erase", 0, 1, 0, 5), line("erase", 0, 0, 0, 6)])
    yield "accepted-no-rule", shown(TINY, [line("safe", 1, 1, 0), line("head", 0, 0, 0)])


def refused_tables():
    """Refusal 11, the reasons in their order, the first rule and move that are not closed."""
    l = B_LISTING
    yield "refused-11-1-0-0-start-head-absent", shown(B, [line("safe", 4, 3, 2)] + l[2:])
    yield "refused-11-1-0-0-empty-table", shown(B, [line("safe", 0, 0, 0)])
    yield "refused-11-1-0-0-start-absent-and-violating", shown(
        B, [line("safe", 4, 4, 2), line("head", 1, 0, 0)] + l[2:])
    yield "refused-11-2-0-0-head-in-a-final-state", shown(
        B, [line("safe", 4, 5, 2)] + l[1:] + [line("head", 1, 3, 9)])
    yield "refused-11-2-0-0-start-triple-into-a-final-state", shown(
        B, [line("safe", 4, 4, 3)] + l[1:] + [line("erase", 0, 0, 1, 9)])
    yield "refused-11-2-0-0-violating-and-not-closed", shown(
        B, [line("safe", 4, 2, 0), l[1], line("head", 1, 0, 1)])
    yield "refused-11-3-0-0-another-triple-into-a-final-state", shown(
        B, [line("safe", 4, 4, 3)] + l[1:] + [line("erase", 0, 1, 1, 9)])
    yield "refused-11-3-1-0-b-without-erase-0-2-0", shown(B, [line("safe", 4, 4, 1)] + without(l[1:], 5))
    yield "refused-11-3-0-0-b-with-erase-0-1-0", shown(
        B, [line("safe", 4, 4, 3)] + l[1:] + [line("erase", 0, 1, 0, 9)])
    yield "refused-11-3-2-0-exit-triple-absent", shown(B, [line("safe", 4, 4, 1)] + without(l[1:], 6))
    yield "refused-11-3-0-0-returned-head-absent", shown(B, [line("safe", 4, 3, 2)] + without(l[1:], 2))
    yield "refused-11-3-0-0-entered-head-absent", shown(B, [line("safe", 4, 3, 2)] + without(l[1:], 3))
    yield "refused-11-3-1-0-direct-head-absent", shown(B, [line("safe", 4, 3, 2)] + without(l[1:], 4))
    yield "refused-11-3-0-0-start-head-alone", shown(B, [line("safe", 4, 1, 0), l[1]])
    yield "refused-11-3-1-1-listing-of-b-for-a", shown(A, l)
    unfinal = without(A, 3)  # A that forgives state 1: an added head there is no violation
    yield "refused-11-3-1-1-a-without-final-listing-of-b", shown(unfinal, l)


def refused_listings():
    """Refusals 1 to 4 out of a listing; its lines are counted from its own first."""
    l = B_LISTING
    head, erase = l[2], l[6]
    yield "refused-3-0-no-listing", text(B)
    yield "refused-2-1-safe-alone-without-line-feed", text(B) + b"safe"
    for why, bad in [
        ("safe-alone", b"safe"), ("safe2", line("safe2", 4, 4, 2)), ("safety", line("safety", 4, 4, 2)),
        ("safe-with-a-space", b"safe 4 4 2"), ("safe-lacks-a-field", line("safe", 4, 4)),
        ("safe-field-too-many", line("safe", 4, 4, 2, 0)), ("safe-trailing-tab", l[0] + b"\t"),
        ("safe-rounds-six-digits", line("safe", 100000, 4, 2)),
        ("safe-count-six-digits", line("safe", 4, 100000, 2)),
        ("safe-count-leading-zero", line("safe", 4, 4, "02")),
        ("safe-carriage-return", l[0] + b"\r"),
    ]:
        yield "refused-2-1-" + why, shown(B, put(l, 1, bad))
    for why, bad in [
        ("unknown-word", line("tail", 0, 1, 3)), ("word-of-a-model", line("final", 1)),
        ("start-line-of-a-model", line("start", 0, 0)), ("empty-line", b""),
        ("head-lacks-its-rank", line("head", 0, 1)), ("erase-lacks-its-rank", line("erase", 0, 1, 0)),
        ("head-field-too-many", line("head", 0, 1, 3, 0)), ("erase-field-too-many", line("erase", 0, 1, 0, 3, 0)),
        ("rank-leading-zero", line("head", 0, 1, "03")), ("rank-six-digits", line("head", 0, 1, 100000)),
        ("trailing-space", head + b" "), ("carriage-return", head + b"\r"), ("nul", head + b"\0"),
        ("twice-and-malformed", line("head", 0, 0, "00")), ("safe2-later", line("safe2", 4, 4, 2)),
        ("second-safe-malformed", line("safe", 4)), ("out-of-range-and-malformed", line("head", 9, "01", 3)),
    ]:
        yield "refused-2-3-" + why, shown(B, put(l, 3, bad))
    yield "refused-2-7-last-line-feed-missing", shown(B, l)[:-1]
    yield "refused-2-8-empty-last-line", shown(B, l + [b""])
    yield "refused-3-2-safe-twice", shown(B, before(l, 2, l[0]))
    yield "refused-3-8-safe-twice-at-the-end", shown(B, l + l[:1])
    yield "refused-3-4-safe-twice-rounds-out-of-range", shown(B, before(l, 4, line("safe", 65535, 4, 2)))
    yield "refused-3-8-head-twice", shown(B, put(l, 1, line("safe", 4, 5, 2)) + [head])
    yield "refused-3-8-head-twice-other-rank", shown(B, l + [line("head", 0, 1, 9)])
    yield "refused-3-8-head-twice-rank-out-of-range", shown(B, l + [line("head", 0, 1, 65535)])
    yield "refused-3-8-erase-twice", shown(B, put(l, 1, line("safe", 4, 4, 3)) + [erase])
    yield "refused-3-8-erase-twice-rank-out-of-range", shown(B, l + [line("erase", 0, 3, 0, 99999)])
    for why, counts in [
        ("heads-one-more", (5, 2)), ("heads-one-less", (3, 2)), ("triples-one-more", (4, 3)),
        ("triples-one-less", (4, 1)), ("heads-and-triples-exchanged", (2, 4)), ("sum-right", (3, 3)),
        ("zero", (0, 0)), ("99999", (99999, 99999)), ("wrap-to-right", (65536 + 4, 65536 + 2)),
        ("wrap-a-byte", (256 + 4, 2)),
    ]:
        yield "refused-3-0-counts-" + why, shown(B, put(l, 1, line("safe", 4, *counts)))
    yield "refused-3-0-header-alone", shown(B, l[:1])
    yield "refused-4-8-counts-wrong-too", shown(B, put(l, 1, line("safe", 4, 9, 9)) + [line("head", 0, 4, 0)])
    for value in (65535, 65536, 99999):
        yield "refused-4-1-rounds-%d" % value, shown(B, put(l, 1, line("safe", value, 4, 2)))
        yield "refused-4-3-head-rank-%d" % value, shown(B, put(l, 3, line("head", 0, 1, value)))
        yield "refused-4-7-erase-rank-%d" % value, shown(B, put(l, 7, line("erase", 0, 3, 0, value)))
    yield "refused-4-1-rounds-65535-counts-wrong-too", shown(B, put(l, 1, line("safe", 65535, 0, 0)))
    for why, bad in [
        ("head-state", line("head", 2, 1, 3)), ("head-symbol", line("head", 0, 4, 3)),
        ("head-state-wraps", line("head", 65536, 1, 3)), ("erase-state", line("erase", 2, 1, 0, 3)),
        ("erase-symbol", line("erase", 0, 4, 0, 3)), ("erase-end-state", line("erase", 0, 1, 2, 3)),
        ("erase-end-state-wraps", line("erase", 0, 1, 256, 3)),
        # q*G+g of (0, 5) is the cell of (1, 1): a symbol out of range must not land in another's cell
        ("head-symbol-in-another-cell", line("head", 0, 5, 3)),
    ]:
        yield "refused-4-3-" + why, shown(B, put(l, 3, bad))
    yield "refused-4-3-out-of-range-twice", shown(B, before(put(l, 3, line("head", 2, 1, 3)), 4, line("head", 2, 1, 3)))


def refused_before_the_listing():
    """What the model's part decides, whatever the listing is."""
    l = B_LISTING
    yield "refused-3-0-empty-text", b""
    yield "refused-2-1-lone-line-feed", b"\n"
    yield "refused-3-0-listing-without-model", text(l)
    yield "refused-2-1-safe-behind-a-line-feed", b"\n" + text(l)
    yield "refused-2-9-unsafe-is-the-models", shown(B, put(l, 1, line("unsafe", 4, 4, 2)))
    yield "refused-2-9-capital-safe-is-the-models", shown(B, put(l, 1, line("Safe", 4, 4, 2)))
    yield "refused-2-9-space-before-safe-is-the-models", shown(B, put(l, 1, b" " + l[0]))
    yield "refused-2-9-saf-is-the-models", shown(B, put(l, 1, line("saf", 4, 4, 2)))
    yield "refused-2-9-head-before-safe-is-the-models", shown(B, [l[1], l[0]] + l[2:])
    yield "refused-2-8-no-line-feed-before-safe", text(B)[:-1] + text(l)
    yield "refused-2-8-carriage-return-before-safe", text(B)[:-1] + b"\r" + text(l)
    yield "refused-2-9-empty-line-before-safe", text(B) + b"\n" + text(l)
    yield "refused-3-0-start-absent-listing-bad", shown(without(B, 2), put(l, 1, b"safe"))
    yield "refused-4-7-model-out-of-range-listing-bad", shown(put(B, 7, line("move", 0, 2, 0)), put(l, 2, b""))
    yield "refused-3-9-second-size-listing-good", shown(B + [B[0]], l)
    yield "refused-2-3-model-lines-behind-the-listing", shown(B[:4], l[:2] + B[4:])


def full_table():
    """The largest table there is: a model whose every step stays in one state, and every fact listed."""
    facts = [line("head", q, g, 65534) for q in range(8) for g in range(32)]
    facts += [line("erase", q, g, e, 65534) for q in range(8) for g in range(32) for e in range(8)]
    return [line("safe", 65534, 256, 2048)] + facts


def stretched(listing, size):
    """The listing with repeated facts behind, and one of the right length, up to exactly this many bytes."""
    data = text(listing)
    again = line("erase", 7, 31, 7, 65534) + b"\n"
    data += again * ((size - len(data)) // len(again) - 1)
    return data + b"x" * (size - len(data) - 1) + b"\n"


def large_listings():
    """Both parts at their largest, and one past it."""
    wide = WIDE + many_rules(256) + many_moves(128)
    table = full_table()
    yield "accepted-full-table", shown(wide, table)
    yield "accepted-full-table-behind-16384-bytes", padded(wide, 16384) + text(table)
    yield "refused-1-0-full-table-behind-16385-bytes", padded(wide, 16385) + text(table)
    yield "refused-3-2306-listing-of-45056-bytes", text(wide) + stretched(table, 45056)
    yield "refused-1-0-listing-of-45057-bytes", text(wide) + stretched(table, 45057)
    yield "refused-3-2306-61440-bytes", padded(wide, 16384) + stretched(table, 45056)
    yield "refused-1-0-61441-bytes-listing-too-long", padded(wide, 16384) + stretched(table, 45057)
    yield "refused-1-0-61441-bytes-model-too-long", padded(wide, 16385) + stretched(table, 45056)
    yield "refused-1-0-90000-bytes", padded(wide, 16384) + stretched(table, 73616)
    yield "refused-4-3-model-refused-listing-too-long", shown(before(wide, 3, line("exit", 32)), []) + stretched(table, 45057)
    yield "refused-2-1-45056-bytes-one-line", text(B) + b"safe" + b"x" * 45052
    yield "refused-1-0-45057-bytes-one-line", text(B) + b"safe" + b"x" * 45053
    yield "refused-1-0-no-listing-16385-bytes", padded(wide, 16385)
    yield "refused-3-0-no-listing-16384-bytes", padded(wide, 16384)


# ---------------------------------------------------------------- traces of a wanted length

def doubling(steps, states=2):
    """A model whose trace has exactly this many steps (3 to a few hundred thousand).

    Erasing symbol i takes as many steps as the number it stands for: an odd one is a call of its half twice,
    an even one a direct step to the number below. In front a call, behind it the step that violates.
    """
    draft = Draft(32, states, 16)
    draft.finals, draft.events = [1], [(31, 1)]
    draft.rules.append(("call", 0, 1, 31))
    symbol, rest = 1, steps - 2
    while rest > 1:
        if rest % 2:
            draft.rules.append(("call", symbol, symbol + 1, symbol + 1))
            rest //= 2
        else:
            draft.rules.append(("direct", symbol, symbol + 1))
            rest -= 1
        symbol += 1
    assert symbol < 31
    draft.rules += [("exit", symbol), ("direct", 31, 31)]
    draft.moves = [(0, 0, 0), (0, 1, 1)]
    return draft


def last_sharp_case():
    draft = Draft(15, 2, 2)
    draft.finals, draft.events, draft.moves = [1], [(14, 1)], [(0, 0, 0), (0, 1, 1)]
    draft.rules = [("call", 0, 1, 14)] + [("call", i, i + 1, i + 1) for i in range(1, 13)]
    draft.rules += [("exit", 13), ("direct", 14, 14)]
    return draft


def deepest():
    """The deepest violation we know of: 1,688 rounds, so the trace is found by as many calls, one inside the other.

    A ring of thirty symbols goes round the seven states that are not final, and that once for each end state: what is
    behind the ring calls it again, and the symbol left below moves the end one state on. Seven ends are not final.
    """
    draft = Draft(32, 8, 5)
    draft.finals = [7]
    draft.events = [(i, 1) for i in range(29)] + [(29, 2), (31, 3), (30, 4)]
    draft.rules = [("exit", 31), ("exit", 30), ("call", 30, 0, 31)]
    draft.rules += [("direct", i, (i + 1) % 30) for i in range(30)] + [("direct", 29, 30)]
    draft.moves = [(s, 1, s) for s in range(7)] + [(s, 2, (s + 1) % 7) for s in range(7)]
    draft.moves += [(s, 3, s + 1) for s in range(7)] + [(0, 4, 0)]
    return draft


def long_traces():
    yield "deepest-violation", deepest().text()
    yield "cut-8193-steps", last_sharp_case().text()
    for steps in (4095, 4096, 4097):
        yield "trace-of-%d-steps" % steps, doubling(steps).text()
    draft = Draft(32, 2, 2)  # two to the thirtieth: nobody may unfold it whole
    draft.finals, draft.events, draft.moves = [1], [(31, 1)], [(0, 0, 0), (0, 1, 1)]
    draft.rules = [("call", 0, 1, 31)] + [("call", i, i + 1, i + 1) for i in range(1, 30)]
    draft.rules += [("exit", 30), ("direct", 31, 31)]
    yield "cut-two-to-the-thirtieth-steps", draft.text()


# ---------------------------------------------------------------- the catalogue

def catalogue(large=True):
    """All named cases; without the large ones those that are stored."""
    def named(program, pairs):
        for name, data in pairs:
            yield Case(program + "-" + name, program, data if isinstance(data, bytes) else text(data))

    for part in (documented, slips, choices, malformed_lines, malformed_texts, misplaced, just_outside):
        yield from named("check", part())
    for part in (accepted_listings, refused_tables, refused_listings, refused_before_the_listing):
        yield from named("recheck", part())
    if large:
        yield from named("check", far_outside())
        yield from named("check", large_models())
        yield from named("check", long_traces())
        yield from named("recheck", large_listings())


# ---------------------------------------------------------------- random models

def some(rng, low, high):
    """A number in the range, small ones more often."""
    return low + int((high - low + 1) * rng.random() ** 2)


def random_rule(rng, symbols):
    word, fields = rng.choice([("exit", 1), ("direct", 2), ("direct", 2), ("call", 3), ("call", 3)])
    return (word,) + tuple(rng.randrange(symbols) for _ in range(fields))


def random_moves(rng, states, events, count):
    return [(rng.randrange(states), rng.randrange(events), rng.randrange(states)) for _ in range(count)]


def random_events(rng, symbols, events, count):
    return [(rng.randrange(symbols), rng.randrange(events)) for _ in range(count)]


def sparse(rng, symbols=6, states=4, rules=12, moves=8):
    """Anything at all within these sizes: most such models stop early, and the ends differ."""
    draft = Draft(some(rng, 1, symbols), some(rng, 1, states), some(rng, 1, 4))
    g, q, e = draft.size
    draft.start = (rng.randrange(q), rng.randrange(g))
    draft.events = random_events(rng, g, e, rng.randrange(2 * g))
    draft.rules = [random_rule(rng, g) for _ in range(rng.randint(0, rules))]
    draft.moves = random_moves(rng, q, e, rng.randint(0, moves))
    if rng.random() < 0.6:  # a property that can wait lets the program run on
        draft.moves += [(state, 0, state) for state in range(q) if rng.random() < 0.7]
    return draft


def tiny(rng):
    return sparse(rng, 3, 3, 6, 6)


def medium(rng):
    return sparse(rng, 20, 6, 60, 30)


def procedures(rng):
    """Like firmware: routines of a few points each that call one another, and a property that mostly waits."""
    count = rng.randint(2, 7)
    length = rng.randint(1, 32 // count)
    draft = Draft(count * length, rng.randint(1, 8), rng.randint(1, 16))
    g, q, e = draft.size
    for routine in range(count):
        for point in range(length):
            here = routine * length + point
            if point == length - 1:
                draft.rules.append(("exit", here))
            elif rng.random() < 0.45:
                draft.rules.append(("call", here, rng.randrange(count) * length, here + 1))
            else:
                draft.rules.append(("direct", here, here + 1))
            if point and rng.random() < 0.2:
                draft.rules.append(("direct", here, routine * length + rng.randrange(length)))
            if rng.random() < 0.1:
                draft.rules.append(("exit", here))
            if rng.random() < 0.3:
                draft.events.append((here, rng.randrange(e)))
    draft.moves = [(state, 0, state) for state in range(q) if rng.random() < 0.95]
    draft.moves += random_moves(rng, q, e, rng.randint(1, 12))
    return draft


def largest(rng):
    """Every count at its limit."""
    draft = Draft(32, 8, 16)
    draft.events = random_events(rng, 32, 16, rng.choice([0, 20, 100, 200]))
    draft.rules = [random_rule(rng, 32) for _ in range(256)]
    draft.moves = random_moves(rng, 8, 16, 128)
    return draft


def ring(rng, symbols=32, states=8):
    """Hundreds of rounds: a ring of direct steps that turns the property one state on each time round.

    Ends come back the whole way as well. With a call in front the ends are worth a round each too.
    """
    draft = Draft(rng.randint(3, symbols), rng.randint(1, states), 5)
    g, q, _ = draft.size
    wheel = g - 2  # symbols 0 to wheel - 1; then the caller's, which is behind the ring, and the last
    draft.events = [(i, 1) for i in range(wheel - 1)] + [(wheel - 1, 2), (g - 1, 3), (g - 2, 4)]
    draft.rules = [("direct", i, (i + 1) % wheel) for i in range(wheel)]
    draft.rules += [("exit", g - 1), ("exit", g - 2), ("direct", wheel - 1, g - 2), ("call", g - 2, 0, g - 1)]
    draft.moves = [(s, 1, s) for s in range(q)] + [(s, 2, (s + 1) % q) for s in range(q)]
    draft.moves += [(s, 3, s + 1) for s in range(q - 1)] + [(0, 4, 0)]
    if rng.random() < 0.5:  # the order of rules and moves is then no longer that of the run
        rng.shuffle(draft.rules)
        rng.shuffle(draft.moves)
    return draft


def late(rng):
    """A violation after hundreds of rounds: the start waits for the ring's deepest triple, then violates."""
    draft = ring(rng, 30, 7)
    g, q, _ = draft.size
    _, _, _, triples = second.decide(draft.model(), 1 << 32)
    state, symbol, end = max(triples, key=lambda fact: (triples[fact], fact))
    draft.size = (g + 2, q + 1, 7)
    draft.start, draft.finals = (state, g), [q]
    draft.events += [(g, 5), (g + 1, 6)]
    draft.rules += [("call", g, symbol, g + 1), ("direct", g + 1, g + 1)]
    draft.moves += [(state, 5, state), (end, 6, q)]
    return draft


def deep(rng):
    """Recursion that has to be undone: each call stacks one symbol more, each return moves the property on."""
    draft = Draft(rng.randint(2, 6), rng.randint(2, 8), 3)
    g, q, _ = draft.size
    draft.events = [(1, 1)] + [(i, 2) for i in range(2, g)]
    draft.rules = [("call", 0, 0, 1), ("exit", 0), ("exit", 1)]
    draft.rules += [rng.choice([("call", 0, i, 1), ("direct", 1, i), ("exit", i), ("call", i, 0, 1)])
                    for i in range(1, g)]
    draft.moves = [(0, 0, 0)] + [(s, 1, s + 1) for s in range(q - 1)]
    draft.moves += random_moves(rng, q, 3, rng.randint(0, 3))
    return draft


def emptied(rng):
    """The start symbol's last step is the only one that shows event 1: what it leads to is an empty stack."""
    inner = procedures(rng)
    g, q, e = inner.size
    if g > 30 or q > 7 or e > 15:
        return deep(rng)
    draft = Draft(g + 2, q + 1, e + 1)
    first, last = g, g + 1
    draft.start = (0, first)
    draft.events = [(s, v) for s, v in inner.events if v] + [(last, e)]
    draft.rules = inner.rules + [("call", first, 0, last), ("exit", last)]
    draft.moves = inner.moves + [(s, e, q) for s in range(q)]
    draft.finals = [q]
    return draft


def tied(rng):
    """Many ways into few heads, so that the choice of the trace has something to choose from."""
    draft = Draft(rng.randint(2, 5), rng.randint(2, 4), 2)
    g, q, e = draft.size
    draft.events = random_events(rng, g, e, g)
    draft.rules = [random_rule(rng, g) for _ in range(rng.randint(6, 30))]
    draft.moves = random_moves(rng, q, e, rng.randint(4, 20))
    return draft


def lengthy(rng):
    """A trace near its room, or far over it, among rules and moves that repeat others."""
    steps = rng.choice([4094, 4095, 4096, 4097, 4098, rng.randint(3, 300), rng.randint(3, 20000)])
    draft = doubling(steps, rng.randint(2, 8))
    for _ in range(rng.choice([0, 0, 5, 100])):
        draft.rules.append(rng.choice(draft.rules))
    for _ in range(rng.choice([0, 0, 5, 100])):
        draft.moves.append(rng.choice(draft.moves))
    if rng.random() < 0.5:
        rng.shuffle(draft.rules)
    return draft


def seen_states(draft):
    """State -> the round in which a run from the start is first seen in it, over any stack."""
    draft.finals = []
    _, _, heads, triples = second.decide(draft.model(), 1 << 32)
    seen = {}
    for fact, rank in list(heads.items()) + list(triples.items()):
        if len(fact) == 2 or fact[:2] == draft.start:
            state = fact[0] if len(fact) == 2 else fact[2]
            seen[state] = min(rank, seen.get(state, rank))
    return seen


def make_safe(rng, draft):
    """Final states only where no run comes."""
    seen = seen_states(draft)
    draft.finals = [q for q in range(draft.size[1]) if q not in seen and rng.random() < 0.7]
    return draft


def make_violating(rng, draft):
    """Final states where runs come, late ones rather; False if they come to no state but the start's."""
    seen = seen_states(draft)
    late = sorted((q for q in seen if seen[q] > 0), key=seen.get)
    if not late:
        draft.finals = [draft.start[0]]
        return False
    draft.finals = [late[-1] if rng.random() < 0.6 else rng.choice(late)]
    if rng.random() < 0.3:
        draft.finals.append(rng.choice(late))
    return True


SHAPES = [
    (tiny, 6), (sparse, 5), (medium, 3), (procedures, 5), (ring, 2), (deep, 3), (tied, 5), (largest, 0.3),
]


def random_draft(rng, violation):
    """A model with the wanted verdict, of any shape."""
    if violation and rng.random() < 0.25:
        return rng.choice([lengthy, emptied, late])(rng)
    while True:
        shape = rng.choices([s for s, _ in SHAPES], [w for _, w in SHAPES])[0]
        draft = shape(rng)
        if not violation:
            return make_safe(rng, draft)
        if make_violating(rng, draft) or rng.random() < 0.05:  # a few in no rounds at all
            return draft


def loosened(rng, lines):
    """The same model with its lines in another order, or with harmless repeats."""
    head, rest = lines[:1], lines[1:]
    if rng.random() < 0.3:
        rng.shuffle(rest)
    harmless = [one for one in rest if one.startswith((b"final", b"event"))]
    if harmless and rng.random() < 0.2:
        rest.insert(rng.randrange(len(rest) + 1), rng.choice(harmless))
    return head + rest


def model_text(rng, violation):
    return text(loosened(rng, random_draft(rng, violation).lines()))


# ---------------------------------------------------------------- damage

ODD_FIELDS = [b"", b"0", b"1", b"2", b"7", b"8", b"9", b"16", b"17", b"31", b"32", b"33", b"00", b"01", b"255",
              b"256", b"65534", b"65535", b"65536", b"99999", b"100000", b"+1", b"-1", b" 1", b"1 ", b"x", b"\0"]
WORDS = [b"size", b"start", b"final", b"event", b"exit", b"direct", b"call", b"move", b"safe", b"head", b"erase",
         b"safe2", b"unsafe", b"Safe", b""]


def any_place(rng, data):
    return rng.randrange(len(data)) if data else 0


def flip_bit(rng, data):
    at = any_place(rng, data)
    return data[:at] + bytes(b ^ 1 << rng.randrange(8) for b in data[at:at + 1]) + data[at + 1:]


def cut_short(rng, data):
    return data[:any_place(rng, data)]


def drop_byte(rng, data):
    at = any_place(rng, data)
    return data[:at] + data[at + 1:]


def add_byte(rng, data):
    at = any_place(rng, data)
    return data[:at] + bytes([rng.choice([0, 9, 10, 13, 32, 48, 49, 255, rng.randrange(256)])]) + data[at:]


def on_lines(change):
    """Damage that works on the list of lines."""
    def damage(rng, data):
        lines = data.split(b"\n")
        at = rng.randrange(max(1, len(lines) - 1))
        return b"\n".join(change(rng, lines, at))
    return damage


@on_lines
def change_field(rng, lines, at):
    fields = lines[at].split(b"\t")
    which = rng.randrange(len(fields))
    fields[which] = rng.choice(WORDS if which == 0 else ODD_FIELDS)
    return put(lines, at + 1, b"\t".join(fields))


@on_lines
def change_number_of_fields(rng, lines, at):
    fields = lines[at].split(b"\t")
    if rng.random() < 0.5:
        del fields[rng.randrange(len(fields))]
    else:
        fields.insert(rng.randrange(len(fields) + 1), rng.choice(ODD_FIELDS))
    return put(lines, at + 1, b"\t".join(fields))


@on_lines
def drop_line(rng, lines, at):
    return without(lines, at + 1)


@on_lines
def repeat_line(rng, lines, at):
    return before(lines, rng.randrange(len(lines)) + 1, lines[at])


@on_lines
def exchange_lines(rng, lines, at):
    other = rng.randrange(max(1, len(lines) - 1))
    return put(put(lines, at + 1, lines[other]), other + 1, lines[at])


DAMAGES = [flip_bit, cut_short, drop_byte, add_byte, change_field, change_field, change_number_of_fields,
           drop_line, repeat_line, exchange_lines]


def damaged(rng, data):
    """One fault, or up to three: the first bad line has to decide."""
    for _ in range(rng.choice([1, 1, 2, 3])):
        data = rng.choice(DAMAGES)(rng, data)
    return data


def crowded(rng):
    """Random models about the limits of rules, moves and bytes, often one past them."""
    draft = largest(rng)
    draft.rules = draft.rules[:rng.randint(200, 256)] + draft.rules[:rng.choice([0, 1, 56, 57])]
    draft.moves = draft.moves[:rng.randint(100, 128)] + draft.moves[:rng.choice([0, 1, 28, 29])]
    lines = loosened(rng, draft.lines())
    return padded(lines, rng.choice([16383, 16384, 16384, 16385])) if rng.random() < 0.5 else text(lines)


# ---------------------------------------------------------------- random listings

def header(listing, rounds=None):
    """The listing with counts that agree with its lines."""
    counts = [sum(one.startswith(word) for one in listing[1:]) for word in (b"head\t", b"erase\t")]
    was = listing[0].split(b"\t")[1]
    return [line("safe", was if rounds is None else rounds, *counts)] + listing[1:]


def shuffle_facts(rng, model, listing):
    facts = listing[1:]
    rng.shuffle(facts)
    return listing[:1] + facts


def drop_facts(rng, model, listing):
    keep = [one for one in listing[1:] if rng.random() > 1.5 / len(listing)]
    return header(listing[:1] + keep)


def random_fact(rng, model):
    q, g, end = (rng.randrange(n) for n in (model.states, model.symbols, model.states))
    return ("head", q, g) if rng.random() < 0.5 else ("erase", q, g, end)


def add_facts(rng, model, listing):
    held = {one.rsplit(b"\t", 1)[0] for one in listing}
    extra = [random_fact(rng, model) for _ in range(rng.randint(1, 4))]
    new = sorted({line(*fact) for fact in extra} - held)
    return header(listing + [one + b"\t%d" % rng.randrange(65535) for one in new])


def all_facts(rng, model, listing):
    """Every fact but the violating ones: accepted unless a step leads to one."""
    states, symbols = range(model.states), range(model.symbols)
    facts = [(q, g) for q in states for g in symbols] + [(q, g, e) for q in states for g in symbols for e in states]
    good = [f for f in facts if not second.violating(model, f)]
    return header(listing[:1] + [line("head" if len(f) == 2 else "erase", *f, rng.randrange(65535)) for f in good])


def double_fact(rng, model, listing):
    """A fact twice, with its own rank or another, counted or not."""
    again = rng.choice(listing[1:]).rsplit(b"\t", 1)
    again[1] = rng.choice([again[1], b"0", b"65534", b"65535", b"65536"])
    more = before(listing, rng.randint(2, len(listing) + 1), b"\t".join(again))
    return header(more) if rng.random() < 0.5 else more


def wrong_counts(rng, model, listing):
    fields = listing[0].split(b"\t")
    which = rng.choice([2, 3])
    fields[which] = b"%d" % rng.choice([0, int(fields[which]) + 1, max(0, int(fields[which]) - 1), 65536, 99999])
    return [b"\t".join(fields)] + listing[1:]


def change_ranks(rng, model, listing):
    """Any rank is as good as any other, up to 65,534."""
    top = rng.choice([65534, 65534, 65535, 65536])
    facts = [one.rsplit(b"\t", 1)[0] + b"\t%d" % rng.choice([0, 1, top, rng.randrange(65535)]) for one in listing[1:]]
    return header(listing[:1] + facts, rng.choice([0, 1, 65534, top]))


def change_header(rng, model, listing):
    good = listing[0]
    return rng.choice([
        listing[1:], listing[1:2] + [good] + listing[2:], [good] + listing, listing + [good],
        [good.replace(b"safe", word) for word in [rng.choice([b"safe2", b"safety", b"unsafe", b"Safe", b"saf"])]]
        + listing[1:], [good], [], [b"safe"] + listing[1:],
    ])


def keep_listing(rng, model, listing):
    return listing


LISTING_CHANGES = [keep_listing, shuffle_facts, drop_facts, drop_facts, add_facts, add_facts, all_facts, double_fact,
                   wrong_counts, change_ranks, change_header]


def listing_case(rng):
    """A safe model with what `check` prints for it, then changed."""
    draft = random_draft(rng, False)
    data = text(loosened(rng, draft.lines()))
    listing = lines_of(second.check(data))
    for _ in range(rng.choice([1, 1, 2])):
        if len(listing) > 1 and listing[0].startswith(b"safe\t"):  # one that a change can still work on
            listing = rng.choice(LISTING_CHANGES)(rng, draft.model(), listing)
    return data, text(listing)


def recheck_case(rng):
    data, listing = listing_case(rng)
    return data + listing


def foreign_listing(rng):
    """The listing of another model behind this one."""
    return listing_case(rng)[0] + listing_case(rng)[1]


def forgiving_listing(rng):
    """A violating model with the listing of the same model without final states."""
    draft = random_draft(rng, True)
    data = draft.text()
    draft.finals = []
    return data + second.check(draft.text())


# ---------------------------------------------------------------- the cases

MAKERS = [
    ("check", lambda rng: model_text(rng, True), 8),
    ("check", lambda rng: model_text(rng, False), 8),
    ("check", lambda rng: damaged(rng, model_text(rng, rng.random() < 0.5)), 5),
    ("check", crowded, 0.2),
    ("recheck", recheck_case, 8),
    ("recheck", foreign_listing, 1),
    ("recheck", forgiving_listing, 1),
    ("recheck", lambda rng: damaged(rng, recheck_case(rng)), 4),
    ("recheck", lambda rng: model_text(rng, rng.random() < 0.5), 0.3),
]


def cases(seed, count):
    """(program, data), `count` times: every second one is from the catalogue until that is used up."""
    rng = random.Random(seed)
    named = list(catalogue())
    rng.shuffle(named)
    for number in range(count):
        if number % 2 == 0 and named:
            case = named.pop()
            yield case.program, case.data
        else:
            program, make, _ = rng.choices(MAKERS, [weight for _, _, weight in MAKERS])[0]
            yield program, make(rng)


def write_vectors(directory):
    os.makedirs(directory, exist_ok=True)
    for case in catalogue(large=False):
        answer = second.PROGRAMS[case.program](case.data)
        for suffix, data in ((".pd", case.data), (".out", answer)):
            with open(os.path.join(directory, case.name + suffix), "wb") as file:
                file.write(data)


def write_cases(seed, count, directory):
    os.makedirs(directory, exist_ok=True)
    for number, (program, data) in enumerate(cases(int(seed), int(count))):
        with open(os.path.join(directory, "%06d.%s" % (number, program)), "wb") as file:
            file.write(data)


if __name__ == "__main__":
    if sys.argv[1:2] == ["vectors"] and len(sys.argv) == 3:
        write_vectors(sys.argv[2])
    elif sys.argv[1:2] == ["write"] and len(sys.argv) == 5:
        write_cases(*sys.argv[2:])
    else:
        sys.exit("usage: generate.py vectors DIR | generate.py write SEED COUNT DIR")
