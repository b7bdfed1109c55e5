#!/usr/bin/env python3
"""The second program: pdcheck and pdrecheck once more, in another language and another way.

    python3 tests/second.py check   < model            what pdcheck prints
    python3 tests/second.py recheck < model+listing    what pdrecheck prints

It is written from the description of the build alone and shares no code with the crates. Facts are
tuples in dictionaries, (q, g) for a head and (q, g, end) for a triple, and a rank is found as the least
depth of an explanation with a priority queue; no round is ever run. All text is bytes.
"""

import heapq
import re
import sys
from collections import defaultdict, namedtuple

MODEL_BYTES = 16384
LISTING_BYTES = 45056
MAX_SYMBOLS, MAX_STATES, MAX_EVENTS = 32, 8, 16
MAX_RULES, MAX_MOVES = 256, 128
MAX_RANK = 65534
ROOM = 4096
ACCEPTED = "accepted"

Rule = namedtuple("Rule", "kind top first second")  # first, second: None where the kind has none
Move = namedtuple("Move", "source event target")
Model = namedtuple(
    "Model", "symbols states events start_state start_symbol finals shows rules moves"
)


# ---------------------------------------------------------------- lines of text

MODEL_WORDS = {
    b"size": 3, b"start": 2, b"final": 1, b"event": 2,
    b"exit": 1, b"direct": 2, b"call": 3, b"move": 3,
}
LISTING_WORDS = {b"safe": 3, b"head": 3, b"erase": 4}
NUMBER = re.compile(rb"0|[1-9][0-9]{0,4}")


def records(data, words):
    """Each line as (number, word, values), with word None if the line is malformed (refusal 2)."""
    lines = data.split(b"\n")
    unclosed = lines.pop()  # what stands behind the last line feed: nothing, in a good text
    for number, line in enumerate(lines, 1):
        word, *fields = line.split(b"\t")
        if words.get(word) == len(fields) and all(NUMBER.fullmatch(f) for f in fields):
            yield number, word, [int(f) for f in fields]
        else:
            yield number, None, None
    if unclosed:
        yield len(lines) + 1, None, None


# ---------------------------------------------------------------- the model text

def read_model(data):
    """(refusal, line, model): refusal 0 and a model, or a refusal 1 to 5, its line, and None."""
    if len(data) > MODEL_BYTES:
        return 1, 0, None
    size = start = None
    finals, shows, rules, moves = set(), set(), [], []
    for line, word, values in records(data, MODEL_WORDS):
        if word is None:
            return 2, line, None
        if (word == b"size") != (line == 1) or (word == b"start" and start is not None):
            return 3, line, None
        if word == b"size":
            limits = (MAX_SYMBOLS, MAX_STATES, MAX_EVENTS)
            if not all(1 <= v <= limit for v, limit in zip(values, limits)):
                return 4, line, None
            size = values
            symbols, states, events = size
            limits_of = {
                b"start": (states, symbols), b"final": (states,), b"event": (symbols, events),
                b"exit": (symbols,), b"direct": (symbols,) * 2, b"call": (symbols,) * 3,
                b"move": (states, events, states),
            }
            continue
        if not all(v < limit for v, limit in zip(values, limits_of[word])):
            return 4, line, None
        if word == b"start":
            start = values
        elif word == b"final":
            finals.add(values[0])
        elif word == b"event":
            shows.add(tuple(values))
        elif word == b"move":
            if len(moves) == MAX_MOVES:
                return 5, line, None
            moves.append(Move(*values))
        else:
            if len(rules) == MAX_RULES:
                return 5, line, None
            rules.append(Rule(word, *(values + [None, None])[:3]))
    if start is None:  # also the empty text
        return 3, 0, None
    shows.update((g, 0) for g in range(symbols))  # the wildcard
    return 0, 0, Model(symbols, states, events, *start, finals, shows, rules, moves)


# ---------------------------------------------------------------- the listing text

def split(data):
    """The model part, and the listing part: from the first line that starts with `safe`."""
    if data.startswith(b"safe"):
        return b"", data
    at = data.find(b"\nsafe")
    return (data, b"") if at < 0 else (data[:at + 1], data[at + 1:])


def read_listing(model, data):
    """(refusal, line, heads, triples): refusal 0 with two dictionaries from fact to rank, or 1 to 4."""
    if len(data) > LISTING_BYTES:
        return 1, 0, None, None
    counts = None
    facts = {b"head": {}, b"erase": {}}
    for line, word, values in records(data, LISTING_WORDS):
        if word is None:
            return 2, line, None, None
        if (word == b"safe") != (line == 1):
            return 3, line, None, None
        if word == b"safe":
            if values[0] > MAX_RANK:
                return 4, line, None, None
            counts = values[1:]
            continue
        *fact, rank = values
        fact = tuple(fact)
        if fact in facts[word]:
            return 3, line, None, None
        limits = (model.states, model.symbols, model.states)
        if rank > MAX_RANK or not all(v < limit for v, limit in zip(fact, limits)):
            return 4, line, None, None
        facts[word][fact] = rank
    heads, triples = facts[b"head"], facts[b"erase"]
    if counts != [len(heads), len(triples)]:  # also the empty listing
        return 3, 0, None, None
    return 0, 0, heads, triples


# ---------------------------------------------------------------- the product

def fitting(model, rule, move):
    """Rule and move make a step: the symbol on top before the step shows the move's event."""
    return (rule.top, move.event) in model.shows


def fitting_moves(model):
    """(q, g) -> [(move number, state after)], in order: the moves that fit a head."""
    moves_at = defaultdict(list)
    for number, move in enumerate(model.moves):
        for g in range(model.symbols):
            if (g, move.event) in model.shows:
                moves_at[move.source, g].append((number, move.target))
    return moves_at


def violating(model, fact):
    """A head in a final state, or the start's triple into one."""
    if len(fact) == 2:
        return fact[0] in model.finals
    return fact[:2] == (model.start_state, model.start_symbol) and fact[2] in model.finals


# ---------------------------------------------------------------- deciding

def ranks(model):
    """Every fact that holds, with the least depth of its explanations.

    Knuth's generalisation of Dijkstra's search: facts leave the queue in the order of their depth, so the
    last needed fact to leave is the deepest one, and the first explanation found is the least.
    A direct step is an edge from head to head, which passes heads on and ends back. A call is an edge to the
    head it enters, for heads alone; once its g1 can be erased, it acts as a direct step to its g2.
    """
    moves_at = fitting_moves(model)
    edges, enters, back = defaultdict(set), defaultdict(set), defaultdict(set)
    callers = defaultdict(set)  # entered head -> {(calling head, g2)}
    rank, queue = {}, []

    def conclude(fact, depth):
        if fact not in rank:
            rank[fact] = depth
            heapq.heappush(queue, (depth, fact))

    conclude((model.start_state, model.start_symbol), 0)
    for rule in set(model.rules):
        for q in range(model.states):
            here = (q, rule.top)
            for after in {target for _, target in moves_at[here]}:
                if rule.kind == b"exit":
                    conclude(here + (after,), 1)
                elif rule.kind == b"direct":
                    edges[here].add((after, rule.first))
                    back[after, rule.first].add(here)
                else:
                    enters[here].add((after, rule.first))
                    callers[after, rule.first].add((here, rule.second))

    reached = set()  # heads that have left the queue
    ends = defaultdict(set)  # (q, g) -> end states of the triples that have left the queue
    while queue:
        depth, fact = heapq.heappop(queue)
        if len(fact) == 2:
            reached.add(fact)
            for there in edges[fact] | enters[fact]:
                conclude(there, depth + 1)
            continue
        entered, end = fact[:2], fact[2]
        ends[entered].add(end)
        for here in back[entered]:
            conclude(here + (end,), depth + 1)
        for here, second in callers[entered]:
            there = (end, second)
            if there in edges[here]:
                continue
            edges[here].add(there)
            back[there].add(here)
            if here in reached:
                conclude(there, depth + 1)
            for last in ends[there]:
                conclude(here + (last,), depth + 1)
    return rank


def decide(model, budget):
    """(kind, rounds, heads, triples), with kind "violation", "safe" or "budget" (refusal 8).

    The dictionaries hold the facts of rank up to the rounds, on "budget" up to the budget.
    """
    rank = ranks(model)
    bad = [r for fact, r in rank.items() if violating(model, fact)]
    kind, rounds = ("violation", min(bad)) if bad else ("safe", max(rank.values()) + 1)
    if budget < rounds:
        kind, rounds = "budget", budget
    heads = {f: r for f, r in rank.items() if r <= rounds and len(f) == 2}
    triples = {f: r for f, r in rank.items() if r <= rounds and len(f) == 3}
    return kind, rounds, heads, triples


# ---------------------------------------------------------------- the trace

class Explainer:
    """Finds the explanation that the description chooses for a fact, once for each fact."""

    def __init__(self, model, heads, triples):
        self.model = model
        self.rank = {**heads, **triples}
        self.moves_at = fitting_moves(model)
        self.found = {}
        self.rules_from = defaultdict(list)  # symbol on top -> rules, in order: these explain triples
        self.rules_to = defaultdict(list)  # symbol that appears -> rules, in order: these explain heads
        for number, rule in enumerate(model.rules):
            self.rules_from[rule.top].append((number, rule))
            for g in {rule.first, rule.second} - {None}:
                self.rules_to[g].append((number, rule))

    def parts(self, fact):
        """What the fact unfolds to, in the order of the run: facts, and one step as a number."""
        if fact not in self.found:
            self.found[fact] = self.search_head(fact) if len(fact) == 2 else self.search_triple(fact)
        return self.found[fact]

    def below(self, needed, fact):
        return needed in self.rank and self.rank[needed] < self.rank[fact]

    def search_head(self, fact):
        if self.rank[fact] == 0:
            return []  # the start head
        state, symbol = fact
        for r, rule in self.rules_to[symbol]:
            for m, move in enumerate(self.model.moves):
                caller = (move.source, rule.top)
                if not fitting(self.model, rule, move) or not self.below(caller, fact):
                    continue
                if rule.first == symbol and move.target == state:  # a direct step, or entering
                    return [caller, r * 128 + m]
                erased = (move.target, rule.first, state)
                if rule.second == symbol and self.below(erased, fact):  # returning
                    return [caller, r * 128 + m, erased]
        raise AssertionError("a head without explanation")

    def search_triple(self, fact):
        state, symbol, end = fact
        for r, rule in self.rules_from[symbol]:
            for m, after in self.moves_at[state, symbol]:
                step = r * 128 + m
                if rule.kind == b"exit":
                    if after == end:
                        return [step]
                elif rule.kind == b"direct":
                    if self.below((after, rule.first, end), fact):
                        return [step, (after, rule.first, end)]
                else:
                    for middle in range(self.model.states):
                        one, two = (after, rule.first, middle), (middle, rule.second, end)
                        if self.below(one, fact) and self.below(two, fact):
                            return [step, one, two]
        raise AssertionError("a triple without explanation")

    def unfold(self, fact):
        """The steps one by one; an unfolding can be far longer than anyone wants to see."""
        waiting = [fact]
        while waiting:
            part = waiting.pop()
            if isinstance(part, int):
                yield part
            else:
                waiting.extend(reversed(self.parts(part)))


def trace(model, budget, room):
    """(kind, rounds, heads, triples, steps): kind as from `decide`, or "cut" (refusal 10).

    Steps are numbers rule * 128 + move; on "cut" the first ones that fit the room.
    """
    kind, rounds, heads, triples = decide(model, budget)
    steps = []
    if kind == "violation":
        last = [f for f, r in {**heads, **triples}.items() if violating(model, f) and r == rounds]
        chosen = min(last, key=lambda fact: (len(fact), fact))  # heads before triples
        for step in Explainer(model, heads, triples).unfold(chosen):
            if len(steps) == room:
                kind = "cut"
                break
            steps.append(step)
    return kind, rounds, heads, triples, steps


def replay(model, steps):
    """"accepted", or the number from 1 of the first bad step, or one past the last if the end isn't final."""
    state, stack = model.start_state, [model.start_symbol]
    for number, step in enumerate(steps, 1):
        r, m = divmod(step, 128)
        if r >= len(model.rules) or m >= len(model.moves) or not stack:
            return number
        rule, move = model.rules[r], model.moves[m]
        if rule.top != stack[-1] or move.source != state or not fitting(model, rule, move):
            return number
        stack.pop()
        stack.extend(g for g in (rule.second, rule.first) if g is not None)
        state = move.target
    return ACCEPTED if state in model.finals else len(steps) + 1


# ---------------------------------------------------------------- the table check

def closed(model, heads, triples, ends, rule, move):
    """Everything that this rule with this move gives out of present facts is present."""
    here, after = (move.source, rule.top), move.target
    if rule.kind == b"exit":
        return here + (after,) in triples
    if here in heads and (after, rule.first) not in heads:
        return False
    if rule.kind == b"direct":
        return all(here + (end,) in triples for end in ends[after, rule.first])
    return all(
        (here not in heads or (middle, rule.second) in heads)
        and all(here + (end,) in triples for end in ends[middle, rule.second])
        for middle in ends[after, rule.first]
    )


def check_table(model, heads, triples):
    """"accepted", or (reason, rule, move): 1 no start, 2 a violating fact, 3 the first that is not closed."""
    if (model.start_state, model.start_symbol) not in heads:
        return 1, 0, 0
    if any(violating(model, fact) for facts in (heads, triples) for fact in facts):
        return 2, 0, 0
    ends = defaultdict(list)
    for q, g, end in triples:
        ends[q, g].append(end)
    for r, rule in enumerate(model.rules):
        for m, move in enumerate(model.moves):
            if fitting(model, rule, move) and not closed(model, heads, triples, ends, rule, move):
                return 3, r, m
    return ACCEPTED


# ---------------------------------------------------------------- what is printed

def record(word, *values):
    return b"\t".join([word] + [v if isinstance(v, bytes) else b"%d" % v for v in values]) + b"\n"


def check(data):
    """What pdcheck prints for this text."""
    refusal, line, model = read_model(data)
    if refusal:
        return record(b"refused", refusal, line)
    budget = model.symbols * model.states * (model.states + 1)
    kind, rounds, heads, triples, steps = trace(model, budget, ROOM)
    if kind == "safe":
        out = [record(b"safe", rounds, len(heads), len(triples))]
        out += [record(b"head", *fact, heads[fact]) for fact in sorted(heads)]
        out += [record(b"erase", *fact, triples[fact]) for fact in sorted(triples)]
    else:
        out = [record(b"violation", rounds, b"cut" if kind == "cut" else len(steps))]
        for number, step in enumerate(steps, 1):
            r, m = divmod(step, 128)
            out.append(record(b"step", number, r, m, model.moves[m].target, model.rules[r].kind))
    return b"".join(out)


def recheck(data):
    """What pdrecheck prints for this text."""
    model_text, listing_text = split(data)
    refusal, line, model = read_model(model_text)
    if refusal:
        return record(b"refused", refusal, line)
    refusal, line, heads, triples = read_listing(model, listing_text)
    if refusal:
        return record(b"refused", refusal, line)
    answer = check_table(model, heads, triples)
    return record(b"accepted") if answer == ACCEPTED else record(b"refused", 11, *answer)


PROGRAMS = {"check": check, "recheck": recheck}

if __name__ == "__main__":
    if len(sys.argv) != 2 or sys.argv[1] not in PROGRAMS:
        sys.exit("usage: second.py check|recheck < text")
    sys.stdout.buffer.write(PROGRAMS[sys.argv[1]](sys.stdin.buffer.read()))
