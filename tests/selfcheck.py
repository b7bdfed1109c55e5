#!/usr/bin/env python3
"""Checks the second program against the description, against brute force, and against itself.

    python3 tests/selfcheck.py      prints `N passed, M failed`, and the failed ones before that

What is written here follows the words of the description as plainly as can be: facts grow by rounds over every
rule and move, the explanation is a nested search, runs are explored one step at a time on a stack that is there.
"""

import os
import random
import sys

import generate
import second

HERE = os.path.dirname(os.path.abspath(__file__))
passed, failed = 0, 0


def expect(name, got, want):
    global passed, failed
    if got == want:
        passed += 1
    else:
        failed += 1
        if failed <= 20:
            print("failed: %s\n  got  %.300r\n  want %.300r" % (name, got, want))


def model_of(data):
    refusal, line, model = second.read_model(data if isinstance(data, bytes) else generate.text(data))
    assert refusal == 0, (refusal, line)
    return model


# ---------------------------------------------------------------- the description, literally

A = b"""\
size\t4\t2\t2
start\t0\t0
final\t1
event\t2\t1
call\t0\t2\t1
direct\t2\t3
exit\t3
move\t0\t0\t0
move\t0\t1\t1
"""
A_PRINTS = b"""\
violation\t2\t2
step\t1\t0\t0\t0\tcall
step\t2\t1\t1\t1\tdirect
"""
B = A.replace(b"event\t2\t1\n", b"")
B_PRINTS = b"""\
safe\t4\t4\t2
head\t0\t0\t0
head\t0\t1\t3
head\t0\t2\t1
head\t0\t3\t2
erase\t0\t2\t0\t2
erase\t0\t3\t0\t1
"""
# The erase relation of the paper's figure 3(b), as it stands there, one triple twice.
FIGURE = """
    q0 s0 q0, q0 s0 q1, q1 s0 q1, q1 s0 q1, q0 s2 q0, q1 s2 q1, q0 s1 q0,
    q0 s1 q1, q1 s1 q1, q0 s3 q0, q0 s3 q1, q1 s3 q1, q0 s4 q0, q1 s4 q1,
    q0 s5 q0, q0 s6 q0, q1 s5 q1, q1 s6 q1"""
POINTS = "m0 m1 s0 s1 s2 s3 s4 s5 s6".split()


def check_printed():
    expect("A prints", second.check(A), A_PRINTS)
    expect("B prints", second.check(B), B_PRINTS)
    expect("B rechecked", second.recheck(B + B_PRINTS), b"accepted\n")
    expect("catalogue has A", generate.text(generate.A), A)
    expect("catalogue has B", generate.text(generate.B), B)
    expect("catalogue has B's listing", generate.text(generate.B_LISTING), B_PRINTS)


def check_sharp_cases():
    a, b = model_of(A), model_of(B)
    expect("A trace", second.trace(a, 24, 4096)[4], [0, 129])
    expect("A verdict", second.decide(a, 2)[:2], ("violation", 2))
    expect("A budget 1", second.decide(a, 1)[:2], ("budget", 1))
    expect("A budget 1 leaves", second.decide(a, 1)[2:], ({(0, 0): 0, (0, 2): 1}, {(0, 3, 0): 1}))
    expect("B budget 3", second.decide(b, 3)[:2], ("budget", 3))
    expect("B budget 4", second.decide(b, 4)[:2], ("safe", 4))
    tiny = b"size\t1\t1\t1\nstart\t0\t0\n"
    final = model_of(tiny + b"final\t0\n")
    expect("start final", second.trace(final, 0, 0), ("violation", 0, {(0, 0): 0}, {}, []))
    expect("start final replays", second.replay(final, []), "accepted")
    one = b"size\t1\t2\t2\nstart\t0\t0\nfinal\t1\nevent\t0\t1\nexit\t0\nmove\t0\t1\t1\n"
    expect("one exit", second.check(one), b"violation\t1\t1\nstep\t1\t0\t0\t1\texit\n")
    expect("no rule", second.check(tiny), b"safe\t1\t1\t0\nhead\t0\t0\t0\n")
    bound = tiny + b"exit\t0\nmove\t0\t0\t0\n"
    expect("meets the bound", second.check(bound), b"safe\t2\t1\t1\nhead\t0\t0\t0\nerase\t0\t0\t0\t1\n")
    stuck = A.replace(b"move\t0\t0\t0\n", b"")
    expect("A without its first move", second.check(stuck), b"safe\t1\t1\t0\nhead\t0\t0\t0\n")
    _, _, heads, triples = second.decide(b, 4)
    less = {fact: rank for fact, rank in triples.items() if fact != (0, 2, 0)}
    expect("B less (0,2,0)", second.check_table(b, heads, less), (3, 1, 0))
    expect("B and (0,1,0)", second.check_table(b, heads, {**triples, (0, 1, 0): 9}), (3, 0, 0))
    more = {**triples, (0, 1, 0): 9, (0, 0, 0): 9}
    expect("B and both", second.check_table(b, heads, more), "accepted")
    expect("A trace 0 alone", second.replay(a, [0]), 2)
    expect("A no trace", second.replay(a, []), 1)
    expect("A trace", second.replay(a, [0, 129]), "accepted")
    expect("A bad step before bad end", second.replay(a, [0, 65535, 0]), 2)
    doubling = model_of(generate.last_sharp_case().text())
    kind, rounds, _, _, steps = second.trace(doubling, 90, 10000)
    expect("doubling", (kind, rounds, len(steps)), ("violation", 15, 8193))
    expect("doubling replays", second.replay(doubling, steps), "accepted")
    expect("doubling fits", second.trace(doubling, 90, 8193)[0], "violation")
    expect("doubling cut", second.trace(doubling, 90, 8192)[0], "cut")
    printed = second.check(generate.last_sharp_case().text())
    expect("doubling printed", (printed[:17], printed.count(b"\n")), (b"violation\t15\tcut\n", 4097))


def check_paper():
    names = [triple.split() for triple in FIGURE.split(",")]
    figure = {(int(q[1]), POINTS.index(s), int(end[1])) for q, s, end in names}
    whole = second.ranks(model_of(generate.PAPER))
    expect("paper's figure", {fact for fact in whole if len(fact) == 3}, figure)
    expect("17 triples", len(figure), 17)
    kind, rounds, _, _, steps = second.trace(model_of(generate.PAPER), 54, 4096)
    # m0, s0 m1, s1 m1, s0 s3 m1, s2 s3 m1, s4 s3 m1, s3 m1, and in q1 s4 m1
    expect("paper's trace", (kind, rounds, [s // 128 for s in steps]), ("violation", 5, [0, 2, 4, 3, 6, 7, 5]))


# ---------------------------------------------------------------- names and files

def promised(name):
    """The answer that a name in the catalogue promises, if it does."""
    parts = name.split("-")
    if parts[1] == "accepted":
        return b"accepted\n"
    if parts[1] == "refused":
        return "\t".join(parts[1:6 if parts[2] == "11" else 4]).encode() + b"\n"
    return None


def check_catalogue():
    cases = list(generate.catalogue())
    expect("names differ", len({case.name for case in cases}), len(cases))
    for case in cases:
        answer = second.PROGRAMS[case.program](case.data)
        if promised(case.name) is not None:
            expect(case.name, answer, promised(case.name))
        if case.name.startswith("check-trace-of-"):
            expect(case.name, answer.count(b"\nstep"), min(4096, int(case.name.split("-")[3])))
        if case.name == "check-trace-of-4096-steps":
            expect(case.name, answer.startswith(b"violation\t24\t4096\n"), True)
        if case.name == "check-trace-of-4097-steps" or "-cut-" in case.name:
            expect(case.name, b"\tcut\n" in answer and answer.count(b"\n") == 4097, True)
    sizes = {len(case.data) for case in cases}
    expect("sizes at the limits", sizes >= {16384, 16385, 61440, 61441}, True)


def check_vectors():
    """The stored files are the small part of the catalogue, with the answers of the second program."""
    directory = os.path.join(HERE, "vectors")
    stored = {}
    for file in os.listdir(directory):
        with open(os.path.join(directory, file), "rb") as opened:
            stored[file] = opened.read()
    want = {}
    for case in generate.catalogue(large=False):
        want[case.name + ".pd"] = case.data
        want[case.name + ".out"] = second.PROGRAMS[case.program](case.data)
    expect("vector files", sorted(stored), sorted(want))
    for file in sorted(want):
        expect(file, stored.get(file), want[file])


def check_generator():
    one, two = list(generate.cases(7, 60)), list(generate.cases(7, 60))
    expect("same seed, same cases", one, two)
    expect("other seed, other cases", one != list(generate.cases(8, 60)), True)
    expect("two programs", {program for program, _ in one}, {"check", "recheck"})


# ---------------------------------------------------------------- rounds, as they are worded

def fits(model, r, m):
    return (model.rules[r].top, model.moves[m].event) in model.shows


def gives(model, held, r, m):
    """The facts that one rule and one move give out of held ones."""
    if not fits(model, r, m):
        return set()
    rule, (q, _, after), out = model.rules[r], model.moves[m], set()
    states = range(model.states)
    if rule.kind == b"exit":
        out.add((q, rule.top, after))
    elif rule.kind == b"direct":
        if (q, rule.top) in held:
            out.add((after, rule.first))
        out |= {(q, rule.top, end) for end in states if (after, rule.first, end) in held}
    else:
        if (q, rule.top) in held:
            out.add((after, rule.first))
        for middle in states:
            if (after, rule.first, middle) in held:
                if (q, rule.top) in held:
                    out.add((middle, rule.second))
                out |= {(q, rule.top, end) for end in states if (middle, rule.second, end) in held}
    return out


def is_violating(model, fact):
    if len(fact) == 2:
        return fact[0] in model.finals
    return (fact[0], fact[1]) == (model.start_state, model.start_symbol) and fact[2] in model.finals


def plain_rounds(model, budget):
    """(kind, rounds, fact -> rank), round by round."""
    held, number = {(model.start_state, model.start_symbol): 0}, 0
    while True:
        if any(is_violating(model, fact) for fact in held):
            return "violation", number, held
        if number > 0 and number not in held.values():
            return "safe", number, held
        if number == budget:
            return "budget", number, held
        new = set()
        for r in range(len(model.rules)):
            for m in range(len(model.moves)):
                new |= gives(model, held, r, m)
        number += 1
        held = {**{fact: number for fact in new}, **held}


def check_rounds(model, name):
    bound = model.symbols * model.states * (model.states + 1)
    kind, rounds, held = plain_rounds(model, bound)
    got = second.decide(model, bound)
    expect(name + " verdict", got[:2], (kind, rounds))
    expect(name + " ranks", {**got[2], **got[3]}, held)
    expect(name + " bound", rounds <= bound, True)
    for budget in {0, rounds // 2, rounds - 1, rounds, rounds + 1} - {-1}:
        kind, number, held = plain_rounds(model, budget)
        got = second.decide(model, budget)
        expect("%s budget %d" % (name, budget), (got[:2], {**got[2], **got[3]}), ((kind, number), held))


# ---------------------------------------------------------------- runs, on a stack that is there

def step_on(model, state, stack, r, m):
    """The state and stack after a step, the top first, or None if it is not one."""
    if not stack or r >= len(model.rules) or m >= len(model.moves):
        return None
    rule, move = model.rules[r], model.moves[m]
    if rule.top != stack[0] or move.source != state or not fits(model, r, m):
        return None
    return move.target, tuple(g for g in (rule.first, rule.second) if g is not None) + stack[1:]


def run(model, state, stack, steps):
    for step in steps:
        after = step_on(model, state, stack, step // 128, step % 128)
        if after is None:
            return None
        state, stack = after
    return state, stack


def explore(model, state, stack, height=5, most=400):
    """(configurations reached, whether that is all of them)."""
    seen, fresh, whole = {(state, stack)}, [(state, stack)], True
    while fresh:
        here = fresh.pop(0)
        for r in range(len(model.rules)):
            for m in range(len(model.moves)):
                after = step_on(model, *here, r, m)
                if after is None or after in seen:
                    continue
                if len(after[1]) > height or len(seen) >= most:
                    whole = False
                    continue
                seen.add(after)
                fresh.append(after)
    return seen, whole


def check_brute_force(model, name):
    """Whatever exploring finds is a fact; where it finds everything, there are no others."""
    facts = second.ranks(model)
    reached, whole = explore(model, model.start_state, (model.start_symbol,))
    kind = second.decide(model, 1 << 32)[0]
    if any(state in model.finals for state, _ in reached):
        expect(name + " violation found", kind, "violation")
    elif whole:
        expect(name + " nothing to find", kind, "safe")
    found = {(state, stack[0]) for state, stack in reached if stack}
    heads = {fact for fact in facts if len(fact) == 2}
    expect(name + " heads found", (found - heads, whole and heads - found), (set(), whole and set()))
    for q in range(model.states):
        for g in range(model.symbols):
            reached, whole = explore(model, q, (g,), most=150)
            found = {state for state, stack in reached if not stack}
            ends = {fact[2] for fact in facts if len(fact) == 3 and fact[:2] == (q, g)}
            expect(name + " ends found", (found - ends, whole and ends - found), (set(), whole and set()))


def check_every_fact_runs(model, name):
    """A fact's unfolding is a run of the kind that the fact is about."""
    facts = second.ranks(model)
    heads = {fact: rank for fact, rank in facts.items() if len(fact) == 2}
    triples = {fact: rank for fact, rank in facts.items() if len(fact) == 3}
    explainer = second.Explainer(model, heads, triples)
    for fact in facts:
        steps = [step for step, _ in zip(explainer.unfold(fact), range(3000))]
        if len(steps) == 3000:
            continue
        if len(fact) == 3:
            expect(name + " triple runs", run(model, fact[0], (fact[1],), steps), (fact[2], ()))
        else:
            state, stack = run(model, model.start_state, (model.start_symbol,), steps) or (None, ())
            expect(name + " head runs", (state,) + stack[:1], fact)


# ---------------------------------------------------------------- the trace, as it is worded

def plain_explanation(model, rank, fact):
    """First rule, first move, lowest middle state; entering before returning; only lower ranks needed."""
    def lower(*needed):
        return all(one in rank and rank[one] < rank[fact] for one in needed)

    for r, rule in enumerate(model.rules):
        for m, (q, _, after) in enumerate(model.moves):
            if not fits(model, r, m):
                continue
            here, step = (q, rule.top), r * 128 + m
            if len(fact) == 2:
                if rule.kind != b"exit" and (after, rule.first) == fact and lower(here):
                    return [here, step]
                if rule.kind == b"call" and rule.second == fact[1] and lower(here, (after, rule.first, fact[0])):
                    return [here, step, (after, rule.first, fact[0])]
            elif here == fact[:2]:
                if rule.kind == b"exit" and after == fact[2]:
                    return [step]
                if rule.kind == b"direct" and lower((after, rule.first, fact[2])):
                    return [step, (after, rule.first, fact[2])]
                if rule.kind == b"call":
                    for middle in range(model.states):
                        needed = [(after, rule.first, middle), (middle, rule.second, fact[2])]
                        if lower(*needed):
                            return [step] + needed
    return None


def plain_unfold(model, rank, fact, out, room):
    """The recursion of the description; it stops once there are more steps than anyone asked for."""
    if rank[fact] == 0 or len(out) > room:
        return
    for part in plain_explanation(model, rank, fact):
        if isinstance(part, int):
            out.append(part)
        else:
            plain_unfold(model, rank, part, out, room)


def plain_choice(model, rank, rounds):
    """The violating fact: heads, then triples, each in cell order."""
    states, symbols = range(model.states), range(model.symbols)
    heads = [(q, g) for q in states for g in symbols]
    triples = [(q, g, end) for q in states for g in symbols for end in states]
    return next(f for f in heads + triples if rank.get(f) == rounds and is_violating(model, f))


def check_trace(model, name, room=300):
    bound = model.symbols * model.states * (model.states + 1)
    kind, rounds, heads, triples, steps = second.trace(model, bound, room)
    if kind == "safe":
        expect(name + " no steps", steps, [])
        return
    rank, plain = {**heads, **triples}, []
    plain_unfold(model, rank, plain_choice(model, rank, rounds), plain, room)
    expect(name + " steps", (kind, steps), ("cut" if len(plain) > room else "violation", plain[:room]))
    if kind == "violation":
        end = run(model, model.start_state, (model.start_symbol,), steps)
        expect(name + " ends final", end is not None and end[0] in model.finals, True)
        expect(name + " replays", second.replay(model, steps), "accepted")
        expect(name + " fits exactly", second.trace(model, bound, len(steps))[0], "violation")
        if steps:
            expect(name + " one too short", second.trace(model, bound, len(steps) - 1)[4], steps[:-1])


def plain_replay(model, steps):
    for number in range(1, len(steps) + 1):
        if run(model, model.start_state, (model.start_symbol,), steps[:number]) is None:
            return number
    state, _ = run(model, model.start_state, (model.start_symbol,), steps)
    return "accepted" if state in model.finals else len(steps) + 1


def check_spoiled_replays(rng, model, name):
    """Traces cut short, changed in a step, or with steps behind."""
    steps = second.trace(model, 1 << 32, 40)[4]
    for _ in range(4):
        spoiled = list(steps[:rng.randint(0, len(steps))])
        if spoiled and rng.random() < 0.5:
            spoiled[rng.randrange(len(spoiled))] = rng.choice([0, 1, 128, 129, 65535, rng.randrange(1024)])
        if rng.random() < 0.5:
            spoiled.append(rng.choice([0, 1, 128, 65535, rng.randrange(1024)]))
        expect(name + " spoiled replay", second.replay(model, spoiled), plain_replay(model, spoiled))


# ---------------------------------------------------------------- tables

def plain_table(model, facts):
    if (model.start_state, model.start_symbol) not in facts:
        return 1, 0, 0
    if any(is_violating(model, fact) for fact in facts):
        return 2, 0, 0
    for r in range(len(model.rules)):
        for m in range(len(model.moves)):
            if gives(model, facts, r, m) - facts:
                return 3, r, m
    return "accepted"


def check_tables(rng, model, name):
    kind, _, heads, triples = second.decide(model, 1 << 32)
    if kind == "safe":
        expect(name + " accepted", second.check_table(model, heads, triples), "accepted")
    whole = sorted(heads) + sorted(triples)
    for number in range(8):
        facts = set(whole)
        if number % 2:
            facts.discard(rng.choice(whole))
        for _ in range(rng.randint(0, 3) if number > 1 else 0):
            facts.add(generate.random_fact(rng, model)[1:])
        answer = second.check_table(
            model, {f: 0 for f in facts if len(f) == 2}, {f: 65534 for f in facts if len(f) == 3})
        expect(name + " table", answer, plain_table(model, facts))
        if kind == "safe" and facts < set(whole):  # nothing below the least closed table is closed
            expect(name + " too small a table", answer != "accepted", True)


def check_listing(data, name):
    """What `check` prints of a safe model is read back as it was, and accepted, in any order."""
    printed = second.check(data)
    if printed.startswith(b"safe"):
        expect(name + " split", second.split(data + printed), (data, printed))
        model = model_of(data)
        _, _, heads, triples = second.decide(model, 1 << 32)
        expect(name + " read back", second.read_listing(model, printed), (0, 0, heads, triples))
        expect(name + " rechecked", second.recheck(data + printed), b"accepted\n")


# ---------------------------------------------------------------- all of it

def check_random_models(seed):
    rng = random.Random(seed)
    for number in range(500):
        shape = rng.choice([generate.tiny, generate.tiny, generate.tied, generate.deep])
        draft = shape(rng)
        if rng.random() < 0.5:
            generate.make_violating(rng, draft)
        else:
            generate.make_safe(rng, draft)
        name = "%s %d" % (shape.__name__, number)
        model = model_of(draft.text())
        check_rounds(model, name)
        check_trace(model, name)
        check_spoiled_replays(rng, model, name)
        check_tables(rng, model, name)
        check_listing(draft.text(), name)
        check_every_fact_runs(model, name)
        if shape is generate.tiny:
            check_brute_force(model, name)


def check_larger_models(seed):
    rng = random.Random(seed)
    for number in range(40):
        shape = rng.choice([generate.medium, generate.procedures, generate.emptied])
        draft = shape(rng)
        name = "%s %d" % (shape.__name__, number)
        model = model_of(draft.text())
        check_rounds(model, name)
        check_trace(model, name)
        check_tables(rng, model, name)
        check_listing(draft.text(), name)
    for number in range(4):
        draft = generate.late(rng) if number % 2 else generate.ring(rng, 10, 5)
        model = model_of(draft.text())
        name = "ring %d" % number
        if model.symbols <= 12:
            check_rounds(model, name)
        check_listing(draft.text(), name)
        kind, _, _, _, steps = second.trace(model, 1 << 32, 4096)
        if kind == "violation":
            expect(name + " replays", second.replay(model, steps), "accepted")
    for number in range(2):
        check_listing(generate.largest(rng).text(), "largest %d" % number)


if __name__ == "__main__":
    check_printed()
    check_sharp_cases()
    check_paper()
    check_catalogue()
    check_vectors()
    check_generator()
    check_random_models(1)
    check_larger_models(2)
    print("%d passed, %d failed" % (passed, failed))
    sys.exit(failed > 0)
