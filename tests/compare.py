#!/usr/bin/env python3
"""Compares the proved programs with the second program, byte for byte.

    python3 tests/compare.py [SEED [COUNT]]

Inputs: every file of tests/vectors, the two releases of docs/winch, and COUNT generated cases of SEED. For every
model that pdcheck calls safe, pdrecheck must accept the printed listing behind it; every trace that pdcheck prints
must replay in the second program. Inputs arrive through a pipe in small pieces now and then. The programs run in a
stack of 8 MiB. Its last line is 'N passed, M failed'.
"""

import concurrent.futures
import os
import resource
import subprocess
import sys
from pathlib import Path

import generate
import second

TOP = Path(__file__).resolve().parent.parent
NAMES = {"check": "pdcheck", "recheck": "pdrecheck"}
PROGRAMS = {program: [str(TOP / "crates" / name / "out" / name)] for program, name in NAMES.items()}
STACK = 8 << 20


def run(program, data, pieces=False, stack=STACK):
    """What the proved program prints for these bytes; in pieces, they come through a pipe a few at a time."""
    words = PROGRAMS[program]

    def limit():
        resource.setrlimit(resource.RLIMIT_STACK, (stack, resource.getrlimit(resource.RLIMIT_STACK)[1]))

    def said(out, status):
        return out if status == 0 else b"ended with status %d\n" % status + out

    if not pieces:
        done = subprocess.run(words, input=data, capture_output=True, timeout=120, preexec_fn=limit)
        return said(done.stdout, done.returncode)
    child = subprocess.Popen(words, stdin=subprocess.PIPE, stdout=subprocess.PIPE, preexec_fn=limit)
    try:
        for at in range(0, len(data), 997):
            child.stdin.write(data[at:at + 997])
            child.stdin.flush()
    except BrokenPipeError:
        pass  # the program had read all that it needs to answer
    return said(child.communicate(timeout=120)[0], child.returncode)


def unreadable(program):
    """What is wrong where the input cannot be read: the program is to print nothing, and to end with an error."""
    folder = os.open(TOP, os.O_RDONLY)
    try:
        done = subprocess.run(PROGRAMS[program], stdin=folder, capture_output=True, timeout=120)
    finally:
        os.close(folder)
    right = done.returncode == 1 and done.stdout == b"" and done.stderr != b""
    return None if right else f"{program} of an input that cannot be read: status {done.returncode}, {done.stdout!r}"


def evidence(data, out):
    """The verdict's evidence, or why it does not hold."""
    if out.startswith(b"safe"):
        back = run("recheck", data + out)
        return None if back == b"accepted\n" else f"the listing is not accepted: {back!r}"
    if out.startswith(b"violation"):
        lines = [line.split(b"\t") for line in out.splitlines()]
        if lines[0][2] == b"cut":
            return None
        steps = [int(r) * 128 + int(m) for _, _, r, m, _, _ in lines[1:]]
        model = second.read_model(data)[2]
        answer = second.replay(model, steps)
        return None if answer == second.ACCEPTED else f"the trace stops at step {answer}"
    return None


def examine(job):
    """Nothing, or what is wrong with the program's answer to this input."""
    number, (name, program, data) = job
    said = second.PROGRAMS[program](data)
    out = run(program, data, pieces=number % 16 == 0)
    if out != said:
        return f"{name}: {NAMES[program]} printed {out[:200]!r}, and the second program {said[:200]!r}", data
    wrong = evidence(data, out) if program == "check" else None
    return (f"{name}: {wrong}", data) if wrong else None


def inputs(seed, count):
    for path in sorted((TOP / "tests" / "vectors").glob("*.pd")):
        yield path.stem, path.stem.split("-")[0], path.read_bytes()
    for path in sorted((TOP / "docs" / "winch").glob("*.pd")):
        yield path.stem, "check", path.read_bytes()
    for number, (program, data) in enumerate(generate.cases(seed, count)):
        yield f"case {number} of seed {seed}", program, data


def stored():
    """The vectors' expected outputs are the second program's."""
    for path in sorted((TOP / "tests" / "vectors").glob("*.pd")):
        said = second.PROGRAMS[path.stem.split("-")[0]](path.read_bytes())
        if path.with_suffix(".out").read_bytes() != said:
            yield f"{path.stem}: the stored output is not the second program's", b""


def build():
    """Proves and builds a program that is not built."""
    for name in NAMES.values():
        subprocess.run([str(TOP / "run"), name, "/dev/null"], stdout=subprocess.DEVNULL, check=True)


def main():
    seed = int(sys.argv[1]) if len(sys.argv) > 1 else 1
    count = int(sys.argv[2]) if len(sys.argv) > 2 else 3000
    build()
    faults, total = list(stored()), len(NAMES)
    faults += [(fault, b"") for fault in map(unreadable, NAMES) if fault]
    with concurrent.futures.ProcessPoolExecutor() as pool:
        for fault in pool.map(examine, enumerate(inputs(seed, count)), chunksize=16):
            total += 1
            if fault:
                faults.append(fault)
    for message, data in faults[:10]:
        print(message)
    if faults and faults[0][1]:
        kept = TOP / "target" / "fault.pd"
        kept.parent.mkdir(exist_ok=True)
        kept.write_bytes(faults[0][1])
        print(f"the first such input is in {kept.relative_to(TOP)}")
    print(f"{total - len(faults)} passed, {len(faults)} failed")
    sys.exit(1 if faults else 0)


if __name__ == "__main__":
    main()
