#!/usr/bin/env python3
"""Compares what the built program writes with many workers, byte by byte, with what it writes with one.

usage: bench/same.py [--small] [--times N] [--made N] [PROGRAM]

PROGRAM is crates/darwin/out/darwin unless it is named. Each file of problems/ that asks for no workers is run, with
the words of its .args, and so are made problems of the seeds from 1 on, 20 of them or so many as `--made` says, and
trees whose right branches are worth stealing. Each is run with one worker, and then with 1, 2, 3, 4 and 8 workers and
shares of 0, 1, 4, 10 and 16, three times each or so often as `--times` says. With `--small` there is one run for each
of fewer pairs, over what one worker answers at once.

Prints the first difference of each problem, and how many runs were compared; ends with 1 if one run differs.
"""
import argparse
import itertools
import os
import subprocess
import sys
import time

TOP = os.path.dirname(os.path.dirname(os.path.abspath(__file__)))
PROBLEMS = os.path.join(TOP, "problems")
SECONDS = 120
WORKERS = [1, 2, 3, 4, 8]
SHARES = [0, 1, 4, 10, 16]
# (with --small)
FEW = [(1, 0), (2, 1), (3, 16), (4, 4), (8, 10)]
# How long one worker may take for a problem that --small runs, in seconds.
AT_ONCE = 0.2


class Problem:
    """What is read and with which words, but for workers and share."""

    def __init__(self, name, words, given):
        self.name, self.words, self.given = name, words, given


# What is run.


def lines_of(path):
    if not os.path.exists(path):
        return []
    with open(path, encoding="utf-8") as it:
        return it.read().splitlines()


def of_files():
    for folder, below, names in os.walk(PROBLEMS):
        below.sort()
        # (what is read below steps is for another program)
        if os.path.relpath(folder, PROBLEMS).split(os.sep)[0] == "steps":
            continue
        for name in sorted(names):
            if name.endswith(".p"):
                stem = os.path.join(folder, name[:-2])
                words = lines_of(f"{stem}.args")
                if any(it.startswith(("--workers", "--share")) for it in words):
                    continue
                with open(f"{stem}.p", "rb") as it:
                    yield Problem(os.path.relpath(stem, TOP), words, it.read())


def made(count):
    for seed in range(1, count + 1):
        yield Problem(f"the seed {seed}", ["--make", str(seed)], b"")


def clauses_of(clauses):
    return "".join(f"cnf(c{number},axiom,{clause}).\n" for number, clause in enumerate(clauses, 1)).encode()


def all_signs(size):
    """All clauses of so many atoms: each leaf closes after a Split for each atom but the last."""
    return ["|".join(f"{sign}p{atom}" for atom, sign in enumerate(signs)) for signs in itertools.product(["", "~"], repeat=size)]


def trees():
    for size in (2, 4, 6):
        yield Problem(f"all signs of {size} atoms", [], clauses_of(all_signs(size)))
        # (without its last clause, the one leaf that is exhausted is the last; without its first, it is the first)
        yield Problem(f"all signs of {size} atoms but the last", [], clauses_of(all_signs(size)[:-1]))
        yield Problem(f"all signs of {size} atoms but the first", [], clauses_of(all_signs(size)[1:]))
        yield Problem(f"choices of {size} atoms", [], clauses_of([f"p{atom}|q{atom}" for atom in range(size)]))


# What is compared.


def written(program, problem, more):
    """The status and the output, or None where there is no end."""
    try:
        ran = subprocess.run([program, *problem.words, *more], input=problem.given, capture_output=True, timeout=SECONDS)
    except subprocess.TimeoutExpired:
        return None
    return ran.returncode, ran.stdout


def shown(outcome):
    return f"no end in {SECONDS} seconds" if outcome is None else f"status {outcome[0]}, {outcome[1][:300]!r}"


def compared(program, problem, pairs, times):
    """How many runs were compared and how many of them differ, and the first difference in words, or None."""
    alone = written(program, problem, [])
    if alone is None:
        return 0, 0, None
    runs = differing = 0
    first = None
    for (workers, share), _ in itertools.product(pairs, range(times)):
        found = written(program, problem, ["--workers", str(workers), "--share", str(share)])
        runs += 1
        if found != alone:
            differing += 1
            first = first or f"{workers} workers, share {share}\n  one worker  {shown(alone)}\n  found       {shown(found)}"
    return runs, differing, first


def is_quick(program, problem):
    begun = time.monotonic()
    written(program, problem, [])
    return time.monotonic() - begun < AT_ONCE


def main():
    reader = argparse.ArgumentParser(add_help=False)
    reader.add_argument("--small", action="store_true")
    reader.add_argument("--times", type=int, default=3)
    reader.add_argument("--made", type=int, default=20)
    reader.add_argument("program", nargs="?", default=os.path.join(TOP, "crates", "darwin", "out", "darwin"))
    words = reader.parse_args()
    program = os.path.abspath(words.program)
    if not os.path.exists(program):
        sys.exit(f"{program} was not built")
    pairs = FEW if words.small else list(itertools.product(WORKERS, SHARES))
    times, seeds = (1, 3) if words.small else (words.times, words.made)
    problems = runs = differing = 0
    for problem in itertools.chain(of_files(), made(seeds), trees()):
        if words.small and not is_quick(program, problem):
            continue
        ran, wrong, first = compared(program, problem, pairs, times)
        problems, runs, differing = problems + 1, runs + ran, differing + wrong
        if first:
            print(f"{problem.name}: {first}", flush=True)
    print(f"{problems} problems, {runs} runs with {len(pairs)} pairs of workers and share, {differing} of them differ")
    sys.exit(1 if differing else 0)


if __name__ == "__main__":
    main()
