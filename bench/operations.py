#!/usr/bin/env python3
"""Times the operations of the calculus on generated inputs, and prints how many are done in a second.

usage: bench/operations.py [SECONDS]     after `rt run` in crates/darwin_bench; no line is begun after so many seconds

A program has no clock, so each call is timed from outside, in processor seconds, which other work on the machine
changes less. The time of a call that makes the same input and does nothing with it is taken off. A call does its work
once, twice, four times and so on, until it takes a fifth of a second more than that. The best of five such calls is
printed, or the one call where it takes 2 s or more.

flat N      p(X1,..,XN) and p(a,..,a).
deep N      p(f(..f(X)..)) and p(f(..f(a)..)), N symbols f.
doubling N  X1 = f(X0,X0), X2 = f(X1,X1) and so on, N equations in the same bindings. XN written out has 2^N times X0,
            and each walk is linear in the bindings, so the time grows no faster than the square of N. The exponent
            that is printed is the power of N with which the time grew from the size before. Matched, each pair stands
            by itself.
tuples L N  the tuples of p1(X) | .. | pL(X) that have a unifier with the context of ~v and N entries, which are
            ~p1(c1), .., ~pL(c1), ~p1(c2), .. The places that have an entry other than ~v have it of one constant, so
            there are about (2^L - 1) * N / L tuples, and each position is tried after each prefix that unifies.
copy F N    copies of the context of ~v and N such entries for six literals, each let go before the next is made. It
            is a context that owns its entries, or a branch over a table. The memory is that of a copy that is kept,
            from the greatest memory of two calls, which keep copies of a million entries and of two million.
"""
import math
import os
import subprocess
import sys
import time

TOP = os.path.dirname(os.path.dirname(os.path.abspath(__file__)))
PROGRAM = os.path.join(TOP, "crates", "darwin_bench", "out", "darwin_bench")
ENOUGH = 0.2


def call(work, shape, size, times):
    """What a call prints, and what it used."""
    words = [PROGRAM, work, str(shape), str(size), str(times)]
    with subprocess.Popen(words, stdout=subprocess.PIPE) as program:
        printed = program.stdout.read()
        _, status, usage = os.wait4(program.pid, 0)
        program.returncode = os.waitstatus_to_exitcode(status)
    if program.returncode != 0:
        raise subprocess.CalledProcessError(program.returncode, words)
    return int(printed), usage


def run(work, shape, size, times):
    count, usage = call(work, shape, size, times)
    return count, usage.ru_utime + usage.ru_stime


def memory(form, entries):
    """The bytes of a copy that is kept."""
    times = 1_000_000 // entries
    _, fewer = call("keep", form, entries, times)
    _, more = call("keep", form, entries, 2 * times)
    return (more.ru_maxrss - fewer.ru_maxrss) * 1024 / times


def best(work, shape, size, times, calls=5):
    return min((run(work, shape, size, times) for _ in range(calls)), key=lambda ended: ended[1])


def measure(work, shape, size):
    """What is counted in one turn, and the seconds of one turn."""
    _, fixed = best(work, shape, size, 0)
    times = 1
    count, seconds = run(work, shape, size, times)
    while seconds - fixed < ENOUGH:
        times *= 2
        count, seconds = run(work, shape, size, times)
    if seconds < 2:
        count, seconds = best(work, shape, size, times)
    return count // times, (seconds - fixed) / times


def expected(literals, entries):
    """The tuples with a unifier: of each constant, all choices of its entries but none, and that of ~v alone."""
    constants, rest = divmod(entries, literals)
    return 1 + constants * (2**literals - 1) + (2**rest - 1)


def pairs():
    for work in ["unify", "match"]:
        for shape in ["flat", "deep"]:
            for size in [1, 10, 100, 1000]:
                yield work, shape, size
    yield "match", "doubling", 100


NAMES = {"unify": "unifications", "match": "matches", "tuples": "unifiers", "copy": "entries"}


def report(work, shape, size, count, seconds, more=""):
    done = f"{count:6d} in {seconds * 1e6:12.3f} us {count / seconds:10.0f} {NAMES[work]}/s"
    print(f"{work:6} {shape!s:8} {size:5d} {done} {more}".rstrip(), flush=True)


def lines():
    for work, shape, size in pairs():
        count, seconds = measure(work, shape, size)
        yield work, shape, size, count, seconds, ""
    before = None
    for size in [10, 20, 50, 100, 200, 500, 1000, 2000]:
        count, seconds = measure("unify", "doubling", size)
        exponent = before and math.log(seconds / before[1]) / math.log(size / before[0])
        yield "unify", "doubling", size, count, seconds, f"exponent {exponent:.2f}" if before else ""
        before = size, seconds
    for literals in range(2, 7):
        for entries in [10, 30, 100, 300, 1000]:
            count, seconds = measure("tuples", literals, entries)
            assert count == expected(literals, entries)
            yield "tuples", literals, entries, count, seconds, ""
    for form in ["context", "branch"]:
        for entries in [10, 100, 1000]:
            count, seconds = measure("copy", form, entries)
            assert count == entries + 1
            yield "copy", form, entries, count, seconds, f"{memory(form, entries):.0f} bytes a copy"


def main():
    limit = float(sys.argv[1]) if len(sys.argv) > 1 else 300
    begun = time.monotonic()
    for line in lines():
        report(*line)
        if time.monotonic() - begun > limit:
            return


if __name__ == "__main__":
    main()
