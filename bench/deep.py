#!/usr/bin/env python3
"""Makes problems whose refutations have deep terms, and looks for the depth that a stack bears.

usage: bench/deep.py [--nesting N] [--leaves 2] LITERALS       prints such a problem
       bench/deep.py --find [--least L] [--most L] [--stack KIB] [--memory MIB] [--words=WORD,..] [--program FILE] ..

The problem is `e(X,X)` and the clause `~e(X0,f(..f(X1)..)) | ~e(X1,f(..f(X2)..)) | ..` with LITERALS literals and NESTING
(240, at most 246) symbols f in each. Its refutation has an instance whose first literal has terms of a depth of LITERALS
times NESTING, and which weighs about that number times LITERALS. With --leaves 2 the clause stands twice, behind a choice
of two, so that both leaves ask for the same deep instances. With --find the program is run with L (8), twice as many and
so on up to at most L (128) literals, and words that allow the list, under a stack of KIB and a limit of memory, up to the
first run that does not answer; then the distance is halved until the greatest that is answered and the least that is not
stand next to each other. Prints each run: the depth, how it ended, its seconds and the greatest memory.
"""
import argparse
import os
import subprocess
import sys
import time

TOP = os.path.dirname(os.path.dirname(os.path.abspath(__file__)))
SECONDS = 600


def problem(literals, nesting, leaves):
    def deep(name):
        return "f(" * nesting + name + ")" * nesting

    chain = "|".join(f"~e(X{it},{deep(f'X{it + 1}')})" for it in range(literals))
    same = "cnf(same,axiom,e(X,X)).\n"
    if leaves == 1:
        return f"{same}cnf(chain,axiom,{chain}).\n"
    return f"{same}cnf(choice,axiom,p|q).\ncnf(left,axiom,~p|{chain}).\ncnf(right,axiom,~q|{chain}).\n"


def run(arguments, literals):
    """How a run ended: in words, and whether it answered a refutation."""
    limits = [f"--stack={arguments.stack << 10}", f"--as={arguments.memory << 20}"]
    words = ["--list", "50000000", *(arguments.words.split(",") if arguments.words else [])]
    begun = time.monotonic()
    child = subprocess.Popen(["prlimit", *limits, arguments.program, *words], stdin=subprocess.PIPE, stdout=subprocess.PIPE)
    # (the text is long, and only its first line is kept)
    child.stdin.write(problem(literals, arguments.nesting, arguments.leaves).encode())
    child.stdin.close()
    first = child.stdout.readline().decode().strip()
    while child.stdout.read(1 << 20):
        pass
    _, status, usage = os.wait4(child.pid, 0)
    code = os.waitstatus_to_exitcode(status)
    depth = literals * arguments.nesting
    took = f"{time.monotonic() - begun:.1f} s, {usage.ru_maxrss >> 10} MiB"
    print(f"depth {depth} ({literals} literals): status {code}, {first or 'no text'}, {took}", flush=True)
    return code == 0 and "Unsatisfiable" in first


def find(arguments):
    answered, refused = 0, None
    literals = arguments.least
    while refused is None and answered < arguments.most:
        if run(arguments, literals):
            answered, literals = literals, min(2 * literals, arguments.most)
        else:
            refused = literals
    while refused is not None and refused - answered > 1:
        middle = (answered + refused) // 2
        if run(arguments, middle):
            answered = middle
        else:
            refused = middle
    print(f"greatest depth answered: {answered * arguments.nesting}; least not answered: {refused * arguments.nesting if refused else 'none found'}")


def main():
    parser = argparse.ArgumentParser(description=__doc__.split("\n")[0])
    parser.add_argument("literals", type=int, nargs="?")
    parser.add_argument("--find", action="store_true")
    parser.add_argument("--stack", type=int, default=8192)
    parser.add_argument("--least", type=int, default=8)
    parser.add_argument("--most", type=int, default=128)
    parser.add_argument("--leaves", type=int, choices=(1, 2), default=1)
    parser.add_argument("--nesting", type=int, default=240)
    parser.add_argument("--words", default="")
    parser.add_argument("--memory", type=int, default=12000)
    parser.add_argument("--program", default=os.path.join(TOP, "crates", "darwin", "out", "darwin"))
    arguments = parser.parse_args()
    if arguments.find:
        find(arguments)
    elif arguments.literals:
        sys.stdout.write(problem(arguments.literals, arguments.nesting, arguments.leaves))
    else:
        parser.error("a number of literals, or --find")


if __name__ == "__main__":
    main()
