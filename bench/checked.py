#!/usr/bin/env python3
"""Pipes answers of the built program through the built answer checker, as a user does, and compares what it says.

usage: bench/checked.py [--made N] [--small] [PROGRAM [CHECKER]]
       bench/checked.py --speed [CHECKER]

PROGRAM is crates/darwin/out/darwin and CHECKER crates/darwin_check/out/darwin_check unless they are named. Each file of
problems/ is piped, with the words of its .args, and so are N (300) problems that are drawn from the seeds from 1 on:

    { cat FILE; echo; echo '% ANSWER'; PROGRAM < FILE; } | CHECKER

What is due follows from the answer: a yes with status 0 to Unsatisfiable and to Satisfiable, `% check none` with 10 to
GaveUp; the refusal that the program writes where the problem is one that it refuses; and `% check answer line 1` with 9
to the refusal of its words. With --small a problem of more than a million bytes is left out. Each run of the checker has
a stack of 256 KiB.

With --speed it times the checker on refutations of some 10 MB, beside minisat on the same clauses where that is installed,
and on a model of 2,000 lines over 100 clauses, by processor time.

Prints what differs, and how many answers of each kind there were; ends with 1 if one differs.
"""
import argparse
import collections
import itertools
import os
import random
import resource
import shutil
import subprocess
import sys
import tempfile

TOP = os.path.dirname(os.path.dirname(os.path.abspath(__file__)))
PROBLEMS = os.path.join(TOP, "problems")
SECONDS = 300
STACK = 256 << 10
MARK = b"\n% ANSWER\n"
# What a drawn problem is searched with, so that each is answered at once.
WORDS = ["--depth", "4", "--literals", "200"]
# For the word of an answer: what the checker says, and its status.
DUE = {
    "Unsatisfiable": (0, b"% check yes refutation\n"),
    "Satisfiable": (0, b"% check yes model\n"),
    "GaveUp": (10, b"% check none\n"),
    "UsageError": (9, b"% check answer line 1\n"),
}


# What is asked.


def lines_of(path):
    if not os.path.exists(path):
        return []
    with open(path, encoding="utf-8") as it:
        return it.read().splitlines()


def stored(most):
    """The files, as names, words and texts."""
    for folder, below, names in os.walk(PROBLEMS):
        below.sort()
        # (what is read below these is for other programs)
        if os.path.relpath(folder, PROBLEMS).split(os.sep)[0] in ("steps", "flat"):
            continue
        for name in sorted(names):
            stem, _, ending = os.path.join(folder, name).rpartition(".")
            if ending == "p":
                with open(f"{stem}.p", "rb") as it:
                    text = it.read()
                if not most or len(text) <= most:
                    yield os.path.relpath(stem, TOP), lines_of(f"{stem}.args"), text


def drawn_term(draw, depth):
    if depth and draw.random() < 0.3:
        return f"f({drawn_term(draw, depth - 1)})"
    return draw.choice(["X", "Y", "a", "b"])


def drawn_clause(draw, predicates):
    literals = []
    for _ in range(draw.choice([1, 2, 2, 3])):
        sign = draw.choice(["", "~"])
        literals.append(f"{sign}p{draw.randrange(predicates)}({drawn_term(draw, 1)},{drawn_term(draw, 1)})")
    return "|".join(literals)


def drawn(count):
    for seed in range(1, count + 1):
        draw = random.Random(seed)
        predicates = draw.randrange(1, 5)
        clauses = [drawn_clause(draw, predicates) for _ in range(draw.randrange(2, 5 * predicates + 3))]
        yield f"the seed {seed}", WORDS, text_of(clauses)


def text_of(clauses):
    return "".join(f"cnf(c{number},axiom,{clause}).\n" for number, clause in enumerate(clauses, 1)).encode()


# What is compared.


def small_stack():
    resource.setrlimit(resource.RLIMIT_STACK, (STACK, resource.getrlimit(resource.RLIMIT_STACK)[1]))


def said_of(checker, *parts):
    """What the checker writes of these bytes, its status, and its processor time."""
    with tempfile.TemporaryFile() as given:
        given.writelines(parts)
        given.seek(0)
        before = resource.getrusage(resource.RUSAGE_CHILDREN)
        ran = subprocess.run([checker], stdin=given, capture_output=True, timeout=SECONDS, preexec_fn=small_stack)
        after = resource.getrusage(resource.RUSAGE_CHILDREN)
    return (ran.returncode, ran.stdout), after.ru_utime + after.ru_stime - before.ru_utime - before.ru_stime


def difference(program, checker, words, text):
    """The word of the answer, and what is wrong with what is said of it, or None."""
    # (a file that ends too early is refused at its end, so both read the line feed before the mark)
    text += b"\n"
    answer = subprocess.run([program, *words], input=text, capture_output=True, timeout=SECONDS)
    word = answer.stdout.split()[3].decode() if answer.stdout.startswith(b"% SZS status ") else ""
    # (the checker refuses a problem as the program does, under the name of standard input)
    due = DUE.get(word) or (answer.returncode, answer.stdout)
    said, _ = said_of(checker, text, MARK[1:], answer.stdout)
    return word, None if said == due else f"{due[1]!r} and {due[0]} are due, found {said[1][:200]!r} and {said[0]}"


def compare(program, checker, options):
    words = collections.Counter()
    differing = 0
    for name, args, text in itertools.chain(stored(1_000_000 if options.small else None), drawn(options.made)):
        word, what = difference(program, checker, args, text)
        words[word] += 1
        if what:
            differing += 1
            print(f"{name}: {what}", flush=True)
    counts = ", ".join(f"{count} {word}" for word, count in sorted(words.items()))
    print(f"{sum(words.values())} answers: {counts}; of {differing} another thing is said than is due")
    return differing


# How long it takes.


def refutation_of(clauses, lines):
    """The problem's text, and the answer's of these lines, each a clause with the number of what it is an instance of."""
    body = "".join(f"cnf(i{k},plain,{line},instance({number},c{number})).\n" for k, (line, number) in enumerate(lines, 1))
    head, start, end = (f"% SZS {it} for stdin\n" for it in ("status Unsatisfiable", "output start Refutation", "output end Refutation"))
    return text_of(clauses), (head + start + body + end).encode(), [line for line, _ in lines]


def chain(size):
    """A path of so many edges, from whose begin its end is reached, line by line."""
    edges = [f"edge(n{k},n{k + 1})" for k in range(size)]
    clauses = [*edges, "reached(n0)", "~edge(X,Y)|~reached(X)|reached(Y)", f"~reached(n{size})"]
    steps = [(f"~edge(n{k},n{k + 1}) | ~reached(n{k}) | reached(n{k + 1})", size + 2) for k in range(size)]
    facts = [(edge, number) for number, edge in enumerate(edges, 1)]
    return refutation_of(clauses, [*steps, *facts, ("reached(n0)", size + 1), (f"~reached(n{size})", size + 3)])


def signs(size):
    """All clauses of so many atoms."""
    clauses = [" | ".join(f"{sign}p{atom}" for atom, sign in enumerate(row)) for row in itertools.product(["", "~"], repeat=size)]
    return refutation_of(clauses, [(clause, number) for number, clause in enumerate(clauses, 1)])


def closure(size, clauses):
    """A model of the closure of a path of so many edges, with facts more that say nothing new, up to so many clauses."""
    facts = [f"le(n{k},n{k + 1})" for k in range(size)]
    problem = text_of([*facts, *(facts[k % size] for k in range(clauses - 1 - size)), "~le(X,Y)|~le(Y,Z)|le(X,Z)"])
    pairs = [(i, j) for i in range(size) for j in range(i + 1, size + 1)]
    body = "".join(f"cnf(e{k},plain,le(n{i},n{j}),universal).\n" for k, (i, j) in enumerate(pairs, 1))
    head, start, end = (f"% SZS {it} for stdin\n" for it in ("status Satisfiable", "output start Model", "output end Model"))
    return problem, (head + start + "% default false\n" + body + end).encode(), len(pairs)


def dimacs(clauses):
    numbers = {}
    rows = []
    for clause in clauses:
        row = []
        for literal in clause.split(" | "):
            number = numbers.setdefault(literal.lstrip("~"), len(numbers) + 1)
            row.append(-number if literal.startswith("~") else number)
        rows.append(" ".join(map(str, [*row, 0])))
    return f"p cnf {len(numbers)} {len(rows)}\n" + "\n".join(rows) + "\n"


def minisat_time(clauses):
    with tempfile.NamedTemporaryFile("w", suffix=".cnf") as it:
        it.write(dimacs(clauses))
        it.flush()
        before = resource.getrusage(resource.RUSAGE_CHILDREN)
        ran = subprocess.run(["minisat", "-verb=0", it.name], capture_output=True, timeout=SECONDS)
        after = resource.getrusage(resource.RUSAGE_CHILDREN)
    if ran.returncode != 20:
        return "minisat ends with another answer"
    return f"minisat {after.ru_utime + after.ru_stime - before.ru_utime - before.ru_stime:.2f} s"


def time(checker):
    wrong = 0
    for name, (problem, answer, clauses) in (("chain 62000", chain(62_000)), ("signs 16", signs(16))):
        said, seconds = said_of(checker, problem, MARK, answer)
        wrong += said != DUE["Unsatisfiable"]
        beside = minisat_time(clauses) if shutil.which("minisat") else "no minisat"
        print(f"{name}: an answer of {len(answer) / 1e6:.1f} MB, {len(clauses)} lines: {seconds:.2f} s, {beside}; {said[1].decode().strip()}", flush=True)
    problem, answer, count = closure(63, 100)
    said, seconds = said_of(checker, problem, MARK, answer)
    wrong += said != DUE["Satisfiable"]
    print(f"closure 63: a model of {count} lines over 100 clauses: {seconds:.2f} s; {said[1].decode().strip()}")
    return wrong


def built(words, place, name):
    path = os.path.abspath(words[place]) if len(words) > place else os.path.join(TOP, "crates", name, "out", name)
    if not os.path.exists(path):
        sys.exit(f"{path} was not built")
    return path


def main():
    parser = argparse.ArgumentParser(description=__doc__, formatter_class=argparse.RawDescriptionHelpFormatter)
    parser.add_argument("--made", type=int, default=300)
    parser.add_argument("--small", action="store_true")
    parser.add_argument("--speed", action="store_true")
    parser.add_argument("programs", nargs="*")
    options = parser.parse_args()
    if options.speed:
        sys.exit(1 if time(built(options.programs, 0, "darwin_check")) else 0)
    program = built(options.programs, 0, "darwin")
    checker = built(options.programs, 1, "darwin_check")
    sys.exit(1 if compare(program, checker, options) else 0)


if __name__ == "__main__":
    main()
