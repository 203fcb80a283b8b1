#!/usr/bin/env python3
"""Times the built program on the families of bench/families.py, beside other provers, or with more workers.

usage: bench/search.py [--families A,B] [--sizes 4,8] [--seconds S] [--program PATH] [--beside e,minisat | --workers 1,2,4]

Each line has a family and a size, and for each run the answer, the seconds of the processor, those by the clock where
numbers of workers are given, and the peak memory in MB. A run is ended after S (5) seconds of the processor, or ten
times as many by the clock. Below the lines stand how many problems were answered, and geometric means over them.

--beside    Other provers get each problem next: e is `eprover --auto`, and minisat gets those without variables. The
            means are of the ratios of processor time, where a run without an answer counts as 2 S, and one below 1 ms
            as 1 ms.
--workers   The program is run with `--workers N` for each of the numbers. The means are of the ratios of the first
            one's time by the clock to this one's, and of this one's memory to the first one's, where both have answers.

What is known of a family, what any prover answers, and the text with any number of workers have to agree. Where they
do not, the line says so, and the script ends with 1.
"""
import argparse
import ctypes
import math
import os
import re
import shutil
import signal
import subprocess
import sys
import tempfile
import threading
import time
from typing import NamedTuple

from families import FAMILIES, SATISFIABLE, UNSATISFIABLE, text_of

TOP = os.path.dirname(os.path.dirname(os.path.abspath(__file__)))
PROGRAM = os.path.join(TOP, "crates", "darwin", "out", "darwin")


# One run.

# The peak memory of a process counts that of the one it was forked from. So a shell starts it, which is small and goes
# away at once, by exec, since it might wait for the process else; and this script asks to be the parent of what it leaves.
SHELL = 'ulimit -t "$1"; given=$2; written=$3; shift 3; "$@" < "$given" > "$written" 2> /dev/null & exec echo $!'
SET_CHILD_SUBREAPER = 36
ctypes.CDLL(None).prctl(SET_CHILD_SUBREAPER, 1)


class Run(NamedTuple):
    answer: str
    seconds: float
    clock: float
    megabytes: float
    written: str

    def is_answered(self):
        return self.answer in (SATISFIABLE, UNSATISFIABLE)

    def counted(self, limit):
        return max(self.seconds, 0.001) if self.is_answered() else 2 * limit


def run(words, given, limit):
    with tempfile.TemporaryDirectory() as folder:
        source, target = os.path.join(folder, "given"), os.path.join(folder, "written")
        with open(source, "w", encoding="utf-8") as file:
            file.write(given)
        begun = time.monotonic()
        shell = ["sh", "-c", SHELL, "sh", str(limit), source, target, *words]
        process = int(subprocess.run(shell, stdout=subprocess.PIPE, check=True).stdout)
        ending = threading.Timer(10 * limit, os.kill, (process, signal.SIGKILL))
        ending.start()
        try:
            used = os.wait4(process, 0)[2]
        except KeyboardInterrupt:
            os.kill(process, signal.SIGKILL)
            raise
        finally:
            ending.cancel()
        clock = time.monotonic() - begun
        with open(target, encoding="utf-8") as file:
            written = file.read()
    return Run(answer_of(written), used.ru_utime + used.ru_stime, clock, used.ru_maxrss / 1024, written)


def answer_of(written):
    """The word of the status line, or what minisat says in its own way, or a hyphen."""
    found = re.search(r"SZS status (\w+)|^(UN)?SATISFIABLE$", written, re.MULTILINE)
    if not found:
        return "-"
    return found[1] or (UNSATISFIABLE if found[2] else SATISFIABLE)


# What is run on a problem: for each column a function from its text to the words and what they read, or None.


def dimacs(text):
    """The clauses as lines of numbers, or None where there are variables."""
    clauses = re.findall(r"^cnf\(\w+,axiom,(.*)\)\.$", text, re.MULTILINE)
    if any(re.search(r"\b[A-Z]", clause) for clause in clauses):
        return None
    numbers, lines = {}, []
    for clause in clauses:
        literals = [(it[0] == "~", numbers.setdefault(it.lstrip("~"), len(numbers) + 1)) for it in clause.split("|")]
        lines.append(" ".join(str(-number if negative else number) for negative, number in literals) + " 0\n")
    return f"p cnf {len(numbers)} {len(lines)}\n" + "".join(lines)


OTHERS = {"e": (["eprover", "--auto", "-s"], lambda text: text), "minisat": (["minisat", "-verb=0"], dimacs)}


def columns(options, family):
    """The words and the translation of each column."""
    words, same = [options.program, *family.words], lambda text: text
    if options.workers:
        return {f"--workers {it}": ([*words, "--workers", it], same) for it in options.workers}
    return {"darwin": (words, same), **{it: OTHERS[it] for it in options.beside}}


def runs_of(options, name, size):
    """The runs on a problem, None in a column that can't say it."""
    text, runs = text_of(name, size), {}
    for column, (words, translate) in columns(options, FAMILIES[name]).items():
        given = translate(text)
        runs[column] = given and run(words, given, options.seconds)
    return runs


# What is told.


def wrong_with(options, known, runs):
    """What does not agree, in words, or nothing."""
    answers = {it.answer for it in runs.values() if it and it.is_answered()}
    if known and answers - {known}:
        return f"  WRONG: it is {known}"
    if len(answers) > 1:
        return "  WRONG: answers differ"
    texts = {it.written for it in runs.values() if it.is_answered() or it.answer == "GaveUp"} if options.workers else set()
    return "  WRONG: texts differ" if len(texts) > 1 else ""


def line_of(name, size, cells, options):
    width = 39 if options.workers else 30
    return f"{name:22} {size!s:>5}" + "".join(f"  {it:{width}}" for it in cells)


def cell(run, options):
    if not run:
        return ""
    clock = f"{run.clock:9.3f}" if options.workers else ""
    return f"{run.answer:13}{run.seconds:9.3f}{clock}{run.megabytes:8.1f}"


def mean(ratios):
    return math.exp(sum(map(math.log, ratios)) / len(ratios)) if ratios else math.nan


def summary(options, rows):
    """A line for each column on all its runs, and how it stands to the first one."""
    first = next(iter(rows[0]))
    for column in rows[0]:
        pairs = [(row[first], row[column]) for row in rows if row[column]]
        line = f"{column}: {sum(it.is_answered() for _, it in pairs)} of {len(pairs)} answered"
        if column == first:
            print(line)
        elif options.workers:
            both = [(one, it) for one, it in pairs if one.is_answered() and it.is_answered()]
            speed, memory = mean([one.clock / it.clock for one, it in both]), mean([it.megabytes / one.megabytes for one, it in both])
            print(f"{line}, {speed:.2f} times as fast as {first}, with {memory:.2f} times the memory")
        else:
            share = mean([one.counted(options.seconds) / it.counted(options.seconds) for one, it in pairs])
            print(f"{line}, {first} takes {share:.3f} times its time")


def parsed():
    several = lambda text: text.split(",")
    parse = argparse.ArgumentParser(usage=__doc__.split("\n")[2][7:])
    parse.add_argument("--families", type=several, default=[*FAMILIES])
    parse.add_argument("--sizes", type=lambda text: [int(it) for it in several(text)])
    parse.add_argument("--seconds", type=int, default=5)
    parse.add_argument("--program", default=PROGRAM)
    either = parse.add_mutually_exclusive_group()
    either.add_argument("--beside", type=several, default=[])
    either.add_argument("--workers", type=several, default=[])
    options = parse.parse_args()
    for program in [options.program, *(OTHERS[it][0][0] for it in options.beside)]:
        if not shutil.which(program):
            parse.error(f"there is no program {program}")
    return options


def main():
    options, rows, is_wrong = parsed(), [], False
    heads = [f"{it}: s, {'clock, ' if options.workers else ''}MB" for it in columns(options, FAMILIES[options.families[0]])]
    print(line_of("family", "size", heads, options).rstrip(), flush=True)
    for name in options.families:
        for size in options.sizes or FAMILIES[name].sizes:
            runs = runs_of(options, name, size)
            wrong = wrong_with(options, FAMILIES[name].answer(size), runs)
            print((line_of(name, size, [cell(it, options) for it in runs.values()], options) + wrong).rstrip(), flush=True)
            rows.append(runs)
            is_wrong = is_wrong or bool(wrong)
    summary(options, rows)
    sys.exit(1 if is_wrong else 0)


if __name__ == "__main__":
    main()
