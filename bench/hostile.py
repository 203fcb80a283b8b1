#!/usr/bin/env python3
"""Runs the built program on what no user would send, and looks at how each run ends.

usage: bench/hostile.py [--count N] [--seed S] [--workers N] [--parts PART,..] [--jobs N] [--keep FOLDER] [--program FILE]

The parts, all of them unless some are named:

    damaged     N (20000) files that are made of those of problems/ and of random bytes, cut, doubled, with bytes flipped,
                dropped or nested, of at most 4 KiB
    long        files of some 64 MiB: one that is repeated, one that is nested, and some with bytes flipped, cut or doubled
    words       every option out of its range, without a value, twice, and words that are none
    memory      limits of the address space from the least in which the program starts to ample, for each of some calls
    devices     outputs that are full, closed or not read, inputs that are closed, a folder, or end early

With --workers each call that has a search gets that option. Each run has to end by a status of the table of
docs/PROGRAM.md with the first line that belongs to it, with the whole text of a refusal and nothing else, and none by a
signal or not at all. Prints how many ended by each status, and what was wrong, with the file that shows it in the folder
of --keep; ends with 1 where something was.
"""
import argparse
import os
import random
import re
import subprocess
import sys
from collections import Counter
from concurrent.futures import ThreadPoolExecutor

TOP = os.path.dirname(os.path.dirname(os.path.abspath(__file__)))
PROBLEMS = os.path.join(TOP, "problems")
SECONDS = 120

WORDS = {1: "UsageError", 2: "SyntaxError", 3: "Inappropriate", 4: "ResourceOut", 5: "OSError", 7: "MemoryOut"}
REASONS = {
    1: r"words",
    2: r"syntax at \d+",
    3: r"(equality|language|include|number|defined|conjecture|role) at \d+",
    4: r"limit (clauses|literals|arguments|variables|nesting|length) at \d+",
    5: r"read",
    7: r"memory",
}
ANSWER = re.compile(
    rb"% SZS status (GaveUp for \S+\n% reason (depth|weight|literals|list)"
    rb"|Satisfiable for (\S+)\n% SZS output start Model for \S+\n(.*\n)*% SZS output end Model for \S+"
    rb"|Unsatisfiable for \S+\n% SZS output start Refutation for \S+\n(.*\n)*% SZS output end Refutation for \S+)\n"
)

SUMMARY = re.compile(rb"% SZS status \w+ for \S+\n(% reason \w+\n)?% clauses \d+\n(% size \d+\n)?")


def wrong_with(status, output, statuses=range(8)):
    """What is wrong with how a run ended, or None; the output is None where nobody saw it."""
    if status < 0:
        return f"signal {-status}"
    if status not in statuses:
        return f"status {status}"
    if output is None:
        return None
    if status == 0 and not ANSWER.fullmatch(output) and not SUMMARY.fullmatch(output):
        return f"status 0 with {output[:80]!r}"
    if status in WORDS:
        due = rf"% SZS status {WORDS[status]} for \S+\n% reason {REASONS[status]}\n".encode()
        if not re.fullmatch(due, output):
            return f"status {status} with {output[:80]!r}"
    return None


def run(program, words, given, limit=None, stdout=subprocess.PIPE):
    """How a call ends under a limit of the address space in bytes: its status, or None where it does not end, and its output."""
    command = [program, *words]
    if limit:
        command = ["prlimit", f"--as={limit}", *command]
    try:
        done = subprocess.run(command, input=given, stdout=stdout, stderr=subprocess.DEVNULL, timeout=SECONDS)
    except subprocess.TimeoutExpired:
        return None, b""
    return done.returncode, done.stdout or b""


def run_by_shell(script, program, words, given=b""):
    """The same of a script, in which "$@" is the call."""
    command = ["bash", "-c", script, "bash", program, *words]
    try:
        done = subprocess.run(command, input=given, stdout=subprocess.PIPE, stderr=subprocess.DEVNULL, timeout=SECONDS)
    except subprocess.TimeoutExpired:
        return None, b""
    # (bash tells a signal as 128 and its number)
    return (128 - done.returncode if done.returncode > 128 else done.returncode), done.stdout


# What is sent.


def stored():
    found = []
    for folder, _, names in os.walk(PROBLEMS):
        for name in sorted(names):
            path = os.path.join(folder, name)
            if name.endswith(".p") and os.path.getsize(path) <= 4096:
                with open(path, "rb") as it:
                    found.append(it.read())
    return found


def damaged(draw, files):
    data = bytearray(draw.choice(files) if draw.random() < 0.9 else bytes(draw.randrange(256) for _ in range(draw.randrange(300))))
    for _ in range(draw.randrange(1, 6)):
        at = draw.randrange(len(data) + 1)
        kind = draw.randrange(8)
        if kind == 0 and at < len(data):
            data[at] ^= 1 << draw.randrange(8)
        elif kind == 1:
            del data[at:]
        elif kind == 2:
            del data[at : at + draw.randrange(20)]
        elif kind == 3:
            data[at:at] = data[draw.randrange(at + 1) : at]
        elif kind == 4:
            deep = draw.choice((1, 10, 249, 250, 251, 2000))
            data[at:at] = draw.choice((b"(", b"f(", b"[", b"~")) * deep
        elif kind == 5:
            data[at:at] = bytes([draw.choice(b"()[],.|~'\"%$!=/*\\ \n\0\x7f\xff0AaX")])
        elif kind == 6:
            data[at:at] = draw.choice(files)
        else:
            data[at:at] = draw.choice((b"/*", b"*/", b"'", b'"', b"%", b"$true", b"!=", b" = ", b"cnf(", b"include('a')."))
    return bytes(data[:4096])


def long_files(draw):
    most = 1 << 26
    clause = b"cnf(a,axiom,p(X)|~q(f(X,b))).\n"
    full = (clause * (most // len(clause) + 1))[:most]
    yield b"%" * most
    yield b"(" * most
    yield b" " * (most + 1)
    yield full
    yield b"cnf(a,axiom,p(" + b"f(" * 1000000 + b"a"
    yield b"cnf(a,axiom,p," + b"[(" * (most // 2 - 7)
    yield b"cnf(a,axiom," + b"p|" * 4097 + b"p)."
    yield b"'" + b"a" * (most - 1)
    yield b"/*" + b"*" * (most - 2)
    yield bytes(draw.randrange(256) for _ in range(1 << 16)) * (1 << 10)
    for _ in range(4):
        data = bytearray(full)
        for _ in range(draw.randrange(1, 4)):
            data[draw.randrange(len(data) // 2, len(data))] = draw.randrange(256)
        yield bytes(data)
    for _ in range(2):
        yield full[: draw.randrange(len(full) // 2, len(full))]
    at = draw.randrange(len(full) // 2)
    yield (full[:at] + full[at // 2 :])[:most]


OPTIONS = {
    "--depth": ("0", "65"),
    "--from": ("0", "7"),
    "--weight": ("0", "100001"),
    "--literals": ("0", "65536"),
    "--list": ("0", "50000001"),
    "--workers": ("0", "65"),
    "--share": ("17", "-1"),
    "--make": ("1000000001", "x"),
    "--start": ("both", ""),
    "--name": ("", "a" * 201, "a b", "\x7f"),
}


def refused_words():
    for option, values in OPTIONS.items():
        for value in (*values, "9" * 19, "9" * 40, "1.5", "+1", "0x1"):
            if option != "--name" or value in values:
                yield [option, value]
                yield [f"{option}={value}"]
        yield [option]
        yield [option, "1", option, "1"] if option not in ("--start", "--name") else [option, "negative", option, "negative"]
    for word in ("--help", "-h", "--", "-", "file.p", "--depth5", "-d", "--workers=", "é", "--Depth=5", ""):
        yield [word]


# How it ends.


class Report:
    """Counts how runs end, and keeps what was wrong."""

    def __init__(self, folder):
        self.folder, self.wrong = folder, []

    def tell(self, title, ends):
        """Prints how many of `ends` had each status: the call, what it read, its status and output, and the statuses that are right."""
        counts = Counter()
        for what, given, status, output, statuses in ends:
            counts["no end" if status is None else status] += 1
            fault = "does not end" if status is None else wrong_with(status, output, statuses)
            if fault:
                self.wrong.append(f"{title}: {fault}: {what!r:.120} {self.kept(given)}")
        by_status = ", ".join(f"{it} {counts[it]}" for it in sorted(counts, key=str))
        print(f"{title}: {sum(counts.values())} runs; by status: {by_status}", flush=True)

    def kept(self, given):
        """The name of the file in which what was read is kept, or its first bytes."""
        if not self.folder:
            return f"{given!r:.120}"
        os.makedirs(self.folder, exist_ok=True)
        path = os.path.join(self.folder, f"wrong{len(self.wrong)}.p")
        with open(path, "wb") as it:
            it.write(given)
        return path


def damaged_ends(program, pool, draw, count, words):
    words = ["--literals", "200", *words]
    files = stored()
    sent = [damaged(draw, files) for _ in range(count)]
    for given, end in zip(sent, pool.map(lambda it: run(program, words, it), sent)):
        yield words, given, *end, (0, 2, 3, 4)


def long_ends(program, draw, words):
    words = ["--literals", "200", *words]
    for given in long_files(draw):
        yield words, given, *run(program, words, given), (0, 2, 3, 4)


def words_ends(program, pool):
    sent = list(refused_words())
    for words, end in zip(sent, pool.map(lambda it: run(program, it, b""), sent)):
        yield words, b"", *end, (1,)


def least_memory(program, words, given, is_enough):
    """The least limit of the address space, to 4 KiB, with which the call ends by a status that is enough."""
    low, high = 1 << 20, 1 << 21
    while not is_enough(run(program, words, given, high)[0]):
        low, high = high, 2 * high
    while high - low > 1 << 12:
        middle = (low + high) // 2
        if is_enough(run(program, words, given, middle)[0]):
            high = middle
        else:
            low = middle
    return high


def made_by(script, *words):
    return subprocess.run([os.path.join(TOP, "bench", script), *words], stdout=subprocess.PIPE, check=True).stdout


def memory_ends(program, pool, words):
    calls = [
        (["--make", "1"], b""),
        ([], SMALL),
        (["--list", "50000000"], made_by("deep.py", "16")),
        ([], made_by("families.py", "pigeons", "5")),
        ([], made_by("families.py", "closures", "12")),
        ([], SMALL * 1000),
        ([], SMALL * 1000 + b"x"),
    ]
    cases = []
    for more, given in calls:
        # (a program that the kernel or the loader cannot start ends by a signal or by 127)
        start = least_memory(program, [*words, *more], given, lambda it: it in range(8))
        ample = least_memory(program, [*words, *more], given, lambda it: it in (0, 2))
        limits = [start + (ample - start) * step // 60 for step in range(66)]
        # (from some limit on the C library gives each thread an arena of its own)
        limits += [ample + (1 << step) for step in range(20, 29)]
        cases += [([*words, *more], given, it) for it in limits]
    for (call, given, limit), end in zip(cases, pool.map(lambda it: run(program, *it), cases)):
        yield (f"--as={limit}", *call), given, *end, (0, 2, 7)


SMALL = b"cnf(a,axiom,p(X)|q(X)).\ncnf(b,axiom,~p(a)).\n"


def device_ends(program, words):
    made = [*words, "--make", "7"]
    for call, given in ((words, SMALL), (made, b""), ([*words, "x"], b""), (words, b"fof"), (words, SMALL[:20])):
        with open("/dev/full", "wb") as full:
            yield "a full device", given, run(program, call, given, stdout=full)[0], None, (6,)
        yield "a closed output", given, run_by_shell('"$@" >&-', program, call, given)[0], None, (6,)
        yield "an output that cannot be written", given, run_by_shell('"$@" 1</dev/null', program, call, given)[0], None, (6,)
        away = 'set -o pipefail; "$@" | true; exit ${PIPESTATUS[0]}'
        yield "a reader that goes away", given, run_by_shell(away, program, call, given)[0], None, range(7)
    yield "a folder", b"", *run_by_shell(f"\"$@\" < '{TOP}'", program, words), (5,)
    yield "a closed input", b"", *run_by_shell('"$@" <&-', program, words), (0, 5)
    yield "an input that cannot be read", b"", *run_by_shell('"$@" 0>/dev/null', program, words), (5,)
    for size in range(len(SMALL) + 1):
        statuses = (0,) if size in (0, len(SMALL) - 1, len(SMALL), SMALL.index(b"\n"), SMALL.index(b"\n") + 1) else (2, 3)
        yield "an input that ends early", SMALL[:size], *run(program, words, SMALL[:size]), statuses
    slow = "(printf 'cnf(a,axiom,p'; sleep 0.1; printf '(X)|q(X).') | \"$@\""
    yield "a writer that stops", b"", *run_by_shell(slow, program, words), (2,)


PARTS = ("damaged", "long", "words", "memory", "devices")


def main():
    parser = argparse.ArgumentParser(description=__doc__.split("\n")[0])
    parser.add_argument("--count", type=int, default=20000)
    parser.add_argument("--seed", type=int, default=1)
    parser.add_argument("--workers")
    parser.add_argument("--parts", default=",".join(PARTS))
    parser.add_argument("--jobs", type=int, default=os.cpu_count())
    parser.add_argument("--keep")
    parser.add_argument("--program", default=os.path.join(TOP, "crates", "darwin", "out", "darwin"))
    arguments = parser.parse_args()
    program = os.path.abspath(arguments.program)
    words = ["--workers", arguments.workers] if arguments.workers else []
    parts = arguments.parts.split(",")
    if not set(parts) <= set(PARTS):
        parser.error(f"the parts are {', '.join(PARTS)}")
    report = Report(arguments.keep)
    with ThreadPoolExecutor(arguments.jobs) as pool:
        if "damaged" in parts:
            report.tell("damaged files", damaged_ends(program, pool, random.Random(arguments.seed), arguments.count, words))
        if "long" in parts:
            report.tell("long files", long_ends(program, random.Random(arguments.seed), words))
        if "words" in parts:
            report.tell("words", words_ends(program, pool))
        if "memory" in parts:
            report.tell("memory", memory_ends(program, pool, words))
        if "devices" in parts:
            report.tell("devices", device_ends(program, words))
    print("\n".join(report.wrong[:20]) if report.wrong else "nothing was wrong")
    return 1 if report.wrong else 0


if __name__ == "__main__":
    sys.exit(main())
