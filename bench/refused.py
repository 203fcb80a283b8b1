#!/usr/bin/env python3
"""Refuses each allocation of the built program in turn, and looks at how each run ends.

usage: bench/refused.py [--most N] [--jobs N] [--workers N,..] [--program FILE] [NAME..]

NAME is a file of problems/ (those below EXAMPLES unless some are named), run with its words, and with 1, 2, 4
and 8 workers or those that --workers names.
In run N of a call the N-th allocation is refused, and in another one that and all later ones. A run has to end by status
7 with the text of a want of memory, or by the status and text that the call has with ample memory, and none by a signal
or not at all. The call has been gone over once no allocation was refused any more; with --most N every K-th
number is tried, K so that these are some N. Prints of each call how many allocations it has, and how many runs ended in which
way; ends with 1 where one ended otherwise. It compiles a library of a few lines that stands before the C library's
allocator, so it takes `cc` and Linux.
"""
import argparse
import os
import subprocess
import sys
import tempfile
from collections import Counter
from concurrent.futures import ThreadPoolExecutor

TOP = os.path.dirname(os.path.dirname(os.path.abspath(__file__)))
PROBLEMS = os.path.join(TOP, "problems")
SECONDS = 120

EXAMPLES = ("assert_then_split", "new_constant", "depth_reached", "four_clauses", "from_reaches", "list_bound", "notes_and_quotes", "cut_short")

# (each refusal writes a sign to the standard error, to which the program writes nothing)
LIBRARY = r"""
#include <errno.h>
#include <stdatomic.h>
#include <stdlib.h>
#include <unistd.h>

extern void *__libc_malloc(size_t), *__libc_calloc(size_t, size_t), *__libc_realloc(void *, size_t);
static atomic_ulong made;
static unsigned long first, last;

__attribute__((constructor)) static void begin(void) {
    const char *from = getenv("REFUSED_FROM"), *to = getenv("REFUSED_TO");
    first = from ? strtoul(from, 0, 10) : 0;
    last = to ? strtoul(to, 0, 10) : 0;
    atomic_store(&made, 0);
}

static int is_refused(void) {
    unsigned long number = atomic_fetch_add(&made, 1) + 1;
    if (number < first || number > last) return 0;
    if (write(2, "!", 1) < 0) {}
    errno = ENOMEM;
    return 1;
}

void *malloc(size_t size) { return is_refused() ? 0 : __libc_malloc(size); }
void *calloc(size_t count, size_t size) { return is_refused() ? 0 : __libc_calloc(count, size); }
void *realloc(void *old, size_t size) { return is_refused() ? 0 : __libc_realloc(old, size); }
"""

FOR_GOOD = 10**18


def run(program, library, words, given, first, last):
    """The status of a call (None where it does not end), what it writes, and how many allocations were refused."""
    environment = {"LD_PRELOAD": library, "REFUSED_FROM": str(first), "REFUSED_TO": str(last)}
    try:
        done = subprocess.run([program, *words], input=given, capture_output=True, timeout=SECONDS, env=environment)
    except subprocess.TimeoutExpired:
        return None, b"", 1
    return done.returncode, done.stdout, done.stderr.count(b"!")


def allocations(program, library, words, given):
    """How many allocations the call has, which may differ by a few where it has two workers."""
    low, high = 0, 1
    while run(program, library, words, given, high, high)[2]:
        low, high = high, 2 * high
    while high - low > 1:
        middle = (low + high) // 2
        if run(program, library, words, given, middle, middle)[2]:
            low = middle
        else:
            high = middle
    return low


def way(due, ended, name):
    """How a run ended, in a word, or what was wrong."""
    status, text, refused = ended
    if (status, text) == due:
        return "answered" if refused else "not reached"
    wants = [f"% SZS status MemoryOut for {it}\n% reason memory\n".encode() for it in (name, "stdin")]
    if status == 7 and text in wants:
        return "memory"
    return f"WRONG: status {status} with {text[:60]!r}"


def tried(pool, program, library, title, words, given, most):
    name = words[words.index("--name") + 1] if "--name" in words else "stdin"
    status, text, _ = run(program, library, words, given, FOR_GOOD, 0)
    count = allocations(program, library, words, given)
    step = max(1, (count + 9) // most)
    wrong = 0
    for kind, last in (("one", 0), ("all from there", FOR_GOOD)):
        numbers = range(1, count + 10, step)
        ends = pool.map(lambda it: way((status, text), run(program, library, words, given, it, max(it, last)), name), numbers)
        counts = Counter()
        for number, end in zip(numbers, ends):
            counts[end.split(":")[0]] += 1
            if end.startswith("WRONG"):
                wrong += 1
                print(f"{title}: {kind} refused, number {number}: {end}", flush=True)
        told = ", ".join(f"{it} {counts[it]}" for it in sorted(counts))
        print(f"{title}: status {status}, some {count} allocations, {kind} refused: {told}", flush=True)
    return wrong


def main():
    parser = argparse.ArgumentParser(description=__doc__.split("\n")[0])
    parser.add_argument("--most", type=int, default=2500)
    parser.add_argument("--jobs", type=int, default=os.cpu_count())
    parser.add_argument("--workers", default="1,2,4,8")
    parser.add_argument("--program", default=os.path.join(TOP, "crates", "darwin", "out", "darwin"))
    parser.add_argument("names", nargs="*", default=EXAMPLES)
    arguments = parser.parse_args()
    program = os.path.abspath(arguments.program)
    wrong = 0
    with tempfile.TemporaryDirectory() as folder, ThreadPoolExecutor(arguments.jobs) as pool:
        source, library = os.path.join(folder, "refused.c"), os.path.join(folder, "refused.so")
        with open(source, "w", encoding="utf-8") as it:
            it.write(LIBRARY)
        subprocess.run(["cc", "-O2", "-shared", "-fPIC", "-o", library, source], check=True)
        calls = []
        for name in arguments.names:
            stem = os.path.join(PROBLEMS, name)
            words = ["--name", os.path.basename(name)]
            if os.path.exists(f"{stem}.args"):
                with open(f"{stem}.args", encoding="utf-8") as it:
                    words += it.read().split()
            with open(f"{stem}.p", "rb") as it:
                calls.append((name, words, it.read()))
        if arguments.names is EXAMPLES:
            deep = [os.path.join(TOP, "bench", "deep.py"), "--nesting", "100", "4"]
            calls.append(("deep terms", [], subprocess.run(deep, stdout=subprocess.PIPE, check=True).stdout))
            calls.append(("a made problem", ["--make", "7", "--literals", "12"], b""))
            calls.append(("refused words", ["--depth", "65"], b""))
        for name, words, given in calls:
            for count in arguments.workers.split(","):
                workers = [] if count == "1" else ["--workers", count]
                title = " ".join([name, *workers])
                wrong += tried(pool, program, library, title, words + workers, given, arguments.most)
    print(f"{wrong} runs ended wrongly" if wrong else "nothing was wrong")
    return 1 if wrong else 0


if __name__ == "__main__":
    sys.exit(main())
