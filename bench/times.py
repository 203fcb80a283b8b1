#!/usr/bin/env python3
"""Measures what the proofs of each crate cost from nothing, and prints a table for docs/MAP.md.

usage: bench/times.py [CRATE..]        crates of crates.txt, or all of them, the lowest first

Times are of the processor, user and system together, in seconds, and of one job. They are taken in a clone of the last
commit outside of this folder, crate by crate:

    (first)  `rt check` builds the crates below. This is not counted, and begins with what other checks kept.
    Code     the prover over those, with nothing kept of the crate itself, as the gate proves it
    Tests    the same with the tests, which proves the code once more, as the gate does
    Edits    `rt must-fail --anew` as the gate does it: a check of the crate from nothing, which the edits begin
             with, each edit, and one check more
    Each     what an edit takes of it in the middle: Edits without Code, by the number of edits

Measure on a quiet machine: beside other work the same proofs take up to 1.7 times as long. Ends with 1 where one fails.
"""
import os
import resource
import subprocess
import sys
import tempfile

TOP = os.path.dirname(os.path.dirname(os.path.abspath(__file__)))
# (RT may name another command, as one that waits for a free processor and then runs rt)
RT = os.environ.get("RT", "rt").split()
ALONE = {**os.environ, "RT_JOBS": "1"}


def crates_in_order(path):
    """Each crate of crates.txt with the libraries that it names."""
    with open(path, encoding="utf-8") as lines:
        rows = [it.partition(":") for it in lines if it.strip() and not it.startswith("#")]
    return {name.split()[0]: libraries.split() for name, _, libraries in rows}


def below(crate, crates):
    """The crates of the repository on which the crate stands."""
    found = []
    for it in crates[crate]:
        if it in crates:
            found += [other for other in [*below(it, crates), it] if other not in found]
    return found


def prover(kit, clone, crate, crates):
    """The call that proves the crate over the libraries that were built, as the kit's command rt makes it."""
    library = lambda it: f"{clone}/crates/{it}/out/rlib/{it}.rlib" if it in crates else f"{kit}/rlibs/{it}.rlib"
    is_program = os.path.exists(f"{clone}/crates/{crate}/src/main.rt")
    words = [f"{kit}/bin/rattle", "check", "--crate-name", crate, "src/main.rt" if is_program else "src/lib.rt"]
    for it in ["std", *crates[crate]]:
        words += ["--extern", f"{it}={library(it)}"]
    for folder in [f"{kit}/rlibs", *[os.path.dirname(library(it)) for it in below(crate, crates)]]:
        words += ["-L", f"dependency={folder}"]
    return [*RT[:-1], *words, "--antt-project", f"{kit}/rattle/logic/antt-project.json", "--logic-built", f"{kit}/logic_built", "--jobs", "1"]


def processor_seconds():
    used = resource.getrusage(resource.RUSAGE_CHILDREN)
    return used.ru_utime + used.ru_stime


def seconds_of(folder, words):
    """The processor seconds of the command, or None where it fails."""
    before = processor_seconds()
    done = subprocess.run(words, cwd=folder, capture_output=True, text=True, env=ALONE)
    if done.returncode != 0:
        print(f"in {os.path.basename(folder)}, {' '.join(words[:6])} .. failed:\n{done.stdout[-2000:]}{done.stderr[-2000:]}", file=sys.stderr)
        return None
    return processor_seconds() - before


def has_tests(folder):
    for at, _, names in os.walk(f"{folder}/src"):
        for name in names:
            with open(f"{at}/{name}", encoding="utf-8") as file:
                if "#[test]" in file.read():
                    return True
    return False


def edits_of(folder):
    place = f"{folder}/must-fail"
    return [it for it in os.listdir(place) if it.endswith(".edit")] if os.path.isdir(place) else []


def times_of(kit, clone, crate, crates):
    """The seconds of the crate's code, tests and edits, and of one edit: 0 for what it has not, and None for what fails."""
    folder = f"{clone}/crates/{crate}"
    if seconds_of(folder, [*RT, "check"]) is None:
        return [None] * 4
    words, edits = prover(kit, clone, crate, crates), edits_of(folder)
    code = seconds_of(folder, words)
    tests = seconds_of(folder, [*words, "--test"]) if has_tests(folder) else 0
    tried = seconds_of(clone, [*RT, "must-fail", "--anew", crate]) if edits else 0
    each = max(tried - code, 0) / len(edits) if edits and None not in (code, tried) else 0
    return [code, tests, tried, each]


def shown(seconds):
    return "failed" if seconds is None else f"{seconds:.0f}" if seconds else ""


def main():
    crates = crates_in_order(os.path.join(TOP, "crates.txt"))
    names = sys.argv[1:] or [*crates]
    kit = os.path.dirname(subprocess.run([*RT, "doc"], capture_output=True, text=True, check=True).stdout.strip())
    sums, failed = [0.0, 0.0, 0.0], False
    print("| Crate | Code | Tests | Edits | Each |\n|---|---|---|---|---|", flush=True)
    with tempfile.TemporaryDirectory() as scratch:
        clone = os.path.join(scratch, "clone")
        subprocess.run(["git", "clone", "-q", TOP, clone], check=True)
        for crate in names:
            row = times_of(kit, clone, crate, crates)
            failed = failed or None in row
            sums = [whole + (one or 0) for whole, one in zip(sums, row)]
            print(f"| `{crate}` | {' | '.join(shown(it) for it in row)} |", flush=True)
    print(f"| all | {' | '.join(shown(it) for it in sums)} | |")
    sys.exit(1 if failed else 0)


if __name__ == "__main__":
    main()
