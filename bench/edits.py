#!/usr/bin/env python3
"""Tries wrong bodies that the gate does not try, and tells which of them the contracts refuse.

usage: bench/edits.py [--anew] CRATE..        names of crates, or all

The edits stand in bench/edits/CRATE, in the form of those in crates/CRATE/must-fail, of which the gate tries a few a
crate. Each names a file of the crate, and pairs of lines: a text that stands there once, and what stands there
instead. A crate is tried on a clone of the last commit, outside of this folder: it is checked there, which begins with what
other checks on this machine kept, and then `rt must-fail` tries the edits. Ends with 1 where one is not refused.
"""
import os
import re
import shutil
import subprocess
import sys
import tempfile

TOP = os.path.dirname(os.path.dirname(os.path.abspath(__file__)))
EDITS = os.path.join(TOP, "bench", "edits")
# (RT may name another command, as one that waits for a free processor)
RT = os.environ.get("RT", "rt").split()


def edits_of(crate):
    folder = os.path.join(EDITS, crate)
    return sorted(it for it in os.listdir(folder) if it.endswith(".edit")) if os.path.isdir(folder) else []


def verdict_of(line, name):
    """What a line of rt says of the edit, if it speaks of it."""
    if not re.search(rf"\b{re.escape(name)}\b", line):
        return None
    for word in ("NOT REFUSED", "BAD EDIT", "NOT TRIED", "refused"):
        if word in line:
            return word
    return None


def tried(clone, crate, words):
    """Each edit's name with what was said of it."""
    folder = os.path.join(clone, "crates", crate)
    checked = subprocess.run([*RT, "check"], cwd=folder, capture_output=True, text=True)
    if checked.returncode != 0:
        return {}, checked.stdout + checked.stderr
    place = os.path.join(folder, "must-fail")
    shutil.rmtree(place, ignore_errors=True)
    shutil.copytree(os.path.join(EDITS, crate), place)
    done = subprocess.run([*RT, "must-fail", *words, crate], cwd=clone, capture_output=True, text=True)
    said = done.stdout + done.stderr
    verdicts = {}
    for name in edits_of(crate):
        for line in said.splitlines():
            verdict = verdict_of(line, name)
            if verdict:
                verdicts[name] = verdict
    return verdicts, said


def main():
    words = [it for it in sys.argv[1:] if it == "--anew"]
    crates = [it for it in sys.argv[1:] if it != "--anew"]
    if not crates:
        sys.exit(__doc__)
    if crates == ["all"]:
        crates = sorted(os.listdir(EDITS))
    failed = False
    with tempfile.TemporaryDirectory() as scratch:
        clone = os.path.join(scratch, "clone")
        subprocess.run(["git", "clone", "-q", TOP, clone], check=True)
        for crate in crates:
            if not edits_of(crate):
                sys.exit(f"{crate}: no edits stand in bench/edits/{crate}")
            verdicts, said = tried(clone, crate, words)
            for name in edits_of(crate):
                print(f"{crate}/{name}: {verdicts.get(name, 'no verdict')}", flush=True)
            if any(verdicts.get(name) != "refused" for name in edits_of(crate)):
                print(said, flush=True)
                failed = True
    sys.exit(1 if failed else 0)


if __name__ == "__main__":
    main()
