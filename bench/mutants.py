#!/usr/bin/env python3
"""Changes the definitions of the calculus, one at a time, and tells which laws and examples are no longer proved.

usage: bench/mutants.py COPY [KEPT [FIRST [LAST]]]

With COPY alone nothing is tried: told are the changes whose text no longer stands in its file once.

COPY is a clone of this repository, which is changed and put back. KEPT is a folder for what its check keeps, made
where it is not there: the first check takes some minutes, and the check of a change some 10 to 60 seconds. The
changes stand in bench/changes.py. Each line of the output has the number of a change, the file, the definition, what
stands there instead, and what is refused: examples by their names, and functions of other crates with the crate's.

A law that is refused has a proof that no longer goes through; that the law is false is not shown. What an example
says is so small that its proof should go through wherever it is true.
"""
import os
import re
import shutil
import subprocess
import sys

# (no folder is left beside this file)
sys.dont_write_bytecode = True
from changes import CHANGES  # noqa: E402

# The examples are checked over all these, which are read as source, in one run that checks again only what a change reaches.
BELOW = ["me_terms", "me_laws", "me_laws_refutation", "me_laws_counting", "me_laws_existence"]
OF_KIT = ["core", "std", "indexmap", "smallvec"]
# (RT may name another command, as one that waits for a free processor and then runs rt)
RT = os.environ.get("RT", "rt").split()


def each_change():
    """The definition, the file, the text that stands there once, what stands there instead, and what it imports besides."""
    for definition, file, places in CHANGES:
        for old, news in places:
            for new in news:
                yield (definition, file, old, new, None) if isinstance(new, str) else (definition, file, old, *new)


def check(copy, kept):
    """Whether all is proved (None: there is no verdict), and what the check wrote."""
    kit = os.path.dirname(subprocess.run([*RT, "doc"], capture_output=True, text=True, check=True).stdout.strip())
    words = [*RT[:-1], f"{kit}/bin/rattle", "check", "--crate-name", "me_laws_examples", "src/lib.rt", "-L", f"dependency={kit}/rlibs"]
    for name in OF_KIT:
        words += ["--extern", f"{name}={kit}/rlibs/{name}.rlib"]
    for name in BELOW:
        words += ["--lib", f"{name}={copy}/crates/{name}/src/lib.rt"]
    words += ["--antt-project", f"{kit}/rattle/logic/antt-project.json", "--logic-built", f"{kit}/logic_built"]
    words += ["--incremental", kept]
    done = subprocess.run(words, cwd=f"{copy}/crates/me_laws_examples", capture_output=True, text=True)
    return {0: True, 1: False}.get(done.returncode), done.stdout + done.stderr


def path_of(copy, file):
    """Where a file of definitions stands in the copy."""
    return f"{copy}/crates/me_terms/specs/{file}.antt"


def text_of(path):
    """The text of a file of definitions."""
    with open(path, encoding="utf-8") as definition:
        return definition.read()


def tell_gone(copy, changes):
    """Writes the changes whose text does not stand in its file once. The status: 1 where there are any."""
    gone = [(number, file, old) for number, (_, file, old, _, _) in enumerate(changes) if text_of(path_of(copy, file)).count(old) != 1]
    for number, file, old in gone:
        print(f"{number} {file}: the text no longer stands there once: {old}")
    print(f"{len(changes)} changes, {len(gone)} of them without their text")
    return min(len(gone), 1)


def tried(copy, kept, file, old, new, imported):
    """What the check says with the change in place."""
    path = path_of(copy, file)
    text = text_of(path)
    if text.count(old) != 1:
        return f"the text no longer stands there once: {old}"
    changed = text.replace(old, new)
    if imported:
        changed = changed.replace("\nuse ", f"\nuse {imported}\nuse ", 1)
    # (what is kept of the definitions as they stand serves every change)
    shutil.copytree(kept, f"{kept}.changed", copy_function=os.link)
    with open(path, "w", encoding="utf-8") as definition:
        definition.write(changed)
    try:
        proved, said = check(copy, f"{kept}.changed")
    finally:
        with open(path, "w", encoding="utf-8") as definition:
            definition.write(text)
        shutil.rmtree(f"{kept}.changed")
    unread = re.search(rf"^\S*/specs/{file}\.antt:.*error.*", said, re.M)
    if unread:
        return f"DOES NOT READ: {unread[0]}"
    if proved is None:
        return f"NO VERDICT: {said}"
    return "NOT REFUSED" if proved else "refused: " + " ".join(re.findall(r"^fn (?:me_laws_examples::)?(\S+): (?!proved)", said, re.M))


def main():
    copy = os.path.abspath(sys.argv[1])
    changes = list(each_change())
    if len(sys.argv) == 2:
        sys.exit(tell_gone(copy, changes))
    kept = os.path.abspath(sys.argv[2])
    first = int(sys.argv[3]) if len(sys.argv) > 3 else 0
    last = int(sys.argv[4]) if len(sys.argv) > 4 else len(changes) - 1
    if not check(copy, kept)[0]:
        sys.exit("the definitions as they stand are not proved")
    for number in range(first, last + 1):
        definition, *change = changes[number]
        file, _, new, _ = change
        print(f"{number} {file}, {definition}: {new} -- {tried(copy, kept, *change)}", flush=True)


if __name__ == "__main__":
    main()
