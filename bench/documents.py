#!/usr/bin/env python3
"""Runs the commands that the documents show, and compares what they print with what is shown.

usage: bench/documents.py [--program PATH] [--steps PATH] [DOCUMENT..]

The documents are README.md, those of docs/ and bench/README.md, unless some are named. Two kinds of fenced blocks count:

    ```sh                  a session: a line that begins with `$ ` is a command, lines that begin with `> ` behind it go
                           on with it, and the lines below are what it prints to standard output, all of it. Where there
                           are none, what it prints is not compared. It has to end with status 0. In what is shown, a
                           line `...` stands for any lines.
    ```LANGUAGE NAME       a file of this name, for the sessions below it

What proves, takes minutes or asks for what may not be installed is shown in other blocks, which nobody runs.

Each document has a temporary folder of its own, with bench/ and problems/, and with the built programs first on the
PATH: `darwin`, which is crates/darwin/out/darwin unless PATH is given, and `darwin_steps`, whose commands are left out
where it was not built. `./prove FILE ..` is there too, without its proofs.

Prints of each command that differs the first line that does, and the counts; ends with 1 if one differs.
"""
import argparse
import glob
import os
import re
import subprocess
import sys
import tempfile

TOP = os.path.dirname(os.path.dirname(os.path.abspath(__file__)))
SECONDS = 60
PROVE = '#!/bin/sh\nfile=$1; shift\nexec darwin --name "$(basename "$file" .p)" "$@" < "$file"\n'


def blocks(text):
    """Each fenced block: the number of its first line, the words behind its fence, and its lines."""
    lines, begun = text.split("\n"), None
    for number, line in enumerate(lines):
        if line.startswith("```"):
            if begun is None:
                begun = number
            else:
                yield begun + 2, lines[begun][3:].split(), lines[begun + 1 : number]
                begun = None


def commands(first, lines):
    """Each command of a session: the number of its line, what is run, and the lines that are shown below it."""
    found = []
    for number, line in enumerate(lines, first):
        if line.startswith("$ "):
            found.append((number, [line[2:]], []))
        elif not found:
            raise ValueError(f"line {number}: a session begins with a command: {line}")
        elif line.startswith("> ") and not found[-1][2]:
            found[-1][1].append(line[2:])
        else:
            found[-1][2].append(line)
    return [(number, "\n".join(command), shown) for number, command, shown in found]


def difference(shown, printed):
    """The first line that differs, in words, or None."""
    pattern = "".join(r"(.*\n)*?" if line == "..." else re.escape(line) + r"\n" for line in shown)
    if not shown or re.fullmatch(pattern, printed):
        return None
    found = printed.split("\n")[:-1]
    for number, line in enumerate(shown):
        if line == "...":
            return f"not what is shown around `...`: {printed[:300]!r}"
        if number == len(found) or found[number] != line:
            return f"line {number + 1}\n  shown    {line!r}\n  printed  {found[number] if number < len(found) else 'nothing more'!r}"
    return f"more than is shown: {found[len(shown)]!r}"


def furnish(folder, programs):
    """Puts into the folder what the documents may speak of."""
    for name in ("bench", "problems"):
        os.symlink(os.path.join(TOP, name), os.path.join(folder, name))
    os.mkdir(os.path.join(folder, "bin"))
    for name, program in programs.items():
        out = os.path.join(folder, "crates", name, "out")
        os.makedirs(out)
        os.symlink(program, os.path.join(out, name))
        os.symlink(program, os.path.join(folder, "bin", name))
    with open(os.path.join(folder, "prove"), "w", encoding="utf-8") as file:
        file.write(PROVE)
    os.chmod(os.path.join(folder, "prove"), 0o755)


def wrong_with(folder, command, shown):
    """What is wrong with a command, in words, or None."""
    environment = {**os.environ, "PATH": os.path.join(folder, "bin") + os.pathsep + os.environ["PATH"]}
    words = ["bash", "-c", command]
    try:
        done = subprocess.run(words, cwd=folder, env=environment, stdin=subprocess.DEVNULL, capture_output=True, text=True, timeout=SECONDS)
    except subprocess.TimeoutExpired:
        return f"no end in {SECONDS} seconds"
    if done.returncode:
        return f"status {done.returncode}, {done.stderr[-300:]!r}"
    return difference(shown, done.stdout)


def run_document(path, programs):
    """How many commands were run and left out, and what is wrong with some."""
    tried, left, wrong = 0, 0, []
    with open(path, encoding="utf-8") as file, tempfile.TemporaryDirectory() as folder:
        furnish(folder, programs)
        for first, words, lines in blocks(file.read()):
            if len(words) == 2:
                with open(os.path.join(folder, words[1]), "w", encoding="utf-8") as written:
                    written.write("\n".join(lines) + "\n")
            for number, command, shown in commands(first, lines) if words == ["sh"] else []:
                if "darwin_steps" in command and "darwin_steps" not in programs:
                    left += 1
                    continue
                tried += 1
                what = wrong_with(folder, command, shown)
                if what:
                    wrong.append(f"{os.path.relpath(path, TOP)}:{number}: {command}: {what}")
    return tried, left, wrong


def main():
    built = {name: os.path.join(TOP, "crates", name, "out", name) for name in ("darwin", "darwin_steps")}
    parse = argparse.ArgumentParser(usage="bench/documents.py [--program PATH] [--steps PATH] [DOCUMENT..]")
    parse.add_argument("--program", type=os.path.abspath, default=built["darwin"])
    parse.add_argument("--steps", type=os.path.abspath, default=built["darwin_steps"])
    parse.add_argument("documents", nargs="*")
    options = parse.parse_args()
    if not os.path.exists(options.program):
        sys.exit(f"{options.program} was not built")
    programs = {"darwin": options.program, "darwin_steps": options.steps}
    programs = {name: path for name, path in programs.items() if os.path.exists(path)}
    tried, left, wrong = 0, 0, []
    for path in options.documents or sorted(glob.glob(f"{TOP}/*.md") + glob.glob(f"{TOP}/docs/*.md")) + [f"{TOP}/bench/README.md"]:
        more, others, what = run_document(os.path.abspath(path), programs)
        tried, left, wrong = tried + more, left + others, wrong + what
    print(*wrong, f"{tried} commands of the documents, {len(wrong)} of them differ, {left} were left out", sep="\n")
    sys.exit(1 if wrong or not tried else 0)


if __name__ == "__main__":
    main()
