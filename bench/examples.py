#!/usr/bin/env python3
"""Runs the built program on the examples of problems/, and compares what it writes and its status byte by byte.

usage: bench/examples.py [--only WORD] [--small] [PROGRAM [STEPS]]

PROGRAM is crates/darwin/out/darwin unless it is named. STEPS, the program that shows each step of a search, is
crates/darwin_steps/out/darwin_steps, and its examples are left out where it was not built. With --only the examples
that have WORD in their name are run, and with --small those that read at most a million bytes.

A file NAME.p below problems/ is what the program reads. Its words are `--name NAME` and then the lines of NAME.args,
its output is to be NAME.out, and its status that of NAME.status, or 0 where there is no such file. A file NAME.args
alone is a call whose words are just its lines, and which reads nothing. Below problems/steps the program is STEPS,
without `--name`.

A file of problems/rows has an example a line, of columns that ` :: ` parts:

    what is read :: outcome                 for a call without words
    words :: what is read :: outcome

In words and in what is read, `\\n` is a line feed, `\\_` a blank, `\\\\` a backslash, `\\xNN` the byte of that number, `\\e`
nothing, and `\\{COUNT TEXT}` is TEXT so often. An outcome is one of these, and lines of `cnf` have their numbers first:

    reason WORDS                 a refusal, or a search that gives up, with this reason; the status and the word of the
                                 first line go with it as the table below says
    U: i1 CLAUSE,instance(..) ;; i2 ..      a refutation
    S: e1 LITERAL,KIND ;; e2 ..             a model; `S:` alone is the one that makes all atoms false
    summary WORD C N             what --make writes of C clauses and an answer of the size N

The name is `stdin`, or what follows `--name`. Each run has a stack of 256 KiB, in each of its threads, so that a walk which
calls itself as deep as a term shows. Prints what differs first, and ends with 1 if one example does.
"""
import itertools
import os
import re
import resource
import subprocess
import sys
import tempfile

TOP = os.path.dirname(os.path.dirname(os.path.abspath(__file__)))
PROBLEMS = os.path.join(TOP, "problems")
SECONDS = 120
STACK = 256 << 10

# For the first words of a reason: the status, and the word of the first line.
REASONS = {
    "words": (1, "UsageError"),
    "syntax": (2, "SyntaxError"),
    **{it: (3, "Inappropriate") for it in ("equality", "language", "include", "number", "defined", "conjecture", "role")},
    "limit": (4, "ResourceOut"),
    "read": (5, "OSError"),
    "memory": (7, "MemoryOut"),
    **{it: (0, "GaveUp") for it in ("depth", "weight", "literals", "list")},
}


class Example:
    """A call: its name, its words, what it reads, and the status and output that are due."""

    def __init__(self, name, program, words, given, status, output):
        self.name, self.program, self.words, self.given, self.status, self.output = name, program, words, given, status, output


def text_of(path):
    with open(path, "rb") as it:
        return it.read()


def lines_of(path):
    return text_of(path).decode().split("\n")[:-1] if os.path.exists(path) else []


# The examples that are files.


def file_example(path, programs):
    stem = path.rsplit(".", 1)[0]
    name = os.path.basename(stem)
    is_alone = not os.path.exists(f"{stem}.p")
    is_steps = os.path.relpath(path, PROBLEMS).startswith("steps" + os.sep)
    words = lines_of(f"{stem}.args")
    if not is_alone and not is_steps:
        words = ["--name", name, *words]
    given = b"" if is_alone else text_of(f"{stem}.p")
    status = int(text_of(f"{stem}.status")) if os.path.exists(f"{stem}.status") else 0
    return Example(os.path.relpath(stem, TOP), programs[is_steps], words, given, status, text_of(f"{stem}.out"))


def file_examples(programs):
    for folder, below, names in os.walk(PROBLEMS):
        below.sort()
        if os.path.relpath(folder, PROBLEMS).split(os.sep)[0] == "rows":
            continue
        for name in sorted(names):
            stem, _, ending = name.rpartition(".")
            if ending == "p" or ending == "args" and f"{stem}.p" not in names:
                yield file_example(os.path.join(folder, name), programs)


# The examples that are rows.


def unescaped(text):
    """The bytes that a column means."""

    def meaning(found):
        escape = found[1]
        if escape[0] == "x":
            return bytes([int(escape[1:], 16)]).decode("latin-1")
        if escape[0] == "{":
            count, part = escape[1:-1].split(" ", 1)
            return unescaped(part).decode("latin-1") * int(count)
        return {"n": "\n", "_": " ", "\\": "\\", "e": ""}[escape]

    return re.sub(r"\\(x[0-9a-f]{2}|\{\d+ [^}]*\}|[n_\\e])", meaning, text).encode("latin-1")


def shown(word, start, name, extra, lines):
    head = f"% SZS status {word} for {name}\n% SZS output start {start} for {name}\n{extra}"
    body = []
    for line in lines.split(" ;; ") if lines else []:
        number, rest = line.split(" ", 1)
        body.append(f"cnf({number},plain,{rest}).\n")
    return head + "".join(body) + f"% SZS output end {start} for {name}\n"


def outcome_of(text, name):
    """The status and the output that an outcome means."""
    kind, _, rest = text.partition(" ")
    if kind == "reason":
        status, word = REASONS[rest.split(" ")[0]]
        return status, f"% SZS status {word} for {name}\n% reason {rest}\n"
    if kind == "U:":
        return 0, shown("Unsatisfiable", "Refutation", name, "", rest)
    if kind == "S:":
        return 0, shown("Satisfiable", "Model", name, "% default false\n", rest)
    if kind == "summary":
        word, clauses, size = rest.split(" ")
        return 0, f"% SZS status {word} for {name}\n% clauses {clauses}\n% size {size}\n"
    raise ValueError(f"an outcome is expected: {text}")


def row_example(place, line, program):
    columns = [it.strip(" ") for it in line.split(" :: ")]
    if len(columns) not in (2, 3):
        raise ValueError(f"{place}: two or three columns are expected: {line}")
    *words, given, outcome = columns
    words = [os.fsdecode(unescaped(it)) for it in re.findall(r"(?:\\\{[^}]*\}|\S)+", " ".join(words))]
    status, _ = outcome_of(outcome, "stdin")
    # (a refusal of the words does not know their name)
    name = name_in(words) if status != 1 else "stdin"
    status, output = outcome_of(unescaped(outcome).decode("latin-1"), name)
    return Example(f"{place}, {line[:70]}", program, words, unescaped(given), status, output.encode("latin-1"))


def name_in(words):
    for word, after in zip(words, [*words[1:], "stdin"]):
        if word == "--name":
            return after
        if word.startswith("--name="):
            return word[7:]
    return "stdin"


def row_examples(program):
    folder = os.path.join(PROBLEMS, "rows")
    for file in sorted(os.listdir(folder)) if os.path.isdir(folder) else []:
        with open(os.path.join(folder, file), encoding="utf-8") as rows:
            for number, line in enumerate(rows, 1):
                if line.strip() and not line.startswith("#"):
                    yield row_example(f"problems/rows/{file}:{number}", line.rstrip("\n"), program)


# What is compared.


def run(words, **streams):
    """Runs a program with these words to its end, under the small stack."""
    small = lambda: resource.setrlimit(resource.RLIMIT_STACK, (STACK, resource.getrlimit(resource.RLIMIT_STACK)[1]))
    return subprocess.run(words, timeout=SECONDS, preexec_fn=small, **streams)


def first_difference(expected, found):
    """In words: the first line that is another one."""
    ours, theirs = expected.split(b"\n"), found.split(b"\n")
    for number, (line, other) in enumerate(zip(ours, theirs), 1):
        if line != other:
            return f"line {number}\n  expected {line[:300]!r}\n  found    {other[:300]!r}"
    return f"expected {len(ours)} lines, found {len(theirs)}"


def difference(example):
    """What differs, or None."""
    with tempfile.TemporaryFile() as given:
        given.write(example.given)
        given.seek(0)
        try:
            ran = run([example.program, *example.words], stdin=given, capture_output=True)
        except subprocess.TimeoutExpired:
            return f"no end in {SECONDS} seconds"
    if ran.stdout != example.output:
        return f"{first_difference(example.output, ran.stdout)}\n  status expected {example.status}, found {ran.returncode}"
    if ran.returncode != example.status:
        return f"status expected {example.status}, found {ran.returncode}"
    return None


# What no file can say.


def written(program, *words):
    return run([program, *words], stdin=subprocess.DEVNULL, capture_output=True).stdout


def device_differences(program):
    """What differs where the workers are others, and where a device fails."""
    alone = written(program, "--make", "7", "--workers", "1")
    if not alone.startswith(b"% SZS status ") or written(program, "--make", "7", "--workers", "8") != alone:
        yield "a made problem comes out otherwise with other workers"
    folder = os.open(TOP, os.O_RDONLY)
    ran = run([program], stdin=folder, capture_output=True)
    os.close(folder)
    if (ran.returncode, ran.stdout) != (5, b"% SZS status OSError for stdin\n% reason read\n"):
        yield f"standard input that is a folder: status 5 is expected, found {ran.returncode} and {ran.stdout!r}"
    if os.path.exists("/dev/full"):
        with open("/dev/full", "wb") as full:
            for words in ([], ["x"], ["--make", "7"]):
                ran = run([program, *words], stdin=subprocess.DEVNULL, stdout=full)
                if ran.returncode != 6:
                    yield f"standard output that is full, with the words {words}: status 6 is expected, found {ran.returncode}"


def main():
    words = sys.argv[1:]
    only, most = "", None
    if words[:1] == ["--only"]:
        only, words = words[1], words[2:]
    if words[:1] == ["--small"]:
        most, words = 1_000_000, words[1:]
    program = os.path.abspath(words[0]) if words else os.path.join(TOP, "crates", "darwin", "out", "darwin")
    steps = os.path.abspath(words[1]) if len(words) > 1 else os.path.join(TOP, "crates", "darwin_steps", "out", "darwin_steps")
    if not os.path.exists(program):
        sys.exit(f"{program} was not built")
    tried = differing = 0
    for example in itertools.chain(file_examples({False: program, True: steps}), row_examples(program)):
        if only not in example.name or not os.path.exists(example.program) or most and len(example.given) > most:
            continue
        tried += 1
        what = difference(example)
        if what:
            differing += 1
            print(f"{example.name}: {what}", flush=True)
    others = [] if only else list(device_differences(program))
    for what in others:
        print(what)
    print(f"{tried} examples, {differing} of them differ" + (f"; {len(others)} other calls differ" if others else ""))
    sys.exit(1 if differing or others else 0)


if __name__ == "__main__":
    main()
