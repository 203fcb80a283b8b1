#!/usr/bin/env python3
"""Checks an answer of darwin without darwin: a refutation by a SAT solver, a model by evaluating ground instances.

usage: bench/evidence.py PROBLEM ANSWER [--dimacs FILE] [--depth D] [--most N]
       bench/evidence.py FOLDER

PROBLEM is the file of clauses and ANSWER what darwin wrote; `-` reads the answer from standard input. Of a FOLDER each
NAME.p below it is checked with the answer NAME.out beside it.

Of a refutation each line has to be a ground instance of the formula that it names, and the lines together have to be
propositionally unsatisfiable. The second is asked of minisat where it is installed, else of a small search of this
script's own, which is meant for some thousand lines. --dimacs also writes the lines in DIMACS, one clause a line, for
any other solver. Both checks together are the whole of what Unsatisfiable says.

Of a model the ground instances of each clause are evaluated over all terms up to depth D (2), or over N (20000) that
are drawn where a clause has more. For a problem whose only functions are constants these can be all instances, and the
script says whether they were. Otherwise a model that passes may still be wrong further out.

Prints what it checked. Ends with 0 where nothing is wrong, with 1 where something is, and with 2 where it can't read.
"""
import argparse
import itertools
import os
import random
import re
import shutil
import subprocess
import sys
import tempfile

TOKEN = re.compile(
    r"(?:[\t-\r ]|%[^\n]*|/\*.*?\*/)*"
    r"(?:(?P<word>[a-z][A-Za-z0-9_]*)|(?P<variable>[A-Z][A-Za-z0-9_]*)|(?P<dollar>\$\$?[A-Za-z0-9_]*)"
    r"|(?P<quoted>'(?:[^'\\]|\\['\\])+')|(?P<object>\"(?:[^\"\\]|\\[\"\\])*\")"
    r"|(?P<number>[+-]?[0-9]+(?:/[0-9]+|(?:\.[0-9]+)?(?:[eE][+-]?[0-9]+)?))|(?P<sign>!=|[^\t-\r ])|$)",
    re.DOTALL,
)


class Unreadable(Exception):
    pass


class Formulas:
    """Reads formulas. A variable is its name; another term, and an atom, is a tuple of its symbol and its arguments."""

    def __init__(self, text):
        self.tokens = []
        at = 0
        while at < len(text):
            found = TOKEN.match(text, at)
            if not found or found.end() == at:
                raise Unreadable(f"a token at {at}")
            at = found.end()
            if found.lastgroup:
                self.tokens.append(self.token(found.lastgroup, found[found.lastgroup]))
        self.at = 0

    @staticmethod
    def token(group, text):
        """A quoted word and a lower word with the same text are one name."""
        if group == "quoted":
            return "word", re.sub(r"\\(.)", r"\1", text[1:-1])
        return group, text

    def peek(self):
        return self.tokens[self.at] if self.at < len(self.tokens) else ("end", "")

    def next(self):
        token = self.peek()
        self.at += 1
        return token

    def want(self, text):
        if self.next()[1] != text:
            raise Unreadable(f"token {self.at}, where {text} should stand")

    def arguments(self):
        found = []
        if self.peek() == ("sign", "("):
            self.next()
            found.append(self.term())
            while self.peek() == ("sign", ","):
                self.next()
                found.append(self.term())
            self.want(")")
        return tuple(found)

    def term(self):
        group, text = self.next()
        if group == "variable":
            return text
        if group not in ("word", "object"):
            raise Unreadable(f"token {self.at}, where a term should stand")
        return ((group, text), *self.arguments())

    def atom(self):
        group, text = self.next()
        if group == "sign" and text == "(":
            atom = self.atom()
            self.want(")")
            return atom
        if group not in ("word", "dollar"):
            raise Unreadable(f"token {self.at}, where an atom should stand")
        return ((group, text), *self.arguments())

    def clause(self):
        """The literals, as pairs of a truth value and an atom; None where one of them is true anyway."""
        closing = 0
        while self.peek() == ("sign", "("):
            self.next()
            closing += 1
        literals, is_true = [], False
        while True:
            positive = self.peek() != ("sign", "~")
            if not positive:
                self.next()
            atom = self.atom()
            while closing and self.peek() == ("sign", ")"):
                self.next()
                closing -= 1
            if atom[0][0] != "dollar":
                literals.append((positive, atom))
            elif (atom[0][1] == "$true") == positive:
                is_true = True
            if self.peek() != ("sign", "|"):
                break
            self.next()
            while self.peek() == ("sign", "("):
                self.next()
                closing += 1
        for _ in range(closing):
            self.want(")")
        return None if is_true else literals

    def notes(self):
        found, opened = [], 0
        while not (opened == 0 and self.peek() == ("sign", ")")):
            group, text = self.next()
            if group == "end":
                raise Unreadable("the end, inside of notes")
            opened += (text in "([") - (text in ")]") if group == "sign" else 0
            found.append(text)
        return found

    def all(self):
        while self.peek()[0] != "end":
            self.want("cnf")
            self.want("(")
            name = self.next()[1]
            self.want(",")
            self.next()
            self.want(",")
            literals = self.clause()
            notes = []
            if self.peek() == ("sign", ","):
                self.next()
                notes = self.notes()
            self.want(")")
            self.want(".")
            yield name, literals, notes


def matches(general, special, found):
    """Whether the substitution can be completed so that it takes the one to the other; it is completed."""
    if isinstance(general, str):
        return found.setdefault(general, special) == special
    return (
        not isinstance(special, str)
        and general[0] == special[0]
        and len(general) == len(special)
        and all(matches(one, other, found) for one, other in zip(general[1:], special[1:]))
    )


def variables(term, found):
    if isinstance(term, str):
        found.setdefault(term)
    else:
        for it in term[1:]:
            variables(it, found)
    return found


def instance(term, found):
    return found[term] if isinstance(term, str) else (term[0], *(instance(it, found) for it in term[1:]))


# Refutations.


def numbered(lines):
    """The clauses in numbers, an atom's negated where the literal is."""
    numbers = {}
    return [[numbers.setdefault(atom, len(numbers) + 1) * (1 if positive else -1) for positive, atom in it] for it in lines], len(numbers)


def dimacs(clauses, atoms):
    return f"p cnf {atoms} {len(clauses)}\n" + "".join(" ".join(map(str, [*it, 0])) + "\n" for it in clauses)


def is_satisfiable(clauses, true):
    """A search by unit clauses and then by cases."""
    while True:
        left = []
        unit = None
        for clause in clauses:
            if any(it in true for it in clause):
                continue
            rest = [it for it in clause if -it not in true]
            if not rest:
                return False
            if len(rest) == 1:
                unit = rest[0]
            left.append(rest)
        if not left:
            return True
        if unit is None:
            literal = left[0][0]
            return is_satisfiable(left, true | {literal}) or is_satisfiable(left, true | {-literal})
        clauses, true = left, true | {unit}


def satisfiable(clauses, atoms):
    """Whether they are satisfiable, and who says so."""
    if shutil.which("minisat"):
        with tempfile.NamedTemporaryFile("w", suffix=".cnf") as it:
            it.write(dimacs(clauses, atoms))
            it.flush()
            status = subprocess.run(["minisat", "-verb=0", it.name], capture_output=True).returncode
        if status in (10, 20):
            return status == 10, "minisat"
    return is_satisfiable(clauses, frozenset()), "this script's search"


def check_refutation(formulas, lines, arguments):
    wrong = []
    for name, literals, notes in lines:
        number, label = int(notes[2]), notes[4]
        given, clause, _ = formulas[number - 1] if 0 < number <= len(formulas) else (None, None, None)
        found = {}
        is_instance = (
            clause is not None
            and given == label
            and len(clause) == len(literals)
            and all(one[0] == other[0] and matches(one[1], other[1], found) for one, other in zip(clause, literals))
            and not any(variables(atom, {}) for _, atom in literals)
        )
        if not is_instance:
            wrong.append(f"{name} is no ground instance of formula {number}, {label}")
    clauses, atoms = numbered([literals for _, literals, _ in lines])
    if arguments.dimacs:
        with open(arguments.dimacs, "w", encoding="ascii") as out:
            out.write(dimacs(clauses, atoms))
    answer, who = satisfiable(clauses, atoms)
    if answer:
        wrong.append(f"the lines are satisfiable, by {who}")
    print(f"{len(lines)} lines over {atoms} ground atoms; each an instance of its formula, and unsatisfiable by {who}" if not wrong else "\n".join(wrong))
    return not wrong


# Models.


class Model:
    """What its lines make true: a list of (positive, atom, universal), and the default."""

    def __init__(self, default, lines):
        self.default, self.lines = default, lines
        self.known = {}

    def excepts(self, atom, by):
        """Whether a line keeps the parametric line `by`, or the default where it is None, from an atom."""
        for _, other, universal in self.lines:
            if matches(other, atom, {}):
                if universal or by is None or (matches(by, other, {}) and not matches(other, by, {})):
                    return True
        return False

    def makes_true(self, atom):
        if any(positive and matches(it, atom, {}) and (universal or not self.excepts(atom, it)) for positive, it, universal in self.lines):
            return True
        return self.default and not self.excepts(atom, None)

    def truth(self, atom):
        if atom not in self.known:
            self.known[atom] = self.makes_true(atom)
        return self.known[atom]


def symbols(term, found):
    if not isinstance(term, str):
        found.setdefault((term[0], len(term) - 1))
        for it in term[1:]:
            symbols(it, found)
    return found


def terms_up_to(functions, depth, most):
    """Ground terms of at most that depth, the shallow ones first, and whether these are all terms there are."""
    terms = [(symbol,) for symbol, arity in functions if arity == 0]
    for _ in range(depth - 1):
        known = set(terms)
        for symbol, arity in functions:
            if arity > 0:
                more = itertools.islice(itertools.product(terms, repeat=arity), most)
                known.update((symbol, *it) for it in more)
        terms = sorted(known, key=repr)[:most]
    return terms, all(arity == 0 for _, arity in functions)


def assignments(names, terms, most):
    if len(terms) ** len(names) <= most:
        return itertools.product(terms, repeat=len(names)), True
    drawn = random.Random(1)
    return ([drawn.choice(terms) for _ in names] for _ in range(most)), False


def check_model(formulas, default, lines, arguments):
    kept = [(name, clause) for name, clause, _ in formulas if clause is not None]
    functions = {}
    for _, clause in kept:
        for _, atom in clause:
            for it in atom[1:]:
                symbols(it, functions)
    if not any(arity == 0 for _, arity in functions):
        functions[(("word", "c0"), 0)] = None
    terms, complete = terms_up_to(list(functions), arguments.depth, arguments.most)
    model = Model(default, [(literals[0][0], literals[0][1], "universal" in notes) for _, literals, notes in lines])
    count = 0
    for name, clause in kept:
        names = {}
        for _, atom in clause:
            variables(atom, names)
        values, whole = assignments(names, terms, arguments.most)
        complete = complete and whole
        for value in values:
            found = dict(zip(names, value))
            count += 1
            if not any(model.truth(instance(atom, found)) == positive for positive, atom in clause):
                print(f"an instance of {name} is false: {found}")
                return False
    extent = "all there are" if complete else f"over {len(terms)} terms, not all there are"
    print(f"{count} ground instances of {len(kept)} clauses, {extent}: each is true in the model of {len(lines)} lines")
    return True


def text_of(path):
    if path == "-":
        return sys.stdin.buffer.read().decode("latin-1")
    with open(path, "rb") as it:
        return it.read().decode("latin-1")


def checked(arguments):
    answer = text_of(arguments.answer)
    status = re.match(r"% SZS status (\w+)", answer)
    if not status or status[1] not in ("Unsatisfiable", "Satisfiable"):
        print(f"nothing to check: {answer.splitlines()[0] if answer else 'no answer'}")
        return True
    formulas = list(Formulas(text_of(arguments.problem)).all())
    lines = list(Formulas(answer).all())
    if status[1] == "Unsatisfiable":
        return check_refutation(formulas, lines, arguments)
    return check_model(formulas, "% default true\n" in answer, lines, arguments)


def checked_folder(arguments):
    """Whether no stored answer below the folder is wrong."""
    wrong = 0
    for folder, below, names in os.walk(arguments.problem):
        below.sort()
        for name in sorted(names):
            stem = os.path.join(folder, name[:-2])
            if name.endswith(".p") and os.path.exists(f"{stem}.out"):
                print(f"{stem}: ", end="")
                arguments.problem, arguments.answer = f"{stem}.p", f"{stem}.out"
                wrong += not checked(arguments)
    return wrong == 0


def main():
    parser = argparse.ArgumentParser(description=__doc__.split("\n")[0])
    parser.add_argument("problem")
    parser.add_argument("answer", nargs="?")
    parser.add_argument("--dimacs")
    parser.add_argument("--depth", type=int, default=2)
    parser.add_argument("--most", type=int, default=20000)
    sys.setrecursionlimit(100000)
    arguments = parser.parse_args()
    if (arguments.answer is None) != os.path.isdir(arguments.problem):
        parser.error("wanted: a problem and an answer, or a folder")
    try:
        return 0 if (checked(arguments) if arguments.answer else checked_folder(arguments)) else 1
    except (Unreadable, IndexError, ValueError, OSError) as error:
        print(f"can't read: {error}", file=sys.stderr)
        return 2


if __name__ == "__main__":
    sys.exit(main())
