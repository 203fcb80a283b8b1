#!/usr/bin/env python3
"""Problems by family and size, and what is known of each.

usage: bench/families.py FAMILY SIZE     prints the problem; without words, the families with what is known of them

A family is a function that yields the clauses of a size. FAMILIES has for each name the function, the sizes that are
tried by default, the words that the program gets, and the answer of a size where it is known, or None. What is known
is said of the family by counting or since the problem was made around a solution: no prover was asked. Random choices
are drawn by a generator that is seeded with the family and the size, so a problem is always the same.
"""
import itertools
import random
import sys
from typing import NamedTuple

UNSATISFIABLE, SATISFIABLE = "Unsatisfiable", "Satisfiable"
FAMILIES = {}


class Family(NamedTuple):
    clauses: object
    sizes: list
    answer: object
    words: list


def family(sizes, answer=None, words=()):
    """Takes the function below it as a family. The answer is that of all sizes, or a function of the size."""

    def taken(clauses):
        FAMILIES[clauses.__name__] = Family(clauses, sizes, answer if callable(answer) else lambda size: answer, list(words))
        return clauses

    return taken


def text_of(name, size):
    """The problem as a file."""
    return "".join(f"cnf(c{number},axiom,{clause}).\n" for number, clause in enumerate(FAMILIES[name].clauses(size), 1))


def seeded(name, size):
    return random.Random(f"{name} {size}")


def any_of(literals):
    return "|".join(literals)


def different(names):
    """The facts that each two of the names are different, either way round."""
    return [f"different({one},{other})" for one, other in itertools.permutations(names, 2)]


# Propositional ones.


@family([3, 4, 5, 6, 7, 8, 9, 10], UNSATISFIABLE)
def signs(size):
    """All clauses of `size` literals over as many atoms. Each assignment makes one of them false."""
    for pattern in itertools.product(["", "~"], repeat=size):
        yield any_of(f"{sign}p{atom}" for atom, sign in enumerate(pattern))


@family([3, 4, 5, 6, 7, 8, 9], UNSATISFIABLE)
def pigeons(size):
    """`size` pigeons sit in one hole less, no two in one. Refuting it by splits takes about (`size` - 1)! leaves."""
    for pigeon in range(size):
        yield any_of(f"at(p{pigeon},h{hole})" for hole in range(size - 1))
    for hole in range(size - 1):
        for one, other in itertools.combinations(range(size), 2):
            yield f"~at(p{one},h{hole})|~at(p{other},h{hole})"


@family([20, 30, 40, 50, 60, 80, 100, 120])
def random3(size):
    """Random clauses of three literals over `size` atoms, 4.26 an atom: as many as leave about half of such problems
    satisfiable where they are large."""
    draw = seeded("random3", size)
    for _ in range(round(4.26 * size)):
        yield any_of(f"{draw.choice(['', '~'])}p{atom}" for atom in draw.sample(range(size), 3))


@family([10, 15, 20, 25, 30, 40, 50, 60])
def colourings(size):
    """Three colours for a random graph of `size` vertices and 2.5 edges a vertex. Most of such graphs have no colouring."""
    draw = seeded("colourings", size)
    for vertex in range(size):
        yield any_of(f"{colour}(v{vertex})" for colour in ("red", "green", "blue"))
    pairs = list(itertools.combinations(range(size), 2))
    for one, other in draw.sample(pairs, min(round(2.5 * size), len(pairs))):
        for colour in ("red", "green", "blue"):
            yield f"~{colour}(v{one})|~{colour}(v{other})"


@family([4, 5, 6, 7, 8, 9, 10, 12], lambda size: UNSATISFIABLE if size in (2, 3) else SATISFIABLE)
def queens(size):
    """A queen in each row of a board of `size` rows, none attacking another. There is a way but for 2 and 3 rows."""
    squares = list(itertools.product(range(size), repeat=2))
    for row in range(size):
        yield any_of(f"queen(r{row},c{column})" for column in range(size))
    for (row, column), (below, beside) in itertools.combinations(squares, 2):
        if row != below and (column == beside or abs(column - beside) == below - row):
            yield f"~queen(r{row},c{column})|~queen(r{below},c{beside})"


# Function-free ones with variables.


@family([3, 4, 5, 6, 7, 8], UNSATISFIABLE)
def pigeons_with_variables(size):
    """The same as pigeons, said once for all pigeons by facts and variables."""
    pigeons, holes = [f"p{it}" for it in range(size)], [f"h{it}" for it in range(size - 1)]
    yield any_of(["~pigeon(P)", *(f"at(P,{hole})" for hole in holes)])
    yield "~different(P,Q)|~at(P,H)|~at(Q,H)"
    yield from (f"pigeon({pigeon})" for pigeon in pigeons)
    yield from different(pigeons)


@family([16, 64, 256, 1000, 3000, 10000, 20000], UNSATISFIABLE, ["--literals", "65535"])
def chains(size):
    """A path of `size` edges leads where it must not. No split: a Horn problem that unit resolution decides."""
    yield "p(c0)"
    yield "~p(X)|~edge(X,Y)|p(Y)"
    yield from (f"edge(c{it},c{it + 1})" for it in range(size))
    yield f"~p(c{size})"


@family([10, 30, 100], UNSATISFIABLE, ["--depth", "64", "--list", "50000000"])
def nested(size):
    """A chain of `size` equations, each of which nests 63 symbols more: the refutation's terms are up to 63 `size` deep,
    and weigh about 126 `size`^2 together. With 600, terms of depth 37,800 weigh some 45 million."""
    yield f"e(X,{'f(' * 63}X{')' * 63})"
    yield any_of(f"~e(X{it},X{it + 1})" for it in range(size))


@family([4, 8, 16, 32, 60, 100, 140], SATISFIABLE, ["--literals", "65535"])
def closures(size):
    """The transitive closure of a path of `size` edges, which has `size` (`size` + 1) / 2 pairs. Each clause has a
    positive literal, so all may be true; no split."""
    yield "~edge(X,Y)|reach(X,Y)"
    yield "~reach(X,Y)|~reach(Y,Z)|reach(X,Z)"
    yield from (f"edge(c{it},c{it + 1})" for it in range(size))


@family([8, 12, 16, 20, 30, 40, 50, 60], SATISFIABLE)
def colourable(size):
    """Three colours by variables and facts, for a graph with two edges a vertex that were drawn between vertices of
    different remainder by 3, which is a colouring."""
    draw = seeded("colourable", size)
    pairs = [it for it in itertools.combinations(range(size), 2) if it[0] % 3 != it[1] % 3]
    yield "~vertex(V)|red(V)|green(V)|blue(V)"
    yield from (f"~edge(V,W)|~{colour}(V)|~{colour}(W)" for colour in ("red", "green", "blue"))
    yield from (f"vertex(v{vertex})" for vertex in range(size))
    yield from (f"edge(v{one},v{other})" for one, other in draw.sample(pairs, min(2 * size, len(pairs))))


@family([2, 3, 4, 5, 6, 7, 8], SATISFIABLE)
def latin_squares(size):
    """A square of `size` rows with each of as many letters once a row and a column: the sum of row and column is one."""
    numbers = [f"n{it}" for it in range(size)]
    yield any_of(["~number(R)", "~number(C)", *(f"has(R,C,{letter})" for letter in numbers)])
    yield "~different(C,D)|~has(R,C,L)|~has(R,D,L)"
    yield "~different(R,S)|~has(R,C,L)|~has(S,C,L)"
    yield from (f"number({it})" for it in numbers)
    yield from different(numbers)


@family([2, 3, 4, 5, 6], SATISFIABLE)
def zebras(size):
    """Who lives where: `size` houses in a row and as many nations, drinks and pets, by hints that are drawn of one
    hidden solution: of two things that they share a house, or stand in houses side by side."""
    draw = seeded("zebras", size)
    kinds = [draw.sample([f"{kind}{it}" for it in range(size)], size) for kind in ("nation", "drink", "pet")]
    for things in kinds:
        yield from (any_of(f"at({thing},h{house})" for house in range(size)) for thing in things)
        yield from (f"~at({one},H)|~at({other},H)" for one, other in itertools.combinations(things, 2))
    for house in range(size):
        one, other = draw.sample(kinds, 2)
        yield f"~at({one[house]},H)|at({other[house]},H)"
    for house in range(size - 1):
        one, other = draw.choice(kinds)[house], draw.choice(kinds)[house + 1]
        for at in range(size):
            yield any_of([f"~at({one},h{at})", *(f"at({other},h{it})" for it in (at - 1, at + 1) if 0 <= it < size)])


def random_clause(draw, predicates, literals, term):
    """So many literals of two arguments each."""
    return any_of(f"{draw.choice(['', '~'])}p{draw.randrange(predicates)}({term(draw)},{term(draw)})" for _ in range(literals))


def plain_term(draw):
    return draw.choice(["X", "Y", "Z", "a", "b"])


def deep_term(draw):
    return f"f({deep_term(draw)})" if draw.random() < 0.25 else plain_term(draw)


@family([3, 4, 6, 8, 10, 12, 14, 16])
def function_free(size):
    """Random clauses over `size` predicates, seven a predicate, of three literals. An argument is one of three variables
    or two constants."""
    draw = seeded("function_free", size)
    for _ in range(7 * size):
        yield random_clause(draw, size, 3, plain_term)


@family([4, 6, 8, 10, 12, 15, 20])
def functions(size):
    """The same with a function at every fourth term, five clauses a predicate, of two or three literals. A model may need
    more depth than the program is given."""
    draw = seeded("functions", size)
    for _ in range(5 * size):
        yield random_clause(draw, size, draw.randint(2, 3), deep_term)


def main():
    if len(sys.argv) == 3 and sys.argv[1] in FAMILIES:
        sys.stdout.write(text_of(sys.argv[1], int(sys.argv[2])))
        return
    for name, it in FAMILIES.items():
        print(f"{name}: {' '.join(it.clauses.__doc__.split())}")


if __name__ == "__main__":
    main()
