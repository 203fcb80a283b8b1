% No literal has depth 0 as its bound: the search begins at 1 or deeper.
cnf(c1, axiom, p).
