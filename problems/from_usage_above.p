% The bound of depth is 6 where none is given, so the search cannot begin at 7.
cnf(c1, axiom, p).
