% A start is negative or positive.
cnf(c1, axiom, p).
