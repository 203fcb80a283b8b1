% Two clauses close, and the first one is taken.
cnf(c1, axiom, p).
cnf(c2, axiom, ~p).
cnf(c3, axiom, ~p).
