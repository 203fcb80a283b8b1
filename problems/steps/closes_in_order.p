cnf(c1, axiom, p).
cnf(c2, axiom, ~p).
cnf(c3, axiom, ~p).
