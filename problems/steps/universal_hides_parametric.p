cnf(c1, axiom, p(X) | r(X)).
cnf(c2, axiom, ~p(X) | s).
cnf(c3, axiom, ~s | p(X)).
