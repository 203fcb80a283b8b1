cnf(c1, axiom, p(a)).
cnf(c2, axiom, ~p(X)).
