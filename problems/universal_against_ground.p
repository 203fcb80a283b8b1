% An instance of the first clause contradicts the second.
cnf(c1, axiom, p(X)).
cnf(c2, axiom, ~p(a)).
