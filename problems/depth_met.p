% A term of depth 4 is needed, and none deeper than 3 is allowed.
cnf(c1, axiom, p(a)).
cnf(c2, axiom, ~p(X) | p(f(X))).
