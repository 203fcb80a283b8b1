cnf(c1, axiom, p(X) | q(X)).
cnf(c2, axiom, ~p(a)).
cnf(c3, axiom, ~q(b)).
