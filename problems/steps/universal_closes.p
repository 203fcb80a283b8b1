cnf(c1, axiom, p(X) | q(X)).
cnf(c2, axiom, ~p(X)).
cnf(c3, axiom, ~q(a)).
