cnf(c1, axiom, p | q).
cnf(c2, axiom, ~p | r(a)).
cnf(c3, axiom, ~r(X) | r(f(X))).
