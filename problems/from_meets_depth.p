% Each depth from 1 to 3 meets its bound.
cnf(c1, axiom, p(a)).
cnf(c2, axiom, ~p(X) | p(f(X))).
