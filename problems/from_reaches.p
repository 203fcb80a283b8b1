% Depths 1 and 2 meet their bound, and depth 3 is enough.
cnf(c1, axiom, p(a)).
cnf(c2, axiom, ~p(X) | p(f(X))).
cnf(c3, axiom, ~p(f(f(a)))).
