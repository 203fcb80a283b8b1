% With words --literals 33: one entry, and two for each of the sixteen atoms on two constants and two variables.
cnf(c1, axiom, p(X,Y) | p(Y,X)).
cnf(c2, axiom, ~p(a,b)).
