cnf(c1, axiom, p(X,Y) | p(Y,X)).
cnf(c2, axiom, ~p(a,b)).
