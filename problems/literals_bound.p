% Three entries are not enough, the one with which every search begins counted.
cnf(c1, axiom, p(X,Y) | p(Y,X)).
cnf(c2, axiom, ~p(a,b)).
