cnf(c1, axiom, p(X,Y) | q(X,Y)).
cnf(c2, axiom, ~p(X,X) | s).
cnf(c3, axiom, ~q(X,X) | s).
cnf(c4, axiom, ~s | t).
cnf(c5, axiom, ~s | ~t).
