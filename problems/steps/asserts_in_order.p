cnf(c1, axiom, ~p(a)).
cnf(c2, axiom, ~q(b)).
cnf(c3, axiom, p(X) | q(X)).
cnf(c4, axiom, e(a)).
cnf(c5, axiom, e(b)).
cnf(c6, axiom, ~e(X) | g(X)).
cnf(c7, axiom, heavy(f(a))).
cnf(c8, axiom, light).
