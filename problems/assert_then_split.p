% Four literals are asserted, then the search splits on p(X).
cnf(c1, axiom, p(X) | q(X)).
cnf(c2, axiom, ~p(a)).
cnf(c3, axiom, ~q(b)).
