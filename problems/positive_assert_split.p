% Four literals are asserted. Every other p(X) is true by default, so there is nothing to split on.
cnf(c1, axiom, p(X) | q(X)).
cnf(c2, axiom, ~p(a)).
cnf(c3, axiom, ~q(b)).
