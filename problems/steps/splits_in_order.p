cnf(c1, axiom, p(a) | q(a) | r(a)).
cnf(c2, axiom, s(a) | t(a)).
cnf(c3, axiom, u | v).
cnf(c4, axiom, w | x).
