% At depth 1 the literal with p is too deep, so the search takes the other one, and looks no deeper.
cnf(c1, axiom, p(f(f(a))) | q(a,a,a,a)).
