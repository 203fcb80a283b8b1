% At depth 3 both literals fit, and the search takes the one with fewer symbols.
cnf(c1, axiom, p(f(f(a))) | q(a,a,a,a)).
