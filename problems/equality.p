cnf(a,axiom,a = b).
