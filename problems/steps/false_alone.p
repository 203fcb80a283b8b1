cnf(c1, axiom, $false).
