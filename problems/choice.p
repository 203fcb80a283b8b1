cnf(one_of_them, axiom, p | q).
