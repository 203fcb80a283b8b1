cnf(e,axiom,$false).
