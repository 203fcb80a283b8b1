cnf(c1, axiom, p | $true).
cnf(c2, axiom, q | $false).
