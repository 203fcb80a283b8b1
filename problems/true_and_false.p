% Of these formulas only the last one says anything.
cnf(c1, axiom, p | $true).
cnf(c2, axiom, ~$false).
cnf(c3, axiom, q | $false).
