cnf(c1, axiom, p | q | r).
cnf(c2, axiom, p | q | ~r).
cnf(c3, axiom, p | ~q | r).
cnf(c4, axiom, p | ~q | ~r).
cnf(c5, axiom, ~p | q | r).
cnf(c6, axiom, ~p | q | ~r).
cnf(c7, axiom, ~p | ~q | r).
cnf(c8, axiom, ~p | ~q | ~r).
