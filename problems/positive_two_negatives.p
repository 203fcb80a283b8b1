% Every atom is true by default, so one of these has to be made false.
cnf(c1, axiom, ~p | ~q).
