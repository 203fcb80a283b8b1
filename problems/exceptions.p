% Everything is p or q. The model makes p true of all things by default, and objects at a.
cnf(one_of_them, axiom, p(X) | q(X)).
cnf(a_is_no_p, axiom, ~p(a)).
cnf(b_is_no_q, axiom, ~q(b)).
