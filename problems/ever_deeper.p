% Every successor of a p is a p. The search never ends by itself, and meets its bound on depth.
cnf(start, axiom, p(zero)).
cnf(step, axiom, ~p(X) | p(successor(X))).
