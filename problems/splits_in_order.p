% The fewest open literals are split first; of equally many the lightest literal, then that of the first clause,
% and then of the first place.
cnf(c1, axiom, p(a) | q(a) | r(a)).
cnf(c2, axiom, s(a) | t(a)).
cnf(c3, axiom, u | v).
cnf(c4, axiom, w | x).
