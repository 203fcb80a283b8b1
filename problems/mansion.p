% Who killed Aunt Agatha? Somebody who lives in the mansion did. The butler, Charles and Agatha herself
% live there and nobody else; a killer hates the victim and is no richer than the victim. The last clause
% claims that Agatha was killed by somebody else.
cnf(c1,axiom,lives(agatha)).
cnf(c2,axiom,lives(butler)).
cnf(c3,axiom,lives(charles)).
cnf(c4,axiom,~killed(X,Y)|~richer(X,Y)).
cnf(c5,axiom,~hates(agatha,X)|~hates(charles,X)).
cnf(c6,axiom,~hates(X,agatha)|~hates(X,butler)|~hates(X,charles)).
cnf(c7,axiom,hates(agatha,agatha)).
cnf(c8,axiom,hates(agatha,charles)).
cnf(c9,axiom,~killed(X,Y)|hates(X,Y)).
cnf(c10,axiom,~hates(agatha,X)|hates(butler,X)).
cnf(c11,axiom,~lives(X)|richer(X,agatha)|hates(butler,X)).
cnf(c12,negated_conjecture,killed(butler,agatha)|killed(charles,agatha)).
