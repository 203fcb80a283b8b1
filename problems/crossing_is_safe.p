cnf(someone_goes, axiom, cars_go | walkers_go).
cnf(cars_need_green, axiom, ~cars_go | green).
cnf(walkers_need_red, axiom, ~walkers_go | red).
cnf(one_light, axiom, ~green | ~red).
cnf(both_go, negated_conjecture, cars_go).
cnf(both_go_too, negated_conjecture, walkers_go).
