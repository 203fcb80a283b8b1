cnf(someone_goes, axiom, cars_go | walkers_go).
cnf(not_both, axiom, ~cars_go | ~walkers_go).
cnf(cars_need_green, axiom, ~cars_go | green).
cnf(walkers_need_red, axiom, ~walkers_go | red).
cnf(one_light, axiom, ~green | ~red).
cnf(button_was_pressed, hypothesis, pressed).
cnf(button_stops_cars, hypothesis, ~pressed | ~green).
