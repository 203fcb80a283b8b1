% Roads are open, with one exception, and lead ever further out. Where all is closed by default, the search
% opens them one by one and gives up at every bound of depth. Where all is open by default, it is done
% when what is asserted within the bound stands.
cnf(home, axiom, open(home)).
cnf(onward, axiom, ~open(X) | open(beyond(X))).
cnf(crossing, axiom, open(bridge(X)) | open(tunnel(X))).
cnf(flood, axiom, ~open(ford)).
