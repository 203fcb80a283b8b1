cnf(a,axiom,(~ (p('abc',abc,"d"))),file('x.p',a),[status(thm)]).
