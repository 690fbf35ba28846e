"""A small game as games are found: a relation rests on itself, and nothing states `base` or `input`."""

# In turn each says one of the next two numbers; who says five has won. Who begins can be sure of that.
FOUND = """
(role one) (role two)
(succ 0 1) (succ 1 2) (succ 2 3) (succ 3 4) (succ 4 5)
(<= (less ?x ?y) (succ ?x ?y))
(<= (less ?x ?z) (succ ?x ?y) (less ?y ?z))
(<= (step ?x ?y) (succ ?x ?y))
(<= (step ?x ?z) (succ ?x ?y) (succ ?y ?z))
(init (said 0)) (init (control one))
(<= (legal ?r (say ?y)) (true (control ?r)) (true (said ?x)) (step ?x ?y))
(<= (legal one noop) (true (control two)))
(<= (legal two noop) (true (control one)))
(<= (next (said ?y)) (does ?r (say ?y)))
(<= (next (control one)) (true (control two)))
(<= (next (control two)) (true (control one)))
(<= going (true (said ?x)) (less ?x 5))
(<= terminal (not going))
(<= (goal ?r 100) (role ?r) (not going) (not (true (control ?r))))
(<= (goal ?r 0) (true (control ?r)))
"""
# The same, but for that relation.
LISTED = FOUND.replace("(less ?x 5)", "(distinct ?x 5)").replace("(<= (less ?x ?z) (succ ?x ?y) (less ?y ?z))\n", "")
# What cannot be written out: a relation rests on itself through a `not`.
NEVER = "(role a) (<= p (not q)) (<= q (not p))"
BEGINS = "(say 2)"
