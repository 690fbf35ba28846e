"""A page for people: games, their moves with what these are worth, and matches against the solver.

`python -m gdlsolve.page` serves it on the loopback.
"""
