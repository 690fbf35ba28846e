"""A match server: games, players who sign up, matches that it begins by itself, and pages that tell what came of them.

`python -m gdlsolve.manager serve FOLDER --archive FILE` serves it on the loopback.
"""
