"""A player for servers of general game playing: `python -P -m gdlsolve.player --port 9147` starts it."""
