"""A referee of matches for players over HTTP: `python -P -m gdlsolve.manager GAME.kif --player http://127.0.0.1:9147` leads one."""
