"""The command `python -m gdlsolve.player`."""

import sys

from gdlsolve.player.command import main

if __name__ == "__main__":
    sys.exit(main())
