"""The command `python -m gdlsolve.manager`."""

import sys

from gdlsolve.manager.command import main

if __name__ == "__main__":
    sys.exit(main())
