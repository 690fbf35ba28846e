"""The command `python -m gdlsolve.cluster`."""

import sys

from gdlsolve.cluster.command import main

if __name__ == "__main__":
    sys.exit(main())
