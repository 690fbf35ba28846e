"""The command `python -m gdlsolve.page`."""

import sys

from gdlsolve.page.command import main

if __name__ == "__main__":
    sys.exit(main())
