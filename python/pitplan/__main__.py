"""`python -m pitplan`, and the command `pitplan`."""

import sys

from .cli import main

# Dask's processes begin by reading this file, and must not begin the command again.
if __name__ == "__main__":
    sys.exit(main())
