"""Runs the fleet: ``python3 -m fgate.fleet``."""

import sys

from fgate.fleet.cli import main

if __name__ == "__main__":
    sys.exit(main())
