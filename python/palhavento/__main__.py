"""`python -m palhavento` is the command line."""

import sys

from palhavento.cli import main

if __name__ == "__main__":
    sys.exit(main())
