#!/usr/bin/env python3
"""A pair of eyes for formulas; `formula.py help` says what it does.

The code is in the folder `formula` beside this file.
"""

import sys

sys.dont_write_bytecode = True

from formula.cli import main  # the folder: Python takes it before this file

if __name__ == '__main__':
    sys.exit(main(sys.argv[1:]))
