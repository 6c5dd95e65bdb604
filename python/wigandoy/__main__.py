"""The command: python3 -m wigandoy."""

import sys

from .command import main

sys.exit(main())
