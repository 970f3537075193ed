"""Runs the command: python3 -m rolwyddac.command."""

import sys

from .entry import main

sys.exit(main())
