"""`python3 -m norbelath_report` is the command `norbelath`."""

import sys

from .command import main

sys.exit(main())
