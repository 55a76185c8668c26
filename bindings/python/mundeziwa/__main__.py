"""`python3 -m mundeziwa`: the command."""

import sys

from .command.main import main

sys.exit(main())
