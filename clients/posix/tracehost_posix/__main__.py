"""`python3 -m tracehost_posix` is tracehost-run."""

import sys

from .command import main

sys.exit(main())
