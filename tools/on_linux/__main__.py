"""The entry of `python3 tools/on_linux`."""

import os
import sys

sys.path.insert(0, os.path.dirname(os.path.dirname(os.path.abspath(__file__))))

from on_linux.main import main  # noqa: E402  the package is found only now

sys.exit(main())
