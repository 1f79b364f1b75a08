"""`python3 -m bavgusen.shell` is `sysr-shell`."""
import sys

from .main import main

sys.exit(main())
