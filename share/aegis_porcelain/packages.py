"""Other packages for Python. `ae` begins without them, which takes half as long; a terminal and pages need some."""
from __future__ import annotations

import functools
import sys


@functools.cache
def find_packages() -> None:
    """Lets modules be imported that are installed beside those of Python itself."""
    if sys.flags.no_site:
        import site

        site.main()
