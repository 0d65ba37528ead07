"""`ae pages DEST`: the project as static pages for a browser. They need no script and no server."""
from __future__ import annotations

import argparse

from .. import place
from ..failures import Failure
from ..output import outside
from ..packages import find_packages
from ..store import with_store


def words(parser: argparse.ArgumentParser) -> None:
    """Adds the options."""
    parser.add_argument("dest", metavar="DEST", help="the folder of the pages, which is made where it isn't there")


def run(asked: argparse.Namespace) -> int:
    """Writes the pages that are new or otherwise than before."""
    find_packages()
    try:
        from .folder import Folder
        from .site import write_pages
    except ModuleNotFoundError as error:
        raise Failure(f"there is no {error.name} for /usr/bin/python3: apt install python3-{str(error.name).lower()}") from None
    where = place.find(branch=asked.branch)
    folder = Folder(outside(where, asked.dest))
    with_store(where, lambda store: write_pages(store, folder))
    print(f"{asked.dest}: {len(folder.names)} pages, {folder.written} written")
    return 0
