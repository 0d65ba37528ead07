"""Which paths git keeps for itself, and how a branch is named there."""
from __future__ import annotations

import re

# what git takes for its own folder, also on file systems that don't tell letters apart or drop dots at the end
GITS_OWN = re.compile(r"\.git\.*", re.IGNORECASE)


def kept_by_git(path: str) -> bool:
    """Whether a part of the path is a name that git keeps for itself, so that no commit may have it."""
    return any(GITS_OWN.fullmatch(part) for part in path.split("/"))


def ref_name(branch: str) -> str:
    """The name of a branch, with %2E for each dot that a ref can't have: before another dot, at the end, and in `.lock` there."""
    return re.sub(r"\.(?=\.|\Z|lock\Z)", "%2E", branch)


def branch_of(name: str) -> str:
    """The branch of which this is the name; no branch has a %."""
    return name.replace("%2E", ".")
