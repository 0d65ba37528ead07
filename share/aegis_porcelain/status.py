"""ae status [N]: what waits for the user, or all that a change still needs and that is in its way."""
from __future__ import annotations

import os
from typing import TYPE_CHECKING, Dict, Iterator, List, Optional, Tuple

from . import wanted
from .chosen import add_change, change_here, place_of
from .directory import Directory
from .display import age, say, shown, table
from .program import user
from .records import Change
from .store import Store, with_store
from .strays import Strays, strays
from .wanted import Want

if TYPE_CHECKING:
    import argparse

SHOWN = 5
RUNS = {28: "the build", 29: "its tests", 30: "its tests on the baseline", 31: "the project's other tests"}


def words(parser: argparse.ArgumentParser) -> None:
    add_change(parser)
    parser.add_argument("--porcelain", action="store_true", help="rows for scripts, their cells apart by tabs")


def run(asked: argparse.Namespace) -> int:
    where = place_of(asked)
    number = asked.number or asked.change

    def work(store: Store) -> int:
        if number is None:
            show_waiting(store, user(), asked.porcelain)
        here = change_here(asked, where)
        if here is not None and (number is not None or not asked.porcelain):
            show_change(store, store.change(here), asked.porcelain)
        return 0

    return with_store(where, work)


# ---- what waits


def entered(change: Change) -> int:
    """When the change came into its phase, by the last row of its history."""
    return change.history[-1].when if change.history else 0


def may_review(store: Store, change: Change, who: str) -> bool:
    """Whether a user may pass the change."""
    may = store.project.settings.developer_may_review or change.developer != who
    return who in store.project.roles.reviewers and may and change.reviewing in ("", who)


def may_integrate(store: Store, change: Change, who: str) -> bool:
    """Whether a user may integrate the change."""
    settings = store.project.settings
    as_developer = settings.developer_may_integrate or change.developer != who
    as_reviewer = settings.reviewer_may_integrate or change.reviewer != who
    return who in store.project.roles.integrators and as_developer and as_reviewer


def next_command(store: Store, change: Change, who: str) -> str:
    """What a user may type to take the change a step further; nothing where it isn't his to do."""
    number, phase = change.number, change.phase
    if phase == "awaiting_development" and who in store.project.roles.developers:
        return f"ae begin {number}"
    if phase == "being_developed" and change.developer == who:
        return f"ae finish {number}"
    if phase in ("awaiting_review", "being_reviewed") and may_review(store, change, who):
        return f"ae review {number}"
    if phase == "awaiting_integration" and may_integrate(store, change, who):
        return "ae queue"
    if phase == "being_integrated" and change.integrator == who:
        return f"ae finish {number}"
    return ""


def waiting(store: Store, who: str) -> List[Tuple[Change, str]]:
    """The changes that wait for a user, oldest first, each with what he may type."""
    found = [(change, next_command(store, change, who)) for change in store.open_changes()]
    return sorted(((change, command) for change, command in found if command), key=lambda row: (entered(row[0]), row[0].number))


def show_waiting(store: Store, who: str, is_for_scripts: bool) -> None:
    found = waiting(store, who)
    if is_for_scripts:
        for change, command in found:
            print(change.number, change.phase, entered(change), command, shown(change.brief_description), sep="\t")
        return
    if not found:
        say(f"nothing waits for {shown(who)}")
    rows = [(str(change.number), change.phase, age(entered(change)), command, shown(change.brief_description)) for change, command in found]
    table(rows, styles=["bold", "", "dim", "cyan"])


# ---- a change


def wants(store: Store, change: Change) -> Tuple[List[Want], Optional[Strays]]:
    """What the next step of a change is refused for, and what else to look at."""
    if change.phase == "being_developed":
        directory = Directory(store.place, f"develop.{change.number}")
        return wanted.of_development(store, change, directory), strays(store, change, directory)
    if change.phase == "being_integrated":
        directory = Directory(store.place, f"integrate.{len(store.project.deltas) + 1}")
        found = wanted.of_integration(store, change)
        differing = list(wanted.differing(store, change, directory)) if found else []
        directory.remember()
        return differing + found, None
    return [], None


def grouped(found: List[Want]) -> Iterator[Tuple[int, str, str]]:
    """The number, the text and the remedy of each row; rows of one kind that one command is for are one."""
    groups: Dict[Tuple[int, str], List[Want]] = {}
    for want in found:
        groups.setdefault((want.refusal, want.remedy), []).append(want)
    for (refusal, remedy), rows in groups.items():
        if len(rows) == 1:
            yield refusal, rows[0].says, remedy
        else:
            paths = ", ".join(row.path for row in rows[:SHOWN]) + (", .." if len(rows) > SHOWN else "")
            yield refusal, f"{RUNS.get(refusal, 'files')}: {len(rows)} ({paths})", remedy


def show_change(store: Store, change: Change, is_for_scripts: bool) -> None:
    found, strange = wants(store, change)
    if is_for_scripts:
        for want in found:
            print(want.refusal, want.path, want.says, want.remedy, sep="\t")
        for name, paths in strays_by_name(strange):
            for path in paths:
                print(0, shown(path), name, "", sep="\t")
        return
    say(f"change {change.number}: {shown(change.brief_description)}", "bold")
    say(f"  {change.phase} for {age(entered(change))}{people(store, change)}")
    table([(f"{refusal}:", says, remedy) for refusal, says, remedy in grouped(found)], "  ", ["yellow", "", "cyan"])
    for name, paths in strays_by_name(strange):
        more = f" and {len(paths) - 4 * SHOWN} more" if len(paths) > 4 * SHOWN else ""
        say(f"  {name}: {' '.join(map(shown, paths[: 4 * SHOWN]))}{more}", "magenta")
    last_line(store, change, found)


def strays_by_name(strange: Optional[Strays]) -> Iterator[Tuple[str, List[str]]]:
    """What is to be looked at, each with its name."""
    if strange:
        rows = [
            ("not in the change, so no integration has it", strange.unregistered),
            ("no longer in the project, so no integration has it", strange.left_over),
            ("edited but not in the change: the next build puts the project's back, and keeps yours once", strange.edited),
            ("as the project has it", strange.unchanged),
            ("of a name that git keeps for itself, so `ae git` can't write it", strange.kept_by_git),
        ]
        yield from (row for row in rows if row[1])


def people(store: Store, change: Change) -> str:
    """Who works on the change now, or may."""
    at = change.phase
    if at in ("being_developed", "awaiting_review"):
        return f", developed by {change.developer}"
    if at == "being_reviewed":
        return f", developed by {change.developer}" + (f", reviewed by {change.reviewing}" if change.reviewing else "")
    if at == "awaiting_integration":
        other = next((other.number for other in store.open_changes() if other.phase == "being_integrated"), None)
        waits = f"; change {other} is being integrated" if other else ""
        return f", developed by {change.developer}, {'passed by ' + change.reviewer if change.reviewer else 'not reviewed'}{waits}"
    if at == "being_integrated":
        return f" in {os.path.join(store.place.home, f'integrate.{len(store.project.deltas) + 1}')}, by {change.integrator}"
    delta = store.delta_of(change.number)
    return f" as delta {delta.number}" if delta else ""


def last_line(store: Store, change: Change, found: List[Want]) -> None:
    """What to type."""
    command = next_command(store, change, user())
    refusals = {want.refusal for want in found}
    if command and refusals and refusals <= set(RUNS):
        say(f"  {command} makes these runs, and goes on")
    elif command and not refusals:
        say(f"  {command}" if change.phase != "being_developed" else f"  nothing is in the way: {command}")
