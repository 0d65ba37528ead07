"""What `ae status N` says of random states is what the program refuses, one after the other.

A state is made by random commands on a worked project, in the trunk or a branch, while its change 12 is developed, and then while it is
integrated. All wants are taken from the state at once. Then, again and again, the program is asked to end the step: its refusal is the
first want, in number and words, and what the want's remedy says is done, until it ends. No want comes that wasn't there at the
beginning, and each that goes does so by the remedy for itself, or for the same path.

AE_STATES says how many states there are; a state has the number of its seed.
"""
import os
import random
import re
import shutil
import subprocess

import pytest
from conftest import CONFIG, PEOPLE, Team, attributes, put, runs

from aegis_porcelain import place, records, store, wanted
from aegis_porcelain.directory import Directory

STATES = int(os.environ.get("AE_STATES", "8"))
MOST_STEPS = 40
# a test that passes where the change is, and not on the baseline
TEST = "case $PWD in */base.*) exit 1 ;; esac\n"
OLD = ["aegis.conf", "m.c", "d/n.c", "t/a.sh", "t/b.sh"]
NEW = ["new.c", "d", "m.c/x", "t/c.sh", "t/d.sh", "gone.c"]
EXEMPT = ["test_exempt", "test_baseline_exempt", "regression_test_exempt"]


@pytest.fixture(scope="module")
def old_project(program, tmp_path_factory):
    """A project of two deltas. Change 12 began after the first, and change 13 is developed by another."""
    team = Team(program, tmp_path_factory.mktemp("old"))
    files = [
        put("develop.10", path, CONFIG if path == "aegis.conf" else TEST if path[:2] == "t/" else f"{path}\n") for path in [*OLD, "gone.c"]
    ]
    waived = "developer_may_integrate = true; reviewer_may_integrate = true; develop_end_action = goto_awaiting_integration;"
    team.script(
        ["as ann", *PEOPLE, "do -ni ann", put("here", "p.attr", waived), "do -pa -f p.attr", *[attributes("x"), "do -nc -f c.attr"] * 4]
        + ["as bob", "do -db -c 10", *files, "do -nf -c 10 aegis.conf m.c d/n.c gone.c", "do -nt -c 10 t/a.sh t/b.sh"]
        + [*runs(10, first=True), "do -de -c 10", "as ann", "do -ib -c 10", *runs(10, first=True), "do -ipass -c 10"]
        + ["as eve", "do -db -c 12", "as bob", "do -db -c 13", "do -db -c 11", "do -cp -c 11 m.c", "do -rm -c 11 gone.c"]
        + [put("develop.11", "m.c", "two\n"), "as ann", exemption("test_exempt"), "do -ca -c 11 -f e.attr", "as bob"]
        + [
            "do -b -c 11",
            "do -t -c 11 -reg",
            "do -de -c 11",
            "as ann",
            "do -ib -c 11",
            "do -b -c 11",
            "do -t -c 11 -reg",
            "do -ipass -c 11",
        ]
    )
    return team


def exemption(*names):
    return put("here", "e.attr", "".join(f"{name} = {'true' if name in names else 'false'}; " for name in EXEMPT))


class State:
    """A project under way, in the trunk or a branch."""

    def __init__(self, old, top, seed):
        self.random = random.Random(seed)
        self.branch = self.random.choice(["", "r1"])
        self.program = old.program
        shutil.copytree(old.top, top)
        self.top = top
        if self.branch:
            home = top / "aegis.d" / "branch.r1"
            home.mkdir()
            for found in [found for found in (top / "aegis.d").iterdir() if found != home]:
                found.rename(home / found.name)
            (top / "aegis.d" / "store").mkdir()
            (home / "store" / "trunk").write_text("delta = 1;\n")
        self.place = place.find(str(top), self.branch or None)

    def script(self, who, *lines, may_fault=False):
        """Gives lines as one user, and answers what the program says with the statuses. Refused ones are let be.

        An edit of a path that is a folder there ends the script, where it may.
        """
        words = [self.program, *self.place.words, "-scr"]
        text = "\n".join([f"as {who}", *lines]) + "\n"
        found = subprocess.run(words, cwd=self.top, input=text, capture_output=True, text=True)
        assert found.returncode == 0 or (may_fault and found.returncode == 4), found
        return found.stdout

    def directory(self, name):
        return self.top / self.place.home / name

    def wants(self, number=12):
        """All that is in the way of the change's next step."""

        def look(held):
            change = held.change(number)
            if change.phase == "being_integrated":
                return wanted.of_integration(held, change)
            return wanted.of_development(held, change, Directory(held.place, f"develop.{number}"))

        return store.with_store(self.place, look)

    def phase(self, number=12):
        return store.with_store(self.place, lambda held: held.change(number).phase)


def commands(state):
    """Some random commands of the developer of change 12."""
    choose = state.random.choice
    found = []
    for _ in range(state.random.randrange(2, 9)):
        path = choose([*OLD, *NEW])
        kinds = [f"do -cp -c 12 {choose(OLD)}", f"do -cp -c 12 -ow {choose(OLD)} -del 1", f"do -rm -c 12 {choose(OLD)}"]
        kinds += [f"do -nf -c 12 {choose(NEW)}", f"do -nt -c 12 {choose(NEW)}", put("develop.12", choose(OLD), f"{path}\n")]
        kinds += [f"drop develop.12 {path}", f"do -nfu -c 12 {path}", f"do -rmu -c 12 {path}"]
        found.append(choose(kinds))
    return found


def others(state):
    """What others did meanwhile: a change that holds a path, or was integrated; a role that was taken; exemptions."""
    path, done = state.random.choice([*OLD[1:], "new.c", "d/n.c"]), state.random.randrange(3)
    if done:
        state.script("ann", exemption(*EXEMPT), "do -ca -c 13 -f e.attr")
        state.script(
            "bob",
            f"do -cp -c 13 {path}",
            f"do -nf -c 13 {path}",
            put("develop.13", path, f"by 13: {path}\n"),
            "do -b -c 13",
            "do -de -c 13",
            may_fault=True,
        )
    if done == 2:
        state.script("ann", "do -ib -c 13", "do -b -c 13", "do -ipass -c 13")
    names = [name for name in EXEMPT if state.random.random() < 0.3]
    state.script("ann", exemption(*names), "do -ca -c 12 -f e.attr", *(["do -rd eve"] if state.random.random() < 0.1 else []))


def made(state):
    """Some runs, and edits after some of them."""
    every = runs(12)
    chosen = [line for line in every if state.random.random() < 0.4]
    if state.random.random() < 0.3:
        chosen.append(put("develop.12", state.random.choice(OLD), "later\n"))
    return chosen


def disturb(state):
    """What no command does: a link, and a file that is too large."""
    own = store.with_store(state.place, lambda held: [file.path for file in held.change(12).files if file.action != "remove"])
    found = state.directory("develop.12") / "m.c"
    if state.random.random() < 0.3 and "m.c" in own and found.exists():
        found.unlink()
        found.symlink_to("d/n.c")
    if state.random.random() < 0.1 and (state.directory("develop.12") / "new.c").exists():
        (state.directory("develop.12") / "new.c").write_bytes(bytes(4194305))


def mend(state, want):
    """Does what the remedy of a want says, and answers whether it can be done."""
    path, choose = want.path, {change: who for change, who in ((12, "eve"), (13, "bob"))}
    change = store.with_store(state.place, lambda held: held.change(12))
    file = next((file for file in change.files if file.path == path), None)
    undo = f"do {wanted.undo_of(file)} -c 12 {path}" if file else ""
    place_of_it = state.directory("develop.12") / (path or "m.c")
    if place_of_it.is_symlink():
        # no command writes over a link
        place_of_it.unlink()
    if want.refusal == 7:
        state.script("ann", "do -nd eve")
    elif want.refusal == 23:
        state.script(choose[13], "do -deu -c 13")
    elif want.refusal == 25:
        state.script("eve", "do -nf -c 12 more.c")
    elif want.refusal == 22:
        state.script("eve", undo, f"do -cp -c 12 {path}")
    elif want.refusal == 24 and "merge" in want.remedy:
        state.script("eve", f"do -cp -c 12 -ow {path}")
    elif want.refusal == 24 and "-rm -c" in want.remedy:
        state.script("eve", undo, f"do -rm -c 12 {path}")
    elif want.refusal in (24, 41) and undo:
        state.script("eve", undo)
    elif want.refusal == 41:
        state.script(
            "eve", *(f"do {wanted.undo_of(other)} -c 12 {other.path}" for other in change.files if other.path.startswith(path + "/"))
        )
    elif want.refusal in (26, 37):
        state.script("eve", put("develop.12", path, "mended\n"))
    elif want.refusal == 27:
        state.script("ann", exemption(*EXEMPT), "do -ca -c 12 -f e.attr")
    else:
        who = "eve" if change.phase == "being_developed" else "ann"
        state.script(who, f"do {' '.join(want.remedy.split()[1:])}")


def walk(state, who, end):
    """Ends the step by the remedies of its wants, one after another."""
    first = state.wants()
    seen = {(want.refusal, want.path) for want in first}
    asked = []
    for _ in range(MOST_STEPS):
        wants = state.wants()
        said = state.script(who, f"do {end} -c 12")
        if said.endswith("= 0\n"):
            assert wants == []
            return first
        refusal = re.match(r"aegis: ([0-9]+): (.*)\n= 1\n", said)
        assert refusal and wants, (said, wants)
        want = wants[0]
        assert int(refusal[1]) == want.refusal and (want.refusal == 7 or refusal[2] == want.says), (said, want)
        now = {(other.refusal, other.path) for other in wants}
        mended = {path for _, path in asked}
        new = {row for row in now - seen if row[1] not in mended and row[0] < 27 and (25, "") not in asked}
        assert not new, (new, asked)
        if (want.refusal, want.path) in asked:
            return first
        asked.append((want.refusal, want.path))
        mend(state, want)
    raise AssertionError(asked)


@pytest.mark.parametrize("seed", range(STATES))
def test_a_random_state(old_project, tmp_path, seed):
    state = State(old_project, tmp_path / "project", seed)
    state.script("eve", *commands(state), may_fault=True)
    others(state)
    state.script("eve", *made(state), may_fault=True)
    disturb(state)
    walk(state, "eve", "-de")
    if state.phase() != "awaiting_integration":
        assert state.phase() == "being_developed"
        return
    if state.phase(13) == "being_integrated":
        state.script("ann", "do -ipass -c 13")
    state.script("ann", "do -ib -c 12", *[line for line in runs(12) if state.random.random() < 0.4])
    if state.phase() == "being_integrated":
        walk(state, "ann", "-ipass")


def test_digests_of_candidates_are_those_of_runs(two_deltas):
    """The digest by which runs of an integration count is that which the program keeps with them."""

    def look(held):
        return held.change(11).evidence[-1].subject, wanted.digest_of(sorted(held.now.items()))

    kept, found = store.with_store(place.find(str(two_deltas.top)), look)
    assert kept == found and records.DIGEST.fullmatch(kept)
