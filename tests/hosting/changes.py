"""Five users carry changes from pushes to deltas by git and ssh alone, all at once; then each commit has the tree that the audit says."""
from __future__ import annotations

import random
import re
import threading
import time
import traceback
from pathlib import Path
from typing import Callable, Dict, List, Optional, Tuple

from hosted import NUMBER, USERS, Hosted, digest_of, tree_of, write
from jobs import FIRST, SHARED, Job, made_up

BRANCH = "r1"
BETWEEN = 0.05
AGAIN = re.compile(r"push again with -o change=([0-9]+)")
REFUSED = re.compile(r"23: .* is locked by change|24: fetch and rebase|push it again once that has ended")
LINE = re.compile(r"delta ([0-9]+) change ([0-9]+) tree ([0-9a-f]{64}) runs ([0-9]+), reviewed by ([a-z]+)")
PATIENCE = 1500


class Work:
    """What waits for whom. Each user takes of it what is his to do, until nothing is left."""

    def __init__(self, hosted: Hosted, jobs: List[Job], seed: int) -> None:
        self.hosted, self.seed = hosted, seed
        self.clones = {user: hosted.clone(user) for user in USERS}
        self.of = {user: [job for job in jobs if job.user == user] for user in USERS}
        self.left = len(jobs)
        self.to_review: List[Job] = []
        self.to_integrate: List[Job] = []
        self.landed: List[Job] = []
        self.lock = threading.Lock()
        self.integrating = {"": threading.Lock(), BRANCH: threading.Lock()}
        self.counts: Dict[str, int] = {}
        self.wrong: List[str] = []
        self.until = time.monotonic() + PATIENCE

    def count(self, what: str) -> None:
        with self.lock:
            self.counts[what] = self.counts.get(what, 0) + 1

    def done(self) -> None:
        """Has all users work beside each other, to the end."""
        threads = [threading.Thread(target=self.works, args=(user,)) for user in USERS]
        for thread in threads:
            thread.start()
        for thread in threads:
            thread.join()
        if self.wrong:
            raise RuntimeError("\n".join(self.wrong))

    def works(self, user: str) -> None:
        chance = random.Random(f"{self.seed} {user}")
        try:
            while self.left and not self.wrong:
                if time.monotonic() > self.until:
                    raise RuntimeError(f"{self.left} changes didn't end")
                if not self.turn(user, chance):
                    time.sleep(BETWEEN)
        except Exception:
            self.wrong.append(f"{user}: {traceback.format_exc()}")

    def turn(self, user: str, chance: random.Random) -> bool:
        """Does one thing that is the user's to do, and answers whether there was one."""
        found: "List[Callable[[], bool]]" = [lambda: self.review(user), lambda: self.integrate(user), lambda: self.develop(user)]
        chance.shuffle(found)
        return any(do() for do in found)

    # ---- a developer

    def develop(self, user: str) -> bool:
        with self.lock:
            if not self.of[user]:
                return False
            job = self.of[user].pop(0)
        if self.pushed(job):
            with self.lock:
                self.to_review.append(job)
        else:
            with self.lock:
                self.of[user].append(job)
        return True

    def make(self, job: Job) -> None:
        """Makes the commit of a job over the delta that is the last one now."""
        own = self.clones[job.user]
        self.hosted.git(own, "fetch", "-q", "origin")
        self.hosted.git(own, "checkout", "-q", "-f", "--detach", f"origin/{job.place}")
        if job.kind == "removes":
            job.removed = next((name for name in self.hosted.said(own, "ls-files", f"{job.user}/*.txt").splitlines()), "")
        write(own, job.files({SHARED: (own / SHARED).read_text()}))
        self.hosted.git(own, "add", "-A")
        self.hosted.git(own, "commit", "-q", "-m", f"{job.name}: {job.kind}\n\nAt length, with 'quotes' and \\.")
        job.commit = self.hosted.said(own, "rev-parse", "HEAD")
        job.digest = frozen(self.hosted, own, f"origin/{job.place}", job.commit)

    def pushed(self, job: Job) -> bool:
        """Pushes a job, and answers whether it waits for a review now."""
        self.make(job)
        own, to = self.clones[job.user], f"HEAD:refs/for/{job.place}"
        how = job.pushes % 3
        if job.number is not None and how == 1:
            self.hosted.git(own, "commit", "-q", "--amend", "-m", f"{job.name} again\n\nAegis-Change: {job.number}")
            job.commit = self.hosted.said(own, "rev-parse", "HEAD")
        elif job.number is not None and how == 2:
            to += f"/{job.number}"
        options = [f"change={job.number}"] if job.number is not None and how == 0 else []
        status, said = self.hosted.push(own, to, *options)
        job.pushes += 1
        number = NUMBER.search(said) if status == 0 else AGAIN.search(said)
        if number:
            if job.number is not None and job.number != int(number[1]):
                raise RuntimeError(f"change {job.number} became another: {said}")
            job.number = int(number[1])
        if status == 0:
            return self.is_enough(job)
        if job.kind == "fails" and "says nothing" in said or job.kind == "clashes" and number:
            self.count("failed")
        elif REFUSED.search(said):
            self.count("in conflict")
            job.pushes -= 1
        else:
            raise RuntimeError(f"{job} was pushed: {said}")
        return False

    def is_enough(self, job: Job) -> bool:
        """Whether it stays as it was pushed. What is pushed again, or taken back first, isn't offered to a reviewer before."""
        if job.pushes > 1 or job.kind not in ("again", "taken back"):
            return True
        if job.kind == "taken back":
            self.hosted.must(job.user, f"aegis {job.words}-deu -c {job.number} -rea 'not yet'")
        self.count("pushed again")
        return False

    # ---- a reviewer and an integrator

    def take(self, jobs: List[Job], user: str) -> Optional[Job]:
        """A job of others that waits."""
        with self.lock:
            found = next((job for job in jobs if user not in (job.user, job.reviewer)), None)
            if found:
                jobs.remove(found)
        return found

    def review(self, user: str) -> bool:
        job = self.take(self.to_review, user)
        if job is None:
            return False
        if job.kind == "refused" and "review" not in job.was_back:
            self.hosted.must(user, f"aegis {job.words}-rfail -c {job.number} -rea 'say more; $(id)'")
            self.back(job, "review")
            return True
        self.look(user, job)
        self.hosted.must(user, f"aepass {job.words}{job.number} {job.digest}")
        job.reviewer = user
        with self.lock:
            self.to_integrate.append(job)
        return True

    def look(self, user: str, job: Job) -> None:
        """What is frozen is what was pushed: as the host shows it, and as it comes with a fetch."""
        said = self.hosted.ssh(user, f"aediff {job.words}{job.number}").stdout.splitlines()[-1]
        own, ref = self.clones[user], f"refs/changes/{f'{job.branch}/' if job.branch else ''}{job.number}/head"
        self.hosted.git(own, "fetch", "-q", "origin", ref)
        fetched = frozen(self.hosted, own, "FETCH_HEAD~1", "FETCH_HEAD")
        if said != f"aediff: change {job.number}: digest {job.digest}" or fetched != job.digest:
            raise RuntimeError(f"{job} is frozen as {said}, and {ref} has {fetched}")

    def back(self, job: Job, where: str) -> None:
        self.count(f"back from {where}")
        job.was_back.append(where)
        job.reviewer = ""
        with self.lock:
            self.of[job.user].append(job)

    def phase(self, user: str, job: Job) -> str:
        rows = self.hosted.must(user, f"aegis {job.words}-l pc").splitlines()
        return next(row.split()[1] for row in rows if row.split()[0] == str(job.number))

    def integrate(self, user: str) -> bool:
        """What waits is integrated by `ae queue`, which takes others with it."""
        job = self.take(self.to_integrate, user)
        if job is None:
            return False
        is_free = self.integrating[job.branch]
        if is_free.acquire(blocking=False):
            try:
                said = self.hosted.ssh(user, f"ae {job.words}queue -q") if self.phase(user, job) == "awaiting_integration" else None
                phase = self.phase(user, job)
            finally:
                is_free.release()
            if phase == "completed":
                with self.lock:
                    self.landed.append(job)
                    self.left -= 1
                return True
            if phase == "being_developed":
                self.back(job, "integration")
                return True
            if phase != "awaiting_integration":
                raise RuntimeError(f"{job} is {phase}: {said}")
        with self.lock:
            self.to_integrate.append(job)
        return False


def frozen(hosted: Hosted, own: Path, base: str, commit: str) -> str:
    """The digest of what a commit does to each path."""
    words = ["diff", "--name-only", "-z", "--no-renames", base, commit]
    paths = hosted.said(own, *words).strip("\0").split("\0")
    held = dict(tree_of(own, commit))
    return digest_of([(path, held.get(path)) for path in paths])


def first(hosted: Hosted) -> None:
    """The first delta, which is pushed to a project without any, and a branch that begins there."""
    own = hosted.clone("ann", "first")
    hosted.git(own, "checkout", "-q", "--orphan", "first")
    write(own, dict(FIRST))
    hosted.git(own, "add", "-A")
    hosted.git(own, "commit", "-q", "-m", "the first")
    status, said = hosted.push(own)
    if status or not NUMBER.search(said):
        raise RuntimeError(said)
    released(hosted, "", 10)
    hosted.must("ann", f"aegis -br {BRANCH} -begin 1")
    hosted.must("ann", f"ae -br {BRANCH} finish -q 10")
    released(hosted, f"-br {BRANCH} ", 10)


def released(hosted: Hosted, words: str, number: int) -> None:
    """A change of ann's is passed by cal and integrated by dee."""
    digest = hosted.ssh("cal", f"aediff {words}{number}").stdout.split()[-1]
    hosted.must("cal", f"aepass {words}{number} {digest}")
    hosted.must("dee", f"ae {words}queue -q")


def end_of_branch(hosted: Hosted) -> None:
    """What was done in the branch comes into the project."""
    said = hosted.ssh("ann", f"aegis -br {BRANCH} -finish")
    number = re.search(r"change ([0-9]+): created", said.stderr)
    if said.returncode or not number:
        raise RuntimeError(f"{said}")
    hosted.must("ann", f"ae finish -q {number[1]}")
    released(hosted, "", int(number[1]))


def audited(hosted: Hosted, own: Path, branch: str) -> List[Tuple[str, ...]]:
    """The lines of the audit. Each delta has one, and a commit of just that tree, by another than its reviewer."""
    words = ["-br", branch] if branch else []
    lines = hosted.at_host(hosted.program, *words, "-aud").splitlines()
    found = [LINE.fullmatch(line) for line in lines]
    deltas = [row.groups() for row in found if row]
    tags = hosted.said(own, "tag", "-l", f"branch/{branch}/delta-*" if branch else "delta-*").splitlines()
    front = f"branch/{branch}/" if branch else ""
    if len(deltas) != len(lines) or sorted(tags) != sorted(f"{front}delta-{row[0]}" for row in deltas):
        raise RuntimeError(f"the audit says {lines}, and git has {tags}")
    for delta, change, tree, _, reviewer in deltas:
        commit = f"{front}delta-{delta}"
        author, trailer = hosted.said(own, "log", "-1", "--format=%an%n%(trailers:key=Aegis-Change,valueonly)", commit).split()
        if digest_of(tree_of(own, commit)) != tree or trailer != change or author == reviewer:
            raise RuntimeError(f"{commit} isn't the delta of the audit: {author} {trailer} {tree}")
    return deltas


def compared(hosted: Hosted, work: Work) -> None:
    """What was pushed last of each change is what its delta has, byte for byte."""
    own = hosted.clone("eve", "last")
    deltas = {branch: audited(hosted, own, branch) for branch in ("", BRANCH)}
    for job in work.landed:
        number = next(row[0] for row in deltas[job.branch] if row[1] == str(job.number))
        commit = f"branch/{job.branch}/delta-{number}" if job.branch else f"delta-{number}"
        if frozen(hosted, own, f"{commit}~1", commit) != job.digest:
            raise RuntimeError(f"{commit} isn't what was pushed: {job}")


def try_changes(program: str, folder: Path, count: int, seed: int) -> str:
    """So many changes, and what is to be said of them."""
    hosted = Hosted(program, folder)
    try:
        hosted.set_up()
        first(hosted)
        work = Work(hosted, list(made_up(USERS, count, seed)), seed)
        work.done()
        if any(job.branch for job in work.landed):
            end_of_branch(hosted)
        compared(hosted, work)
    finally:
        hosted.stop()
    told = ", ".join(f"{number} {what}" for what, number in sorted(work.counts.items()))
    return f"{count} changes: {told}"
