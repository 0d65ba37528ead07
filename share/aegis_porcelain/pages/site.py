"""All pages of a project, each made of the records alone by a template."""
from __future__ import annotations

import hashlib
import os
from typing import Any, Dict, Iterator, List, Optional, Tuple

import jinja2

from ..display import moment, shown_lines
from ..history import Step, digest_of, put, steps
from ..records import FROZEN, PHASES, Change, PastEntry, ProjectFile, Version
from ..store import Store
from ..under_way import UnderWay
from . import texts
from .diffs import FileDiff, Touched, diffs_of
from .folder import Folder
from .timeline import picture_of

HERE = os.path.dirname(os.path.abspath(__file__))
LONGEST_NAME = 200
Page = Tuple[str, bytes]


def page_of_path(path: str) -> str:
    """The name of a path's page. No path has a comma, nor an empty part."""
    name = path.replace("/", ",")
    if len(name) > LONGEST_NAME:
        name = f"{name[:100]},,{hashlib.sha256(path.encode()).hexdigest()[:32]}"
    return f"path/{name}.html"


def environment() -> jinja2.Environment:
    """That of the templates: each value is escaped, and one that isn't there is a fault."""
    made = jinja2.Environment(
        loader=jinja2.FileSystemLoader(os.path.join(HERE, "templates")),
        autoescape=True,
        undefined=jinja2.StrictUndefined,
        trim_blocks=True,
        lstrip_blocks=True,
    )
    made.filters.update(visible=shown_lines, moment=moment, size=texts.size, words=texts.words_of, page=page_of_path)
    return made


def before_delta(store: Store, path: str, delta: int) -> Optional[Version]:
    """The version of a path before a delta."""
    file = store.paths.get(path)
    entry = file.at(delta - 1) if file else None
    return entry.version if entry else None


class Site:
    """The pages under way."""

    def __init__(self, store: Store) -> None:
        self.store = store
        self.templates = environment()
        self.changes = {change.number: change for change in store.changes()}
        self.steps = list(steps(store))
        self.deltas = {step.change.number: step.delta.number for step in self.steps}

    def page(self, name: str, template: str, **values: Any) -> Page:
        """A page by its template."""
        up = "../" * name.count("/")
        shared = {
            "project": self.store.project,
            "branch": self.store.place.branch,
            "up": up,
            "deltas": self.deltas,
            "paths": self.store.paths,
        }
        return name, self.templates.get_template(template).render({**shared, **values}).encode("utf-8")

    def diffs_of_step(self, step: Step) -> List[FileDiff]:
        """What a delta did to its files."""
        entries: Dict[str, PastEntry] = dict(step.entries)
        before = {file.path: before_delta(self.store, file.path, step.delta.number) for file in step.change.files}
        files = [file for file in step.change.files if file.path in entries]
        return diffs_of(
            self.store, (Touched(file.path, file.action, file.usage, before[file.path], entries[file.path].version) for file in files)
        )

    def diffs_of_change(self, change: Change) -> List[FileDiff]:
        """What is frozen of a change, beside the baseline."""
        last = len(self.store.project.deltas) + 1
        before = {file.path: before_delta(self.store, file.path, last) for file in change.files}
        return diffs_of(self.store, (Touched(file.path, file.action, file.usage, before[file.path], file.version) for file in change.files))

    def board(self) -> List[Tuple[str, List[Change]]]:
        """The changes that aren't completed, by their phases."""
        phases = [(phase, [change for change in self.changes.values() if change.phase == phase]) for phase in PHASES[:-1]]
        return [(phase, changes) for phase, changes in phases if changes]

    def delta_pages(self) -> Iterator[Page]:
        """A page for each delta."""
        tree: Dict[str, PastEntry] = {}
        for step in self.steps:
            put(tree, step)
            yield self.page(
                f"delta-{step.delta.number}.html",
                "delta.html",
                step=step,
                change=step.change,
                tree=digest_of(tree),
                files=len(tree),
                diffs=self.diffs_of_step(step),
                last=len(self.steps),
            )

    def change_pages(self) -> Iterator[Page]:
        """A page for each change."""
        for change in self.changes.values():
            diffs = self.diffs_of_change(change) if change.phase in FROZEN else []
            yield self.page(f"change-{change.number}.html", "change.html", change=change, diffs=diffs)

    def path_pages(self) -> Iterator[Page]:
        """A page for each path with its past, newest first."""
        steps_ = {step.delta.number: step for step in self.steps}
        for file in self.store.table.files:
            past = [(number, entry, steps_[entry.delta]) for number, entry in enumerate(file.past, 1)][::-1]
            yield self.page(page_of_path(file.path), "path.html", file=file, past=past, holder=self.store.holders.get(file.path))

    def there(self) -> List[Tuple[ProjectFile, PastEntry]]:
        """The files of the baseline."""
        return [(file, file.past[-1]) for file in self.store.table.files if file.past and file.past[-1].version]

    def count(self) -> int:
        """How many pages there are, with their style."""
        return 4 + len(self.steps) + len(self.changes) + len(self.store.table.files)

    def all(self) -> Iterator[Page]:
        """All pages, and their style."""
        with open(os.path.join(HERE, "templates", "style.css"), "rb") as style:
            yield "style.css", style.read()
        yield self.page(
            "index.html", "index.html", board=self.board(), steps=self.steps[::-1][:20], count=len(self.steps), there=len(self.there())
        )
        yield self.page("deltas.html", "deltas.html", steps=self.steps[::-1], picture=picture_of(self.steps))
        yield self.page(
            "files.html", "files.html", there=self.there(), gone=[file for file in self.store.table.files if not file.past[-1].version]
        )
        yield from self.delta_pages()
        yield from self.change_pages()
        yield from self.path_pages()


def write_pages(store: Store, folder: Folder) -> None:
    """Writes all pages of a project into their folder."""
    site = Site(store)
    with UnderWay("pages", site.count()) as under_way:
        folder.write_all(site.all(), under_way.advance)
