"""`ae pages` writes pages whose links resolve and in which no text of a user lives; `test_browser` looks at them in a browser."""
import os
import resource
import shutil
import time
from html.parser import HTMLParser
from pathlib import Path
from typing import Callable, Dict, List, Optional, Set, Tuple
from urllib.parse import unquote, urldefrag

import projects
import pytest
import stores
from aegis_porcelain.pages import diffs
from commands import ae

Lay = Callable[[Dict[str, bytes]], Path]
STORIES = Path(__file__).resolve().parent.parent / "stories"
TAGS = set(
    "html head meta title link body a header nav main footer code h1 h2 h3 p section ul li span dl dt dd table thead tbody tr th td pre svg"
    " defs circle rect path line text use div g".split()
)


class Reader(HTMLParser):
    """What a page has: its tags, its links, its ids, and the tags that are open."""

    def __init__(self) -> None:
        super().__init__(convert_charrefs=True)
        self.tags: Set[str] = set()
        self.attributes: Set[str] = set()
        self.links: List[str] = []
        self.ids: Set[str] = set()
        self.text = ""

    def handle_starttag(self, tag: str, attrs: List[Tuple[str, Optional[str]]]) -> None:
        self.tags.add(tag)
        self.attributes.update(name for name, _ in attrs)
        for name, value in attrs:
            if name in ("href", "src"):
                self.links.append(value or "")
            if name == "id":
                self.ids.add(value or "")

    def handle_data(self, data: str) -> None:
        self.text += data


def read(path: Path) -> Reader:
    """What a page has."""
    reader = Reader()
    reader.feed(path.read_text(encoding="utf-8"))
    reader.close()
    return reader


def check_links(folder: Path) -> int:
    """Each link of each page leads to a page, and to a part that is there."""
    pages = {path.relative_to(folder).as_posix(): read(path) for path in folder.rglob("*.html")}
    for name, page in pages.items():
        for link in page.links:
            if link == "data:,":
                continue
            to, part = urldefrag(link)
            target = os.path.normpath(os.path.join(os.path.dirname(name), unquote(to))) if to else name
            assert (folder / target).is_file(), f"{name}: {link}"
            assert not part or target not in pages or part in pages[target].ids, f"{name}: {link}"
    return len(pages)


def written(top: Path, dest: str = "pages") -> Tuple[int, int]:
    """Writes the pages; answers how many there are and how many were written."""
    found = ae(top, "pages", dest)
    assert (found.returncode, found.stderr) == (0, "")
    words = found.stdout.split()
    return int(words[1]), int(words[3])


def test_each_delta_change_and_path_has_a_page(lay: Lay) -> None:
    """Of forty changes; the same again writes nothing."""
    made = projects.LargeMaker(7).make()
    top = lay(stores.files_of(made))
    count, new = written(top)
    deltas, changes, paths = (
        len(made.records[name][rows]) for name, rows in [("project", "deltas"), ("project", "changes"), ("files", "files")]
    )
    assert count == new == deltas + changes + paths + 4 and changes == 40
    assert check_links(top / "pages") == count - 1
    assert written(top) == (count, 0)


@pytest.mark.parametrize("story", sorted(path.name for path in STORIES.iterdir() if path.is_dir()))
def test_of_a_worked_story(lay: Lay, story: str) -> None:
    """Each link resolves. Two of them end with a damaged store, and have the pages of what they began from."""
    store = "before" if story in ("audited", "format-3") else "after"
    top = lay({path.name: path.read_bytes() for path in (STORIES / story / "stores" / store).iterdir()})
    count, _ = written(top)
    assert check_links(top / "pages") == count - 1


def test_a_delta_more_writes_what_is_new(lay: Lay) -> None:
    """The pages of other deltas, changes and paths stay; but the delta before it now has one after it."""
    made = projects.of_many_files(30, 12)
    top = lay(stores.files_of(projects.of_many_files(30, 11)))
    written(top)
    before = {path: path.stat().st_mtime_ns for path in (top / "pages").rglob("*.html")}
    shutil.rmtree(top / "aegis.d" / "store")
    (top / "aegis.d" / "store").mkdir()
    for name, held in stores.files_of(made).items():
        (top / "aegis.d" / "store" / name).write_bytes(held)
    _, new = written(top)
    changed = {path.name for path, when in before.items() if path.stat().st_mtime_ns != when}
    assert changed == {"index.html", "deltas.html", "files.html", "delta-11.html"} | {name for name in changed if name.startswith("d")} - {
        "d"
    }
    assert new == len(changed) + 2 <= 9


def test_a_page_of_what_is_no_more_goes(lay: Lay) -> None:
    """As that of a change that was taken back."""
    made = projects.LargeMaker(7).make()
    top = lay(stores.files_of(made))
    written(top)
    changes = [record for name, record in made.records.items() if name.startswith("change.")]
    gone = next(change["number"] for change in changes if change["phase"] in ("awaiting_development", "being_developed"))
    made.records["project"]["changes"].remove(gone)
    (top / "aegis.d" / "store" / "project").write_bytes(stores.text_of(made.records["project"]))
    assert (top / "pages" / f"change-{gone}.html").exists()
    written(top)
    assert not (top / "pages" / f"change-{gone}.html").exists()
    check_links(top / "pages")


@pytest.mark.parametrize("seed", [5, 11, 12])
def test_no_text_of_a_user_lives(lay: Lay, seed: int) -> None:
    """Each is there as a text; what can't be seen, or turns a text round, is there by its number."""
    top = lay(stores.files_of(projects.HostileMaker(seed).make()))
    written(top)
    check_links(top / "pages")
    pages = [read(path) for path in (top / "pages").rglob("*.html")]
    assert set().union(*(page.tags for page in pages)) <= TAGS
    assert not [name for page in pages for name in page.attributes if name.startswith("on") or name in ("style", "src")]
    text = "".join(page.text for page in pages)
    assert not set(text) & set("\x1b\x07\x9b\u202e\u2066\u200b\0")
    for said in [
        "<script>document.title = 'live'</script>",
        "{{ 7 * 191 }} {% raw %}",
        "<U+001B>[31m<U+0007>red",
        "<U+202E>gnihtemos",
        "&lt;b&gt;",
    ]:
        assert said in text
    assert "1337" not in text


def test_paths_that_are_long_or_alike_have_their_own_pages(lay: Lay) -> None:
    """Also where one is a folder of another's page."""
    made = projects.of_many_files(4, 1)
    paths = [b"a", b"a.html/b", b"p/" * 127 + b"q", b"p/" * 127 + b"r"]
    for path, row, file in zip(paths, made.records["files"]["files"], made.records["change.10"]["files"]):
        row["path"] = file["path"] = path
    top = lay(stores.files_of(made))
    written(top)
    assert len(list((top / "pages" / "path").iterdir())) == 4
    check_links(top / "pages")


def test_a_folder_of_others_stays_as_it_is(lay: Lay, tmp_path: Path) -> None:
    """One that has something else, and that of the records."""
    top = lay(stores.files_of(stores.made_up(5)))
    (tmp_path / "mine").mkdir()
    (tmp_path / "mine" / "index.html").write_text("mine")
    found = ae(top, "pages", str(tmp_path / "mine"))
    assert found.returncode == 1 and found.stderr.endswith("is there, and wasn't made by ae pages\n")
    assert (tmp_path / "mine" / "index.html").read_text() == "mine"
    assert ae(top, "pages", "aegis.d/pages").returncode == 1


def test_many_files_take_less_than_twenty_seconds(lay: Lay) -> None:
    """2,000 files and 200 deltas, by the processor's time; a delta more writes only what is new."""
    top = lay(stores.files_of(projects.of_many_files(2000, 200)))
    before = resource.getrusage(resource.RUSAGE_CHILDREN)
    count, new = written(top)
    after = resource.getrusage(resource.RUSAGE_CHILDREN)
    assert count == new == 2404
    assert after.ru_utime + after.ru_stime - before.ru_utime - before.ru_stime < 20
    assert written(top) == (2404, 0)


def test_many_lines_are_compared_in_seconds(monkeypatch: pytest.MonkeyPatch) -> None:
    """Also where each other line is new; and a diff is the same whichever way it is made."""
    lines = [f"{number:x}" for number in range(100_000)]
    began = time.monotonic()
    found = diffs.compared(lines, [one for line in lines for one in (line, f"{line}z")])
    assert len(found) == 200_001 and sum(line.startswith("+") for line in found) == 100_000 and time.monotonic() - began < 60
    letters = list("abcdefghijklmnopqrst")
    pairs: List[Tuple[List[str], List[str]]] = [([], ["a"]), (["a", "b"], []), (["a", "\u00e4", "c"], ["a", "\\", "c"])]
    for before, after in [*pairs, (letters, [*letters[:9], "1", *letters[10:]])]:
        monkeypatch.setattr(diffs, "MOST_COMPARED", 2000)
        said = diffs.compared(before, after)
        monkeypatch.setattr(diffs, "MOST_COMPARED", -1)
        assert diffs.compared(before, after) == said != []
