"""The reader of the store, over stores that an independent program left and over moments at which a command is stopped."""
import fcntl
import hashlib
import multiprocessing
import os
import random
import struct
import subprocess
import time

import pytest
from conftest import AE, TESTS

from aegis_porcelain import canonical, copied, place, records, store, text
from aegis_porcelain.failures import Damaged, Failure, VersionGone

CONFIG = b'build_command = "exit 0";\ntest_command = "sh ${file_name}";\n'
TREES = {
    1: {"aegis.conf": CONFIG, "hello": b"hi\n", "t.sh": b"grep -q hi hello"},
    2: {"aegis.conf": CONFIG, "hello": b"hi there\n", "t.sh": b"grep -q hi hello", "u.sh": b"grep -q there hello"},
    3: {"aegis.conf": CONFIG, "hello": b"hi there\n", "u.sh": b"grep -q there hello"},
}
FIRST = b'a = { path = "hello"; };\n'


def read(top, work):
    return store.with_store(place.find(str(top)), work)


def digests(top):
    files = sorted((top / "aegis.d" / "store").iterdir())
    return [(file.name, hashlib.sha256(file.read_bytes()).hexdigest(), file.stat().st_mtime_ns) for file in files]


def body_of(entries):
    """The body of a commit that writes these files."""
    rows = [struct.pack("<IB", 0, len(name))[4:] + name.encode() + b"\1" + struct.pack("<Q", len(data)) + data for name, data in entries]
    return struct.pack("<I", len(rows)) + b"".join(rows)


@pytest.mark.parametrize("delta", TREES)
def test_each_delta_has_the_files_that_it_had(lay, delta):
    def tree(held):
        return {path: held.bytes_of(entry.version) for path, entry in held.tree(delta).items()}

    assert read(lay("stores/three-deltas"), tree) == TREES[delta]


def test_records_of_a_store(lay):
    def look(held):
        assert [change.phase for change in held.changes()] == ["completed"] * 3
        assert held.project.roles == records.Roles(("alice",), ("bob",), ("alice",), ("alice",))
        assert held.delta_of(11) == held.delta(2)
        assert [(file.action, file.path) for file in held.change(12).files] == [("remove", "t.sh")]
        assert held.base_of("hello", 1).length == 3
        assert held.begun_from() is None and held.holders == {}
        return held.change(12).evidence[-1].subject

    wanted = "".join(f"{path} {len(data)} {hashlib.sha256(data).hexdigest()}\n" for path, data in TREES[3].items())
    assert read(lay("stores/three-deltas"), look) == hashlib.sha256(wanted.encode()).hexdigest()


def test_both_formats_say_the_same(lay):
    old, new = (
        read(lay(f"stories/migrated/stores/{name}"), lambda held: (held.project, held.change(10), held.table))
        for name in ("before", "brought-up")
    )
    assert (old[0].format, new[0].format) == (1, 2)
    assert old[1:] == new[1:]


@pytest.mark.parametrize("name", ["project", "files", "change.10", "change.12"])
def test_a_file_that_is_cut_is_damaged(lay, name):
    """At one length in seven, but for the last line end; a project that is cut to nothing isn't there."""
    top = lay("stores/three-deltas")
    file = top / "aegis.d" / "store" / name
    whole = file.read_bytes()

    def all_of_it(held):
        return held.project, held.table, list(held.changes())

    for length in range(0 if name != "project" else 1, len(whole) - 1, 7):
        file.write_bytes(whole[:length])
        with pytest.raises(Damaged) as damage:
            read(top, all_of_it)
        assert str(damage.value) == f'"{name}" is damaged'
    file.write_bytes(whole[:-1])
    read(top, all_of_it)


@pytest.mark.parametrize(
    "before, after",
    [
        (b'path = "hello"', b'path = "../hello"'),
        (b'path = "hello"', b'path = "-hello"'),
        (b'path = "hello"', b'path = "zzz"'),
        (b'path = "hello"', b'path = "a\\033[2J"'),
        (b"usage = test", b"usage = tests"),
        (b"edit = 2", b"edit = 3"),
        (b"number = 2; at = 1", b"at = 1; number = 2"),
        (b"locks = []", b"locks = [1]"),
        (b"98ea", b"98EA"),
    ],
)
def test_what_is_no_record_is_damaged(lay, before, after):
    top = lay("stores/three-deltas")
    file = top / "aegis.d" / "store" / "files"
    assert before in file.read_bytes()
    file.write_bytes(file.read_bytes().replace(before, after))
    with pytest.raises(Damaged):
        read(top, lambda held: held.table)


def test_an_open_gate_gives_the_body_and_nothing_is_written(lay):
    """What a command was to write when it was stopped counts; with the gate closed it doesn't."""
    top = lay("stores/three-deltas")
    folder = top / "aegis.d" / "store"
    entries = [("change.10", (folder / "change.10").read_bytes().replace(b'"bob"', b'"eve"')), ("pack", b"")]
    (folder / "body").write_bytes(body_of(entries))
    for gate, developer in [(b"\1", "eve"), (b"\1rest", "eve"), (b"\0", "bob"), (b"", "bob"), (b"\2", "bob")]:
        (folder / "gate").write_bytes(gate)
        before = digests(top)
        assert read(top, lambda held: held.change(10).developer) == developer
        assert digests(top) == before


@pytest.mark.parametrize(
    "body",
    [b"", b"\1", body_of([("a", b"x")])[:-1], body_of([("a", b"x")]) + b"x", body_of([("b", b""), ("a", b"")]), body_of([("gate", b"")])],
)
def test_a_body_that_no_commit_writes_is_damaged(lay, body):
    top = lay("stores/one-delta")
    (top / "aegis.d" / "store" / "gate").write_bytes(b"\1")
    (top / "aegis.d" / "store" / "body").write_bytes(body)
    with pytest.raises(Damaged, match='"body" is damaged'):
        read(top, lambda held: held.project)


def commit_again_and_again(folder, ready, done):
    """Commits two records that agree, as the program does, with the lock held throughout."""
    with open(folder.parent / "lock") as lock:
        fcntl.flock(lock, fcntl.LOCK_EX)
        first, second = ((folder / name).read_bytes() for name in ("change.10", "change.11"))
        moment = 0
        while not done.is_set():
            moment += 1
            new = [
                (name, data.replace(b'description = ""', b'description = "%d"' % moment))
                for name, data in [("change.10", first), ("change.11", second)]
            ]
            (folder / "body").write_bytes(body_of(new))
            (folder / "gate").write_bytes(b"\1")
            for name, data in new:
                (folder / name).write_bytes(data)
            (folder / "gate").write_bytes(b"\0")
            ready.set()
            time.sleep(0.05)


def test_reads_of_one_moment_while_a_command_holds_the_lock(lay, monkeypatch):
    monkeypatch.setattr(copied, "SHORT_WAIT", 0)
    monkeypatch.setattr(copied, "BETWEEN_TRIES", 0.001)
    top = lay("stores/three-deltas")
    ready, done = multiprocessing.Event(), multiprocessing.Event()
    writer = multiprocessing.Process(target=commit_again_and_again, args=(top / "aegis.d" / "store", ready, done))
    writer.start()
    assert ready.wait(10)
    seen = set()
    for _ in range(100):
        pair = read(top, lambda held: (held.change(10).description, held.change(11).description))
        assert pair[0] == pair[1]
        seen.add(pair)
    done.set()
    writer.join()
    assert len(seen) > 1


def test_a_version_that_has_gone_is_looked_for_again_under_the_lock(lay):
    """Where the records have changed since they were copied, all is read again; where they haven't, the pack is damaged."""
    top = lay("stores/three-deltas")
    pack = top / "aegis.d" / "store" / "pack"
    whole, tries = pack.read_bytes(), []

    def look(held):
        tries.append(1)
        if len(tries) == 2:
            with open(top / "aegis.d" / "lock") as lock, pytest.raises(BlockingIOError):
                fcntl.flock(lock, fcntl.LOCK_EX | fcntl.LOCK_NB)
            pack.write_bytes(whole)
        return held.bytes_of(held.paths["hello"].past[-1].version)

    pack.write_bytes(whole[:192] + b"HI" + whole[194:])
    assert (read(top, look), len(tries)) == (b"hi there\n", 2)
    pack.write_bytes(whole[:192] + b"HI" + whole[194:])
    tries.clear()
    with pytest.raises(Damaged, match='"pack" is damaged'):
        read(top, lambda held: held.bytes_of(held.paths["hello"].past[-1].version))
    with store.opened(place.find(str(top))) as held, pytest.raises(VersionGone):
        held.bytes_of(held.paths["hello"].past[-1].version)


def test_links_and_other_things_are_not_read(lay, tmp_path):
    top = lay("stores/one-delta")
    folder = top / "aegis.d" / "store"
    os.rename(folder / "files", tmp_path / "files")
    (folder / "files").symlink_to(tmp_path / "files")
    with pytest.raises(Failure, match="files of the store can't be read"):
        read(top, lambda held: held.table)
    (folder / "files").unlink()
    os.mkfifo(folder / "files")
    with pytest.raises(Failure, match="something else than a file"):
        read(top, lambda held: held.table)
    os.rename(folder, tmp_path / "store")
    folder.symlink_to(tmp_path / "store")
    with pytest.raises(Failure, match="aegis.d can't be read"):
        read(top, lambda held: held.table)


def test_a_copy_without_a_lock_is_read(lay):
    top = lay("stores/one-delta")
    (top / "aegis.d" / "lock").unlink()
    assert read(top, lambda held: held.project.name) == "demo"
    assert sorted(os.listdir(top / "aegis.d")) == ["store"]


@pytest.mark.parametrize(
    "folder, wanted",
    [
        ("", ("", None, None, "", False)),
        ("src", ("", None, None, "", False)),
        ("aegis.d/store", ("", None, None, "", False)),
        ("aegis.d/develop.10", ("", 10, None, "", False)),
        ("aegis.d/develop.10/lib/a", ("", 10, None, "lib/a", False)),
        ("aegis.d/develop.10/lib/aegis.d/develop.11", ("", 10, None, "lib/aegis.d/develop.11", False)),
        ("aegis.d/develop.10.old/lib", ("", 10, None, "lib", True)),
        ("aegis.d/base.10", ("", 10, None, "", False)),
        ("aegis.d/integrate.3/lib", ("", None, 3, "", False)),
        ("aegis.d/branch.r.1/develop.12/lib", ("r.1", 12, None, "lib", False)),
    ],
)
def test_places_in_a_project(lay, folder, wanted):
    top = lay("stores/one-delta")
    os.makedirs(top / folder, exist_ok=True)
    found = place.find(str(top / folder))
    assert found == place.Place(str(top), *wanted)
    assert found.home == ("aegis.d/branch.r.1" if found.branch else "aegis.d")


def test_places_out_of_a_project(lay, tmp_path):
    with pytest.raises(Failure, match="there is no project in this folder"):
        place.find(str(tmp_path))
    top = lay("stores/one-delta")
    os.makedirs(top / "aegis.d" / "develop.10")
    assert place.find(str(top / "aegis.d" / "develop.10"), "b") == place.Place(str(top), "b")
    with pytest.raises(Failure, match="there is no branch b"):
        store.with_store(place.find(str(top), "b"), lambda held: held.project)
    with pytest.raises(Failure, match="no name of a branch"):
        place.find(str(top), "../b")


STORES = sorted(str(path.parent.relative_to(TESTS)) for path in TESTS.glob("sto*/**/files") if path.stat().st_size > 30)


@pytest.mark.parametrize("name", STORES)
def test_the_quick_way_reads_what_any_text_says(name):
    """The table of paths, as the program writes it, is read by rows; the same text with a comment is read as any other."""
    data = (TESTS / name / "files").read_bytes()
    index = canonical.index_of(data)
    slow = records.files_of(text.read(data))
    assert index is not None and index.table() == slow and canonical.index_of(b"/**/" + data) is None
    kept = {file.path: file.past[-1] for file in slow.files}
    kept = {path: (entry.usage, entry.version.length, entry.version.digest) for path, entry in kept.items() if entry.version}
    assert {path: tuple(now) for path, now in index.now().items()} == kept


def table_of(rows):
    """A table of paths, of which some are removed and some have a longer past."""
    kept = 'version = {{ number = {0}; at = {0}; length = 3; digest = "{1}"; }}; }}'
    text_rows = []
    for number, (path, edits, is_there) in enumerate(rows):
        entries = [
            f"{{ delta = {delta}; usage = test; " + kept.format(number * 9 + delta, f"{number:064x}") for delta in range(1, edits + 1)
        ]
        if not is_there:
            entries[-1] = f"{{ delta = {edits}; usage = test; version = {{ }}; }}"
        text_rows.append(f'{{ path = "{path}"; edit = {edits}; past = [{", ".join(entries)}]; }}')
    return f'files = [{", ".join(text_rows)}];\nlocks = [{{ path = "a"; change = 10; }}];\n'.encode()


@pytest.mark.parametrize("seed", range(40))
def test_paths_are_looked_up_by_halves(seed):
    """What a lookup answers is what is in the whole table, for paths that are there, and those that aren't."""
    chance = random.Random(seed)
    names = ["a", "b", "a/b", "a-b", "a.b", "a/b/c", "aa", "b/x", "c/d/e", "c/d", "z"]
    rows = [(path, chance.randrange(1, 4), chance.random() < 0.7) for path in sorted(chance.sample(names, chance.randrange(1, len(names))))]
    data = table_of(rows)
    slow, index = records.files_of(text.read(data)), canonical.index_of(data)
    assert index is not None and index.table() == slow
    whole = {file.path: file for file in slow.files}
    alive = {path for path, file in whole.items() if file.past[-1].version}
    for path in [*names, "", "~", 'a"; edit = 1', "\udcff"]:
        known = canonical.index_of(data, is_known=True)
        assert known.get(path) == whole.get(path) and (path in known) == (path in whole)
        assert (known.now_at(path) is not None) == (path in alive)
        assert known.is_folder(path, ()) == any(other.startswith(path + "/") for other in alive)
        assert known.is_folder(path, alive) is False and known.has_file(b"") == bool(alive)
    assert index.tests() == sorted(alive) and set(index.now()) == alive and index.locks == slow.locks


BROKEN = [
    ("project", b"when = 1000000100;", b"when = 18446744073709551615;"),
    ("project", b"{ delta = 2;", b"{ delta = 3;"),
    ("change.11", b"when = 1000000100; why", b"when = 4102444800; why"),
    ("files", b"{ delta = 2; usage = source;", b"{ delta = 1; usage = source;"),
    ("files", b"{ delta = 3; usage = test;", b"{ delta = 4; usage = test;"),
    ("files", b"edit = 1; past = [{ delta = 2;", b"edit = 1; past = [{ delta = 0;"),
]


@pytest.mark.parametrize("comment", [b"", b"/**/"])
@pytest.mark.parametrize("name, before, after", BROKEN)
def test_moments_and_pasts_that_there_are_not(lay, name, before, after, comment):
    """They are damage, also where the table is read the slow way, and no command ends by a traceback."""
    top = lay("stores/three-deltas")
    file = top / "aegis.d" / "store" / name
    assert before in file.read_bytes()
    file.write_bytes(comment + file.read_bytes().replace(before, after, 1))
    with pytest.raises(Damaged, match=f'"{name}" is damaged'):
        read(top, lambda held: (held.project, held.table, list(held.changes())))
    for words in (["log"], ["json"], ["pages", tmp_name(top)], ["git", tmp_name(top)], ["status"]):
        found = subprocess.run([AE, *words], cwd=top, capture_output=True, text=True)
        assert "Traceback" not in found.stderr and found.stderr.count("\n") <= 1, (words, found)


def tmp_name(top):
    return str(top.parent / "made")


def test_a_path_without_a_past_is_damage(lay):
    top = lay("stores/three-deltas")
    file = top / "aegis.d" / "store" / "files"
    held = file.read_bytes()
    at = held.index(b"edit = 1; past = [")
    file.write_bytes(held[:at] + b"edit = 0; past = []; }" + held[held.index(b"]; }", at) + len(b"]; }") :])
    with pytest.raises(Damaged):
        read(top, lambda held: held.table)
