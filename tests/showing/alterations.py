"""Stores that are altered by a seed: in their values, in their bytes, and by what a stop leaves."""
import random
import re
from typing import Any, Callable, Dict, Iterator, List, Tuple

from stores import PATHS, USERS, Made, Word, body_of, files_of, in_the_first_format

NUMBERS = [
    0,
    1,
    2,
    9,
    10,
    255,
    1990,
    1991,
    1999,
    2000,
    65536,
    4194304,
    4194305,
    16777216,
    2**32 - 1,
    2**32,
    4102444799,
    4102444800,
    2**62,
    2**64 - 1,
]
WORDS = (
    "true false packed goto_being_reviewed goto_awaiting_review goto_awaiting_integration external_bug chain create modify remove source"
    " config test develop integrate build baseline_test regression_test awaiting_development being_developed awaiting_review being_reviewed"
    " awaiting_integration being_integrated completed new_change develop_begin develop_end review_begin review_pass review_pass_undo"
    " review_fail integrate_begin integrate_pass nothing"
).split()
STRINGS = (
    PATHS
    + USERS
    + [b"", b"b", b"b/c/d", b"..", b"a//b", b"-a", b"aegis.log", b"A" * 65, b"a" * 33, b"p/" * 127 + b"q", b"Alice", b"x\n", b"0" * 64]
)
SITES = Iterator[Tuple[Any, Any]]


def sites(value: Any) -> SITES:
    """Each place in a value, as what holds it and its key there."""
    keys: List[Any] = list(value) if isinstance(value, dict) else list(range(len(value))) if isinstance(value, list) else []
    for key in keys:
        yield value, key
        yield from sites(value[key])


def other_value(random_: random.Random, value: Any) -> Any:
    """Another value of the same kind."""
    if isinstance(value, Word):
        return Word(random_.choice(WORDS))
    if isinstance(value, int):
        return random_.choice(NUMBERS + [value + 1, max(0, value - 1)])
    if isinstance(value, bytes):
        return random_.choice(STRINGS + [value[::-1], value + b"0", value.upper()])
    if isinstance(value, list):
        return random_.choice([value[1:], value[:-1], value[::-1], value + value[:1], value + [[]]])
    return random_.choice([{}, dict(list(value.items())[1:]), dict(reversed(list(value.items()))), {**value, "more": 1}])


def alter_a_value(random_: random.Random, made: Made) -> None:
    """Another value in some place of some record."""
    record = made.records[random_.choice(sorted(made.records))]
    holder, key = random_.choice(list(sites(record)))
    holder[key] = other_value(random_, holder[key])


def exchange_rows(random_: random.Random, made: Made) -> None:
    """Two rows of a list in each other's place, or one of them twice."""
    lists = [
        holder[key]
        for record in made.records.values()
        for holder, key in sites(record)
        if isinstance(holder[key], list) and len(holder[key]) > 1
    ]
    if lists:
        rows = random_.choice(lists)
        one, other = random_.sample(range(len(rows)), k=2)
        rows[one], rows[other] = rows[other], rows[one] if random_.random() < 0.7 else rows[other]


def drop_a_row(random_: random.Random, made: Made) -> None:
    """A row of a list is gone."""
    lists = [
        holder[key] for record in made.records.values() for holder, key in sites(record) if isinstance(holder[key], list) and holder[key]
    ]
    if lists:
        rows = random_.choice(lists)
        del rows[random_.randrange(len(rows))]


def alter_a_run(random_: random.Random, made: Made) -> None:
    """A run of some change is otherwise, or gone."""
    rows = [record["evidence"] for name, record in made.records.items() if name.startswith("change.") and record["evidence"]]
    if rows:
        runs = random_.choice(rows)
        run = random_.choice(runs)
        what = random_.choice(["status", "clean", "subject", "ground", "gone"])
        if what == "gone":
            runs.remove(run)
        elif what == "subject":
            run[what] = bytes(reversed(run[what]))
        else:
            run[what] = {"status": 1 - min(run["status"], 1), "clean": Word("false"), "ground": Word("develop")}[what]


def alter_a_review(random_: random.Random, made: Made) -> None:
    """Another reviewer, another developer, or another event of the history."""
    changes = [record for name, record in made.records.items() if name.startswith("change.")]
    if changes:
        change = random_.choice(changes)
        what = random_.choice(["reviewer", "developer", "reviewing", "history"])
        if what != "history":
            change[what] = random_.choice(USERS + [b"", change["reviewer"] or b"bob"])
        elif change["history"]:
            row = random_.choice(change["history"])
            row["what"], row["who"] = Word(random_.choice(["develop_end", "review_pass", "review_fail"])), random_.choice(USERS)


def alter_a_place(random_: random.Random, made: Made) -> None:
    """A version at another place, of another length or number."""
    versions = [holder[key] for record in made.records.values() for holder, key in sites(record) if key == "version" and holder[key]]
    if versions:
        version, other = random_.choice(versions), random_.choice(versions)
        name = random_.choice(["number", "at", "length"])
        version[name] = random_.choice([other[name], version[name] + 1, max(0, version[name] - 1), 16777216, 16777215])


def alter_format(random_: random.Random, made: Made) -> None:
    """The first format, in all files or in some."""
    if made.records["project"]["format"] == 2:
        in_the_first_format(made)
    if random_.random() < 0.5:
        made.records["project"]["format"] = random_.choice([0, 1, 2, 3])


OF_VALUES: List[Callable[[random.Random, Made], None]] = [
    alter_a_value,
    alter_a_value,
    alter_a_value,
    exchange_rows,
    drop_a_row,
    alter_a_run,
    alter_a_run,
    alter_a_review,
    alter_a_review,
    alter_a_place,
    alter_format,
]


def alter_bytes(random_: random.Random, files: Dict[str, bytes]) -> None:
    """Some bytes of a file are others, gone, or there twice."""
    name = random_.choice(sorted(files))
    held = files[name]
    at = random_.randrange(len(held) + 1)
    until = min(len(held), at + random_.choice([1, 1, 1, 2, 10, 1000]))
    middle = random_.choice([b"", held[at:until] * 2, bytes([random_.randrange(256)]), b"/*", b"\0", b" ", b'"', b"}", b",", b"00"])
    files[name] = held[:at] + middle + held[until:]


def spell_otherwise(random_: random.Random, files: Dict[str, bytes]) -> None:
    """A state file that says the same in other words: blanks, comments, zeros and escapes."""
    name = random_.choice(sorted(name for name in files if name != "pack"))
    text = files[name]
    text = re.sub(rb"\[", lambda _: random_.choice([b"[", b"[ /* * / ** */", b"[\r\n\t"]), text)
    text = re.sub(rb"([0-9a-z}\"])\]", lambda found: found[1] + random_.choice([b"]", b",]", b" , ]"]), text)
    text = re.sub(rb"= ([0-9]+);", lambda found: b"=" + random_.choice([b"", b"0", b"0" * 30]) + found[1] + b";", text)
    files[name] = (
        random_.choice([b"", b"/**/", b"/***/ \n"])
        + text.replace(b"demo", b"d\\145mo")
        + random_.choice([b"", b"\n", b"/* end */", b"/* end", b";"])
    )


def lose_a_file(random_: random.Random, files: Dict[str, bytes]) -> None:
    """A file is gone, or empty."""
    name = random_.choice(sorted(files))
    files[name] = b""
    if random_.random() < 0.5:
        del files[name]


def cut_the_pack(random_: random.Random, files: Dict[str, bytes]) -> None:
    """The pack ends earlier."""
    files["pack"] = files["pack"][: random_.randrange(len(files["pack"]) + 1)]


def stop_a_commit(random_: random.Random, files: Dict[str, bytes]) -> None:
    """A commit was stopped once its gate was open: some files are older, and the body has the newer ones."""
    names = random_.sample(sorted(files), k=random_.randrange(len(files) + 1))
    body = body_of({name: files[name] or None for name in names})
    for name in names:
        files[name] = b"older"
    files["body"], files["gate"] = body, random_.choice([b"\1", b"\1\0", b"\1", b"\0", b"\2", b""])
    if random_.random() < 0.4:
        at = random_.randrange(len(body))
        files["body"] = random_.choice([body[:at], body + b"\0", body[:at] + bytes([body[at] ^ 1]) + body[at + 1 :]])


OF_FILES = [alter_bytes, alter_bytes, alter_bytes, spell_otherwise, lose_a_file, cut_the_pack, stop_a_commit]


def altered(made: Made, seed: int) -> Dict[str, bytes]:
    """The files of this store, altered once or twice."""
    random_ = random.Random(seed)
    if random_.random() < 0.55:
        for _ in range(random_.choice([1, 1, 2])):
            random_.choice(OF_VALUES)(random_, made)
        return files_of(made)
    files = files_of(made)
    random_.choice(OF_FILES)(random_, files)
    return files
