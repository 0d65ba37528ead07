"""A project as large as is wanted, whose changes are all integrated: its store, written file by file (docs/FORMATS.md).

Of each change the run of its integration has the digest of the baseline that it made, so that an audit shows all of them.
"""
import hashlib
import os

DIGEST = "2d711642b726b04401627ca9fbac32f5c8530fb1903cc4db02258717921a4881"
WHEN = 1000000000
# the bytes of a file, those of a unit of pack
LENGTH, UNIT = 4096, 64
PEOPLE = 'administrators = ["alice"];\ndevelopers = ["bob"];\nreviewers = ["alice"];\nintegrators = ["alice"];\n'
STEPS = [
    ("new_change", "alice"),
    ("develop_begin", "bob"),
    ("develop_end", "bob"),
    ("review_pass", "alice"),
    ("integrate_begin", "alice"),
    ("integrate_pass", "alice"),
]


def listed(rows: list[str]) -> str:
    return "[" + ", ".join(rows) + "]"


def project_text(paths: int, changes: int, form: int) -> str:
    deltas = [f'{{ delta = {d}; change = {d + 9}; when = {WHEN}; who = "alice"; }}' for d in range(1, changes + 1)]
    numbers = [str(d + 9) for d in range(1, changes + 1)]
    flags = ["developer_may_review", "developer_may_integrate", "reviewer_may_integrate", "developers_may_create_changes"]
    settings = "".join(f"{flag} = {'true' if flag.startswith('reviewer') else 'false'};\n" for flag in flags)
    return (
        f'format = {form};\nstore = packed;\nname = "demo";\ndescription = "";\n'
        + settings
        + "develop_end_action = goto_being_reviewed;\ndefault_test_exemption = false;\n"
        + PEOPLE
        + f"next_version = {paths + 1};\nchanges = {listed(numbers)};\ndeltas = {listed(deltas)};\n"
    )


def units(length: int) -> int:
    """How many units of `pack` a version of that length takes."""
    return (length + UNIT - 1) // UNIT


def content(number: int, length: int = LENGTH) -> bytes:
    """The bytes of a version: a line with its number and dots, or dots alone where that line doesn't fit."""
    line = f"version {number}\n".encode()
    return (line if len(line) <= length else b"").ljust(length, b".")


def file_row(path: str, number: int, delta: int, length: int, digest: str) -> str:
    at = (number - 1) * units(length)
    version = f'version = {{ number = {number}; at = {at}; length = {length}; digest = "{digest}"; }};'
    return f'{{ path = "{path}"; edit = 1; past = [{{ delta = {delta}; usage = source; {version} }}]; }}'


def change_text(number: int, paths: list[str], form: int, digest: str) -> str:
    """The record of a change, whose integration was built on files of this digest."""
    files = [f'{{ path = "{p}"; action = create; usage = source; origin = 0; version = {{ }}; }}' for p in paths]
    runs = [
        f'{{ ground = {ground}; kind = build; path = ""; status = 0; clean = true; subject = "{subject}"; when = {WHEN}; who = "{who}"; }}'
        for ground, subject, who in [("develop", DIGEST, "bob"), ("integrate", digest, "alice")]
    ]
    reason = ' why = "";' if form == 2 else ""
    rows = [f'{{ what = {what}; who = "{who}"; when = {WHEN};{reason} }}' for what, who in STEPS]
    return (
        f'number = {number};\nbrief_description = "change {number}";\ndescription = "";\ncause = internal_enhancement;\n'
        "test_exempt = true;\ntest_baseline_exempt = true;\nregression_test_exempt = true;\nphase = completed;\n"
        'developer = "bob";\nreviewing = "";\nreviewer = "alice";\nintegrator = "alice";\n'
        f"files = {listed(files)};\nevidence = {listed(runs)};\nhistory = {listed(rows)};\n"
    )


def write_store(folder: str, paths: int, changes: int, form: int = 2, length: int = LENGTH) -> None:
    """Writes the store in this format of the state files; each file has so many bytes."""
    names = [f"source/part{n // 100:03}/file{n:05}.c" for n in range(paths)]
    each = [names[d * paths // changes : (d + 1) * paths // changes] for d in range(changes)]
    rows: list[str] = []
    tree, trees = hashlib.sha256(), []
    for delta, mine in enumerate(each, 1):
        for path in mine:
            digest = hashlib.sha256(content(len(rows) + 1, length)).hexdigest()
            rows.append(file_row(path, len(rows) + 1, delta, length, digest))
            tree.update(f"{path} {length} {digest}\n".encode())
        trees.append(tree.hexdigest())
    texts = {"project": project_text(paths, changes, form), "files": f"files = {listed(rows)};\nlocks = [];\n"}
    for delta, (mine, digest) in enumerate(zip(each, trees), 1):
        texts[f"change.{delta + 9}"] = change_text(delta + 9, mine, form, digest)
    os.makedirs(folder)
    for name, text in texts.items():
        with open(os.path.join(folder, name), "w") as file:
            file.write(text)
    with open(os.path.join(folder, "pack"), "wb") as pack:
        pack.writelines(content(number, length).ljust(units(length) * UNIT, b"\0") for number in range(1, paths + 1))
