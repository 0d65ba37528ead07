"""`ae json` writes all records, and its schema describes them."""
import base64
import copy
import json
from pathlib import Path
from typing import Any, Callable, Dict, Iterator, Tuple

import jsonschema  # type: ignore[import]
import pytest
import stores
from commands import TOP, ae

Lay = Callable[[Dict[str, bytes]], Path]
SCHEMA = json.loads((TOP / "docs" / "records.schema.json").read_text())
VALIDATOR = jsonschema.Draft202012Validator(SCHEMA)


def written(top: Path) -> Any:
    """The document of a project, which its schema describes."""
    found = ae(top, "json")
    assert (found.returncode, found.stderr) == (0, "")
    document = json.loads(found.stdout)
    VALIDATOR.validate(document)
    return document


def said(value: Any) -> Any:
    """A value of a record as the document has it."""
    if isinstance(value, stores.Word):
        return {"true": True, "false": False}.get(value, str(value))
    if isinstance(value, bytes):
        try:
            return value.decode()
        except UnicodeDecodeError:
            return {"base64": base64.b64encode(value).decode()}
    if isinstance(value, int):
        return value if value <= 2**53 else str(value)
    if isinstance(value, list):
        return [said(row) for row in value]
    return {name: said(part) for name, part in value.items()} or None


def change_said(change: Dict[str, Any]) -> Dict[str, Any]:
    """A change as the document has it: who isn't there is null, and so is the path of a build."""
    found: Dict[str, Any] = said(change)
    found.update({name: found[name] or None for name in ("developer", "reviewing", "reviewer", "integrator")})
    for run in found["evidence"]:
        run["path"] = run["path"] or None
    for row in found["history"]:
        row.setdefault("why", "")
    return found


@pytest.mark.parametrize("seed", range(12))
def test_it_has_all_records(lay: Lay, seed: int) -> None:
    """In both formats, with texts that aren't UTF-8 and counts above 2^53."""
    made = stores.made_up(seed)
    document = written(lay(stores.files_of(made)))
    records = {name: said(record) for name, record in made.records.items()}
    assert document["changes"] == [change_said(made.records[f"change.{number}"]) for number in records["project"]["changes"]]
    assert (document["files"], document["locks"]) == (records["files"]["files"], records["files"]["locks"])
    assert [(row["number"], row["change"], row["when"], row["who"]) for row in document["deltas"]] == [
        tuple(row.values()) for row in records["project"]["deltas"]
    ]
    project = document["project"]
    flat = {**project, **project["settings"], **project["roles"]}
    assert {name: flat[name] for name in records["project"] if name in flat} == {
        name: value for name, value in records["project"].items() if name not in ("store", "changes", "deltas")
    }


def test_some_texts_are_bytes_and_some_counts_digits(lay: Lay) -> None:
    """Of these twelve stores some have both."""
    texts = [ae(lay(stores.files_of(stores.made_up(seed))), "json").stdout for seed in range(12)]
    assert any('{"base64": "' in text for text in texts) and any(f'"at": "{2**64 - 1}"' in text for text in texts)


def places(value: Any) -> Iterator[Tuple[Any, Any]]:
    """Each place of a document, as what holds it and its key there."""
    keys = list(value) if isinstance(value, dict) else range(len(value)) if isinstance(value, list) else []
    for key in keys:
        yield value, key
        yield from places(value[key])


def test_the_schema_refuses_what_is_not_a_document(lay: Lay) -> None:
    """Each field is asked for and no other is let in, and no value may be of another kind."""
    document = written(lay(stores.files_of(stores.made_up(10))))
    jsonschema.Draft202012Validator.check_schema(SCHEMA)
    count = sum(1 for _ in places(document))
    for number in range(0, count, 7):
        other = copy.deepcopy(document)
        holder, key = list(places(other))[number]
        holder[key] = 0.5
        assert not VALIDATOR.is_valid(other), f"{key}: 0.5"
        if isinstance(holder, dict):
            del holder[key]
            assert not VALIDATOR.is_valid(other), f"without {key}"
        other = copy.deepcopy(document)
        holder, key = list(places(other))[number]
        if isinstance(holder, dict):
            holder["more"] = 1
            assert not VALIDATOR.is_valid(other), "with a further field"


def test_of_a_branch(lay: Lay) -> None:
    """A branch has its name, and where it was begun."""
    top = lay(stores.files_of(stores.made_up(5)))
    folder = top / "aegis.d" / "branch.old" / "store"
    folder.mkdir(parents=True)
    for name, held in {**stores.files_of(stores.made_up(7)), "trunk": b"delta = 3;\n"}.items():
        (folder / name).write_bytes(held)
    found = ae(top, "-br", "old", "json", "--indent", "1")
    document = json.loads(found.stdout)
    VALIDATOR.validate(document)
    assert (document["branch"], document["begun_from"], len(document["deltas"])) == ("old", 3, 1)
    assert written(top)["branch"] is None
