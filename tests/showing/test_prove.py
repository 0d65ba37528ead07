"""`ae prove` states what the records show of a delta, and `ae verify` refuses all else."""
import hashlib
import json
import subprocess
from pathlib import Path
from typing import Any, Callable, Dict

import jsonschema  # type: ignore[import]
import pytest
import stores
from aegis_porcelain.output import write_whole
from aegis_porcelain.place import Place
from aegis_porcelain.prove import made_of
from aegis_porcelain.start import main
from commands import TOP, ae

Lay = Callable[[Dict[str, bytes]], Path]
SCHEMA = json.loads((TOP / "docs" / "delta.schema.json").read_text())
TITLE = "demo@delta-2"
NAMES = [f"{TITLE}.intoto.json", f"{TITLE}.sha256", f"{TITLE}.spdx.json"]


@pytest.fixture
def key(tmp_path: Path) -> Path:
    """A key, of which the file `signers` says that it is carol's."""
    path = tmp_path / "key"
    subprocess.run(["ssh-keygen", "-q", "-t", "ed25519", "-N", "", "-f", path], check=True)
    (tmp_path / "signers").write_text(f"carol namespaces=\"aegis-delta\" {(tmp_path / 'key.pub').read_text()}")
    return path


@pytest.fixture
def proved(lay: Lay, program: str, tmp_path: Path, key: Path) -> Path:
    """A project, with the signed documents of its second delta in the folder `proof`."""
    top = lay(stores.files_of(stores.made_up(5)))
    (top / "proof").mkdir()
    found = ae(top, "prove", "2", "--sign", str(key), "--into", "proof", AEGIS_PROGRAM=program)
    assert (found.returncode, found.stderr) == (0, "")
    return top


def verify(top: Path, name: str, program: str, *words: str) -> Any:
    """What `ae verify` says."""
    return ae(top, "verify", f"proof/{name}", *words, AEGIS_PROGRAM=program)


def test_the_statement_is_of_its_schema(proved: Path) -> None:
    """And says what the records of the delta say."""
    made = stores.made_up(5)
    statement = json.loads((proved / "proof" / NAMES[0]).read_text())
    jsonschema.Draft202012Validator.check_schema(SCHEMA)
    jsonschema.Draft202012Validator(SCHEMA).validate(statement)
    delta = made.records["project"]["deltas"][1]
    change = made.records[f"change.{delta['change']}"]
    predicate = statement["predicate"]
    assert (predicate["delta"], predicate["change"], predicate["developer"]) == (2, change["number"], change["developer"].decode())
    assert predicate["review"]["user"] == (change["reviewer"].decode() or None)
    assert len(predicate["runs"]) == sum(run["ground"] == "integrate" for run in change["evidence"])
    assert predicate["audit"].split()[5] == statement["subject"][0]["digest"]["sha256"] == predicate["tree"]
    assert [subject["name"] for subject in statement["subject"]] == [TITLE] + sorted(
        row["path"].decode()
        for row in made.records["files"]["files"]
        if [e for e in row["past"] if e["delta"] <= 2][-1:] and [e for e in row["past"] if e["delta"] <= 2][-1]["version"]
    )


def test_it_is_shown_without_ae(proved: Path, tmp_path: Path) -> None:
    """By ssh-keygen and sha256sum alone."""
    for name in NAMES:
        held = (proved / "proof" / name).read_bytes()
        signed = ["-s", str(proved / "proof" / f"{name}.sig")]
        words = ["ssh-keygen", "-Y", "verify", "-f", str(tmp_path / "signers"), "-I", "carol", "-n", "aegis-delta", *signed]
        assert subprocess.run(words, input=held, capture_output=True, check=False).returncode == 0
        assert subprocess.run(words, input=held[:-1], capture_output=True, check=False).returncode != 0
    assert ae(proved, "git", str(tmp_path / "made.git")).returncode == 0
    (tmp_path / "files").mkdir()
    subprocess.run("git --git-dir made.git archive delta-2 | tar -x -C files", shell=True, cwd=tmp_path, check=True)
    sums = proved / "proof" / NAMES[1]
    assert subprocess.run(["sha256sum", "-c", "--quiet", "--strict", sums], cwd=tmp_path / "files", check=False).returncode == 0
    rows = """while read -r sum path; do echo "$path $(stat -c %s "$path") $sum"; done"""
    told = subprocess.run(
        f"{rows} < '{sums}' | sha256sum", shell=True, cwd=tmp_path / "files", capture_output=True, text=True, check=True
    ).stdout
    statement = json.loads((proved / "proof" / NAMES[0]).read_text())
    assert told.split()[0] == statement["subject"][0]["digest"]["sha256"]


def test_the_list_of_files_is_of_spdx(proved: Path) -> None:
    """It has what version 2.3 asks for of a document, a package and a file."""
    document = json.loads((proved / "proof" / NAMES[2]).read_text())
    statement = json.loads((proved / "proof" / NAMES[0]).read_text())
    assert (document["spdxVersion"], document["dataLicense"], document["SPDXID"]) == ("SPDX-2.3", "CC0-1.0", "SPDXRef-DOCUMENT")
    assert set(document) >= {"name", "documentNamespace", "creationInfo", "packages", "files", "relationships"}
    assert [(file["fileName"][2:], file["checksums"][1]["checksumValue"]) for file in document["files"]] == [
        (subject["name"], subject["digest"]["sha256"]) for subject in statement["subject"][1:]
    ]
    sums = sorted(file["checksums"][0]["checksumValue"] for file in document["files"])
    package = document["packages"][0]
    assert package["packageVerificationCode"]["packageVerificationCodeValue"] == hashlib.sha1("".join(sums).encode()).hexdigest()
    assert package["downloadLocation"] == "NOASSERTION"
    assert len({file["SPDXID"] for file in document["files"]}) == len(document["files"])
    assert [row["relationshipType"] for row in document["relationships"]] == ["DESCRIBES"] + ["CONTAINS"] * len(document["files"])


def test_each_document_is_verified(proved: Path, program: str, tmp_path: Path) -> None:
    """By the project, and by who signed it."""
    for name in NAMES:
        found = verify(proved, name, program, "--signers", str(tmp_path / "signers"))
        assert (found.returncode, found.stdout) == (0, f"proof/{name}: as this project shows delta 2, signed by carol\n")


def test_a_changed_byte_is_refused(proved: Path, program: str) -> None:
    """Wherever it is."""
    for name in NAMES[:2]:
        path = proved / "proof" / name
        held = path.read_bytes()
        for at in (0, len(held) // 2, len(held) - 1):
            path.write_bytes(held[:at] + bytes([held[at] ^ 1]) + held[at + 1 :])
            found = verify(proved, name, program)
            assert (found.returncode, found.stderr) == (1, f"ae: proof/{name} isn't what this project shows of delta 2\n")
        path.write_bytes(held)


def test_another_key_is_refused(proved: Path, program: str, tmp_path: Path) -> None:
    """One that nobody may sign with, one of another purpose, and no signature."""
    name, signers = NAMES[0], tmp_path / "signers"
    said = signers.read_text()
    wrong = (1, f"ae: proof/{name} has no signature of one who may sign\n")
    subprocess.run(["ssh-keygen", "-q", "-t", "ed25519", "-N", "", "-f", tmp_path / "other"], check=True)
    signers.write_text(f"carol {(tmp_path / 'other.pub').read_text()}")
    found = verify(proved, name, program, "--signers", str(signers))
    assert (found.returncode, found.stderr) == wrong
    signers.write_text(said.replace("aegis-delta", "git"))
    found = verify(proved, name, program, "--signers", str(signers))
    assert (found.returncode, found.stderr) == wrong
    (proved / "proof" / f"{name}.sig").unlink()
    assert verify(proved, name, program, "--signers", str(signers)).returncode == 1


def test_a_delta_that_the_store_has_not_so_is_refused(proved: Path, program: str, lay: Lay) -> None:
    """Another project, one that isn't shown, and one that hasn't the delta."""
    for seed, said in [(3, "isn't what this project shows"), (8, "isn't shown"), (7, "there is no delta 2")]:
        top = lay(stores.files_of(stores.made_up(seed)))
        found = verify(top, NAMES[0], program)
        assert found.returncode == 1 and said in found.stderr, seed


def test_the_same_each_time(proved: Path, program: str) -> None:
    """Nothing but the records goes into a document."""
    before = {name: (proved / "proof" / name).read_bytes() for name in NAMES}
    (proved / "again").mkdir()
    assert ae(proved, "prove", "2", "--into", "again", AEGIS_PROGRAM=program).returncode == 0
    assert {name: (proved / "again" / name).read_bytes() for name in NAMES} == before
    assert ae(proved, "prove", "2", "--into", "aegis.d", AEGIS_PROGRAM=program).returncode == 1
    assert ae(proved, "prove", "99", AEGIS_PROGRAM=program).stderr == "ae: there is no delta 99\n"


def test_what_is_signed_is_what_was_made(lay: Lay, program: str, tmp_path: Path, key: Path, monkeypatch: pytest.MonkeyPatch) -> None:
    """And what is verified is what was compared, whatever somebody puts into the file meanwhile."""
    top = lay(stores.files_of(stores.made_up(5)))
    (top / "proof").mkdir()
    monkeypatch.setenv("AEGIS_PROGRAM", program)
    monkeypatch.chdir(top)

    def exchanged(path: str, held: bytes) -> bool:
        write_whole(path, held)
        Path(path).write_bytes(b"forged\n")
        return True

    monkeypatch.setattr("aegis_porcelain.prove.write_whole", exchanged)
    assert main(["prove", "2", "--sign", str(key), "--into", "proof"]) == 0
    signature = top / "proof" / f"{NAMES[1]}.sig"
    words = ["ssh-keygen", "-Y", "verify", "-f", str(tmp_path / "signers"), "-I", "carol", "-n", "aegis-delta", "-s", str(signature)]
    assert subprocess.run(words, input=b"forged\n", capture_output=True, check=False).returncode != 0
    monkeypatch.undo()
    monkeypatch.chdir(top)
    monkeypatch.setenv("AEGIS_PROGRAM", program)
    assert main(["prove", "2", "--into", "proof"]) == 0
    path = top / "proof" / NAMES[1]
    right, other = path.read_bytes(), b"older\n"
    signed = ["ssh-keygen", "-Y", "sign", "-q", "-f", str(key), "-n", "aegis-delta"]
    signature.write_bytes(subprocess.run(signed, input=other, capture_output=True, check=True).stdout)

    def exchanges(where: Place, number: int) -> Dict[str, bytes]:
        path.write_bytes(other)
        return made_of(where, number)

    path.write_bytes(right)
    monkeypatch.setattr("aegis_porcelain.verify.made_of", exchanges)
    assert main(["verify", str(path), "--signers", str(tmp_path / "signers")]) == 1
