"""What `ae status` says of each change of a worked project, to each of its people."""
import os
import time

from conftest import attributes, put

OUT_OF_DATE = 'file "src/m.c" is of edit 1, the project has edit 2'


def rows(found):
    """The rows for scripts, each as its cells."""
    assert found[0] == 0 and found[2] == "", found
    return [tuple(line.split("\t")) for line in found[1].splitlines()]


def test_what_waits_for_whom(team):
    team.script(["as ann", attributes("another"), "do -nc -f c.attr"])

    def waits(who):
        return [(row[0], row[1], row[3], row[4]) for row in rows(team.ae(who, "status", "--porcelain"))]

    own, free = ("12", "being_developed", "ae finish 12", "m is smaller"), ("13", "awaiting_development", "ae begin 13", "another")
    assert waits("eve") == [own, free]
    assert waits("bob") == [free]
    assert waits("cal") == waits("dee") == waits("nobody") == []
    assert team.ae("cal", "status") == (0, "nothing waits for cal\n", "")
    status, said, _ = team.ae("bob", "status", folder="aegis.d/store")
    assert (status, said.split()) == (0, ["13", "awaiting_development", said.split()[2], "s", "ae", "begin", "13", "another"])


def test_what_a_developed_change_needs(team):
    wanted = [
        ("24", "src/m.c", OUT_OF_DATE, "ae merge 12"),
        ("27", "", "there is no test", "aegis -nt -c 12 PATH, or an administrator makes it test_exempt by -ca"),
        ("28", "", "a build of these files is needed", "aegis -b -c 12"),
        ("31", "test/t.sh", 'regression test "test/t.sh" is needed', "aegis -t -c 12 -reg"),
        ("31", "test/u.sh", 'regression test "test/u.sh" is needed', "aegis -t -c 12 -reg"),
    ]
    assert rows(team.ae("eve", "status", "12", "--porcelain")) == wanted
    assert rows(team.ae("eve", "status", "-c", "12", "--porcelain", folder="aegis.d/develop.12/src")) == wanted
    status, said, _ = team.ae("eve", "status", folder="aegis.d/develop.12/src")
    assert status == 0 and "ae merge 12" in said and "the project's other tests: 2 (test/t.sh, test/u.sh)  aegis -t -c 12 -reg\n" in said


def test_what_to_look_at(team):
    """Files that nothing refuses, and that make an integration fail or do nothing."""
    team.script(["as eve", "do -cp -c 12 test/t.sh", "do -nf -c 12 d/.Git/x"])
    team.write("develop.12/src/new.h", "new\n")
    team.write("develop.12/obj/m.o", "object\n")
    team.write("develop.12/obj/deep/n.o", "object\n")
    team.write("develop.12/name with blanks", "x")
    team.write("develop.12/aegis.conf", "edited\n")
    (team.path("develop.12") / "link").symlink_to("src")
    found = [(row[1], row[2]) for row in rows(team.ae("eve", "status", "12", "--porcelain")) if row[0] == "0"]
    assert found == [
        ("name with blanks", "not in the change, so no integration has it"),
        ("obj/", "not in the change, so no integration has it"),
        ("src/new.h", "not in the change, so no integration has it"),
        ("aegis.conf", "edited but not in the change: the next build puts the project's back, and keeps yours once"),
        ("test/t.sh", "as the project has it"),
        ("d/.Git/x", "of a name that git keeps for itself, so `ae git` can't write it"),
    ]


def test_files_in_the_way(team):
    """What is missing, too large, a link, of another change, or a folder of another."""
    team.script(
        ["as ann", attributes("holds"), "do -nc -f c.attr", "as bob", "do -db -c 13", "do -cp -c 13 test/t.sh"]
        + [
            "do -nf -c 13 d",
            put("develop.13", "d", "x"),
            "as ann",
            put("here", "e.attr", "test_exempt = true; regression_test_exempt = true;"),
        ]
        + ["do -ca -c 13 -f e.attr", "as bob", "do -b -c 13", "do -de -c 13"]
        + ["as eve", "do -cp -c 12 test/t.sh", "do -nf -c 12 big gone link d/e"]
    )
    os.remove(team.path("develop.12/gone"))
    team.path("develop.12/big").write_bytes(bytes(4194305))
    os.remove(team.path("develop.12/link"))
    team.path("develop.12/link").symlink_to("src/m.c")
    found = [(row[0], row[1]) for row in rows(team.ae("eve", "status", "12", "--porcelain"))][:5]
    assert found == [("24", "src/m.c"), ("23", "test/t.sh"), ("37", "big"), ("26", "gone"), ("26", "link")]
    team.script(["as cal", "do -rpass -c 13", "as dee", "do -ib -c 13", "do -b -c 13", "do -ipass -c 13"])
    found = [(row[0], row[1]) for row in rows(team.ae("eve", "status", "12", "--porcelain"))][:3]
    assert found == [("24", "src/m.c"), ("24", "test/t.sh"), ("41", "d")]


def test_what_was_read_is_remembered_until_it_changes(team, monkeypatch):
    from aegis_porcelain import directory

    old = time.time() - 100
    for path in team.path("develop.12").rglob("*"):
        os.utime(path, (old, old))
    monkeypatch.setattr(directory, "SETTLED", -(10**12))
    first = rows(team.ae("eve", "status", "12", "--porcelain"))
    read = []
    content = directory.Directory.content
    monkeypatch.setattr(directory.Directory, "content", lambda self, path: read.append(path) or content(self, path))
    assert (rows(team.ae("eve", "status", "12", "--porcelain")), read) == (first, [])
    team.write("develop.12/aegis.conf", team.path("develop.12/aegis.conf").read_text().replace("true", "TRUE"))
    assert ("0", "aegis.conf") in [row[:2] for row in rows(team.ae("eve", "status", "12", "--porcelain"))]
    assert read == ["aegis.conf"]


def test_an_integration(team):
    team.script(
        [
            "as ann",
            put("here", "e.attr", "test_exempt = true;"),
            "do -ca -c 12 -f e.attr",
            "as eve",
            "do -cp -ow -c 12 src/m.c",
            "do -b -c 12",
            "do -t -c 12 -reg",
        ]
        + ["do -de -c 12"]
    )
    assert [row[3] for row in rows(team.ae("cal", "status", "--porcelain"))] == ["ae review 12"]
    team.script(["as cal", "do -rpass -c 12"])
    assert [row[3] for row in rows(team.ae("dee", "status", "--porcelain"))] == ["ae queue"]
    team.script(["as dee", "do -ib -c 12"])
    wanted = [("28", ""), ("31", "test/t.sh"), ("31", "test/u.sh")]
    assert [row[:2] for row in rows(team.ae("dee", "status", "12", "--porcelain"))] == wanted
    team.write("integrate.3/src/m.c", "other\n")
    assert [row[:2] for row in rows(team.ae("dee", "status", "12", "--porcelain"))] == [("33", "src/m.c"), *wanted]
    status, said, _ = team.ae("dee", "status", folder="aegis.d/integrate.3")
    assert status == 0 and "ae finish 12" in said and "change 12: m is smaller\n" in said
    assert team.ae("dee", "diff", folder="aegis.d/integrate.3") == team.ae("dee", "diff", "12")
    assert team.ae("dee", "diff", folder="aegis.d/integrate.2") == team.ae("dee", "diff", "11")
