"""refs/changes/N/head has what change N has frozen, and nothing else, over the delta from which the change began."""
import hashlib
import shutil
import subprocess

from conftest import TESTS, attributes, put, quoted

EXEMPT = {"test_exempt": "true", "test_baseline_exempt": "true", "regression_test_exempt": "true"}
HEAD = "refs/changes/13/head"
DAY = 86_400
NOON = 4_000_000_000


def change(number, who, *lines, begun=NOON, **more):
    """The lines that make a change, and have it developed to its end by these, one day after it was begun."""
    made = [
        f"at {begun}",
        "as ann",
        attributes(f"change {number}", **EXEMPT, **more),
        "do -nc -f c.attr",
        f"as {who}",
        f"do -db -c {number}",
    ]
    return [*made, *lines, f"at {begun + DAY}", f"do -b -c {number}", f"do -de -c {number}"]


def integrated(number, at):
    return [f"at {at}", "as cal", f"do -rpass -c {number}", "as dee", f"do -ib -c {number}", f"do -b -c {number}", f"do -ipass -c {number}"]


OWN = [
    *["do -cp -c 13 src/m.c aegis.conf", "do -nf -c 13 src/n.c", "do -nf -c 13 tool", "do -rm -c 13 test/u.sh"],
    *[put("develop.13", "src/m.c", "other\n"), put("develop.13", "src/n.c", ""), put("develop.13", "tool", "#!/bin/sh\n")],
]
FILES = {"src/m.c": b"other\n", "src/n.c": b"", "tool": b"#!/bin/sh\n", "aegis.conf": None, "test/u.sh": None}


def refs(host):
    """What a user's git sees of changes."""
    said = host.git(".", "ls-remote", "eve:aegis.git", "refs/changes/*").stdout
    return {line.split()[1]: line.split()[0] for line in said.splitlines()}


def in_mirror(host, *words):
    return host.git(host.top / "aegis.git", *words).stdout


def evidence(host, *words):
    """The digest of what was built, as the program says it."""
    return host.aegis("ann", *words[:-1], "-l", "ce", "-c", words[-1]).stdout.splitlines()[0].split()[4]


def trailer(host, ref, key):
    return in_mirror(host, "log", "-1", f"--format=%(trailers:key={key},valueonly)", ref).split()


def test_a_head_is_what_is_frozen(host):
    """Its files and its digest, by the program and by a script of its own; the same each time, and there while the change is frozen."""
    host.script(change(13, "bob", *OWN, description=quoted("Said at length.\n\nAegis-Digest: 0")))
    found = refs(host)
    assert list(found) == [HEAD]
    assert in_mirror(host, "rev-parse", f"{HEAD}^") == in_mirror(host, "rev-parse", "delta-2")
    status = in_mirror(host, "diff", "--no-renames", "--name-status", "delta-2", HEAD).split("\n")
    assert status == ["M\tsrc/m.c", "A\tsrc/n.c", "D\ttest/u.sh", "A\ttool", ""]
    assert in_mirror(host, "ls-tree", HEAD, "tool").startswith("100755 ") and in_mirror(host, "show", f"{HEAD}:src/m.c") == "other\n"
    config = host.path("develop.13", "aegis.conf").read_bytes()
    rows = {path: config if path == "aegis.conf" else data for path, data in FILES.items()}
    lines = [f"{path} {len(rows[path])} {hashlib.sha256(rows[path]).hexdigest()}\n" for path in sorted(rows) if path != "test/u.sh"]
    lines.insert(3, "test/u.sh -\n")
    digest = hashlib.sha256("".join(lines).encode()).hexdigest()
    assert trailer(host, HEAD, "Aegis-Digest") == [digest] == [evidence(host, "13")]
    aediff = subprocess.run(
        [TESTS.parent / "share" / "aediff", "13"], cwd=host.top, env={"AEGIS": host.program, "PATH": host.env["PATH"]}, capture_output=True
    )
    assert aediff.stdout.decode().splitlines()[-1].endswith(f"digest {digest}")
    assert trailer(host, HEAD, "Aegis-Change") == ["13"] and trailer(host, HEAD, "Aegis-Unchanged") == ["aegis.conf"]
    assert in_mirror(host, "log", "-1", "--format=%s|%an|%at", HEAD) == f"change 13|bob|{NOON + DAY}\n"
    # what is in the directory since doesn't count; a mirror that is made again has the same
    host.write("develop.13/src/m.c", "something else\n")
    shutil.rmtree(host.top / "aegis.git")
    host.init(host.program)
    assert refs(host) == found
    host.script(["as cal", "do -rpass -c 13"])
    assert refs(host) == found
    host.script(["as cal", "do -rpu -c 13", "as bob", "do -deu -c 13"])
    assert refs(host) == {}
    host.script(["as bob", "do -b -c 13", "do -de -c 13"])
    assert list(refs(host)) == [HEAD] and refs(host) != found and trailer(host, HEAD, "Aegis-Digest") == [evidence(host, "13")] != [digest]
    host.script(integrated(13, NOON + 3 * DAY))
    assert refs(host) == {} and "delta-3" in in_mirror(host, "tag")


def test_over_which_delta(host):
    """The last one when the development began, also once there are others; or that of a file which was taken since."""
    new = [put("develop.14", "src/n.c", "n\n"), "do -nf -c 14 src/n.c"]
    first = change(13, "bob", "do -nf -c 13 own", put("develop.13", "own", "x"))
    others = [*change(14, "eve", *new, begun=NOON + 2 * DAY), *integrated(14, NOON + 4 * DAY)]
    host.script([*first[:6], *others, "as bob", *first[6:]])
    found = refs(host)
    assert trailer(host, HEAD, "Aegis-Delta") == ["2"] and in_mirror(host, "diff", "--name-status", "delta-2", HEAD) == "A\town\n"
    host.script(["as bob", "do -deu -c 13", "do -cp -c 13 src/n.c", put("develop.13", "src/n.c", "m\n"), "do -b -c 13", "do -de -c 13"])
    assert refs(host) != found and trailer(host, HEAD, "Aegis-Delta") == ["3"]
    assert in_mirror(host, "diff", "--name-status", "delta-3", HEAD) == "A\town\nM\tsrc/n.c\n"
    # a folder where a file was when the development began
    host.script(["as bob", "do -deu -c 13", "do -cpu -c 13 src/n.c"])
    gone = [*change(15, "eve", "do -rm -c 15 src/n.c", begun=NOON + 6 * DAY), *integrated(15, NOON + 8 * DAY)]
    deep = [
        "as bob",
        "drop develop.13 src/n.c",
        "do -nf -c 13 src/n.c/deep",
        put("develop.13", "src/n.c/deep", "x"),
        "do -b -c 13",
        "do -de -c 13",
    ]
    host.script([*gone, *deep])
    refs(host)
    assert trailer(host, HEAD, "Aegis-Delta") == ["4"]
    assert in_mirror(host, "diff", "--name-status", "delta-4", HEAD) == "A\town\nA\tsrc/n.c/deep\n"


def test_of_a_branch(host):
    """Of the branch's name; the first one, whose files are all that there are, is over the trunk's delta."""
    host.script(["as ann", "do -nd ann"])
    assert host.aegis("ann", "-br", "r..1", "-begin", "1").returncode == 0
    lines = ["as ann", attributes("the first", **EXEMPT), "do -ca -c 10 -f c.attr", "do -ntu -c 10 test/t.sh"]
    lines += [put("develop.10", "src/m.c", "fixed\n"), "do -b -c 10", "do -de -c 10"]
    said = subprocess.run(
        [host.program, "-br", "r..1", "-scr"], cwd=host.top, input="\n".join(lines) + "\n", capture_output=True, text=True
    )
    assert said.stdout.count("= 0") == 4, said
    ref = "refs/changes/r%2E.1/10/head"
    assert list(refs(host)) == [ref]
    assert in_mirror(host, "diff", "--name-status", "delta-1", ref) == "M\tsrc/m.c\nD\ttest/t.sh\n"
    assert trailer(host, ref, "Aegis-Delta") == ["0"] and trailer(host, ref, "Aegis-Digest") == [evidence(host, "-br", "r..1", "10")]


def test_a_push_leaves_its_head(host, bob):
    """It is there once the push has ended, before anybody fetches."""
    host.commit(bob, "twice", own="x", test__t2_sh="exit 1\n")
    assert host.push(bob)[0] == 1 and in_mirror(host, "for-each-ref", "refs/changes") == ""
    host.script(["as ann", attributes("x", **EXEMPT), "do -ca -c 13 -f c.attr"])
    assert host.push(bob)[0] == 0
    assert in_mirror(host, "diff", "--name-status", "delta-2", HEAD) == "A\town\nA\ttest/t2.sh\n"
