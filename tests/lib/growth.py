"""How what each command takes grows with the paths and with the changes of a project, beside how what it reads and writes grows."""
import math
import os
import shutil

from lib.cost import Cost, cost, least
from lib.working import Project, change_set

PATHS, CHANGES = (1000, 5000, 20000), (50, 500, 1990)
# what there is of the one where the other grows; each change has a file at least
FIXED_PATHS, FIXED_CHANGES = 2000, 50
# how many files a change of these projects receives
RECEIVED = 20
# by how much more than what it touches a command may grow, as it is measured, before it is named
ALLOWED = 1.25
REPORT = "for f in files { total edits = f.edit; } columns edits:1;"
LOOKS = ("-l a", "-l locks", "-l pf", "-l pc", "-l phi", "-rep r.rep", "-aud")


def looks(project: Project) -> dict[str, Cost]:
    """Commands that change nothing, and a role."""
    with open(os.path.join(project.top, "r.rep"), "w", encoding="ascii") as file:
        file.write(REPORT)
    found = {words: least(project.command(words)) for words in LOOKS}
    found["-nd"] = least(project.command("-nd eve"), 3, lambda: project.run("-rd eve"))
    found["-ds"] = least(project.command("-ds -c 10"))
    return found


def life(project: Project, number: int, delta: int) -> dict[str, Cost]:
    """A change from its beginning to its integration."""
    found = {"-nc": project.run("-nc -f c.attr"), "-db": project.run(f"-db -c {number}", "bob")}
    found["-nf"] = project.run(f"-nf -c {number} aegis.conf", "bob")
    path = "source/part000/file00000.c"
    found["-cp"] = project.run(f"-cp -c {number} {path}", "bob")
    project.put_config(number)
    with open(project.at(f"develop.{number}", path), "ab") as file:
        file.write(b"more\n")
    found["-b"] = project.run(f"-b -c {number}", "bob")
    found["-b again"] = least(project.command(f"-b -c {number}", "bob"))
    found["-de"] = project.run(f"-de -c {number}", "bob")
    found["-l cd"] = least(project.command(f"-l cd -c {number}"))
    found["-rpass"] = project.run(f"-rpass -c {number}")
    found["-ib"] = project.run(f"-ib -c {number}")
    found["-b integrated"] = project.run(f"-b -c {number}")
    found["-b integrated again"] = least(project.command(f"-b -c {number}"))
    found["-ipass"] = project.run(f"-ipass -c {number}")
    found["-dr"] = cost(project.command("-dr", "alice", change_set(RECEIVED)))
    assert os.path.isdir(project.at(f"integrate.{delta}"))
    return found


def costs(program: str, top: str, paths: int, changes: int) -> dict[str, Cost]:
    """What each command costs in a project that has so many paths and changes at the end."""
    project = Project(program, os.path.join(top, f"grown-{paths}-{changes}"), paths - 1, changes - 2)
    try:
        return {**looks(project), **life(project, changes + 8, changes - 1)}
    finally:
        shutil.rmtree(project.top)


def power(less: float, more: float, times: float) -> float:
    """By which power of the size it has grown."""
    return math.log(max(more, 1e-4) / max(less, 1e-4)) / math.log(times)


def tell(what: str, sizes: tuple[int, ...], found: list[dict[str, Cost]]) -> None:
    """A line for each command: what it takes at each size, and how that has grown beside what it touches."""
    print(f"{what:22}" + "".join(f" {size:>10,}" for size in sizes) + "   the power of its growth, and that of the bytes it touches")
    wrong = []
    for name in found[0]:
        seconds, touched = [each[name].seconds for each in found], [float(each[name].touched) for each in found]
        steps = [
            (power(seconds[at], seconds[at + 1], sizes[at + 1] / sizes[at]), power(touched[at], touched[at + 1], sizes[at + 1] / sizes[at]))
            for at in range(len(sizes) - 1)
        ]
        faster = seconds[-1] / max(seconds[0], 1e-4) > ALLOWED * max(touched[-1] / max(touched[0], 1.0), 1.0)
        wrong += [name] if faster else []
        print(
            f"{name:22}"
            + "".join(f" {each:10.4f}" for each in seconds)
            + "".join(f"   {a:5.2f} {b:5.2f}" for a, b in steps)
            + ("   faster" if faster else "")
        )
    print(f"grow by more than {ALLOWED} times what they touch: {', '.join(wrong) or 'none'}\n", flush=True)


def growth(program: str, top: str) -> None:
    """Both tables."""
    tell(f"paths ({FIXED_CHANGES} changes)", PATHS, [costs(program, top, paths, FIXED_CHANGES) for paths in PATHS])
    tell(f"changes ({FIXED_PATHS:,} paths)", CHANGES, [costs(program, top, FIXED_PATHS, changes) for changes in CHANGES])
