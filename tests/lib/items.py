"""The public items of the crates, methods apart: what another crate's code may call or name, and what its contracts may cite."""
import re
from typing import Iterator, NamedTuple

from lib.sources import File, files

# An item of code at the margin of its file.
CODE = re.compile(r"^pub (?:const )?(?:unsafe )?(struct|enum|trait|type|fn) (\w+)", re.M)
# A definition; what is within the braces of a `record` are its fields, which no file has without it.
DEFINITION = re.compile(r"^( *)(?:pub (record|data)|(abbrev) pub|pub) ([^\s:(]+)(?=[ :(])")
BLOCK = re.compile(r"^( *)(?:pub |abbrev )*(record|data|module) ")
CITED = re.compile(r"^ghost use Rattle\.(\w+)\.specs\.[\w.]+\.\{([^}]*)\};", re.M)
KINDS = {"struct": "type", "enum": "type", "type": "type", "trait": "trait", "fn": "function"}


class Item(NamedTuple):
    """An item with its crate and place. `cites` has the crates whose definition of this name the file of a function cites."""

    name: str
    crate: str
    place: str
    kind: str
    cites: frozenset[str] = frozenset()


def exported(text: str) -> tuple[set[str], set[str]]:
    """The names that the top of a crate exports, and its public modules."""
    names = {name for parts in re.findall(r"^pub use ([^;]+);", text, re.M) for name in re.findall(r"\w+", parts)}
    return names, set(re.findall(r"^pub mod (\w+);", text, re.M))


def items_of_code(file: File, names: set[str], modules: set[str]) -> Iterator[Item]:
    """The items of a file of code that the crate exports."""
    module = file.path.split("/src/")[1].removesuffix(".rt").split("/")[0]
    cited = [(crate, set(re.findall(r"[^\s,]+", words))) for crate, words in CITED.findall(file.text)]
    for found in CODE.finditer(file.text):
        if found[2] in names or module in modules:
            cites = frozenset(crate for crate, words in cited if found[2] in words)
            place = f"{file.path}:{file.text.count(chr(10), 0, found.start()) + 1}"
            yield Item(found[2], file.crate, place, KINDS[found[1]], cites)


def definitions_of(file: File) -> Iterator[Item]:
    """The public definitions of a file of specs."""
    block: list[tuple[int, str]] = []
    for number, line in enumerate(file.text.split("\n"), 1):
        depth = len(line) - len(line.lstrip())
        if line.strip():
            block = [it for it in block if it[0] < depth]
        found = DEFINITION.match(line)
        if found and not re.match(r" *pub (use|mod|open)\b", line) and not any(kind != "module" for _, kind in block):
            kind = {"record": "record", "data": "data"}.get(found[2], "definition" if found[3] else "fact")
            yield Item(found[4], file.crate, f"{file.path}:{number}", kind)
        if opened := BLOCK.match(line):
            block.append((depth, opened[2]))


def public_items(top: str) -> list[Item]:
    """All public items."""
    tops = {file.crate: exported(file.text) for file in files(top, ("src",), ("lib.rt",))}
    items: list[Item] = []
    for file in files(top, ("src",), (".rt",)):
        if file.crate in tops and not file.path.endswith("/lib.rt"):
            items += items_of_code(file, *tops[file.crate])
    for file in files(top, ("specs",), (".antt",)):
        items += definitions_of(file)
    return items
