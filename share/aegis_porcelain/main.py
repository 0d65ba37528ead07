"""The words of `ae`, and how a command ends."""
from __future__ import annotations

import argparse
import importlib
from typing import Dict, List, NoReturn

from .failures import ended
from .place import is_in_project

# Each command is a module of its name: `words` adds its options to a parser, and `run` does it and answers its status.
COMMANDS: Dict[str, str] = {
    "status": "what waits for you, or all that a change still needs",
    "new": "make a change",
    "begin": "begin the development of a change",
    "use": "make a change the default of this shell",
    "diff": "what a change or a delta does to the files",
    "finish": "make the runs that are wanted, and end the development or pass the integration",
    "clone": "clone the repository of a host, where ae then gives its commands by ssh",
    "submit": "push what is committed in such a clone, as a new change or as one that is there",
    "review": "look at what a change has frozen, and pass or fail it",
    "queue": "integrate what waits, one change after another",
    "merge": "bring files that are out of date up to date",
    "log": "the deltas, or those that touched a path, newest first",
    "why": "what stops a command, or what a refusal means",
    "audit": "show by a second program how each delta was built, tested and reviewed, and compare with aegis -AUDit",
    "json": "write all records of the project as one JSON document",
    "git": "write each delta as a commit of a bare repository of git",
    "pages": "write the project as static pages for a browser",
    "prove": "write what the records show of a delta as documents that others can check",
    "verify": "say whether a document of `ae prove` is what this project shows, and who signed it",
    "backup": "copy the project's records into a new folder, and audit the copy",
    "restore": "put the records of a backup into this folder, which has no project",
    "serve": "let a user's key give commands by ssh: what authorized_keys names, and nobody types",
    "host": "make this machine the one to which a team comes by git, and say whose keys are let in",
}


class Parser(argparse.ArgumentParser):
    """A parser that says in one line what it doesn't understand."""

    def error(self, message: str) -> NoReturn:
        self.exit(2, f"{self.prog}: {message}; see {self.prog} --help\n")


class Version(argparse.Action):
    """Says which program `ae` drives."""

    def __call__(self, parser: argparse.ArgumentParser, *_: object) -> None:
        from .program import answer

        found = answer(["--version"])
        parser.exit(found.returncode, f"ae around {found.stdout}")


def parser_of(words: List[str]) -> Parser:
    """A parser of the commands whose names are among the words, which alone are loaded; of all where there is none."""
    parser = Parser(prog="ae", description="What a team types every day, around the program aegis.", allow_abbrev=False)
    parser.add_argument("--version", action=Version, nargs=0, help="print which program this drives")
    parser.add_argument("-br", "--branch", metavar="NAME", help="work in this branch")
    # with its name here no usage is laid out for it, which would load what only help needs
    commands = parser.add_subparsers(metavar="COMMAND", dest="command", required=True, prog=parser.prog)
    asked = [name for name in COMMANDS if name in words]
    for name in asked or COMMANDS:
        command = commands.add_parser(name, help=COMMANDS[name], description=COMMANDS[name], allow_abbrev=False)
        if asked:
            module = importlib.import_module(f".{name}", __package__)
            module.words(command)
            command.set_defaults(run=module.run)
    return parser


def done(asked: argparse.Namespace) -> int:
    """Does a command here; where no project is around but a clone of a host, by the host."""
    if not is_in_project():
        from . import afar

        status = afar.run(asked)
        if status is not None:
            return status
    return int(asked.run(asked))


def main(words: List[str]) -> int:
    """Does a command, and answers its status."""
    return ended(lambda: done(parser_of(words).parse_args(words)))
