"""The manual page of `ae` has its commands and their options, all of them and no others."""
import re

from conftest import TESTS

from aegis_porcelain.main import COMMANDS, parser_of

PAGE = (TESTS.parent / "share" / "ae.1").read_text()


def rows():
    """The commands of the page, each with the options of its row."""
    section = PAGE.split(".Sh COMMANDS\n")[1].split("\n.Sh ")[0]
    for row in re.findall(r"^\.It Cm (\w+)(.*)$", section, re.M):
        yield row[0], {option.replace("\\", "") for option in re.findall(r"(?:Fl|\|) (-?[a-z][a-z-]*)", row[1])}


def options(command):
    """The options of a command, without their leading `-`."""
    parser = parser_of([command])._subparsers._group_actions[0].choices[command]
    return {name[1:] for action in parser._actions for name in action.option_strings} - {"h", "-help"}


def test_the_page_has_each_command_with_its_options():
    found = dict(rows())
    assert sorted(found) == sorted(COMMANDS)
    for command, named in found.items():
        assert named | {"-change"} == options(command) | {"-change"}, command
