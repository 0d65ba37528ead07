"""The text of a state file, as "What is read as a text" of docs/FORMATS.md has it."""
import re
from typing import Dict, List, Union

MOST_NUMBER = 2**64 - 1
MOST_DEPTH = 16

BLANKS = re.compile(rb"(?:[ \t\r\n]|/\*(?:[^*]|\*(?!/))*\*/)*")
TOKEN = re.compile(
    rb"([A-Za-z_][A-Za-z0-9_]*)" rb"|([0-9]+)(?![A-Za-z0-9_])" rb'|"((?:[^"\\]|\\[nt"\\]|\\[0-3][0-7][0-7])*)"' rb"|([=;,\[\]{}])"
)
ESCAPE = re.compile(rb'\\([nt"\\]|[0-7]{3})')
ESCAPED = {b"n": b"\n", b"t": b"\t", b'"': b'"', b"\\": b"\\"}
END = ""


class Unreadable(Exception):
    """Bytes that are no text, or no record."""


class Word(str):
    """A word of a text."""


class Sign(str):
    """A sign of a text, or its end."""


class Fields(Dict[str, "Value"]):
    """The fields of a structure, in their order."""


Value = Union[Word, int, bytes, List["Value"], Fields]
Token = Union[Word, int, bytes, Sign]


def unescaped(text: bytes) -> bytes:
    """The bytes that a string stands for."""
    return ESCAPE.sub(lambda found: ESCAPED.get(found[1]) or bytes([int(found[1], 8)]), text) if b"\\" in text else text


def number_of(digits: bytes) -> int:
    """The number of these digits, which may begin with zeros."""
    plain = digits.lstrip(b"0") or b"0"
    if len(plain) > 20 or int(plain) > MOST_NUMBER:
        raise Unreadable
    return int(plain)


def tokens_of(text: bytes) -> List[Token]:
    """The tokens of a text, and its end after them."""
    tokens: List[Token] = []
    at = BLANKS.match(text).end()  # type: ignore[union-attr]
    while at < len(text):
        found = TOKEN.match(text, at)
        if found is None:
            raise Unreadable
        word, digits, string, sign = found.groups()
        if word is not None:
            tokens.append(Word(word.decode()))
        elif digits is not None:
            tokens.append(number_of(digits))
        elif string is not None:
            tokens.append(unescaped(string))
        else:
            tokens.append(Sign(sign.decode()))
        at = BLANKS.match(text, found.end()).end()  # type: ignore[union-attr]
    tokens.append(Sign(END))
    return tokens


class Parser:
    """Reads tokens one after another."""

    def __init__(self, tokens: List[Token]) -> None:
        self.tokens, self.at = tokens, 0

    def is_sign(self, *signs: str) -> bool:
        """Whether one of these signs is next."""
        token = self.tokens[self.at]
        return isinstance(token, Sign) and token in signs

    def expect(self, sign: str) -> None:
        """Goes past this sign."""
        if not self.is_sign(sign):
            raise Unreadable
        self.at += 1

    def fields(self, end: str, depth: int) -> Fields:
        """The fields up to this sign, and goes past it."""
        fields = Fields()
        while not self.is_sign(end):
            name = self.tokens[self.at]
            if not isinstance(name, Word) or name in fields:
                raise Unreadable
            self.at += 1
            self.expect("=")
            fields[name] = self.value(depth)
            self.expect(";")
        self.at += 1
        return fields

    def values(self, depth: int) -> List[Value]:
        """The values of a list, and goes past its end."""
        values: List[Value] = []
        while not self.is_sign("]"):
            values.append(self.value(depth))
            if not self.is_sign("]"):
                self.expect(",")
        self.at += 1
        return values

    def value(self, depth: int) -> Value:
        """The next value, in so many lists and structures."""
        token = self.tokens[self.at]
        self.at += 1
        if not isinstance(token, Sign):
            return token
        if token not in ("[", "{") or depth == MOST_DEPTH:
            raise Unreadable
        return self.values(depth + 1) if token == "[" else self.fields("}", depth + 1)


def fields_of(text: bytes) -> Fields:
    """The fields of a text."""
    return Parser(tokens_of(text)).fields(END, 0)
