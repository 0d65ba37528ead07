"""Texts of fields, which each state file is (docs/FORMATS.md, "What is read as a text").

A word is read as a `str`, a string as `bytes`, a number as an `int`, a list as a `list`, and a structure as a `dict`.
"""
from __future__ import annotations

import re
from typing import Dict, List, Match, Tuple, Union

Value = Union[str, bytes, int, List["Value"], Dict[str, "Value"]]
Fields = Dict[str, Value]

DEEPEST = 16
MOST = 2**64
BLANK = rb"(?:[ \t\r\n]|/\*(?:[^*]|\*(?!/))*\*/)*"
WORD = rb"([A-Za-z_][A-Za-z0-9_]*)"
NUMBER = rb"([0-9]+)(?![A-Za-z0-9_])"
STRING = rb'"([^"\\]*(?:\\(?:[nt"\\]|[0-3][0-7]{2})[^"\\]*)*)"'
PLAIN = b"(?:" + WORD + b"|" + NUMBER + b"|" + STRING + b")"
TOKEN = re.compile(BLANK + b"(?:" + PLAIN + rb"|([=;,\[\]{}]))")
# a field whose value is plain, or the beginning of another one
FIELD = re.compile(BLANK + WORD + BLANK + b"=" + BLANK + b"(?:" + PLAIN + BLANK + rb";|([\[{]))")
END = re.compile(BLANK)
ESCAPE = re.compile(rb'\\([nt"\\]|[0-7]{3})')
ESCAPED = {b"n": b"\n", b"t": b"\t", b'"': b'"', b"\\": b"\\"}


class BadText(ValueError):
    """Bytes that aren't a text."""


def unescaped(string: bytes) -> bytes:
    """The bytes that are meant by what is written between two quotes."""
    if b"\\" not in string:
        return string
    return ESCAPE.sub(lambda found: ESCAPED.get(found[1]) or bytes([int(found[1], 8)]), string)


class Reader:
    """Reads the fields of some bytes one after another."""

    def __init__(self, data: bytes) -> None:
        self.data = data
        self.at = 0

    def token(self) -> Match[bytes]:
        found = TOKEN.match(self.data, self.at)
        if not found:
            raise BadText
        self.at = found.end()
        return found

    def expect(self, sign: bytes) -> None:
        if self.token()[4] != sign:
            raise BadText

    def is_done(self) -> bool:
        found = END.match(self.data, self.at)
        return found is not None and found.end() == len(self.data)

    def fields(self, depth: int) -> Fields:
        """Reads fields up to what isn't one."""
        fields: Fields = {}
        while True:
            found = FIELD.match(self.data, self.at)
            if not found:
                return fields
            self.at = found.end()
            name = found[1].decode()
            if name in fields:
                raise BadText
            fields[name] = self.value(found.groups()[1:], depth)
            if found[5]:
                self.expect(b";")

    def value(self, parts: Tuple[bytes, ...], depth: int) -> Value:
        """The value that is this token, or begins with it."""
        word, number, string, sign = parts
        if word is not None:
            return word.decode()
        if string is not None:
            return unescaped(string)
        if number is not None:
            return small(number)
        if depth == DEEPEST:
            raise BadText
        if sign == b"[":
            return self.list(depth + 1)
        if sign == b"{":
            fields = self.fields(depth + 1)
            self.expect(b"}")
            return fields
        raise BadText

    def list(self, depth: int) -> Value:
        values: List[Value] = []
        while True:
            found = self.token()
            if found[4] == b"]":
                return values
            values.append(self.value(found.groups(), depth))
            sign = self.token()[4]
            if sign == b"]":
                return values
            if sign != b",":
                raise BadText


def small(digits: bytes) -> int:
    """A number below 2^64."""
    digits = digits.lstrip(b"0") or b"0"
    if len(digits) > 20 or int(digits) >= MOST:
        raise BadText
    return int(digits)


def read(data: bytes) -> Fields:
    """The fields of a text."""
    reader = Reader(data)
    fields = reader.fields(0)
    if not reader.is_done():
        raise BadText
    return fields
