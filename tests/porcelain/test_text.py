"""Texts of fields: what is one, what it means, and what isn't one."""
import pytest

from aegis_porcelain import text

MEANT = {
    b"": {},
    b"a = 1;\n": {"a": 1},
    b"/* a */ a /* * ** */ = 007 /**/;\t\r\n": {"a": 7},
    b'a = "x\\n\\t\\"\\\\\\377\\000";': {"a": b'x\n\t"\\\xff\x00'},
    b'a = "\xc3\xa4\n";': {"a": "ä\n".encode()},
    b"a = [];b = [1, word, ];": {"a": [], "b": [1, "word"]},
    b"a = { }; b = { c = 1; d = { }; };": {"a": {}, "b": {"c": 1, "d": {}}},
    b"a = 18446744073709551615;": {"a": 2**64 - 1},
    b"a = " + b"[" * 16 + b"]" * 16 + b";": None,
}
NO_TEXTS = [
    b"a",
    b"a = ;",
    b"a = 1",
    b"a = 1;;",
    b"a = 1; a = 2;",
    b"1 = a;",
    b"a = 1x;",
    b"a = 18446744073709551616;",
    b'a = "x',
    b'a = "\\400";',
    b'a = "\\x";',
    b"a = 1; /* ",
    b"a = [,];",
    b"a = [1 2];",
    b"a = [1,,];",
    b"a = { b = 1 };",
    b"a = { b = 1; b = 1; };",
    b"a = 1; \x00",
    b"a = " + b"[" * 17 + b"]" * 17 + b";",
    b"a = 1; " + b"/**/ " * 60 + b"!",
    b" " * 5000 + b"!",
]


@pytest.mark.parametrize("data", MEANT, ids=repr)
def test_what_a_text_means(data):
    found = text.read(data)
    assert MEANT[data] is None or found == MEANT[data]


@pytest.mark.parametrize("data", NO_TEXTS, ids=lambda data: repr(data[:20]))
def test_what_is_no_text(data):
    with pytest.raises(text.BadText):
        text.read(data)
