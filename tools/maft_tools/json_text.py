"""Reads JSON text as the program does, and says where a text that it can't read breaks.

The program takes less than Python's own reader: at most 127 nested brackets, no byte order mark, no lone surrogate, no
NaN or Infinity, and no number beyond the greatest float. A number with a fraction or an exponent, and -0, is a float to
it, which no key takes.
"""
from __future__ import annotations

import json
import math
import re
import sys
from typing import Any

from .plan import INPUT_LIMIT, WordsError

DEEPEST = 127
_SPACE = re.compile(r"[ \t\n\r]*")
_NUMBER = re.compile(r"-?(?:0|[1-9][0-9]*)(\.[0-9]+)?([eE][+-]?[0-9]+)?")
_PLAIN = re.compile(r'[^"\\\x00-\x1f]*')
_WORDS = {"true": True, "false": False, "null": None}
_ESCAPES = {'"': '"', "\\": "\\", "/": "/", "b": "\b", "f": "\f", "n": "\n", "r": "\r", "t": "\t"}


class Float(float):
    """A number that the program reads as a float, with its text."""

    text: str

    def __new__(cls, text: str) -> Float:
        made = super().__new__(cls, text)
        made.text = text
        return made


class BrokenJson(WordsError):
    """A text that is no JSON text, with the line and the column of the character that breaks it, from 1 on."""

    def __init__(self, line: int, column: int, why: str) -> None:
        super().__init__(f"line {line}, column {column}: {why}")
        self.line, self.column, self.why = line, column, why


def printable(text: str, most: int = 400) -> str:
    """A text for a terminal: whatever isn't printable as an escape, and what is longer than `most` cut."""
    shown = "".join(it if it.isprintable() else repr(it)[1:-1] for it in text[:most])
    return shown + (" .." if len(text) > most else "")


def shown(value: Any, most: int = 60) -> str:
    """A value of a JSON text in short, on one line and with nothing that a terminal would act on."""
    if isinstance(value, dict):
        return "an object"
    if isinstance(value, list) and (len(value) > 8 or any(isinstance(it, (dict, list)) for it in value)):
        return f"a list of {len(value)}"
    if isinstance(value, list):
        return "[" + ", ".join(shown(it, most) for it in value) + "]"
    text = value.text if isinstance(value, Float) else json.dumps(value)
    return text if len(text) <= most else text[:most] + ".."


class _Reader:
    """Goes through a text once; each method stands at a character and ends behind what it read."""

    def __init__(self, text: str) -> None:
        self.text, self.at, self.depth = text, 0, 0

    def fail(self, why: str, at: int | None = None) -> BrokenJson:
        """The error at a character, by default the one that is next."""
        place = self.at if at is None else at
        before = self.text[:place]
        return BrokenJson(before.count("\n") + 1, place - (before.rfind("\n") + 1) + 1, why)

    def stands(self) -> str:
        """What stands here, in words."""
        if self.at >= len(self.text):
            return "the text ends here"
        return f"{json.dumps(self.text[self.at])} stands here"

    def skip(self) -> None:
        self.at = _SPACE.match(self.text, self.at).end()  # type: ignore[union-attr]

    def whole(self) -> Any:
        """The one value of the text."""
        if self.text.startswith("\ufeff"):
            raise self.fail("the text begins with a byte order mark; save it without one")
        value = self.value()
        self.skip()
        if self.at < len(self.text):
            raise self.fail(f"the value is over, and {self.stands()}")
        return value

    def value(self) -> Any:
        self.skip()
        first = self.text[self.at:self.at + 1]
        if first == "{":
            return self.nested(self.members)
        if first == "[":
            return self.nested(self.items)
        if first == '"':
            return self.string()
        if first == "-" or first in "0123456789" and first:
            return self.number()
        word = re.compile(r"[A-Za-z]*").match(self.text, self.at).group()  # type: ignore[union-attr]
        if word in _WORDS:
            self.at += len(word)
            return _WORDS[word]
        raise self.fail("a value is expected (an object, a list, a text in double quotes or a number), and "
                        f"{self.stands()}")

    def nested(self, read: Any) -> Any:
        self.depth += 1
        if self.depth > DEEPEST:
            raise self.fail(f"brackets are nested deeper than {DEEPEST}")
        self.at += 1
        found = read()
        self.depth -= 1
        return found

    def goes_on(self, closing: str) -> bool:
        """Whether a comma comes, behind which there must be more, or the closing bracket."""
        self.skip()
        mark = self.text[self.at:self.at + 1]
        if mark not in (",", closing):
            raise self.fail(f"a comma or {closing} is expected, and {self.stands()}")
        self.at += 1
        return mark == ","

    def items(self) -> list[Any]:
        found: list[Any] = []
        self.skip()
        if self.text.startswith("]", self.at):
            self.at += 1
            return found
        while True:
            self.skip()
            if self.text.startswith("]", self.at):
                raise self.fail("a value is expected behind the comma, and the list ends here")
            found.append(self.value())
            if not self.goes_on("]"):
                return found

    def members(self) -> dict[str, Any]:
        found: dict[str, Any] = {}
        self.skip()
        if self.text.startswith("}", self.at):
            self.at += 1
            return found
        while True:
            self.skip()
            if not self.text.startswith('"', self.at):
                raise self.fail(f"a key in double quotes is expected, and {self.stands()}")
            key = self.string()
            self.skip()
            if not self.text.startswith(":", self.at):
                raise self.fail(f"a colon is expected behind the key {shown(key)}, and {self.stands()}")
            self.at += 1
            found[key] = self.value()
            if not self.goes_on("}"):
                return found

    def string(self) -> str:
        began, parts = self.at, []
        self.at += 1
        while True:
            found = _PLAIN.match(self.text, self.at).group()  # type: ignore[union-attr]
            parts.append(found)
            self.at += len(found)
            mark = self.text[self.at:self.at + 1]
            if mark == '"':
                self.at += 1
                return "".join(parts)
            if not mark:
                raise self.fail("this text in double quotes is never closed", began)
            if mark != "\\":
                raise self.fail(f"a text has the control character {json.dumps(mark)}, "
                                "which must be written as an escape")
            parts.append(self.escape())

    def escape(self) -> str:
        mark = self.text[self.at + 1:self.at + 2]
        if mark in _ESCAPES and mark:
            self.at += 2
            return _ESCAPES[mark]
        if mark != "u":
            raise self.fail("a backslash in a text begins no escape that there is")
        code = self.unit()
        if 0xD800 <= code < 0xDC00 and self.text.startswith("\\u", self.at):
            low = self.unit()
            if 0xDC00 <= low < 0xE000:
                return chr(0x10000 + (code - 0xD800 << 10) + low - 0xDC00)
            self.at -= 6
        if 0xD800 <= code < 0xE000:
            raise self.fail("an escape is half of a pair, a lone surrogate", self.at - 6)
        return chr(code)

    def unit(self) -> int:
        digits = self.text[self.at + 2:self.at + 6]
        if not re.fullmatch(r"[0-9a-fA-F]{4}", digits):
            raise self.fail("an escape \\u has four hexadecimal digits")
        self.at += 6
        return int(digits, 16)

    def number(self) -> Any:
        found = _NUMBER.match(self.text, self.at)
        if found is None:
            raise self.fail("a number has digits behind its -")
        text = found.group()
        if math.isinf(float(text)):
            raise self.fail(f"the number {text[:20]}{'..' if len(text) > 20 else ''} is greater than every float")
        self.at = found.end()
        if self.text[self.at:self.at + 1] in tuple("0123456789.eE+-"):
            raise self.fail(f"the number {text} goes on with {json.dumps(self.text[self.at])}")
        return Float(text) if "." in text or "e" in text.lower() or text == "-0" else int(text)


def read(data: bytes) -> Any:
    """The value of a JSON text; of a key that stands twice, the last value.

    Raises BrokenJson where the program can't read it either.
    """
    try:
        text = data.decode()
    except UnicodeDecodeError as error:
        before = data[: error.start]
        column = len(before[before.rfind(b"\n") + 1:].decode()) + 1
        raise BrokenJson(before.count(b"\n") + 1, column, f"the byte {data[error.start]:02x} isn't UTF-8") from None
    found = _quickly(text)
    return _Reader(text).whole() if found is _UNSURE else found


_UNSURE = object()


def _quickly(text: str) -> Any:
    """The value by Python's own reader, where it surely is the program's too."""
    if "\\ud" in text or "\\uD" in text:
        return _UNSURE
    try:
        found = json.loads(text, parse_float=_finite, parse_int=_finite, parse_constant=_no_number)
    except (ValueError, RecursionError):
        return _UNSURE
    return found if _is_shallow(found) else _UNSURE


def _finite(text: str) -> Any:
    if math.isinf(float(text)):
        raise ValueError(text)
    return int(text) if text.lstrip("-").isdigit() and text != "-0" else Float(text)


def _no_number(text: str) -> Any:
    raise ValueError(text)


def _is_shallow(value: Any) -> bool:
    """Whether its brackets are nested no deeper than the program reads."""
    level = [value]
    for _ in range(DEEPEST):
        level = [it for outer in level if isinstance(outer, (dict, list))
                 for it in (outer.values() if isinstance(outer, dict) else outer)
                 if isinstance(it, (dict, list))]
        if not level:
            return True
    return False


def bytes_of(path: str) -> bytes:
    """What a file has, or standard input for `-`, but no more than a byte more than the program reads.

    Raises WordsError where it can't be read.
    """
    if path == "-" and sys.stdin is None:
        raise WordsError("standard input is closed")
    try:
        if path == "-":
            return sys.stdin.buffer.read(INPUT_LIMIT + 1)
        with open(path, "rb") as file:
            return file.read(INPUT_LIMIT + 1)
    except (OSError, ValueError) as error:
        why = error.strerror if isinstance(error, OSError) and error.strerror else error
        raise WordsError(f"{printable(path)}: {why}") from None
