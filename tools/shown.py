"""Text of others as a terminal may show it: no byte of a source, a console or a report moves its cursor or changes its colours."""

from __future__ import annotations

import io
import re
import sys

CONTROL = re.compile(r"[\x00-\x08\x0b-\x1f\x7f-\x9f\u200e\u200f\u202a-\u202e\u2066-\u2069\ud800-\udfff]")


def escaped(character: str) -> str:
    """A character as `\\x` or `\\u` and its digits."""
    code = ord(character)
    return f"\\x{code:02x}" if code < 0x100 else f"\\u{code:04x}"


def shown(text: str) -> str:
    """A text in which each control character but the line's end and the tab is written as its digits, and so is what
    turns the direction of writing."""
    return CONTROL.sub(lambda it: escaped(it[0]), text)


def decoded(latin: str) -> str:
    """A text that was read as Latin-1, one character a byte, as the UTF-8 that it is; bytes that are none as `\\x` and
    their digits."""
    return latin.encode("latin-1").decode("utf-8", errors="backslashreplace")


def open_output() -> None:
    """Standard output takes every character: what its encoding lacks is written as its digits."""
    if isinstance(sys.stdout, io.TextIOWrapper):
        sys.stdout.reconfigure(errors="backslashreplace")
