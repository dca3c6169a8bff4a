"""What is wrong with a line of a manifest (docs/FORMATS.md, "Manifest"), as far as it can be told."""

from __future__ import annotations

import difflib
import re
from typing import Iterator, List, Optional, Tuple

from limits import LEAST_PAGES, LEAST_QUANTUM, MOST_QUANTUM, MOST_SLOTS, MOST_STACK_PAGES, VERSIONS

ORDER = ("version", "pages", "quantum", "slots", "env")
LINES = ("The lines are, in this order, `version N`, which may be left out, `pages N`, `quantum N`, `slots X ..`, and then "
         "`env NAME elf STACK ACCEPT FILE` or `env NAME flat BASE STACK ACCEPT FILE`. STACK is in pages, ACCEPT a mask with a bit for each "
         "environment from which yields and transfers are accepted, 0 for none, and BASE an address.")
FORMS = {"elf": "env NAME elf STACK ACCEPT FILE", "flat": "env NAME flat BASE STACK ACCEPT FILE"}
LARGEST = 0xFFFFFFFF


def words_of(line: str) -> List[str]:
    return line.split("#")[0].split()


def version_of(lines: List[str]) -> int:
    """The version that a manifest names, 1 where it names none."""
    named = next((words[1] for it in lines if len(words := words_of(it)) == 2 and words[0] == "version"), "1")
    return int(named) if named in ("1", "2") else 1


def value(word: str) -> Optional[int]:
    """A number as a manifest has it."""
    if re.fullmatch(r"0x[0-9a-fA-F]{1,8}", word):
        return int(word, 16)
    return int(word) if re.fullmatch(r"[0-9]{1,10}", word) else None


def syntax(lines: List[str], place: int) -> str:
    """Why a line isn't the one that is expected."""
    if place > len(lines) or not lines[place - 1].strip():
        return f"The manifest ends too early. {LINES}"
    words = words_of(lines[place - 1])
    odd = re.search(r"[^\t\r -~]", lines[place - 1])
    if odd:
        return f"The line has the character {odd[0]!r}: outside of comments a manifest is plain ASCII."
    first, many = words[0], len(words) - 1
    if first not in ORDER:
        near = difflib.get_close_matches(first, ORDER, 1)
        return f"No line begins with `{first}`." + (f" Did you mean `{near[0]}`?" if near else f" {LINES}")
    if first in ("version", "pages", "quantum") and many != 1:
        return f"`{first}` has one number, and here are {many} words."
    if first == "slots" and not 1 <= many <= MOST_SLOTS:
        return f"`slots` has for each slot the number of its owner, or `-` for an empty one: 1 to {MOST_SLOTS} of them, and here are {many}."
    if first == "env":
        if many < 2 or words[2] not in FORMS:
            return f"After `env NAME` comes `elf` or `flat`: `{FORMS['elf']}`. STACK is in pages, and ACCEPT a mask of whom it accepts, 0 for nobody."
        form = FORMS[words[2]]
        if len(words) != len(form.split()):
            return f"This line has {len(words)} words, and its form has {len(form.split())}: `{form}`. STACK is in pages, and ACCEPT a mask of whom it accepts."
    return f"`{first}` isn't expected here. {LINES}"


def parts(words: List[str], version: int) -> Iterator[Tuple[str, str, int, int]]:
    """The numbers of a line: each word, what it is, and its least and most value."""
    most = VERSIONS[version]
    first = words[0]
    if first == "version":
        yield words[1], "a version", 1, 2
    elif first == "pages":
        yield words[1], f"the machine's pages in version {version}", LEAST_PAGES, most.most_pages
    elif first == "quantum":
        yield words[1], "the ticks of a slice", LEAST_QUANTUM, MOST_QUANTUM
    elif first == "slots":
        yield from ((it, "a slot's owner", 0, most.most_environments - 1) for it in words[1:] if it != "-")
    elif first == "env":
        if words[2] == "flat":
            yield words[3], "BASE, an address", 0, LARGEST
        yield words[-3], "STACK, the pages of its stack", 0, MOST_STACK_PAGES
        yield words[-2], "ACCEPT, a mask", 0, LARGEST


def wrong_word(lines: List[str], place: int) -> str:
    """Which word of a line is no number, or outside its limits, or no name."""
    words = words_of(lines[place - 1])
    if words[0] == "env" and not re.fullmatch(r"[a-z0-9_]{1,8}", words[1]):
        return f"`{words[1]}` isn't a name: that is one to eight of `a` to `z`, `0` to `9` and `_`."
    for word, what, least, most in parts(words, version_of(lines)):
        number = value(word)
        if number is None:
            return f"`{word}` should be a number, {what}: a number is decimal or begins with `0x`."
        if not least <= number <= most:
            return f"`{word}` is outside the limits of {what}: {least} to {most:,}."
    return ""


def advice(why: str, lines: List[str], place: int) -> str:
    """What is wrong with the line at a place of a manifest that is refused for `why`."""
    return syntax(lines, place) if why == "Syntax" else wrong_word(lines, place) if why == "Range" else ""
