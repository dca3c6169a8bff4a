"""The commands of the program (commands.txt): their forms, what is said of them, and the part of the script `aegis` that knows them."""

from __future__ import annotations

import os
import re
import textwrap
from typing import Dict, Iterator, List, NamedTuple, Tuple

import limits

HERE = os.path.dirname(os.path.realpath(__file__))
BEGIN, END = "# <<< of tools/commands.txt, by tools/contents\n", "# >>>\n"
MARGIN, WIDTH = 37, 130  # where a sentence begins in the script's list, and where a line ends at the latest


class Command(NamedTuple):
    """A command: its words, the places of those that name files, where `N..` is all from there on, and a sentence with names of limits."""

    form: str
    files: Tuple[str, ...]
    text: str

    def words(self) -> str:
        """Those after the command's name."""
        return self.form.partition(" ")[2]

    @property
    def name(self) -> str:
        return self.form.split()[0]

    def limits(self) -> Dict[str, int]:
        """The limits that its sentence names."""
        return {name: getattr(limits, name) for name in re.findall(r"\{(\w+)\}", self.text)}

    def sentence(self) -> str:
        return self.text.format(**self.limits())

    def named(self) -> str:
        """The words that name files, as bash has them after the command's name."""
        return "".join(f' "${{@:{it[:-2]}}}"' if it.endswith("..") else f' "${{@:{it}:1}}"' for it in self.files)


def commands() -> List[Command]:
    """All of them, in the table's order."""
    with open(f"{HERE}/commands.txt", encoding="utf-8") as file:
        rows = re.findall(r"(?m)^(\w+ [^|#\n]*?) \|(.*)\n(.+)$", file.read())
    return [Command(form, tuple(files.split()), text) for form, files, text in rows]


def told_otherwise(it: Command, report: str) -> str:
    """What docs/REPORT.md lacks of a command: a paragraph that begins with its form, and has its numbers."""
    found = re.search(rf"(?m)^`aegis {re.escape(it.form)}`.*$", report)
    if not found:
        return f"no paragraph begins with `aegis {it.form}`"
    numbers = [f"{number:,}" for number in it.limits().values()]
    return ", ".join(f"its paragraph doesn't have {number}" for number in numbers if number not in found[0])


def listed(it: Command) -> Iterator[str]:
    """The lines of a command in the script's list."""
    head = f"    aegis {it.form}"
    lines = textwrap.wrap(it.sentence(), WIDTH - MARGIN, break_long_words=False, break_on_hyphens=False)
    if len(head) < MARGIN:
        yield f"{head:<{MARGIN}}{lines.pop(0)}"
    else:
        yield head
    yield from (" " * MARGIN + line for line in lines)


def script_part() -> Iterator[str]:
    """The lines of the script that know the commands."""
    rows = commands()
    yield from ("forms() {", "  cat >&2 <<'END'", "aegis: these words are not a command. The commands are")
    for it in rows:
        yield from listed(it)
    yield from ("END", "}", "", f'words="{"; ".join(it.form for it in rows)}"', "")
    yield from ("# Says which of the files that the words name can't be read.", "unread_of() {", '  case "$1" in')
    by_name = {it.name: it for it in sorted(rows, key=lambda it: len(it.files))}  # of several forms the one with the most files
    by_files: Dict[str, List[str]] = {}
    for name in dict.fromkeys(it.name for it in rows):
        by_files.setdefault(by_name[name].named(), []).append(name)
    for named, names in by_files.items():
        yield f'    {" | ".join(names)}) unread "$1"{named} ;;'
    yield from ("  esac", "}")


def script(text: str) -> str:
    """The script `aegis` with this part made anew."""
    before, begin, rest = text.partition(BEGIN)
    _, end, after = rest.partition(END)
    if not begin or not end:
        raise ValueError("the script lacks the marks of its part")
    return before + begin + "".join(f"{line}\n" for line in script_part()) + end + after
