"""Sources as the assembler takes them, and all faults of one: where a line is refused, something that is none stands in for it, and
the assembler is asked again.
"""

from __future__ import annotations

import difflib
import re
from typing import Callable, Iterator, List, NamedTuple, Optional, Set, Tuple

import refusals
from shown import decoded
from source import MARK, NAME, Source, Statement, read_source, without_comment

MOST_FAULTS = 10  # that are told
SECTIONS = {".rodata": ".data", ".rdata": ".data", ".bss": ".data", ".kdata": ".data", ".ktext": ".text"}

Asked = Tuple[str, int]  # the name of a refusal, and its line
Ask = Callable[[bytes], Optional[Asked]]  # what a source is refused for, None where it isn't


class Fault(NamedTuple):
    """A fault of a source, and what is wrong with the line as far as that can be told."""

    why: str
    line: int
    text: str
    advice: str

    def lines(self, path: str) -> List[str]:
        """What is said of it."""
        quoted = [f"    {decoded(self.text).strip()}"] if self.text.strip() else []
        return [f"{path}:{self.line}: {self.why}: {refusals.meaning('source', self.why)}.", *quoted, *([self.advice] if self.advice else [])]


def without_mark(text: bytes) -> bytes:
    """A text without the mark before it."""
    mark = MARK.encode("latin-1")
    return text[len(mark):] if text.startswith(mark) else text


def plain(text: bytes) -> bytes:
    """A text with the same lines, in whose comments each character beyond ASCII is a `?`, and without a mark before it."""
    text = without_mark(text)
    if text.isascii():
        return text
    return b"\n".join(plain_line(line) for line in text.split(b"\n"))


def plain_line(line: bytes) -> bytes:
    """A line whose comment is ASCII."""
    if line.isascii():
        return line
    comment = len(without_comment(line.decode("latin-1")))
    return line[:comment] + line[comment:].decode("utf-8", errors="replace").encode("ascii", errors="replace")


def stand_in(said: Statement, why: str) -> str:
    """A line without a fault in place of one that is refused: it has the label, the name or the section that the other means, and
    takes as many bytes."""
    label = f"{said.label}: " if said.label and why != "Redefined" else ""
    name = said.operation
    if said.is_instruction and not said.in_text:
        return f"{label}.text"
    if name.startswith(".") and name not in (".word", ".half", ".byte", ".ascii", ".asciiz", ".space"):
        section = SECTIONS.get(name) or next(iter(difflib.get_close_matches(name, (".text", ".data"), 1)), "")
        if section:
            return f"{label}{section}"
    constant = re.match(rf"\s*(?:\.(?:equ|eqv|set|equiv)\s+({NAME})|({NAME})\s*=)", without_comment(said.text))
    if constant and why != "Redefined":
        return f".equ {constant[1] or constant[2]}, 4"
    if said.in_text and not name.startswith("."):
        return f"{label}{'li $0, 0' if said.size == 8 else 'nop'}"
    size = said.size + (-said.address % 4 if why == "Unaligned" else 0)
    return f"{label}.space {size}" if size else label


def names_in(said: Statement) -> Set[str]:
    """The names that a line uses."""
    return set(re.findall(NAME, " ".join(re.sub(r'\$\w+|"[^"]*"|0x\w+', " ", it) for it in said.operands)))


def is_sequel(fault: Fault, said: Statement, source: Source, before: List[Fault], told: Set[str]) -> bool:
    """Whether a fault only follows from one that is told: a name that is missing once more, or the place of data after others."""
    if fault.why == "Undefined":
        missing = {it for it in names_in(said) if it not in source.names}
        again = bool(missing) and missing <= told
        told |= missing
        return again
    there = [source.statements[it.line - 1] for it in before if it.line <= len(source.statements)]  # a last line that is empty is none
    is_data = [it for it in there if not it.in_text or it.operation.startswith(".")]
    return fault.why == "Empty" and bool(before) or fault.why == "Unaligned" and bool(is_data)


def found_faults(text: bytes, ask: Ask) -> Iterator[Fault]:
    """The faults of a source, the first of them as the assembler names it. Its lines are quoted as they stand in it."""
    lines, written = plain(text).split(b"\n"), without_mark(text).split(b"\n")
    before: List[Fault] = []
    told: Set[str] = set()
    tried: Set[int] = set()
    while True:
        asked = ask(b"\n".join(lines))
        if asked is None:
            return
        why, line = asked
        source = read_source(b"\n".join(lines).decode("latin-1"))
        said = source.statements[line - 1] if line <= len(source.statements) else Statement(line, "")
        quoted = written[line - 1].decode("latin-1").rstrip("\r") if line <= len(written) else ""
        fault = Fault(why, line, quoted, refusals.advice(why, source, said.text))
        if line not in tried and not is_sequel(fault, said, source, before, told):
            before.append(fault)
            yield fault
        if why == "Empty" or not lines[line - 1]:
            return
        lines[line - 1] = b"" if line in tried else stand_in(said, why).encode("ascii", errors="replace")
        tried.add(line)


def faults(text: bytes, ask: Ask) -> Tuple[List[Fault], bool]:
    """At most ten faults of a source, by their lines, and whether there are more."""
    found: List[Fault] = []
    has_more = False
    for it in found_faults(text, ask):
        has_more = len(found) == MOST_FAULTS
        if has_more:
            break
        found.append(it)
    return sorted(found, key=lambda it: it.line), has_more
