"""Reads sources of the assembler (docs/ASSEMBLER.md), as far as the tools need it: statements, where they stand, and
values. Whether a source has a fault is the assembler's question; here a line of another form has an operation that
nobody knows, or none.
"""

from __future__ import annotations

import python_version  # first: ends the tool where Python is too old
import re
from dataclasses import dataclass, field
from typing import Dict, List, Optional

from matching import matched

TEXT, DATA = 0x00400000, 0x10000000
MARK = "\xef\xbb\xbf"  # that some editors put before a text in UTF-8, read as Latin-1
NAME = r"[A-Za-z_.][A-Za-z0-9_.]*"

REGISTERS = {str(n): n for n in range(32)}
REGISTERS |= {"zero": 0, "at": 1, "v0": 2, "v1": 3, "k0": 26, "k1": 27, "gp": 28, "sp": 29, "fp": 30, "ra": 31, "t8": 24, "t9": 25}
REGISTERS |= {f"a{n}": 4 + n for n in range(4)} | {f"t{n}": 8 + n for n in range(8)} | {f"s{n}": 16 + n for n in range(8)}

# The operands of each operation: d, r a register; n a number or an address; b an offset with a register in brackets;
# q a quoted text; . a name; a * stands for any number of the last, at least one.
OPERANDS = {
    **dict.fromkeys("sll srl sra".split(), "rrn"), **dict.fromkeys("sllv srlv srav".split(), "rrr"),
    **dict.fromkeys("add addu sub subu and or xor nor slt sltu".split(), "rrr"),
    **dict.fromkeys("addi addiu slti sltiu andi ori xori".split(), "rrn"),
    **dict.fromkeys("mult multu div divu".split(), "rr"), **dict.fromkeys("mfhi mflo mthi mtlo jr".split(), "r"),
    "jalr": "rr", "lui": "rn", **dict.fromkeys("beq bne".split(), "rrn"),
    **dict.fromkeys("blez bgtz bltz bgez bltzal bgezal".split(), "rn"), **dict.fromkeys("j jal b".split(), "n"),
    **dict.fromkeys("lb lh lw lbu lhu lwl lwr sb sh sw swl swr".split(), "rb"), **dict.fromkeys("mfc0 mtc0".split(), "rr"),
    **dict.fromkeys("tlbr tlbwi tlbwr tlbp rfe nop".split(), ""), **dict.fromkeys("syscall break".split(), "?"),
    "move": "rr", "li": "rn", "la": "rn",
    ".text": "", ".data": "", ".word": "n*", ".half": "n*", ".byte": "n*", ".ascii": "q", ".asciiz": "q",
    ".space": "n", ".align": "n", ".equ": ".n",
}
BRANCHES = frozenset("beq bne blez bgtz bltz bgez bltzal bgezal b".split())
JUMPS = frozenset("j jal jr jalr".split())
LOADS = frozenset(name for name, form in OPERANDS.items() if form == "rb")
SIGNED = LOADS | frozenset("addi addiu slti sltiu".split())
ESCAPES = {"n": 1, "t": 1, "0": 1, "\\": 1, '"': 1}


@dataclass
class Statement:
    """What a line says, and where it stands."""

    line: int
    text: str  # the line as it is written
    label: str = ""
    operation: str = ""
    operands: List[str] = field(default_factory=list)
    in_text: bool = True
    address: int = 0
    size: int = 0

    @property
    def is_instruction(self) -> bool:
        return bool(self.operation) and not self.operation.startswith(".")

    def registers(self) -> List[int]:
        """The registers that it names, in order."""
        names = re.findall(r"\$(\w+)", " ".join(it for it in self.operands if not it.startswith('"')))
        return [number for number in map(register, names) if number is not None]


def register(name: str) -> Optional[int]:
    """The number of a register, of its name without the `$`."""
    return REGISTERS.get(name.lstrip("0") or "0" if name.isdigit() else name)


def without_comment(line: str) -> str:
    """A line up to the `#` that begins its comment."""
    return matched(r'^(?:[^#"]|"(?:[^"\\]|\\.)*"|"(?!.*"))*', line)[0]


def parted(operands: str) -> List[str]:
    """Operands between commas, those in quoted texts aside."""
    pieces = re.findall(r'(?:[^,"]|"(?:[^"\\]|\\.)*"|")+|(?<=,)(?=,|$)', operands)
    return [it.strip(" \t") for it in pieces]


@dataclass
class Source:
    """The statements of a source, in order, and the values of its names."""

    statements: List[Statement]
    names: Dict[str, int]
    labels: Dict[str, Statement]

    def value(self, expression: str) -> Optional[int]:
        """The value of an expression, modulo 2^32, as far as it is one and its names have values."""
        expression = expression.strip()
        half = re.fullmatch(r"(hi|lo)\((.*)\)", expression)
        if half:
            inner = self.value(half[2])
            return None if inner is None else inner >> 16 if half[1] == "hi" else inner & 0xFFFF
        if re.fullmatch(r"-?[0-9]+|0x[0-9a-fA-F]+", expression):
            return number(expression) % 2**32
        sum_of = re.fullmatch(rf"({NAME})(?:([+-])(-?[0-9]+|0x[0-9a-fA-F]+))?", expression)
        if not sum_of or sum_of[1] not in self.names:
            return None
        added = number(sum_of[3]) if sum_of[2] else 0
        return (self.names[sum_of[1]] + (added if sum_of[2] != "-" else -added)) % 2**32

    def instructions(self) -> List[Statement]:
        """Its instructions, in the order in which they stand in the text."""
        return [it for it in self.statements if it.is_instruction and it.in_text]

    def at(self, address: int) -> Optional[Statement]:
        """The instruction of an address."""
        return next((it for it in self.instructions() if it.address <= address < it.address + it.size), None)


def number(digits: str) -> int:
    return int(digits, 16 if digits.startswith("0x") else 10)


def read_statement(count: int, line: str) -> Statement:
    """A line's statement."""
    said = without_comment(line).strip(" \t")
    label = re.match(rf"({NAME}):", said)
    rest = said[label.end():].strip(" \t") if label else said
    operation, _, operands = rest.replace("\t", " ").partition(" ") if '"' not in rest else rest.partition(" ")
    return Statement(count, line, label[1] if label else "", operation, parted(operands.strip(" \t")) if operands.strip() else [])


def read_source(text: str) -> Source:
    """The statements of a text, each at its place. The mark that some editors put before UTF-8 is passed over."""
    text = text[len(MARK):] if text.startswith(MARK) else text
    source = Source([], {}, {})
    places, in_text = {True: TEXT, False: DATA}, True
    lines = text.split("\n")
    for count, line in enumerate(lines if lines[-1] else lines[:-1], 1):
        it = read_statement(count, line[:-1] if line.endswith("\r") else line)
        if it.operation in (".text", ".data"):
            in_text = it.operation == ".text"
        it.in_text, it.address = in_text, places[in_text]
        if it.label:
            source.names.setdefault(it.label, it.address)
            source.labels.setdefault(it.label, it)
        if it.operation == ".equ" and len(it.operands) == 2:
            value = source.value(it.operands[1])
            if value is not None:
                source.names.setdefault(it.operands[0], value)
        it.size = size_of(source, it)
        places[in_text] += it.size
        source.statements.append(it)
    return source


def size_of(source: Source, it: Statement) -> int:
    """How many bytes a statement adds to its section."""
    operation, count = it.operation, len(it.operands)
    if it.is_instruction:
        return 8 if operation in ("li", "la") else 4
    each = {".word": 4, ".half": 2, ".byte": 1}.get(operation)
    if each:
        return each * count
    if operation in (".ascii", ".asciiz") and count:
        return len(re.sub(r"\\.", "x", it.operands[0][1:-1]).encode()) + (operation == ".asciiz")
    value = source.value(it.operands[0]) if operation in (".space", ".align") and count else None
    if operation == ".space":
        return value or 0
    return -it.address % (1 << value) if value is not None and value <= 12 else 0
