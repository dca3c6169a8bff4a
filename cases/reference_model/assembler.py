"""The assembler: docs/ASSEMBLER.md. `python3 assembler.py SOURCE` says of which fault a source is refused, or how many bytes
its ELF file has.
"""
from __future__ import annotations

import re
import sys
from dataclasses import dataclass
from typing import Dict, Iterable, Iterator, List, NamedTuple, Optional, Tuple

import listing
from files import CHARACTERS, Fault, Segment, lines_of

import binary

TEXT, DATA = 0x00400000, 0x10000000
SECTIONS = {".text": TEXT, ".data": DATA}
SECTION_SIZE, MOST_ALIGNMENT = 1_048_576, 12
LEAST_NUMBER, MOST_NUMBER, MODULUS = -(2**31), 2**32 - 1, 2**32
NAME = r"[A-Za-z_.][A-Za-z0-9_.]*"
NUMBER = r"-?[0-9]+|0x[0-9A-Fa-f]+"
REGISTER = r"\$[A-Za-z0-9]+"
QUOTED = r'"(?:[^"\\]|\\[nt0\\"])*"'
ESCAPES = {"n": "\n", "t": "\t", "0": "\0", "\\": "\\", '"': '"'}
NAMES = "zero at v0 v1 a0 a1 a2 a3 t0 t1 t2 t3 t4 t5 t6 t7 s0 s1 s2 s3 s4 s5 s6 s7 t8 t9 k0 k1 gp sp fp ra"
NAMED = {name: number for number, name in enumerate(NAMES.split())}

# By name, the word of an instruction without its operands, and the letters of these (listing.py).
INSTRUCTIONS: Dict[str, Tuple[int, str]] = {
    **{name: (function, letters) for function, (name, letters) in listing.OF_FUNCTION.items()},
    **{name: (opcode << 26, letters) for opcode, (name, letters) in listing.OF_OPCODE.items()},
    **{name: (1 << 26 | rt << 16, "sb") for rt, name in listing.OF_ONE.items()},
    **{name: (word, "") for word, name in listing.OF_COPROCESSOR.items()},
    "mfc0": (0x40000000, "td"), "mtc0": (0x40800000, "td"),
}
# Those that stand for others: the forms of their operands, and how many words they are.
FURTHER = {"nop": ("", 1), "move": ("rr", 1), "b": ("v", 1), "li": ("rv", 2), "la": ("rv", 2)}
# By directive, the least and the most number of its values, and their size.
VALUES = {".word": (0, MOST_NUMBER, 4), ".half": (-32768, 65535, 2), ".byte": (-128, 255, 1)}
# By letter of an operand, its least and its greatest value, and where its lowest bit stands.
RANGES = {"h": (0, 31, 6), "i": (-32768, 32767, 0), "u": (0, 65535, 0), "m": (-32768, 32767, 0), "c": (0, 1048575, 6)}
FIELDS = {"s": 21, "t": 16, "d": 11}


@dataclass
class Expression:
    """A name or none, a number that is added, and the halves that are taken, the innermost first."""

    name: Optional[str]
    number: int
    halves: List[str]

    def value(self, names: Dict[str, int]) -> Optional[int]:
        """Its value modulo 2^32, or none where the name has none."""
        if self.name is not None and self.name not in names:
            return None
        value = (names[self.name] if self.name is not None else 0) + self.number
        for half in self.halves:
            value = value % MODULUS >> 16 if half == "hi" else value % 65536
        return value % MODULUS


class Operand(NamedTuple):
    """An operand: its form, which is r, v, m or q, and of that a register's text, an expression, both, or the bytes of a quoted text."""

    form: str
    register: str = ""
    value: Expression = Expression(None, 0, [])
    data: bytes = b""


@dataclass
class Line:
    """A line: its number, its label or none, its operation or none with the operands, and where it stands in which section."""

    number: int
    label: Optional[str]
    operation: Optional[str]
    operands: List[Operand]
    place: int = 0


class Malformed(Exception):
    """What has no form of docs/ASSEMBLER.md."""


def number_of(text: str) -> int:
    if not re.fullmatch(NUMBER, text):
        raise Malformed
    digits = re.sub(r"^(-?)0+(?=[0-9])", r"\1", text)  # Python reads some thousand digits and no more
    value = int(text, 16) if text.startswith("0x") else int(digits) if len(digits) < 20 else MODULUS
    if not LEAST_NUMBER <= value <= MOST_NUMBER:
        raise Malformed
    return value


def expression(text: str) -> Expression:
    halves: List[str] = []
    while text[:3] in ("hi(", "lo(") and text.endswith(")"):
        halves.insert(0, text[:2])
        text = text[3:-1]
    if found := re.fullmatch(rf"({NAME})(?:([+-])({NUMBER}))?", text):
        number = number_of(found[3]) if found[3] else 0
        return Expression(found[1], -number if found[2] == "-" else number, halves)
    return Expression(None, number_of(text), halves)


def operand(text: str) -> Operand:
    if re.fullmatch(REGISTER, text):
        return Operand("r", text)
    if re.fullmatch(QUOTED, text):
        return Operand("q", data=re.sub(r"\\(.)", lambda it: ESCAPES[it[1]], text[1:-1]).encode("latin-1"))
    if found := re.fullmatch(rf"(.*)\(({REGISTER})\)", text):
        return Operand("m", found[2], expression(found[1]) if found[1] else Expression(None, 0, []))
    return Operand("v", value=expression(text))


def pieces(content: str) -> List[str]:
    """What stands between the commas of a line that aren't in a quoted text, up to its comment."""
    found, quoted, at = [""], False, 0
    while at < len(content):
        letter = content[at]
        size = 2 if quoted and letter == "\\" else 1
        if letter == '"':
            quoted = not quoted
        if not quoted and letter == "#":
            break
        if not quoted and letter == ",":
            found.append("")
        else:
            found[-1] += content[at : at + size]
        at += size
    if quoted:
        raise Malformed
    return found


def parse(number: int, content: bytes) -> Line:
    if not CHARACTERS.issuperset(content):
        raise Fault("Syntax", number)
    try:
        first, *others = [piece.strip(" \t") for piece in pieces(content.decode("ascii"))]
        label = None
        if found := re.match(rf"({NAME}):[ \t]*", first):
            label, first = found[1], first[found.end() :]
        if not first and not others:
            return Line(number, label, None, [])
        found = re.fullmatch(rf"({NAME})(?:[ \t]+(.+))?", first, re.S)
        if not found or others and found[2] is None:
            raise Malformed
        return Line(number, label, found[1], [operand(piece) for piece in [found[2], *others] if piece is not None])
    except Malformed:
        raise Fault("Syntax", number) from None


def register(text: str) -> Optional[int]:
    if text[1:].isdigit():
        digits = text[1:].lstrip("0") or "0"
        return int(digits) if len(digits) < 3 and int(digits) < 32 else None
    return NAMED.get(text[1:])


def known_register(text: str) -> int:
    """The number of a register that there is."""
    number = register(text)
    assert number is not None, "the first pass refuses the others"
    return number


def forms_of(letters: str) -> str:
    """The forms of an instruction's operands."""
    return "".join("r" if letter in FIELDS else "m" if letter == "m" else "v" for letter in letters)


def is_plain_number(it: Operand) -> bool:
    return it.form == "v" and it.value.name is None and not it.value.halves


def has_form(name: str, operands: List[Operand]) -> bool:
    """Whether the operands of a known operation have its form."""
    forms = "".join(it.form for it in operands)
    if name in VALUES:
        return re.fullmatch("v+", forms) is not None
    if name in (".ascii", ".asciiz"):
        return forms == "q"
    if name in (".space", ".align"):
        return forms == "v" and is_plain_number(operands[0])
    if name == ".equ":
        return forms == "vv" and operands[0].value.name is not None and not operands[0].value.halves and operands[0].value.number == 0
    if name in SECTIONS:
        return forms == ""
    if name in FURTHER:
        return forms == FURTHER[name][0]
    return forms == forms_of(INSTRUCTIONS[name][1]) or name in ("syscall", "break") and forms == ""


def is_instruction(name: str) -> bool:
    return name in INSTRUCTIONS or name in FURTHER


DIRECTIVES = (*VALUES, *SECTIONS, ".ascii", ".asciiz", ".space", ".align", ".equ")


class Assembler:
    """The two passes over the lines of a source."""

    def __init__(self) -> None:
        self.names: Dict[str, int] = {}
        self.sizes = {TEXT: 0, DATA: 0}
        self.section = TEXT
        self.lines: List[Line] = []
        self.start: Optional[Line] = None

    def first_pass(self, source: bytes) -> None:
        for number, content in lines_of(source):
            line = parse(number, content)
            self.test_operation(line)
            line.place = self.section + self.sizes[self.section]
            if line.label is not None:
                self.define(line, line.label, line.place)
                if line.label == "start":
                    self.start = line
            self.lay(line)
            self.lines.append(line)
        if not self.sizes[TEXT]:
            raise Fault("Empty", 1)

    def test_operation(self, line: Line) -> None:
        name = line.operation
        if name is None:
            return
        if not is_instruction(name) and name not in DIRECTIVES:
            raise Fault("UnknownName", line.number)
        if is_instruction(name) and self.section == DATA or not has_form(name, line.operands):
            raise Fault("Syntax", line.number)
        for it in line.operands:
            if it.form in "rm" and register(it.register) is None:
                raise Fault("UnknownName", line.number)

    def define(self, line: Line, name: str, value: int) -> None:
        if name in self.names:
            raise Fault("Redefined", line.number)
        self.names[name] = value

    def lay(self, line: Line) -> None:
        """Gives the statement its bytes, and its name a value."""
        name = line.operation
        if name is None:
            return
        if name in SECTIONS:
            self.section = SECTIONS[name]
        elif name == ".equ":
            self.equate(line)
        else:
            alignment = 4 if is_instruction(name) else VALUES[name][2] if name in VALUES else 1
            if line.place % alignment:
                raise Fault("Unaligned", line.number)
            if name == ".align" and line.operands[0].value.number % MODULUS > MOST_ALIGNMENT:
                raise Fault("OutOfRange", line.number)
            size = self.sizes[self.section] + self.size_of(name, line)
            if size > SECTION_SIZE:
                raise Fault("OutOfRange", line.number)
            self.sizes[self.section] = size

    def equate(self, line: Line) -> None:
        name = line.operands[0].value.name
        assert name is not None, "it has its form"
        if name in self.names:
            raise Fault("Redefined", line.number)
        value = line.operands[1].value.value(self.names)
        if value is None:
            raise Fault("Undefined", line.number)
        self.define(line, name, value)

    def size_of(self, name: str, line: Line) -> int:
        if is_instruction(name):
            return 4 * (FURTHER[name][1] if name in FURTHER else 1)
        if name in VALUES:
            return VALUES[name][2] * len(line.operands)
        if name in (".ascii", ".asciiz"):
            return len(line.operands[0].data) + (name == ".asciiz")
        number = line.operands[0].value.number % MODULUS
        return number if name == ".space" else -line.place % (1 << number)

    def second_pass(self) -> bytes:
        made = {TEXT: b"", DATA: b""}
        for line in self.lines:
            parts, faults = self.bytes_of(line)
            if line is self.start:
                faults += self.faults_of_start()
            for why in ("Undefined", "Unaligned", "OutOfRange"):
                if why in faults:
                    raise Fault(why, line.number)
            made[TEXT if line.place < DATA else DATA] += parts
        segments = [binary.Segment(TEXT, made[TEXT], 5)] + [binary.Segment(DATA, made[DATA], 6)] * bool(made[DATA])
        return binary.elf(self.names["start"] if self.start else TEXT, segments)

    def faults_of_start(self) -> List[str]:
        place = self.names["start"]
        return ["Unaligned"] * bool(place % 4) + ["OutOfRange"] * (not TEXT <= place < TEXT + self.sizes[TEXT])

    def bytes_of(self, line: Line) -> Tuple[bytes, List[str]]:
        """The bytes of a statement, and the faults of its operands."""
        name = line.operation
        if name is None or name in SECTIONS or name == ".equ":
            return b"", []
        if name in (".space", ".align"):
            return bytes(self.size_of(name, line)), []
        if name in (".ascii", ".asciiz"):
            return line.operands[0].data + b"\0" * (name == ".asciiz"), []
        if name in VALUES:
            least, most, size = VALUES[name]
            found = [self.within(it.value.value(self.names), least, most) for it in line.operands]
            return b"".join((value % 256**size).to_bytes(size, "little") for value, _ in found), [fault for _, fault in found if fault]
        words, faults = self.words_of(name, line)
        return binary.code(words), faults

    def within(self, value: Optional[int], least: int, most: int) -> Tuple[int, str]:
        """A number that is equal to the value modulo 2^32, or a fault."""
        if value is None:
            return 0, "Undefined"
        fits = [it for it in (value, value - MODULUS) if least <= it <= most]
        return (fits[0], "") if fits else (0, "OutOfRange")

    def words_of(self, name: str, line: Line) -> Tuple[List[int], List[str]]:
        operands = line.operands
        if name in ("li", "la"):
            to, value = known_register(operands[0].register), operands[1].value.value(self.names)
            number = value or 0
            return [binary.lui(to, number >> 16), binary.ori(to, to, number)], ["Undefined"] * (value is None)
        if name == "nop":
            return [0], []
        if name == "move":
            name, operands = "addu", [*operands, Operand("r", "$0")]
        if name == "b":
            name, operands = "beq", [Operand("r", "$0"), Operand("r", "$0"), *operands]
        word, letters = INSTRUCTIONS[name]
        faults: List[str] = []
        for letter, it in zip(letters, operands):
            bits, fault = self.bits_of(letter, it, line.place + 4)
            word |= bits
            faults += [fault] * bool(fault)
        return [word], faults

    def bits_of(self, letter: str, said: Operand, behind: int) -> Tuple[int, str]:
        """The bits of an operand in the word before the address `behind`, and its fault or no letters."""
        if letter in FIELDS:
            return known_register(said.register) << FIELDS[letter], ""
        value = said.value.value(self.names)
        if letter in "bj":
            if value is None or value % 4:
                return 0, "Undefined" if value is None else "Unaligned"
            if letter == "j":
                return value >> 2 & 0x3FFFFFF, "OutOfRange" * (value >> 28 != behind >> 28)
            distance, fault = self.within((value - behind) % MODULUS, -131072, 131068)
            return distance >> 2 & 0xFFFF, fault
        least, most, shift = RANGES[letter]
        source = known_register(said.register) << 21 if letter == "m" else 0
        number, fault = self.within(value, least, most)
        return source | (number & (0xFFFF if letter in "ium" else most)) << shift, fault


def assemble(source: bytes) -> bytes:
    """The ELF file that a source means."""
    assembler = Assembler()
    assembler.first_pass(source)
    return assembler.second_pass()


def listed(elf_segments: Iterable[Segment]) -> Iterator[str]:
    """The lines of a listing of these segments: docs/ASSEMBLER.md, "Listings"."""
    for segment in elf_segments:
        if segment.is_writable:
            continue
        for at in range(-segment.address % 4, len(segment.data) - 3, 4):
            word, address = int.from_bytes(segment.data[at : at + 4], "little"), segment.address + at
            yield f"{address:08x} {word:08x} {listing.text_of_word(word, address)}"


def main() -> None:
    with open(sys.argv[1], "rb") as file:
        try:
            print(len(assemble(file.read())))
        except Fault as fault:
            print(fault)


if __name__ == "__main__":
    main()
