"""What the names of refusals mean, each in a sentence, and what is usually wrong. docs/REFUSALS.md is the same as a page."""

from __future__ import annotations

import difflib
import re
from typing import Callable, Dict, List, Optional, Sequence

from limits import (LEAST_PAGES, LEAST_QUANTUM, MOST_ASKED, MOST_EVENTS, MOST_LINE, MOST_MAPPINGS, MOST_PACKET_SIZE, MOST_QUANTUM, MOST_SLOTS,
                    MOST_STACK_PAGES, MOST_TARGET, MOST_RUN_TICKS, VERSIONS, Version)
from shown import decoded
from source import JUMPS, LOADS, NAME, OPERANDS, Source, Statement, number, read_statement, register



def by_version(of: Callable[[Version], int]) -> str:
    """A limit with its number in each version."""
    return ", and ".join(f"{of(most):,} in version {number}" for number, most in VERSIONS.items())


MOST_ENVIRONMENTS = by_version(lambda most: most.most_environments)
MOST_PAGES = by_version(lambda most: most.most_pages)

SOURCE = {
    "Syntax": "the line has a form that the assembler doesn't know",
    "UnknownName": "there is no such instruction, directive or register",
    "Redefined": "the name has a value already",
    "Undefined": "a name in this line has no value",
    "Unaligned": "this doesn't stand at an address that is a multiple of its size",
    "OutOfRange": "a number doesn't fit into its place",
    "Empty": "the source has no instruction in `.text`",
}
MANIFEST = {
    "Syntax": "this isn't the line that is expected here",
    "Range": "a word isn't a number, or a number or a name is outside its limits",
    "Many": f"there are too many environments: the most are {MOST_ENVIRONMENTS}",
}
IMAGE = {
    "Short": "the file ends too early",
    "Magic": "the file begins with neither `AEG1` nor `AEG2`, so it isn't an image",
    "Pages": f"a machine has at least {LEAST_PAGES} pages, and at most {MOST_PAGES}",
    "Quantum": f"a slice has {LEAST_QUANTUM} to {MOST_QUANTUM:,} ticks",
    "Envs": f"an image has at least 1 environment, and at most {MOST_ENVIRONMENTS}",
    "Slots": f"an image has 1 to {MOST_SLOTS} slots",
    "SlotOwner": "a slot is owned by an environment that there isn't",
    "Name": "a name is one to eight of `a` to `z`, `0` to `9` and `_`",
    "Kind": "a program is flat or ELF",
    "Stack": f"a program has at most {MOST_STACK_PAGES} pages of stack",
    "Base": "a flat program begins at the address of a page, from 0x2000 on, and ends below 0x7FF00000; an ELF program has base 0",
    "Empty": "a flat program has no byte",
    "Trailing": "something follows the last program",
    "TooMany": f"a program needs more than {MOST_MAPPINGS} pages",
    "TooBig": "the environments need more pages than the machine has",
}
ELF = {
    "Short": "the file is too short for an ELF file",
    "NotElf": "the file doesn't begin as an ELF file does",
    "WrongClass": "it is an ELF file of 64 bits, and the machine has 32",
    "WrongOrder": "its numbers stand with the highest byte first: it was made for a big-endian MIPS",
    "WrongKind": "it isn't an executable file: an object file, say, which was compiled and not linked",
    "WrongMachine": "it was made for another processor than MIPS",
    "WrongArch": "it was made for a later MIPS: the compiler wants `-march=mips1`",
    "BadHeaders": "its program headers are of another form, or missing",
    "Dynamic": "it was linked for a dynamic linker: the linker wants `-static`",
    "BadRange": "a segment lies outside the file, or outside the addresses from 0x2000 to 0x7FEFFFFF",
    "Overlap": "two segments have a byte at one address",
    "BadEntry": "its entry isn't the address of an instruction in it",
}
SCHEDULE = {
    "Syntax": "the line isn't an event",
    "Range": "a word isn't a number, or is outside its limits",
    "Hex": "a packet isn't two hexadecimal digits for each byte",
    "Order": "the time is below that of the event before",
    "Many": f"there are more than {MOST_EVENTS:,} events",
}
CORE = {
    "Absent": "the image has no environment with this number: the first one is 0",
    "Dead": "the environment is dead by then, and its registers and pages are gone: ask for fewer ticks",
}
LEDGER = {
    "Syntax": "this isn't the line that is expected here, or the text ends too early",
    "Range": "a number is outside its limits",
}
FLAT = {
    "Empty": "the file has no byte",
    "TooBig": "the file has more bytes than physical memory",
}
KINDS: Dict[str, Dict[str, str]] = {"source": SOURCE, "manifest": MANIFEST, "image": IMAGE, "ELF file": ELF, "schedule": SCHEDULE,
                                    "report or plan": LEDGER, "flat file": FLAT, "environment": CORE}

# What is written elsewhere, and what to write here. A, B are the operands as they stand.
INSTEAD = {
    "blt": "slt $1,{0},{1}` and `bne $1,$0,{2}", "bge": "slt $1,{0},{1}` and `beq $1,$0,{2}",
    "bgt": "slt $1,{1},{0}` and `bne $1,$0,{2}", "ble": "slt $1,{1},{0}` and `beq $1,$0,{2}",
    "bltu": "sltu $1,{0},{1}` and `bne $1,$0,{2}", "bgeu": "sltu $1,{0},{1}` and `beq $1,$0,{2}",
    "bgtu": "sltu $1,{1},{0}` and `bne $1,$0,{2}", "bleu": "sltu $1,{1},{0}` and `beq $1,$0,{2}",
    "beqz": "beq {0},$0,{1}", "bnez": "bne {0},$0,{1}", "bal": "bgezal $0,{0}",
    "mul": "mult {1},{2}` and `mflo {0}", "mulo": "mult {1},{2}` and `mflo {0}", "rem": "div {1},{2}` and `mfhi {0}",
    "neg": "subu {0},$0,{1}", "negu": "subu {0},$0,{1}", "not": "nor {0},{1},$0",
    "subi": "addi` with the number's negative: `addi {0},{1},-{2}", "subiu": "addiu` with the number's negative: `addiu {0},{1},-{2}",
    "push": "addiu $29,$29,-4` and `sw {0},0($29)", "pop": "lw {0},0($29)` and `addiu $29,$29,4",
    "abs": "sra $1,{1},31` and `xor {0},{1},$1` and `subu {0},{0},$1",
    "seq": "xor {0},{1},{2}` and `sltiu {0},{0},1", "sne": "xor {0},{1},{2}` and `sltu {0},$0,{0}",
    "sgt": "slt {0},{2},{1}", "sgtu": "sltu {0},{2},{1}", "sge": "slt {0},{1},{2}` and `xori {0},{0},1",
    "sle": "slt {0},{2},{1}` and `xori {0},{0},1", "clear": "move {0},$0", "ret": "jr $31", "call": "jal {0}",
    ".string": ".asciiz", ".long": ".word", ".int": ".word", ".short": ".half", ".zero": ".space", ".skip": ".space",
    ".rodata": ".text` or `.data", ".bss": ".data` and `.space", ".set": ".equ NAME,VALUE", ".equiv": ".equ NAME,VALUE",
    ".eqv": ".equ {0}",
}
OF_REGISTERS = frozenset("mul mulo rem seq sne sgt sgtu sge sle".split())  # and never of a number
# Branches that compare with a number: the test, what is added to the number, and the branch.
WITH_NUMBER = {"blt": ("slti", 0, "bne"), "bge": ("slti", 0, "beq"), "ble": ("slti", 1, "bne"), "bgt": ("slti", 1, "beq"),
               "bltu": ("sltiu", 0, "bne"), "bgeu": ("sltiu", 0, "beq"), "bleu": ("sltiu", 1, "bne"), "bgtu": ("sltiu", 1, "beq")}
# Directives of others that nothing here stands for, and why.
NOTHING_FOR = {
    ".macro": "There are no macros: write a function, or the lines themselves.",
    ".endm": "There are no macros: write a function, or the lines themselves.",
    ".end_macro": "There are no macros: write a function, or the lines themselves.",
    ".include": "A program is one source: copy the lines of the other file into it.",
    ".float": "The machine has no floating point unit.",
    ".double": "The machine has no floating point unit: two `.word` have the 64 bits of a double.",
    ".kdata": "The kernel isn't in the machine's memory: handlers stand in `.text`, and their variables in `.data`.",
    ".ktext": "The kernel isn't in the machine's memory: handlers stand in `.text`, and their variables in `.data`.",
}
CHARACTERS = {"\\n": 10, "\\t": 9, "\\0": 0, "\\r": 13}
LEFT_OUT = frozenset(".globl .global .extern .ent .end .type .size .file .option .frame .mask .section .p2align".split())
NUMBER = r"(?:-?[0-9]+|0x[0-9a-fA-F]+)"
FORMS = {"r": "a register", "n": "a number or a name", "b": "an address such as `0($8)`", "q": "a text in quotation marks", ".": "a name"}


def meaning(kind: str, why: str) -> str:
    """What a refusal's name means, of a file of this kind."""
    return KINDS[kind].get(why, "this name isn't known here")


def advice(why: str, source: Source, line: str) -> str:
    """What is wrong with a line of a source that is refused for `why`, as far as it can be told."""
    said = read_statement(0, line)
    found = {"UnknownName": unknown, "Syntax": syntax, "OutOfRange": too_large, "Undefined": undefined, "Unaligned": unaligned}.get(why)
    if found:
        return found(source, said) or ""
    if why == "Redefined":
        name = said.label or (said.operands or [""])[0]
        first = source.labels.get(name)
        return f"`{name}` stands in line {first.line} already." if first else f"`{name}` has a value already."
    if why == "Empty":
        return "Instructions stand in `.text`, where a source begins."
    return ""


def event_advice(why: str, line: str) -> str:
    """What is wrong with a line of a schedule that is refused for `why`, as far as it can be told."""
    odd = re.search(r"[^\t\r -~]", line)
    if odd:
        return f"The line has the character {wide(odd[0], line)!r}: outside of comments a schedule is plain ASCII."
    words = line.split("#")[0].split()
    if why == "Syntax":
        if len(words) > 3 and words[1] == "packet":
            return "The bytes of a packet stand without blanks between them."
        return "An event is `TIME packet BYTES`, `TIME line NUMBER` or `TIME revoke ENV COUNT GRACE`."
    if why == "Hex":
        if words[2].startswith("0x"):
            return "The digits have no `0x` before them."
        if re.search(r"[^0-9a-fA-F]", words[2]):
            return "A digit is one of `0` to `9`, `a` to `f` and `A` to `F`."
        return "Each byte has two digits, and their number is odd."
    if why == "Range":
        limit = {"packet": f"a packet has 1 to {MOST_PACKET_SIZE:,} bytes", "line": f"the lines are 0 to {MOST_LINE}"}.get(
            words[1], f"so is a grace, an environment at most {MOST_TARGET}, and a count of pages at most {MOST_ASKED:,}")
        return f"A time is at most {MOST_RUN_TICKS:,}, and {limit}. Numbers are decimal or begin with `0x`."
    if why == "Order":
        return "Events stand in the order of their times."
    return ""


def wide(character: str, line: str) -> str:
    """The first character beyond ASCII of a line that was read as Latin-1, as UTF-8 has it where the line is that."""
    return next((it for it in decoded(line) if ord(it) > 127), character) if character > "\x7f" else character


def bad_registers(said: Statement) -> List[str]:
    """The registers that there aren't, as they are written."""
    words = re.findall(r"\$\w*", " ".join(it for it in said.operands if not it.startswith('"')))
    return [it for it in words if register(it[1:]) is None]


def unknown(_source: Source, said: Statement) -> Optional[str]:
    """An operation or a register that there isn't."""
    name = said.operation
    if name not in OPERANDS:
        if name.lower() in OPERANDS:
            return f"Operations are lower case: `{name.lower()}`."
        if name in WITH_NUMBER and len(said.operands) == 3 and is_number(said.operands[1]):
            return compared(said)
        if name == ".eqv" and len(said.operands) == 1:
            return f"`.eqv` isn't built in: write `.equ {', '.join(said.operands[0].split(None, 1))}`."
        if name in NOTHING_FOR:
            return NOTHING_FOR[name]
        if name in INSTEAD:
            operands, first = said.operands + ["..."] * 3, ""
            if name in OF_REGISTERS and is_number(operands[2]):
                first, operands[2] = f"`li $1,{operands[2]}` and ", "$1"
            return f"`{name}` isn't built in: write {first}`{INSTEAD[name].format(*operands)}`."
        if name in LEFT_OUT:
            return f"`{name}` isn't needed here: leave the line out."
        if re.fullmatch(r"(\w+\.[sd]|[ls]wc1|mt?fc1|mtc1|c\..*|bc1.)", name):
            return "The machine has no floating point unit."
        near = difflib.get_close_matches(name, OPERANDS, 1)
        what = "directive" if name.startswith(".") else "instruction"
        return f"There is no {what} `{name}`." + (f" Did you mean `{near[0]}`?" if near else "")
    bad = bad_registers(said)
    if bad:
        if re.fullmatch(r"\$f[0-9]+", bad[0]):
            return f"`{bad[0]}` is a register of the floating point unit, which the machine lacks."
        if bad[0].lower() != bad[0]:
            return f"Registers are lower case: `{bad[0].lower()}`."
        return (f"There is no register `{bad[0]}`: they are `$0` to `$31`, or `$zero`, `$at`, `$v0`, `$a0`, `$t0`, `$s0`, `$sp`, "
                "`$ra` and so on.")
    return None


def is_number(operand: str) -> bool:
    return re.fullmatch(NUMBER, operand) is not None


def compared(said: Statement) -> str:
    """What to write for a branch that compares a register with a number."""
    test, added, branch = WITH_NUMBER[said.operation]
    left, limit, target = said.operands
    return f"`{said.operation}` isn't built in: write `{test} $1,{left},{number(limit) + added}` and `{branch} $1,$0,{target}`."


def syntax(source: Source, said: Statement) -> Optional[str]:
    """A line of another form."""
    known = of_the_line(said) or of_the_operands(source, said)
    return known or (unknown(source, said) if said.operation not in OPERANDS else None)


def of_the_line(said: Statement) -> Optional[str]:
    """What no line may have."""
    line = said.text.split("#")[0]
    odd = re.search(r"[^\t\r -~]", said.text)
    if odd:
        return f"The line has the character {wide(odd[0], said.text)!r}: outside of comments a source is plain ASCII."
    if line.count('"') % 2 and not line.count('\\"') % 2:
        return "The quoted text doesn't end in this line."
    bare = re.sub(r'"(?:[^"\\]|\\.)*"', '""', line)
    if ";" in bare:
        return "`;` has no meaning here: a comment begins with `#`, and each statement has a line of its own."
    if "//" in bare or "/*" in bare:
        return "A comment begins with `#`."
    character = re.search(r"'(\\?.)'", bare)
    if character:
        return f"A character is written as its number: `{CHARACTERS.get(character[1], ord(character[1][-1]))}`."
    repeated = re.search(r"(\.word|\.half|\.byte)\s+(-?\w+)\s*:\s*(\d+)\s*$", bare)
    if repeated:
        size = {".word": 4, ".half": 2, ".byte": 1}[repeated[1]]
        if repeated[2] == "0":
            return f"A value isn't repeated by `:`: for {repeated[3]} zeros write `.space {size * int(repeated[3])}`."
        return f"A value isn't repeated by `:`: write `{repeated[1]}` with {repeated[3]} values, with commas between them."
    if re.match(rf"\s*{NAME}[ \t]+:", bare):
        return "The colon stands directly after the label."
    if re.match(r"\s*[0-9]\w*:", bare):
        return "A label begins with a letter, `_` or `.`."
    if re.match(rf"\s*{NAME}:\s*{NAME}:", bare):
        return "A line has one label: give the second a line of its own."
    equal = re.match(rf"\s*({NAME})\s*=\s*(\S+)", bare)
    if equal:
        return f"A constant is written `.equ {equal[1]}, {equal[2]}`."
    if re.search(r"\\[^nt0\\\"]", line):
        return 'In a quoted text only `\\n`, `\\t`, `\\0`, `\\\\` and `\\"` have a backslash.'
    return None


def of_the_operands(source: Source, said: Statement) -> Optional[str]:
    """What a known operation can't have."""
    name, operands = said.operation, said.operands
    form = OPERANDS.get(name)
    if form is None:
        return None
    if said.is_instruction and in_data(source, said):
        return "An instruction stands in `.text`, and this is `.data`: write `.text` above it."
    wanted = len(form.rstrip("*?"))
    missing = next((it for it in operands if re.search(r'[\w)"]\s+[\w$"(-]', re.sub(r'"(?:[^"\\]|\\.)*"', '""', it))), None)
    if missing:
        return f"A comma is missing: `{name} {', '.join(re.split(r'[, ]+', ' '.join(operands)))}`."
    if name in ("div", "divu") and len(operands) == 3:
        return (f"`{name}` has two operands: `{name} {operands[1]},{operands[2]}` and `mflo {operands[0]}` for the quotient, "
                "`mfhi` for the rest.")
    if name == "jalr" and len(operands) == 1:
        return f"`jalr` has two operands: `jalr $31,{operands[0]}`."
    if name in JUMPS and operands and operands[0].startswith("$") and name in ("j", "jal"):
        return f"To jump to the address in a register write `{'jr ' if name == 'j' else 'jalr $31,'}{operands[0]}`."
    if not form.endswith(("*", "?")) and len(operands) != wanted:
        counts = ("no operands", "one operand", "two operands", "three operands")
        return f"`{name}` has {': '.join([counts[wanted], ', '.join(FORMS[it] for it in form)] if wanted else counts[:1])}."
    if not operands and form.endswith("*"):
        return f"`{name}` has one value or more."
    kinds = form[:-1] + form[-2:-1] * len(operands) if form.endswith("*") else form
    for kind, operand in zip(kinds, operands):
        found = of_an_operand(name, kind, operand, operands)
        if found:
            return found
    return None


def of_an_operand(name: str, kind: str, operand: str, operands: Sequence[str]) -> Optional[str]:
    """What is wrong with one operand where another form is due."""
    if kind == "r" and not operand.startswith("$"):
        if register(operand) is not None and not operand.isdigit():
            return f"A register is written with `$`: `${operand}`."
        if name == "move":
            return f"`move` copies a register: for a number or an address write `li {operands[0]}, {operand}`."
        if name in OPERANDS and name + "i" in OPERANDS or name in ("addu", "sltu"):
            with_number = {"add": "addiu", "addu": "addiu", "sltu": "sltiu"}.get(name, name + "i")
            return f"`{name}` {'adds' if name.startswith('add') else 'has'} registers alone: with a number it is `{with_number}`."
        if name in ("sub", "subu"):
            return f"With a number it is `addi` or `addiu`, and the number's negative."
        return f"`{operand}` should be a register, such as `$8`."
    if kind == "n" and operand.startswith("$"):
        if name in ("li", "la"):
            return f"To copy a register write `move {operands[0]}, {operand}`."
        if name in ("sll", "srl", "sra"):
            return f"`{name}` shifts by a number: by a register it is `{name}v`."
        if name.endswith(("i", "iu")):
            return f"`{name}` has a number last: for a register write `{name.replace('i', '', 1) if name != 'sltiu' else 'sltu'}`."
        return f"`{operand}` should be a number or a name."
    if kind == "n" and "($" in operand:
        return f"`{name}` takes no register in brackets: add it by `addu` afterwards."
    if kind == "b" and not operand.endswith(")"):
        if name in LOADS and re.fullmatch(rf"{NAME}([+-].*)?", operand):
            return f"A load or store names a register in brackets: `la $1, {operand}` and `{name} {operands[0]}, 0($1)`."
        return f"An address is an offset and a register in brackets, as in `{name} {operands[0]}, 0($8)`."
    if kind == "q" and not operand.startswith('"'):
        return "A text stands in quotation marks."
    if kind in "nb" and re.search(r"0b[01]+|[0-9]_[0-9]", operand):
        return f"`{operand}` isn't a number here: numbers are decimal, or hexadecimal with `0x`."
    if kind in "nb" and re.match(r"-0x", operand):
        return "A hexadecimal number has no sign: write it in decimal, or as its 32 bits."
    if kind in "nb":
        return of_a_value(operand)
    return None


def of_a_value(operand: str) -> Optional[str]:
    """What is wrong with a number or an expression."""
    offset = re.sub(r"\(\$\w+\)$", "", operand)
    if re.fullmatch(r"[0-9]+[fb]", offset):
        return f"There are no numbered labels: give the line a label with a name, and write that in place of `{offset}`."
    if re.fullmatch(r"\+[0-9]+", offset):
        return f"A number has no `+`: write `{offset[1:]}`."
    if re.fullmatch(r"[-+]?([0-9]+\.[0-9]*|[0-9]*\.[0-9]+|[0-9]+)(e[-+]?[0-9]+)?", offset, re.I) and not is_number(offset):
        return f"`{offset}` isn't a whole number: numbers are decimal without a point or an exponent, or hexadecimal with `0x`."
    if re.match(r"0x", offset, re.I) and not re.fullmatch(r"0x[0-9a-fA-F]+([+-].*)?", offset):
        why = "`0x` has a small x" if offset.startswith("0X") else "after `0x` stand digits, `0` to `9` and `a` to `f`"
        return f"`{offset}` isn't a number: {why}."
    if is_number(offset) and not -(1 << 31) <= number(offset) < 1 << 32:
        return f"`{offset}` doesn't fit into 32 bits: numbers lie between -2147483648 and 4294967295."
    two = re.fullmatch(rf"{NAME}\s*([+-])\s*{NAME}", offset)
    if two:
        return f"`{offset}` isn't an expression here, since it has two names: put both into registers, and write `{'addu' if two[1] == '+' else 'subu'}`."
    if not operand:
        return "An operand is missing: nothing stands at a comma."
    if offset.count("(") != offset.count(")"):
        return f"A bracket of `{offset}` is missing."
    if not re.fullmatch(rf"(hi\(|lo\()*({NUMBER}|{NAME}([+-]{NUMBER})?)\)*", offset or "0"):
        return f"`{operand}` isn't an expression here: that is a number, a name, or a name and `+` or `-` and a number."
    return None


def in_data(source: Source, said: Statement) -> bool:
    """Whether the statement stands in the data, by its text."""
    return next((not it.in_text for it in source.statements if it.text == said.text), False)


def too_large(source: Source, said: Statement) -> Optional[str]:
    """A number that doesn't fit."""
    name, operands = said.operation, said.operands
    if name in LOADS and len(operands) == 2:
        offset = operands[1].rpartition("(")[0]
        if offset.startswith("lo("):
            return f"Bit 15 of the address is set, so its low half doesn't fit: `la $1, {offset[3:-1]}` and `{name} {operands[0]}, 0($1)`."
        return f"An offset lies between -32768 and 32767: put the address into a register by `la $1, {offset}`, and write `0($1)`."
    if name in ("addi", "addiu", "slti", "sltiu", "andi", "ori", "xori"):
        limits = "0 and 65535" if name in ("andi", "ori", "xori") else "-32768 and 32767"
        return f"The number of `{name}` lies between {limits}: put a larger one into a register by `li`."
    if name in ("sll", "srl", "sra"):
        return "A shift amount lies between 0 and 31."
    if name in (".byte", ".half"):
        return f"A value of `{name}` lies between {'-128 and 255' if name == '.byte' else '-32768 and 65535'}."
    if name == ".align":
        return "`.align N` is for a multiple of 2 to the power of N: `.align 2` for words. N is at most 12."
    if name == "lui":
        return "`lui` has a half word, 0 to 65535: `li` takes a whole word."
    if name in ("j", "jal") or name.startswith("b"):
        return "The target is too far away for a branch, or not in this program."
    if said.label == "start":
        return "The label `start` isn't the address of an instruction."
    if name == ".space":
        return "A section has at most 1,048,576 bytes."
    return None


def undefined(source: Source, said: Statement) -> Optional[str]:
    """A name without a value."""
    is_equ = said.operation == ".equ"
    words = re.findall(NAME, " ".join(re.sub(r'\$\w+|"[^"]*"|0x\w+', " ", it) for it in said.operands[is_equ:]))
    words = [it for it in words if it not in ("hi", "lo")]
    missing = next((it for it in words if it not in source.names), None)
    if is_equ and words:
        return f"`.equ` uses names that have a value already: `{missing or words[0]}` gets none in a line above."
    if missing is None:
        return None
    if register(missing) is not None:
        return f"A register is written with `$`: `${missing}`."
    near = difflib.get_close_matches(missing, source.names, 1)
    return f"There is no label or constant `{missing}`." + (f" Did you mean `{near[0]}`?" if near else "")


def unaligned(_source: Source, said: Statement) -> Optional[str]:
    """What doesn't stand at a multiple of its size."""
    if said.operation in (".word", ".half"):
        power = 2 if said.operation == ".word" else 1
        return f"Write `.align {power}` in a line above, and the label after it."
    if said.operation in JUMPS or said.operation.startswith("b"):
        return "The target isn't the address of an instruction, which is a multiple of 4."
    return "Text or bytes stand before it: write `.align 2` above, or put them into `.data`."
