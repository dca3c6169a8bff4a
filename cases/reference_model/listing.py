"""The text of an instruction: docs/ASSEMBLER.md, "Listings".

The names are those of docs/MACHINE.md. An operand is a letter: s, t, d the registers rs, rt, rd as numbers; h a shift amount;
i a signed half and u an unsigned one; b the address of a branch and j that of a jump; m a signed half with rs in brackets;
c a code.
"""
from __future__ import annotations

from functools import lru_cache
from typing import Optional, Tuple

from machine import WORD, coprocessor, decode, reserved

OF_FUNCTION = {
    0: ("sll", "dth"), 2: ("srl", "dth"), 3: ("sra", "dth"), 4: ("sllv", "dts"), 6: ("srlv", "dts"), 7: ("srav", "dts"),
    8: ("jr", "s"), 9: ("jalr", "ds"), 12: ("syscall", "c"), 13: ("break", "c"),
    16: ("mfhi", "d"), 17: ("mthi", "s"), 18: ("mflo", "d"), 19: ("mtlo", "s"),
    24: ("mult", "st"), 25: ("multu", "st"), 26: ("div", "st"), 27: ("divu", "st"),
    **{number: (name, "dst") for number, name in enumerate("add addu sub subu and or xor nor".split(), 32)},
    42: ("slt", "dst"), 43: ("sltu", "dst"),
}
OF_OPCODE = {
    2: ("j", "j"), 3: ("jal", "j"), 4: ("beq", "stb"), 5: ("bne", "stb"), 6: ("blez", "sb"), 7: ("bgtz", "sb"),
    8: ("addi", "tsi"), 9: ("addiu", "tsi"), 10: ("slti", "tsi"), 11: ("sltiu", "tsi"),
    12: ("andi", "tsu"), 13: ("ori", "tsu"), 14: ("xori", "tsu"), 15: ("lui", "tu"),
    32: ("lb", "tm"), 33: ("lh", "tm"), 34: ("lwl", "tm"), 35: ("lw", "tm"), 36: ("lbu", "tm"), 37: ("lhu", "tm"), 38: ("lwr", "tm"),
    40: ("sb", "tm"), 41: ("sh", "tm"), 42: ("swl", "tm"), 43: ("sw", "tm"), 46: ("swr", "tm"),
}
OF_ONE = {0: "bltz", 1: "bgez", 16: "bltzal", 17: "bgezal"}  # by rt under opcode 1
OF_COPROCESSOR = {0x42000001: "tlbr", 0x42000002: "tlbwi", 0x42000006: "tlbwr", 0x42000008: "tlbp", 0x42000010: "rfe"}
OPERANDS = {
    "s": lambda it, at: f"${it.rs}", "t": lambda it, at: f"${it.rt}", "d": lambda it, at: f"${it.rd}", "h": lambda it, at: f"{it.shift}",
    "i": lambda it, at: f"{it.sign}", "u": lambda it, at: f"0x{it.zeros:04x}", "m": lambda it, at: f"{it.sign}(${it.rs})",
    "b": lambda it, at: f"0x{at + 4 + 4 * it.sign & WORD:08x}", "j": lambda it, at: f"0x{(at + 4 & 0xF0000000) + 4 * it.target:08x}",
    "c": lambda it, at: str(it.target >> 6) if it.target >> 6 else "",
}


def named(word: int) -> Optional[Tuple[str, str]]:
    """The name of a word's instruction and its operands, or None where it has none."""
    it = decode(word)
    if it.effect is coprocessor:
        if word in OF_COPROCESSOR:
            return OF_COPROCESSOR[word], ""
        is_move = it.opcode == 16 and it.rs in (0, 4) and word & 0x7FF == 0
        return ("mtc0" if it.rs else "mfc0", "td") if is_move else None
    if it.effect is reserved:
        return None
    if it.opcode == 1:
        return OF_ONE[it.rt], "sb"
    return OF_OPCODE[it.opcode] if it.opcode else OF_FUNCTION[it.function]


@lru_cache(maxsize=1 << 16)
def text_of_word(word: int, address: int) -> str:
    """The instruction that a word is, as the assembler reads it at this address."""
    found = named(word)
    if found is None:
        return f".word 0x{word:08x}"
    name, letters = found
    operands = ",".join(OPERANDS[letter](decode(word), address) for letter in letters)
    return f"{name} {operands}" if operands else name
