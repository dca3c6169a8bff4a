"""What a step does, as far as it isn't in a trace: where it goes on, what it stores, and whether it raises (docs/MACHINE.md)."""

from __future__ import annotations

from typing import NamedTuple, Optional, Sequence, Tuple

WORD = 0xFFFFFFFF
SYSCALL = 12
WIDTHS = {32: 1, 33: 2, 34: 1, 35: 4, 36: 1, 37: 2, 38: 1, 40: 1, 41: 2, 42: 1, 43: 4, 46: 1}  # of loads and stores, by opcode
COPROCESSORS = (16, 17, 18, 19, 49, 50, 51, 57, 58, 59)  # opcodes
Values = Sequence[int]  # registers


class Store(NamedTuple):
    """Bytes that a store puts from an address on."""

    address: int
    data: bytes


def signed(value: int, bits: int = 32) -> int:
    return value - (1 << bits) if value >> bits - 1 else value


def is_call(word: int) -> bool:
    return word & 0xFC00003F == SYSCALL


def is_jump(word: int) -> bool:
    """Whether the instruction has a delay slot."""
    opcode, function, kind = word >> 26, word & 63, word >> 16 & 31
    return opcode in range(2, 8) or opcode == 0 and function in (8, 9) or opcode == 1 and kind in (0, 1, 16, 17)


def target(word: int, pc: int, after: int, registers: Values) -> int:
    """Where a jump or a branch goes on after its delay slot, which is at `after`: elsewhere than `pc` + 4 if it is in a slot itself."""
    opcode, rs, rt = word >> 26, registers[word >> 21 & 31], registers[word >> 16 & 31]
    if opcode == 0:
        return rs
    if opcode in (2, 3):
        return pc + 4 & 0xF0000000 | (word & 0x3FFFFFF) << 2
    if opcode in (4, 5):
        is_taken = (rs == rt) == (opcode == 4)
    elif opcode == 1:
        is_taken = (signed(rs) < 0) == (word >> 16 & 1 == 0)
    else:
        is_taken = (signed(rs) <= 0) == (opcode == 6)
    return (pc + 4 + 4 * signed(word & 0xFFFF, 16) if is_taken else after + 4) & WORD


def access(word: int, registers: Values) -> Optional[int]:
    """The address that a load or store goes to, where the word is one."""
    return None if word >> 26 not in WIDTHS else registers[word >> 21 & 31] + signed(word & 0xFFFF, 16) & WORD


def is_store(word: int) -> bool:
    return word >> 26 in (40, 41, 42, 43, 46)


def stored(word: int, address: int, registers: Values) -> Store:
    """What a store puts."""
    opcode, value, at = word >> 26, registers[word >> 16 & 31], address % 4
    data = value.to_bytes(4, "little")
    if opcode == 42:  # SWL
        return Store(address - at, data[3 - at:])
    if opcode == 46:  # SWR
        return Store(address, data[: 4 - at])
    return Store(address, data[: WIDTHS[opcode]])


def cause(word: Optional[int], pc: int, in_slot: bool, registers: Values, mapped: Optional[Tuple[bool, bool]]) -> Optional[int]:
    """The code of the exception that a step raises, 0 where it retires, None where that depends on `mapped`, which isn't known: it says
    of the page of an access whether it is there, and whether it may be stored to."""
    if word is None:
        return 4 if pc % 4 or pc >> 31 else 2
    opcode, function = word >> 26, word & 63
    if opcode == 0 and function in (SYSCALL, 13):
        return 8 if function == SYSCALL else 9
    if opcode in COPROCESSORS:
        return 11
    if opcode == 0 and function in (32, 34) or opcode == 8:
        return overflow(word, registers)
    if opcode not in WIDTHS:
        return 0
    address = access(word, registers) or 0
    if address % WIDTHS[opcode] or address >> 31:
        return 5 if is_store(word) else 4
    if mapped is None:
        return None
    if not mapped[0]:
        return 3 if is_store(word) else 2
    return 1 if is_store(word) and not mapped[1] else 0


def overflow(word: int, registers: Values) -> int:
    """12 where ADD, ADDI or SUB overflows, 0 where it doesn't."""
    left, right = registers[word >> 21 & 31], registers[word >> 16 & 31]
    if word >> 26 == 8:
        right = word & 0xFFFF
        right = right | 0xFFFF0000 if right >> 15 else right
    total = signed(left) + (-signed(right) if word >> 26 == 0 and word & 63 == 34 else signed(right))
    return 0 if -(1 << 31) <= total < 1 << 31 else 12
