"""The R3000 of a user's program, one step at a time: docs/MACHINE.md."""
from __future__ import annotations

from functools import lru_cache
from typing import Callable, Dict, Optional, Protocol, Tuple

WORD, SIGN = 0xFFFFFFFF, 0x80000000
MOD, TLBL, TLBS, ADEL, ADES, SYS, BP, RI, CPU, OV = 1, 2, 3, 4, 5, 8, 9, 10, 11, 12
STACK_POINTER, FIRST_STACK = 29, 0x7FFEFFF0
RETURN = 31


class Trap(Exception):
    """An exception of the machine."""

    def __init__(self, code: int, bad: int = 0, unit: int = 0):
        self.code, self.bad, self.unit = code, bad, unit


class KernelCall(Exception):
    """A SYSCALL outside a delay slot."""


class Bus(Protocol):
    """Memory as a step sees it. Where there is none its methods raise a Trap."""

    def fetch(self, va: int) -> int:
        """The word at the address."""

    def load(self, va: int, width: int) -> int:
        """The aligned word that has the address, of which so many bytes from there on are read."""

    def store(self, va: int, place: int, data: bytes) -> None:
        """Puts bytes at a place within that word."""


class Cpu:
    """Registers, HI, LO and the triple (pc, next, slot)."""

    def __init__(self, entry: int):
        self.regs, self.hi, self.lo = [0] * 32, 0, 0
        self.regs[STACK_POINTER] = FIRST_STACK
        self.continue_at(entry)

    def set(self, register: int, value: int) -> None:
        if register:
            self.regs[register] = value & WORD

    def continue_at(self, address: int) -> None:
        self.pc, self.next, self.slot = address, address + 4 & WORD, False

    def restart(self) -> int:
        """Where a program goes on: at the branch, if its delay slot is due."""
        return self.pc - 4 & WORD if self.slot else self.pc

    def rest(self) -> None:
        self.continue_at(self.restart())

    def take_registers(self, other: Cpu) -> None:
        """Has the registers, HI and LO of another."""
        self.regs, self.hi, self.lo = list(other.regs), other.hi, other.lo

    def cause(self, code: int = 0, unit: int = 0) -> int:
        """The Cause word of an exception here."""
        return self.slot << 31 | (unit % 4 << 28 if code == CPU else 0) | code << 2


# What an instruction does, which answers where it jumps, if it does.
Effect = Callable[["Cpu", "Instruction", Bus], Optional[int]]


class Instruction:
    """An instruction's effect, and the fields of its word."""

    def __init__(self, word: int, effect: Effect, jumps: bool = False):
        self.effect, self.jumps = effect, jumps
        self.opcode, self.rs, self.rt, self.rd = word >> 26, word >> 21 & 31, word >> 16 & 31, word >> 11 & 31
        self.shift, self.function, self.target = word >> 6 & 31, word & 63, word & 0x3FFFFFF
        self.zeros = word & 0xFFFF
        self.sign = self.zeros - 0x10000 if self.zeros & 0x8000 else self.zeros


def step(cpu: Cpu, memory: Bus) -> None:
    """One step: it retires, or raises a Trap or KernelCall and changes nothing."""
    if cpu.pc % 4:
        raise Trap(ADEL, cpu.pc)
    it = decode(memory.fetch(cpu.pc))
    target = it.effect(cpu, it, memory)
    after = cpu.next
    cpu.pc, cpu.next, cpu.slot = after, (after + 4 if target is None else target) & WORD, it.jumps


def signed(word: int) -> int:
    return word - (1 << 32) if word & SIGN else word


def summed(value: int) -> int:
    """A signed sum or difference, if it fits."""
    if not -SIGN <= value < SIGN:
        raise Trap(OV)
    return value


def divided(a: int, b: int) -> Tuple[int, int]:
    """Quotient toward 0 and remainder with the dividend's sign."""
    if b == 0:
        return WORD, a
    quotient = abs(a) // abs(b) * (1 if (a < 0) == (b < 0) else -1)
    return quotient, a - quotient * b


# What is computed of two registers, by function.
OF_TWO = {
    32: lambda a, b: summed(signed(a) + signed(b)),  # ADD
    33: lambda a, b: a + b,  # ADDU
    34: lambda a, b: summed(signed(a) - signed(b)),  # SUB
    35: lambda a, b: a - b,  # SUBU
    36: lambda a, b: a & b,  # AND
    37: lambda a, b: a | b,  # OR
    38: lambda a, b: a ^ b,  # XOR
    39: lambda a, b: ~(a | b),  # NOR
    42: lambda a, b: int(signed(a) < signed(b)),  # SLT
    43: lambda a, b: int(a < b),  # SLTU
}

# Shifts: what is shifted, and by how much.
SHIFTS = {
    0: lambda value, by: value << by,  # SLL, SLLV
    2: lambda value, by: value >> by,  # SRL, SRLV
    3: lambda value, by: signed(value) >> by,  # SRA, SRAV
}

# What is computed of a register and a half word: of its copy with the sign, and of that without.
OF_HALF = {
    8: lambda a, sign, zeros: summed(signed(a) + sign),  # ADDI
    9: lambda a, sign, zeros: a + sign,  # ADDIU
    10: lambda a, sign, zeros: int(signed(a) < sign),  # SLTI
    11: lambda a, sign, zeros: int(a < sign & WORD),  # SLTIU
    12: lambda a, sign, zeros: a & zeros,  # ANDI
    13: lambda a, sign, zeros: a | zeros,  # ORI
    14: lambda a, sign, zeros: a ^ zeros,  # XORI
    15: lambda a, sign, zeros: zeros << 16,  # LUI
}

# HI and LO of two registers.
PRODUCTS = {
    24: lambda a, b: halves(signed(a) * signed(b)),  # MULT
    25: lambda a, b: halves(a * b),  # MULTU
    26: lambda a, b: divided(signed(a), signed(b))[::-1],  # DIV
    27: lambda a, b: divided(a, b)[::-1],  # DIVU
}


def halves(product: int) -> Tuple[int, int]:
    return product >> 32, product


# Whether a branch is taken: of two registers by opcode, and of one by rt under opcode 1.
IS_TAKEN = {
    4: lambda a, b: a == b,  # BEQ
    5: lambda a, b: a != b,  # BNE
    6: lambda a, b: signed(a) <= 0,  # BLEZ
    7: lambda a, b: signed(a) > 0,  # BGTZ
}
IS_TAKEN_OF_ONE = {
    0: lambda a: signed(a) < 0,  # BLTZ, BLTZAL
    1: lambda a: signed(a) >= 0,  # BGEZ, BGEZAL
}


def of_two(cpu: Cpu, it: Instruction, memory: Bus) -> None:
    cpu.set(it.rd, OF_TWO[it.function](cpu.regs[it.rs], cpu.regs[it.rt]))


def of_half(cpu: Cpu, it: Instruction, memory: Bus) -> None:
    cpu.set(it.rt, OF_HALF[it.opcode](cpu.regs[it.rs], it.sign, it.zeros))


def shift(cpu: Cpu, it: Instruction, memory: Bus) -> None:
    cpu.set(it.rd, SHIFTS[it.function](cpu.regs[it.rt], it.shift))


def shift_by_register(cpu: Cpu, it: Instruction, memory: Bus) -> None:
    cpu.set(it.rd, SHIFTS[it.function & 3](cpu.regs[it.rt], cpu.regs[it.rs] % 32))


def product(cpu: Cpu, it: Instruction, memory: Bus) -> None:
    hi, lo = PRODUCTS[it.function](cpu.regs[it.rs], cpu.regs[it.rt])
    cpu.hi, cpu.lo = hi & WORD, lo & WORD


def mfhi(cpu: Cpu, it: Instruction, memory: Bus) -> None:
    cpu.set(it.rd, cpu.hi)


def mflo(cpu: Cpu, it: Instruction, memory: Bus) -> None:
    cpu.set(it.rd, cpu.lo)


def mthi(cpu: Cpu, it: Instruction, memory: Bus) -> None:
    cpu.hi = cpu.regs[it.rs]


def mtlo(cpu: Cpu, it: Instruction, memory: Bus) -> None:
    cpu.lo = cpu.regs[it.rs]


def jr(cpu: Cpu, it: Instruction, memory: Bus) -> int:
    return cpu.regs[it.rs]


def jalr(cpu: Cpu, it: Instruction, memory: Bus) -> int:
    target = cpu.regs[it.rs]
    cpu.set(it.rd, cpu.pc + 8)
    return target


def jump(cpu: Cpu, it: Instruction, memory: Bus) -> int:
    if it.opcode == 3:  # JAL
        cpu.set(RETURN, cpu.pc + 8)
    return cpu.pc + 4 & 0xF0000000 | it.target << 2


def branch(cpu: Cpu, it: Instruction, memory: Bus) -> Optional[int]:
    return cpu.pc + 4 + 4 * it.sign if IS_TAKEN[it.opcode](cpu.regs[it.rs], cpu.regs[it.rt]) else None


def branch_of_one(cpu: Cpu, it: Instruction, memory: Bus) -> Optional[int]:
    taken = IS_TAKEN_OF_ONE[it.rt & 1](cpu.regs[it.rs])
    if it.rt >= 16:  # BLTZAL, BGEZAL
        cpu.set(RETURN, cpu.pc + 8)
    return cpu.pc + 4 + 4 * it.sign if taken else None


def syscall(cpu: Cpu, it: Instruction, memory: Bus) -> None:
    raise Trap(SYS) if cpu.slot else KernelCall()


def breakpoint_(cpu: Cpu, it: Instruction, memory: Bus) -> None:
    raise Trap(BP)


def reserved(cpu: Cpu, it: Instruction, memory: Bus) -> None:
    raise Trap(RI)


def coprocessor(cpu: Cpu, it: Instruction, memory: Bus) -> None:
    raise Trap(CPU, unit=it.opcode % 4)


def address(cpu: Cpu, it: Instruction, width: int, fault: int) -> int:
    """The address of a load or store of so many bytes."""
    va = cpu.regs[it.rs] + it.sign & WORD
    if va % width:
        raise Trap(fault, va)
    return va


WIDTHS = {32: 1, 33: 2, 35: 4, 36: 1, 37: 2, 40: 1, 41: 2, 43: 4}  # LB, LH, LW, LBU, LHU, SB, SH, SW


def load(cpu: Cpu, it: Instruction, memory: Bus) -> None:
    width = WIDTHS[it.opcode]
    va = address(cpu, it, width, ADEL)
    bits = 8 * width
    value = memory.load(va, width) >> 8 * (va % 4) & (1 << bits) - 1
    if it.opcode in (32, 33) and value >> bits - 1:
        value -= 1 << bits
    cpu.set(it.rt, value)


def lwl(cpu: Cpu, it: Instruction, memory: Bus) -> None:
    va = address(cpu, it, 1, ADEL)
    by = 24 - 8 * (va % 4)
    cpu.set(it.rt, memory.load(va, 1) << by | cpu.regs[it.rt] & (1 << by) - 1)


def lwr(cpu: Cpu, it: Instruction, memory: Bus) -> None:
    va = address(cpu, it, 1, ADEL)
    by = 8 * (va % 4)
    cpu.set(it.rt, memory.load(va, 1) >> by | cpu.regs[it.rt] & ~(WORD >> by))


def store(cpu: Cpu, it: Instruction, memory: Bus) -> None:
    width = WIDTHS[it.opcode]
    va = address(cpu, it, width, ADES)
    memory.store(va, va, cpu.regs[it.rt].to_bytes(4, "little")[:width])


def swl(cpu: Cpu, it: Instruction, memory: Bus) -> None:
    va = address(cpu, it, 1, ADES)
    memory.store(va, va - va % 4, cpu.regs[it.rt].to_bytes(4, "little")[3 - va % 4 :])


def swr(cpu: Cpu, it: Instruction, memory: Bus) -> None:
    va = address(cpu, it, 1, ADES)
    memory.store(va, va, cpu.regs[it.rt].to_bytes(4, "little")[: 4 - va % 4])


# By function of opcode 0: the effect, whether it jumps, and the bits that have to be 0.
RS, RT, RD, SHIFT = 31 << 21, 31 << 16, 31 << 11, 31 << 6
FUNCTIONS: Dict[int, Tuple[Effect, bool, int]] = {
    **{function: (shift, False, RS) for function in (0, 2, 3)},
    **{function: (shift_by_register, False, SHIFT) for function in (4, 6, 7)},
    8: (jr, True, RT | RD | SHIFT),
    9: (jalr, True, RT | SHIFT),
    12: (syscall, False, 0),
    13: (breakpoint_, False, 0),
    16: (mfhi, False, RS | RT | SHIFT),
    17: (mthi, False, RT | RD | SHIFT),
    18: (mflo, False, RS | RT | SHIFT),
    19: (mtlo, False, RT | RD | SHIFT),
    **{function: (product, False, RD | SHIFT) for function in PRODUCTS},
    **{function: (of_two, False, SHIFT) for function in OF_TWO},
}

# The same by opcode.
OPCODES: Dict[int, Tuple[Effect, bool, int]] = {
    **{opcode: (jump, True, 0) for opcode in (2, 3)},
    **{opcode: (branch, True, 0) for opcode in (4, 5)},
    **{opcode: (branch, True, RT) for opcode in (6, 7)},
    **{opcode: (of_half, False, 0) for opcode in range(8, 15)},
    15: (of_half, False, RS),
    **{opcode: (coprocessor, False, 0) for opcode in (16, 17, 18, 19, 49, 50, 51, 57, 58, 59)},
    **{opcode: (load, False, 0) for opcode in (32, 33, 35, 36, 37)},
    34: (lwl, False, 0),
    38: (lwr, False, 0),
    **{opcode: (store, False, 0) for opcode in (40, 41, 43)},
    42: (swl, False, 0),
    46: (swr, False, 0),
}


@lru_cache(maxsize=1 << 16)
def decode(word: int) -> Instruction:
    """The instruction that a word spells. Words of opcode 16 and of coprocessors that aren't there are one, CpU."""
    opcode = word >> 26
    if opcode == 1 and word >> 16 & 31 in (0, 1, 16, 17):
        return Instruction(word, branch_of_one, True)
    effect, jumps, zeros = (FUNCTIONS if opcode == 0 else OPCODES).get(word & 63 if opcode == 0 else opcode, (reserved, False, 0))
    return Instruction(word, reserved) if word & zeros else Instruction(word, effect, jumps)
