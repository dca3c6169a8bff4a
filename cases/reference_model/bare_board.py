"""The bare board: docs/BARE.md and docs/MACHINE.md, over the machine of machine.py. `python3 bare_board.py FILE TICKS PERIOD` writes what `bare` does."""
from __future__ import annotations

import sys
from collections import Counter
from hashlib import sha256
from typing import Callable, Dict, Iterator, List, Optional, Tuple

from cache import DIRTY, EMPTIED, HIGHEST, LOWEST, ROWS, VALID
from machine import ADEL, ADES, BP, MOD, RI, SYS, TLBL, TLBS, WORD, Cpu, Instruction, KernelCall, Trap, decode, step
from run_report import DONE, REFUSED, text_of

PAGE, PAGES, MOST_CONSOLE, ENTRY = 4096, 64, 4092, 0x80000100
SIZE = PAGES * PAGE
INT, IBE, DBE, COPROCESSOR = 0, 6, 7, 16
INDEX, RANDOM, ENTRY_LO, CONTEXT, BAD_VADDR, ENTRY_HI, STATUS, CAUSE, EPC, PRID = 0, 1, 2, 4, 8, 10, 12, 13, 14, 15
SHOWN = INDEX, RANDOM, ENTRY_LO, CONTEXT, BAD_VADDR, ENTRY_HI, STATUS, CAUSE, EPC
KEPT = {INDEX: 0x3F00, ENTRY_LO: 0xFFFFFF00, CONTEXT: 0xFFE00000, ENTRY_HI: 0xFFFFFFC0, STATUS: 0xFF3F, EPC: WORD}  # by MTC0
USER, ENABLED, MASKED, GLOBAL, NONE_FITS = 2, 1, 1 << 15, 1 << 8, 0x80000000
REFILL_VECTOR, OTHER_VECTOR = 0x80000000, 0x80000080
KERNEL, MAPPED, PHYSICAL = 0x80000000, 0xC0000000, 0x1FFFFFFF
RFE, TLBP, TLBR, TLBWI, TLBWR = 16, 8, 1, 2, 6


class Bare:
    """The machine, its memory, and whether an interrupt is pending. It is the bus of its own steps."""

    def __init__(self, file: bytes):
        self.ram = bytearray(file.ljust(SIZE, b"\0"))
        self.cpu = Cpu(ENTRY)
        self.cpu.regs = [0] * 32
        self.cp0 = dict.fromkeys(SHOWN, 0)
        self.rows: List[Tuple[int, int]] = [EMPTIED] * ROWS
        self.random, self.pending, self.time = HIGHEST, False, 0
        self.seen: Counter[str] = Counter()

    @property
    def is_user(self) -> bool:
        return bool(self.cp0[STATUS] & USER)

    # Addresses

    def fitting(self, vpn: int) -> Optional[int]:
        """The lowest row that fits a VPN under the PID of EntryHi."""
        pid = self.cp0[ENTRY_HI] & 0xFC0
        return next((at for at, (hi, lo) in enumerate(self.rows) if hi >> 12 == vpn and (hi & 0xFC0 == pid or lo & GLOBAL)), None)

    def physical(self, va: int, is_store: bool, is_fetch: bool = False) -> int:
        if self.is_user and va >= KERNEL:
            raise Trap(ADES if is_store else ADEL, va)
        if KERNEL <= va < MAPPED:
            place = va & PHYSICAL
        else:
            row = self.fitting(va >> 12)
            lo = self.rows[row][1] if row is not None else 0
            if not lo & VALID:
                raise Trap(TLBS if is_store else TLBL, va)
            if is_store and not lo & DIRTY:
                raise Trap(MOD, va)
            place = lo & 0xFFFFF000 | va & 0xFFF
        if place >= SIZE:
            raise Trap(IBE if is_fetch else DBE, va)
        return place

    def fetch(self, va: int) -> int:
        place = self.physical(va, False, True)
        return int.from_bytes(self.ram[place : place + 4], "little")

    def load(self, va: int, width: int) -> int:
        place = self.physical(va, False) & ~3
        return int.from_bytes(self.ram[place : place + 4], "little")

    def store(self, va: int, place: int, data: bytes) -> None:
        at = self.physical(va, True) // 4 * 4 + place % 4
        self.ram[at : at + len(data)] = data

    # Coprocessor 0

    def moved_from(self, number: int) -> int:
        return {RANDOM: self.random << 8, PRID: 0x200}.get(number, self.cp0.get(number, 0))

    def move_to(self, number: int, value: int) -> None:
        if number in KEPT:
            stays = self.cp0[CONTEXT] & ~KEPT[CONTEXT] if number == CONTEXT else 0
            self.cp0[number] = value & KEPT[number] | stays

    def write_row(self, at: int) -> None:
        self.rows[at] = self.cp0[ENTRY_HI], self.cp0[ENTRY_LO]

    def probe(self) -> None:
        found = self.fitting(self.cp0[ENTRY_HI] >> 12)
        self.cp0[INDEX] = NONE_FITS if found is None else found << 8
        self.seen["probes that find a row" if found is not None else "probes that find none"] += 1

    def read_row(self) -> None:
        self.cp0[ENTRY_HI], self.cp0[ENTRY_LO] = self.rows[self.cp0[INDEX] >> 8 & 63]

    def go_back(self) -> None:
        status = self.cp0[STATUS]
        self.cp0[STATUS] = status & ~0xF | status >> 2 & 0xF

    def coprocessor(self, it: Instruction) -> None:
        """An instruction of coprocessor 0, in kernel mode."""
        rest = it.target & 0x7FF
        if it.rs == 0 and rest == 0:
            self.cpu.set(it.rt, self.moved_from(it.rd))
        elif it.rs == 4 and rest == 0:
            self.move_to(it.rd, self.cpu.regs[it.rt])
        elif it.rs == 16 and not it.rt and not it.rd and rest in (TLBR, TLBWI, TLBWR, TLBP, RFE):
            index = self.cp0[INDEX] >> 8 & 63
            deeds: Dict[int, Callable[[], None]] = {TLBR: self.read_row, TLBWI: lambda: self.write_row(index), TLBWR: lambda: self.write_row(self.random),
                                                    TLBP: self.probe, RFE: self.go_back}
            deeds[rest]()
        else:
            raise Trap(RI)

    # Exceptions

    def enter(self, trap: Trap) -> None:
        """The kernel is entered."""
        refills = trap.code in (TLBL, TLBS) and trap.bad < KERNEL and self.fitting(trap.bad >> 12) is None
        status = self.cp0[STATUS]
        self.cp0[STATUS] = status & ~0x3F | status << 2 & 0x3C
        self.cp0[EPC], self.cp0[CAUSE] = self.cpu.restart(), self.cpu.cause(trap.code, trap.unit)
        if MOD <= trap.code <= ADES:
            self.cp0[BAD_VADDR] = trap.bad
        if MOD <= trap.code <= TLBS:
            self.cp0[ENTRY_HI] = self.cp0[ENTRY_HI] & 0xFFF | trap.bad & 0xFFFFF000
            self.cp0[CONTEXT] = self.cp0[CONTEXT] & 0xFFE00003 | trap.bad >> 10 & 0x1FFFFC
        self.cpu.continue_at(REFILL_VECTOR if refills else OTHER_VECTOR)
        self.seen[f"exceptions {trap.code} from {'user' if status & USER else 'kernel'} mode"] += 1
        self.seen["refills"] += refills
        self.seen["exceptions in a delay slot"] += self.cp0[CAUSE] >> 31

    def step(self) -> None:
        cpu, is_kernels = self.cpu, False
        if not self.is_user and cpu.pc % 4 == 0:
            it = decode(self.fetch(cpu.pc))
            is_kernels = it.opcode == COPROCESSOR
        if not is_kernels:
            step(cpu, self)
            return
        self.coprocessor(it)
        cpu.pc, cpu.next, cpu.slot = cpu.next, cpu.next + 4 & WORD, False

    def attempt(self) -> bool:
        """A step, and what it enters; false where it halts the board. Random falls behind it."""
        try:
            self.step()
        except KernelCall:
            self.enter(Trap(SYS))
        except Trap as trap:
            if trap.code == BP and not self.is_user:
                return False
            self.enter(trap)
        finally:
            self.random = HIGHEST if self.random == LOWEST else self.random - 1
        return True

    def tick(self, period: int) -> bool:
        """False where it halts the board."""
        if period and self.time and self.time % period == 0:
            self.pending = True
        if self.pending and self.cp0[STATUS] & ENABLED and self.cp0[STATUS] & MASKED:
            self.pending = False
            self.enter(Trap(INT))
        elif not self.attempt():
            return False
        self.time += 1
        return True

    def lines(self, end: str) -> Iterator[str]:
        """What is written of a run that ended so."""
        console = self.ram[SIZE - PAGE :]
        length = min(int.from_bytes(console[:4], "little"), MOST_CONSOLE)
        cpu = self.cpu
        yield "aegis bare"
        yield f"end {end} {self.time}"
        yield f'out {length} "{text_of(console[4 : 4 + length])}"'
        yield f"cpu {cpu.pc:08x} {cpu.next:08x} {cpu.slot:d} {cpu.hi:08x} {cpu.lo:08x}"
        yield "regs " + " ".join(f"{value:08x}" for value in cpu.regs[1:])
        yield "cp0 " + " ".join(f"{self.moved_from(number):08x}" for number in SHOWN)
        yield f"ram {sha256(self.ram).hexdigest()}"
        for at, (hi, lo) in enumerate(self.rows):
            yield f"row {at} {hi:08x} {lo:08x}"
        yield "done"


def answer(name: str, file: bytes, ticks: int, period: int) -> Tuple[int, str, Optional[Bare]]:
    """The status and the text of `bare FILE TICKS PERIOD`, and the board if there is one."""
    if not file or len(file) > SIZE:
        return REFUSED, f"aegis: {name}: {'TooBig' if file else 'Empty'} {SIZE if file else 0}\n", None
    board, end = Bare(file), "limit"
    while board.time < ticks:
        if not board.tick(period):
            end = "halt"
            break
    return DONE, "".join(f"{line}\n" for line in board.lines(end)), board


def main() -> None:
    name, ticks, period = sys.argv[1:]
    with open(name, "rb") as file:
        status, text, _ = answer(name, file.read(), int(ticks), int(period))
    print(text, end="")
    sys.exit(status)


if __name__ == "__main__":
    main()
