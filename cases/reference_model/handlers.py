"""Handlers of packets: docs/KERNEL.md, "Handlers of packets". The machine's own steps over a memory of a handler's own."""
from __future__ import annotations

from typing import List, Optional, Sequence

from files import MOST_PACKET, PAGE
from machine import ADEL, ADES, BP, Cpu, KernelCall, Trap, decode, reserved, step

MOST_WORDS, MOST_REPLIES, LEAST_REPLY = 64, 4, 14
PAGE_AT = 0x1000  # where a handler sees the ring page
LENGTH, CLAIM = 4, 5  # the registers that it finds set, and those that say what a reply is
DONE, FAULT = "done", "fault"

# What is allowed: functions of opcode 0, registers rt of opcode 1, and other opcodes.
FUNCTIONS = frozenset((0, 2, 3, 4, 6, 7, 12, 13, 33, 35, 36, 37, 38, 39, 42, 43))
BRANCHES_OF_ONE = frozenset((0, 1))
OPCODES = frozenset((4, 5, 6, 7, 9, 10, 11, 12, 13, 14, 15, 32, 33, 35, 36, 37, 40, 41, 43))
ENDS = frozenset((12, 13))  # the functions that may not stand behind a branch


def is_allowed(word: int) -> bool:
    it = decode(word)
    if it.effect is reserved:
        return False
    return it.function in FUNCTIONS if it.opcode == 0 else it.rt in BRANCHES_OF_ONE if it.opcode == 1 else it.opcode in OPCODES


def is_bad(words: Sequence[int], place: int) -> bool:
    """Whether a word is bad, of which none before it is."""
    it = decode(words[place])
    if not is_allowed(words[place]):
        return True
    is_behind_branch = place > 0 and decode(words[place - 1]).jumps
    if is_behind_branch and (it.jumps or it.opcode == 0 and it.function in ENDS):
        return True
    return it.jumps and (place == len(words) - 1 or not place + 2 <= place + 1 + it.sign <= len(words))


def first_bad(words: Sequence[int]) -> Optional[int]:
    """The place of the first bad word, 64 of too many words, or None."""
    if len(words) > MOST_WORDS:
        return MOST_WORDS
    return next((place for place in range(len(words)) if is_bad(words, place)), None)


class End(Exception):
    """A fetch behind the last word."""


class HandlerMemory:
    """What a handler reaches: its words, which it fetches alone, the packet from 0 on, and the ring page, to store to it too."""

    def __init__(self, words: Sequence[int], packet: bytes, page: bytearray):
        self.words, self.packet, self.page = words, packet, page
        self.stores = 0

    def fetch(self, va: int) -> int:
        if va // 4 >= len(self.words):
            raise End
        return self.words[va // 4]

    def load(self, va: int, width: int) -> int:
        if va + width <= len(self.packet):
            data = self.packet[va : va + width]
        elif PAGE_AT <= va and va + width <= PAGE_AT + PAGE:
            data = self.page[va - PAGE_AT : va - PAGE_AT + width]
        else:
            raise Trap(ADEL, va)
        return int.from_bytes(data, "little") << 8 * (va % 4)

    def store(self, va: int, place: int, data: bytes) -> None:
        if not (PAGE_AT <= va and va + len(data) <= PAGE_AT + PAGE):
            raise Trap(ADES, va)
        self.page[va - PAGE_AT : va - PAGE_AT + len(data)] = data
        self.stores += 1


class Run:
    """A run of a handler over a packet and the ring page: how it ended, and its replies. What it stored is in the page."""

    def __init__(self, words: Sequence[int], packet: bytes, claim: int, page: bytearray):
        self.memory, self.cpu = HandlerMemory(words, packet, page), Cpu(0)
        self.replies: List[bytes] = []
        self.cpu.regs = [0] * 32
        self.cpu.regs[LENGTH], self.cpu.regs[CLAIM] = len(packet), claim
        self.why = ""  # of a fault
        while not self.why and self.step():
            pass
        self.end = FAULT if self.why else DONE

    def step(self) -> bool:
        """An instruction. It is the last one if nothing is answered."""
        try:
            step(self.cpu, self.memory)
        except End:
            return False
        except KernelCall:
            self.reply()
        except Trap as trap:
            if trap.code != BP:
                self.why = "access"
            return False
        return True

    def reply(self) -> None:
        address, length = self.cpu.regs[LENGTH], self.cpu.regs[CLAIM]
        is_good = LEAST_REPLY <= length <= MOST_PACKET and PAGE_AT <= address and address + length <= PAGE_AT + PAGE
        if not is_good or len(self.replies) == MOST_REPLIES:
            self.why = "reply" if not is_good else "fifth reply"
            return
        self.replies.append(bytes(self.memory.page[address - PAGE_AT : address - PAGE_AT + length]))
        self.cpu.continue_at(self.cpu.pc + 4)
