"""How a source in assembly runs: which instruction may follow which, and where a register may have been set."""

from __future__ import annotations

from typing import Dict, Iterable, List, Optional, Set, Tuple

from source import BRANCHES, JUMPS, Source, Statement, register

ANSWER = {2, 3}  # the registers that a kernel call sets
# Branches, those that only SPIM's assembler has among them.
ALL_BRANCHES = BRANCHES | frozenset("beqz bnez blt bge bgt ble bltu bgeu bgtu bleu".split())
NO_RESULT = ALL_BRANCHES | JUMPS | frozenset("sb sh sw swl swr mult multu div divu mthi mtlo mtc0 nop break".split())
NEAR = 8  # instructions above a call, among which its number is looked for
LINKS = frozenset("jal bltzal bgezal".split())


def written(it: Statement) -> Set[int]:
    """The registers that an instruction sets."""
    if it.operation == "syscall":
        return ANSWER
    if it.operation in LINKS:
        return {31}
    if it.operation in NO_RESULT and it.operation != "jalr" or not it.operands:
        return set()
    number = register(it.operands[0].lstrip("$")) if it.operands[0].startswith("$") else None
    return set() if number is None else {number}


class Flow:
    """The instructions of a source, by their places, and what may follow each."""

    def __init__(self, source: Source):
        self.source = source
        self.order: List[Statement] = source.instructions()
        self.places: Dict[int, int] = {it.address: at for at, it in enumerate(self.order)}
        self.taken = self.taken_labels()
        calls = [at for at, it in enumerate(self.order) if it.operation in LINKS | {"jalr"}]
        self.returns = [at + 2 for at in calls if at + 2 < len(self.order)]
        self.next: List[List[int]] = [self.followers(at) for at in range(len(self.order))]

    def place(self, label: str) -> Optional[int]:
        """The place of the instruction at a label."""
        value = self.source.value(label)
        return None if value is None else self.places.get(value)

    def taken_labels(self) -> List[int]:
        """The places whose address the program has as a value: handlers, and where a register leads."""
        said = [it.operands[1] for it in self.order if it.operation in ("la", "li") and len(it.operands) == 2]
        said += [word for it in self.source.statements if it.operation == ".word" for word in it.operands]
        found = {self.place(it) for it in said if not it[:1].isdigit()}
        return sorted(it for it in found if it is not None)

    def is_exit(self, at: int) -> bool:
        """Whether a kernel call ends the program: the nearest line above that sets `$2` has exit's number; or for `$v0` SPIM's, of which
        a translated source makes a `jalr`."""
        loaded = next((it for it in reversed(self.order[max(at - NEAR, 0): at]) if 2 in written(it)), None)
        if self.order[at].operation not in ("syscall", "jalr") or loaded is None or loaded.operation not in ("li", "ori", "addi", "addiu"):
            return False
        value, is_spim = self.source.value(loaded.operands[-1]), loaded.operands[0] == "$v0"
        return value == 2 and self.order[at].operation == "syscall" or is_spim and value in (10, 17)

    def followers(self, at: int) -> List[int]:
        """What may run right after an instruction: of one in a delay slot, what its jump leads to."""
        before = self.order[at - 1] if at else None
        if self.order[at].operation == "syscall" and self.is_exit(at) or before is not None and before.operation == "jalr" and self.is_exit(at - 1):
            return []
        if before is None or before.operation not in ALL_BRANCHES | JUMPS or before.address + before.size != self.order[at].address:
            return [at + 1] if at + 1 < len(self.order) else []
        goal = self.place(before.operands[-1]) if before.operands else None
        found = [] if goal is None else [goal]
        if before.operation in ("jr", "jalr"):
            found = self.taken + (self.returns if before.operation == "jr" else [])
        goes_on = before.operation not in ("b", "j", "jr") or self.order[at].label  # which may be reached without the jump too
        return found + ([at + 1] if goes_on and at + 1 < len(self.order) else [])

    def reached(self, begins: Iterable[int]) -> Set[int]:
        """All that may run from these instructions on, with them."""
        found: Set[int] = set()
        left = list(begins)
        while left:
            at = left.pop()
            if at not in found:
                found.add(at)
                left += self.next[at]
        return found

    def within(self, at: int) -> List[int]:
        """What may run after an instruction in its own function: after a call, what it comes back to."""
        before = self.order[at - 1].operation if at else ""
        if before in LINKS | {"jalr"} and self.order[at - 1].address + self.order[at - 1].size == self.order[at].address:
            return [at + 1] if at + 1 < len(self.order) and self.comes_back(at - 1) else []
        return [] if before == "jr" and not self.order[at].label else self.next[at]

    def comes_back(self, at: int) -> bool:
        """Whether a call may come back: what it calls isn't known, or has a `jr`, and it isn't an exit."""
        if self.is_exit(at):
            return False
        goal = self.place(self.order[at].operands[-1]) if self.order[at].operation in LINKS and self.order[at].operands else None
        return goal is None or any(self.order[it].operation == "jr" for it in self.reached([goal]))

    def lost_returns(self) -> List[Tuple[Statement, Statement]]:
        """Each call with the `jr $31` that goes back to it, since nothing sets `$31` between the two."""
        found = []
        for at, call in enumerate(self.order[:-2]):
            if call.operation in LINKS and self.comes_back(at):
                jump = next((self.order[it] for it in sorted(self.kept(at + 2)) if self.order[it].operation == "jr" and 31 in self.order[it].registers()), None)
                if jump is not None:
                    found.append((call, jump))
        return found

    def kept(self, begin: int) -> Set[int]:
        """What may run in a function from an instruction on, as long as nothing has set `$31`."""
        found: Set[int] = set()
        left = [begin]
        while left:
            at = left.pop()
            if at not in found:
                found.add(at)
                if 31 not in written(self.order[at]):
                    left += self.within(at)
        return found

    def unset(self, number: int) -> Set[int]:
        """The instructions that the program reaches from its begin, and always before this register was set. Where the kernel or
        a register leads to, it may be set."""
        after = [follower for at, it in enumerate(self.order) if number in written(it) for follower in self.next[at]]
        begin = self.place("start") or 0
        return self.reached([begin] if self.order else []) - self.reached(after + self.taken)
