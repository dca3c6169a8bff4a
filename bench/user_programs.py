"""Makes random user programs of MIPS I: `made(seed)` answers the program of a seed.

A program begins by reading HI, LO and $1 to $31 from the start of the page at FIXED, and ends with an exception: one that
it was made to raise, or the BREAK at `end`. bench/against_qemu, which runs them, says what is in them.
"""
from __future__ import annotations

import random
import struct
from typing import Callable, Collection, Dict, List, NamedTuple, Optional, Sequence, Set, Tuple, Union

import measuring  # which has the cases' folder on the path
from binary import addi, addiu, immediate, lui, ori, register

Word = Union[int, Callable[[], int]]  # or what answers it once all places are known
PAGE = 4096
# The pages of a program. Before and behind each of these nothing is mapped.
CODE, CODE_END = 0x00400000, 0x00402000
DATA, DATA_END = 0x10000000, 0x10002000
FIXED = 0x10010000  # may only be read

# --- Words ----------------------------------------------------------------------------------------------------

SHIFTS = {"sll": 0, "srl": 2, "sra": 3}
SHIFTS_BY = {"sllv": 4, "srlv": 6, "srav": 7}
SUMS = {"addu": 33, "subu": 35, "and": 36, "or": 37, "xor": 38, "nor": 39, "slt": 42, "sltu": 43}
FAULTING_SUMS = {"add": 32, "sub": 34}
PRODUCTS = {"mult": 24, "multu": 25}
QUOTIENTS = {"div": 26, "divu": 27}
MOVES_FROM, MOVES_TO = {"mfhi": 16, "mflo": 18}, {"mthi": 17, "mtlo": 19}
JUMPS_BY = {"jr": 8, "jalr": 9}
JUMPS = {"j": 2, "jal": 3}
IMMEDIATES = {"addiu": 9, "slti": 10, "sltiu": 11, "andi": 12, "ori": 13, "xori": 14}
BRANCHES = {"beq": 4, "bne": 5, "blez": 6, "bgtz": 7}
SIGN_BRANCHES = {"bltz": 0, "bgez": 1, "bltzal": 16, "bgezal": 17}
LOADS = {"lb": 32, "lbu": 36, "lh": 33, "lhu": 37, "lw": 35, "lwl": 34, "lwr": 38}
STORES = {"sb": 40, "sh": 41, "sw": 43, "swl": 42, "swr": 46}
ACCESSES = {**LOADS, **STORES}
WIDTHS = {"lh": 2, "lhu": 2, "sh": 2, "lw": 4, "sw": 4}  # of those that have to be aligned
NOP, SYSCALL, BREAK = 0, 12, 13
# The name of each instruction, by its opcode and what else tells it from others.
NAMES = {
    **{(0, function): name for table in (SHIFTS, SHIFTS_BY, SUMS, FAULTING_SUMS, PRODUCTS, QUOTIENTS, MOVES_FROM, MOVES_TO, JUMPS_BY)
       for name, function in table.items()},
    **{(1, field): name for name, field in SIGN_BRANCHES.items()},
    **{(opcode, 0): name for table in (JUMPS, BRANCHES, IMMEDIATES, ACCESSES) for name, opcode in table.items()},
    (0, BREAK): "break", (8, 0): "addi", (15, 0): "lui",
}


def half(rd: int, rt: int) -> int:
    """SRA by 1: a number whose sum with another such number fits."""
    return register(SHIFTS["sra"], 0, rt, rd, 1)


def number(rt: int, value: int) -> List[int]:
    """Two words that put a number into a register."""
    return [lui(rt, value >> 16), ori(rt, rt, value)]


def break_of(code: int) -> int:
    return code << 6 | BREAK


def name_of(word: int) -> Optional[str]:
    """The instruction's name, if a user may run it."""
    opcode = word >> 26
    return NAMES.get((opcode, word & 63 if opcode == 0 else word >> 16 & 31 if opcode == 1 else 0))


# --- Random programs ------------------------------------------------------------------------------------------

# `start` is the first instruction's address, `begin` that of the first one behind the loads of all registers; `names` are
# those of the instructions.
class Program(NamedTuple):
    """A program, where it starts, where its random part begins and ends, the exception that it raises if any, and the names of its words."""

    code: bytes
    data: bytes
    fixed: bytes
    start: int
    begin: int
    end: int
    raised: Optional[str]
    names: Set[Optional[str]]


SPECIAL = (0, 1, 2, 3, 4, 31, 32, 0x7F, 0x80, 0xFF, 0x7FFF, 0x8000, 0xFFFF, 0x7FFFFFFF, 0x80000000, 0x80000001, 0xFFFF8000,
           0xFFFFFFFE, 0xFFFFFFFF)
# Words of 64 bits' instructions, which no MIPS of 32 bits has, and words of coprocessors.
RESERVED = (0x00000014, 0x0000001C, 0x0000002C, 0x0000002F, 0x00000038, 0x60000000, 0x68000000, 0x6C000000, 0x9C000000,
            0xB0000000, 0xD0000000, 0xDC000000, 0xFC000000)
COPROCESSORS = (0x40086000, 0x40886000, 0x42000010, 0x42000002, 0x42000008, 0x44080000, 0x46000000, 0x48080000, 0xC4080000,
                0xE4080000, 0xC8080000, 0xE8080000)
NOWHERE = (0x00000000, 0x00000FFC, 0x00403000, 0x004FFFFC, 0x0FFFFFFC, 0x10002000, 0x1000FFFC, 0x10011000, 0x20000000, 0x30000000)
KERNEL = (0x80000000, 0x8000FFFC, 0xA0000000, 0xBFC00000, 0xC0000000, 0xFFFF0000, 0xFFFFFFFC)


class Maker:
    """Makes the program of a seed. `words` has a word at each place, or a function that answers it once all places are known.

    Five registers are kept: two point to data, one to FIXED, and two count rounds of loops. All others are free, and an
    instruction may write any of them at any time; what needs certain numbers puts them there just before."""

    def __init__(self, seed: int):
        self.chance = random.Random(seed)
        self.words: List[Word] = []
        self.labels: Dict[object, int] = {}
        self.functions: List[object] = []
        self.offset = 0
        self.singles: List[int] = []  # places of instructions that may be stored over
        kept = self.chance.sample(range(1, 31), 5)
        self.pointers, self.fixed, self.counters = kept[:2], kept[2], kept[3:]
        self.free = [name for name in range(1, 32) if name not in kept]
        self.values = {self.pointers[0]: DATA + self.chance.randrange(0x2000), self.pointers[1]: DATA_END - 4 * self.chance.randrange(64),
                       self.fixed: FIXED + 4 * self.chance.randrange(64)}
        self.is_leaf = False  # in a function, where $31 is the address to go back to
        self.raised = self.chance.choice([*self.RAISED]) if self.chance.random() < 0.5 else None

    def number_of(self, table: Dict[str, int]) -> int:
        return self.chance.choice([*table.values()])

    def target(self) -> int:
        """A register to write, seldom $0."""
        name = 0 if self.chance.random() < 0.04 else self.chance.choice(self.free)
        return 0 if self.is_leaf and name == 31 else name

    def source(self, but: Optional[int] = None) -> int:
        while (name := self.chance.choice((0, *self.free * 3, *self.pointers, self.fixed, *self.counters))) == but:
            pass
        return name

    def two(self) -> List[int]:
        """Two free registers, neither of which is $31."""
        return self.chance.sample([name for name in self.free if name != 31], 2)

    def small(self) -> int:
        return self.chance.choice((0, 1, 2, -1, -2, 0x7FFF, -0x8000, self.chance.randrange(-0x8000, 0x8000)))

    # Single instructions, none of which branches or raises an exception.

    def single(self) -> int:
        kind = self.chance.random()
        if kind < 0.13:
            return register(self.number_of(SHIFTS), 0, self.source(), self.target(), self.chance.choice((0, 1, 31, self.chance.randrange(32))))
        if kind < 0.22:
            return register(self.number_of(SHIFTS_BY), self.source(), self.source(), self.target())
        if kind < 0.42:
            return register(self.number_of(SUMS), self.source(), self.source(), self.target())
        if kind < 0.58:
            return immediate(self.number_of(IMMEDIATES), self.source(), self.target(), self.small())
        if kind < 0.61:
            return lui(self.target(), self.chance.randrange(1 << 16))
        if kind < 0.62:
            return addi(self.target(), 0, self.small())
        if kind < 0.66:
            return register(self.number_of(PRODUCTS), self.source(), self.source())
        if kind < 0.69:
            return register(self.number_of(MOVES_FROM), to=self.target())
        if kind < 0.70:
            return register(self.number_of(MOVES_TO), self.source())
        return self.access()

    def access(self) -> int:
        """A load where memory is, or a store where it may be stored to."""
        name = self.chance.choice([*ACCESSES])
        if name in LOADS and self.chance.random() < 0.2:
            base, place = self.fixed, FIXED + self.chance.randrange(PAGE)
        else:
            base = self.chance.choice(self.pointers)
            place = DATA + self.chance.choice((self.chance.randrange(0x2000), self.chance.randrange(0xFF0, 0x1010)))
        rt = self.target() if name in LOADS else self.source()
        return immediate(ACCESSES[name], base, rt, (place & -WIDTHS.get(name, 1)) - self.values[base])

    # Elements of a block.

    def put(self, *words: Word) -> None:
        self.words.extend(words)

    def put_single(self) -> None:
        self.singles.append(len(self.words))
        self.put(self.single())

    def block(self, count: int, depth: int) -> None:
        """So many elements; a branch goes to the begin of one that follows, or to the end."""
        labels = [object() for _ in range(count + 1)]
        for place, label in enumerate(labels[:-1]):
            self.labels[label] = len(self.words)
            self.element(labels[place + 1 : place + 9], depth)
        self.labels[labels[-1]] = len(self.words)

    def element(self, following: Sequence[object], depth: int) -> None:
        kind = self.chance.random()
        if kind < 0.55:
            self.put_single()
        elif kind < 0.69:
            self.branch(self.chance.choice(following))
        elif kind < 0.75:
            self.jump(self.chance.choice(following))
        elif kind < 0.81 and depth < 2:
            self.loop(depth)
        elif kind < 0.84 and not self.is_leaf:
            self.call()
        elif kind < 0.88:
            self.patch()
        elif kind < 0.92:
            self.quotient()
        elif kind < 0.96:
            self.sum()
        else:
            self.load_base()

    def address(self, label: object) -> int:
        return CODE + 4 * (self.offset + self.labels[label])

    def put_branch(self, word: int, label: object) -> None:
        place = len(self.words)
        self.put(lambda: word | (self.labels[label] - place - 1) & 0xFFFF)

    def branch(self, label: object) -> None:
        if self.chance.random() < 0.6:
            name, rs = self.chance.choice([*BRANCHES]), self.source()
            rt = self.chance.choice((rs, self.source(), self.source())) if name in ("beq", "bne") else 0
            self.put_branch(immediate(BRANCHES[name], rs, rt, 0), label)
        else:
            name = self.chance.choice(("bltz", "bgez") if self.is_leaf else [*SIGN_BRANCHES])
            self.put_branch(immediate(1, self.source(but=31), SIGN_BRANCHES[name], 0), label)  # of $31 BLTZAL isn't defined
        self.put_single()

    def jump(self, label: object) -> None:
        if self.chance.random() < 0.5:
            opcode = JUMPS["j"] if self.is_leaf else self.number_of(JUMPS)
            self.put(lambda: opcode << 26 | self.address(label) >> 2)
        else:
            rs, rd = self.two()
            rd = rd if self.is_leaf else self.chance.choice((rd, 31, 0))
            self.put(lambda: lui(rs, self.address(label) >> 16), lambda: ori(rs, rs, self.address(label)))
            self.put(self.chance.choice((register(JUMPS_BY["jr"], rs), register(JUMPS_BY["jalr"], rs, 0, rd))))
        self.put_single()

    def loop(self, depth: int) -> None:
        counter, label = self.counters[depth], object()
        self.put(addiu(counter, 0, self.chance.randrange(1, 7)))
        self.labels[label] = len(self.words)
        self.block(self.chance.randrange(1, 9), depth + 1)
        self.put(addiu(counter, counter, -1))
        self.put_branch(self.chance.choice((immediate(5, counter, 0, 0), immediate(5, 0, counter, 0), immediate(7, counter, 0, 0))), label)
        self.put_single()

    def call(self) -> None:
        label = object()
        self.functions.append(label)
        self.put(lambda: JUMPS["jal"] << 26 | self.address(label) >> 2)
        self.is_leaf = True
        self.put_single()
        self.is_leaf = False

    def function(self, label: object) -> None:
        """A function, which is a block without loops, calls and writes of $31."""
        self.is_leaf = True
        self.labels[label] = len(self.words)
        self.block(self.chance.randrange(1, 6), 2)
        self.put(register(JUMPS_BY["jr"], 31))
        self.put_single()
        self.is_leaf = False

    def quotient(self) -> None:
        """A division that is defined: by a number that is neither 0 nor -1, or of one that isn't -2^31 by an odd number."""
        rs, rt = self.two()
        if self.chance.random() < 0.5:
            divisor = self.chance.choice((1, 2, 3, 7, -2, -3, -7, 10, 0x7FFF, -0x8000))
            self.put(addiu(rt, 0, divisor), register(self.number_of(QUOTIENTS), self.source(but=rt), rt))
        else:
            self.put(half(rs, self.source()), ori(rt, self.source(but=rs), 1), register(self.number_of(QUOTIENTS), rs, rt))

    def sum(self) -> None:
        """An ADD, SUB or ADDI that fits, and seldom one that may not."""
        first, second = self.two()
        if self.chance.random() < 0.03:
            self.put(register(self.number_of(FAULTING_SUMS), self.source(), self.source(), self.target()))
        elif self.chance.random() < 0.6:
            self.put(half(first, self.source()), half(second, self.source(but=first)))
            self.put(register(self.number_of(FAULTING_SUMS), first, second, self.target()))
        else:
            self.put(half(first, self.source()), addi(self.target(), first, self.small()))

    def load_base(self) -> None:
        """A load into its own base register."""
        base, _ = self.two()
        name = self.chance.choice([*LOADS])
        self.put(*number(base, DATA + self.chance.randrange(0x2000) // 4 * 4 + (0 if name in WIDTHS else self.chance.randrange(4))))
        self.put(immediate(LOADS[name], base, base, 0))

    def patch(self) -> None:
        """A store over an instruction that runs later, or has run: over all of it at odd places, and over its number of 16 bits or
        a byte of that at even ones, so that a number is never put into an instruction that has other fields there."""
        value, pointer = self.two()
        here, is_near, pick = len(self.words), self.chance.random() < 0.3, self.chance.randrange(1 << 16)
        is_leaf, self.is_leaf = self.is_leaf, True
        word = self.single()
        self.is_leaf = is_leaf
        stores = self.chance.choice(((("sw", 0),), (("sw", 0),), (("swr", 0), ("swl", 3)), (("sh", 0),), (("swl", 1),), (("sb", 0),), (("sb", 1),)))
        is_whole = stores[0][0] in ("sw", "swr")

        def address() -> int:
            """The place to store over: the one behind the store, or one that isn't far; or in the data, if there is none."""
            places = [place for place in self.singles if here - 40 < place < here + 60 and is_whole == place % 2]
            found = [(place, self.words[place]) for place in places]
            places = [place for place, word in found if is_whole or isinstance(word, int) and word >> 26 in range(9, 16)]
            behind = [place for place in places if place == here + 4 + len(stores)]
            places = behind if is_near and behind else places
            return CODE + 4 * (self.offset + places[pick % len(places)]) if places else DATA

        self.put(*number(value, word), lambda: lui(pointer, address() >> 16), lambda: ori(pointer, pointer, address()))
        self.put(*(immediate(STORES[name], pointer, value, offset) for name, offset in stores))

    # Exceptions on purpose.

    def put_raised(self) -> None:
        """The words of an exception, the last of which raises it, by itself or in a delay slot."""
        words = self.RAISED[self.raised or ""](self)
        if words[-1] >> 26 == 0 and words[-1] & 63 in JUMPS_BY.values():
            self.put(*words, self.single())
        elif self.chance.random() < 0.4:
            self.put(*words[:-1])
            place = len(self.words)
            branches: Tuple[Union[int, Callable[[], int]], ...] = (
                immediate(self.number_of(BRANCHES), self.source(), 0, 1),
                immediate(1, self.source(but=31), self.number_of(SIGN_BRANCHES), 1),
                lambda: JUMPS["jal"] << 26 | CODE + 4 * (self.offset + place + 2) >> 2,
            )
            self.put(self.chance.choice(branches), words[-1])
        else:
            self.put(*words)

    def overflow(self) -> List[int]:
        first, second = self.two()
        big, add, sub = self.chance.randrange(1 << 30), *FAULTING_SUMS.values()
        return self.chance.choice((
            [*number(first, 0x7FFFFFFF - big), *number(second, big + 1 + self.chance.randrange(1 << 30)),
             register(add, first, second, self.target())],
            [*number(first, 0x80000000 + big), *number(second, 0xFFFFFFFF - big), register(add, first, second, self.target())],
            [*number(first, 0x80000000 + big), *number(second, big + 1), register(sub, first, second, self.target())],
            [*number(second, 0x80000000), register(sub, 0, second, self.target())],
            [*number(first, 0x7FFFFFFF), addi(self.target(), first, 1 + self.chance.randrange(0x7FFF))],
            [*number(first, 0x80000000), addi(self.target(), first, -1 - self.chance.randrange(0x7FFF))],
        ))

    def access_at(self, names: Collection[str], place: int) -> List[int]:
        """A load or store at a place."""
        (base, _), name, offset = self.two(), self.chance.choice([*names]), self.small()
        rt = self.target() if name in LOADS else self.source()
        return [*number(base, (place - offset) & 0xFFFFFFFF), immediate(ACCESSES[name], base, rt, offset)]

    def misaligned(self) -> List[int]:
        place = self.chance.choice((DATA + 4 * self.chance.randrange(0x7F0), FIXED + 8, *NOWHERE, *KERNEL))
        if self.chance.random() < 0.3:
            return self.access_at(("lw", "sw"), place + 2)
        return self.access_at(WIDTHS, place + self.chance.choice((1, 3)))

    def access_of(self, places: Sequence[int]) -> List[int]:
        """A load or store of any kind at one of these places, which are aligned."""
        name, place = self.chance.choice([*ACCESSES]), self.chance.choice(places)
        return self.access_at((name,), place if name in WIDTHS else place + self.chance.randrange(4))

    def read_only(self) -> List[int]:
        return self.access_at(STORES, FIXED + 4 * self.chance.randrange(1024))

    def jump_at(self, place: int) -> List[int]:
        base, other = self.two()
        return [*number(base, place), self.chance.choice((register(JUMPS_BY["jr"], base), register(JUMPS_BY["jalr"], base, 0, other)))]

    RAISED = {
        "an overflow": overflow,
        "a misaligned access": misaligned,
        "an access to a page that isn't there": lambda self: self.access_of(NOWHERE),
        "an access from 0x80000000 on": lambda self: self.access_of(KERNEL),
        "a store to a page that may only be read": read_only,
        "a reserved word": lambda self: [self.chance.choice(RESERVED)],
        "an instruction of a coprocessor": lambda self: [self.chance.choice(COPROCESSORS)],
        "a BREAK": lambda self: [break_of(self.chance.randrange(16, 1023))],
        "a jump to where nothing is": lambda self: self.jump_at(self.chance.choice((*NOWHERE, *KERNEL))),
        "a jump to a misaligned address": lambda self: self.jump_at(
            self.chance.choice((CODE, DATA, *NOWHERE, *KERNEL)) + self.chance.randrange(1, 4)),
        # the last word there may be a branch
        "a fetch behind the last page of code": lambda self: self.jump_at(CODE_END - 4 * self.chance.randrange(1, 3)),
    }

    # The whole program.

    def put_all(self) -> Tuple[int, int]:
        """Puts its instructions, and answers the places of the first behind the loads of all registers, and of the last BREAK."""
        self.put(lui(31, FIXED >> 16))
        for place, move in enumerate(MOVES_TO.values()):
            self.put(immediate(LOADS["lw"], 31, 1, 4 * place), register(move, 1))
        self.put(*(immediate(LOADS["lw"], 31, name, 4 + 4 * name) for name in range(1, 32)))
        begin, count = len(self.words), self.chance.choice((10, 30, 60, 60, 100))
        before = self.chance.randrange(count + 1) if self.raised else count
        self.block(before, 0)
        if self.raised:
            self.put_raised()
        self.block(count - before, 0)
        end = len(self.words)
        self.put(break_of(1023))
        for label in self.functions:
            self.function(label)
        return begin, end

    def program(self) -> Program:
        begin, end = self.put_all()
        # the border of the two pages of code lies in the random part
        self.offset = max(0, min(1024 - self.chance.randrange(begin, end + 1), 2046 - len(self.words)))
        words = [word if isinstance(word, int) else word() for word in self.words]
        code = bytearray(CODE_END - CODE)
        struct.pack_into(f"<{len(words)}I", code, 4 * self.offset, *words)
        if self.chance.random() < 0.5:
            struct.pack_into("<I", code, len(code) - 4, immediate(self.chance.choice((4, 5)), 0, 0, -8))
        values = [self.chance.choice((self.chance.choice(SPECIAL), self.chance.getrandbits(32))) for _ in range(33)]
        for name, value in self.values.items():
            values[name + 1] = value
        fixed = struct.pack("<33I", *values) + self.chance.randbytes(PAGE - 132)
        first, random_begin, random_end = (CODE + 4 * (self.offset + place) for place in (0, begin, end))
        return Program(bytes(code), self.chance.randbytes(DATA_END - DATA), fixed, first, random_begin, random_end, self.raised,
                       {name_of(word) for word in words} - {None})


def made(seed: int) -> Program:
    """The program of a seed."""
    return Maker(seed).program()
