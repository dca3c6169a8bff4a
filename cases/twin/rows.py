"""Pairs of runs whose first difference was found by hand, from docs/KERNEL.md, docs/MODEL.md and docs/REPORT.md.

Environment 0 is looked at. Its item 0 is its record and item 1 the start of its first slice; an instruction is a step, and a call is a
step and an answer. A call of N arguments takes N + 2 instructions. Each program has two guaranteed pages, so with two of them page 4 is
the first that is free; 10 is taken by number.
"""
from __future__ import annotations

import struct
import sys
from hashlib import sha256
from typing import Dict, Iterator, List, NamedTuple, Sequence, Tuple

sys.dont_write_bytecode = True
import binary
from binary import BEQ, BNE, NOP, SYSCALL, addiu, branch, lui, move, number, sw
from kernel_calls import ACCEPT, ALLOC, BACKUP, BIND, CLAIM, CLOCK, CONTEXT, EXIT, FREE, LINE, QUERY, RECAP, TRANSFER, YIELD

BASE, PAGE, EMPTY, STACK_POINTER = 0x2000, 4096, 255, 0x7FFEFFF0
ANY, ALL = -1, 0xFFFF
ENDS, ASYNCHRONOUS, SYNCHRONOUS = 2, 3, 4
DONE, FOUND = 0, 1
FILTER = BASE + 0x200  # where a program has the filter that matches each packet


class Run(NamedTuple):
    """A side: an image and a schedule."""

    image: bytes
    schedule: str = ""


class Row(NamedTuple):
    name: str
    left: Run
    right: Run
    slices: int
    status: int
    text: str
    env: int = 0


def put(register: int, value: int) -> int:
    """An instruction that puts a number into a register: of 16 bits, or -1."""
    return addiu(register, 0, -1) if value < 0 else number(register, value)


def call(number_: int, *arguments: int) -> List[int]:
    return [put(4 + place, value) for place, value in enumerate(arguments)] + [number(2, number_), SYSCALL]


SPIN = [branch(BEQ, 0, -1), NOP]
COUNT = [addiu(8, 8, 1), branch(BEQ, 0, -2), NOP]
YIELDS = [addiu(4, 0, -1), SYSCALL, branch(BEQ, 0, -2), NOP]  # its $2 is 0, a yield, at boot and behind each answer
GIVE_UP = call(YIELD, ANY)
ALLOCATES, BINDS = call(ALLOC, 10, 5, 0, 9, 0), call(BIND, 0x500, 10, 1, 0, 0)  # seven instructions each
READS = call(BIND, 0x500, 10, 0, 5, 0)  # of another's page, by the read word


def stores(value: int) -> List[int]:
    """Three instructions that store a number where page 10 is bound."""
    return [number(10, value), lui(9, 0x50), sw(10, 9, 0)]


def body(words: Sequence[int]) -> bytes:
    return binary.code(words)


def flat(words: Sequence[int], name: str = "a", accept: int = 0) -> binary.Program:
    return binary.Program(name, body(words), BASE, accept=accept)


def machine(*programs: Sequence[int], slots: Sequence[int] = (), quantum: int = 16, pages: int = 64, version: int = 1, masks: Sequence[int] = ()) -> bytes:
    """An image of flat programs `a`, `b` and so on, by default with a slot each."""
    made = [flat(words, "abcdefgh"[at], masks[at] if at < len(masks) else 0) for at, words in enumerate(programs)]
    return binary.image(pages, quantum, slots or range(len(programs)), made, version)


def sha(data: bytes) -> str:
    return sha256(data).hexdigest()


def record(words: Sequence[int], name: str = "a", accept: int = 0) -> str:
    """The SHA of a flat program's record: number, name, entry, mask, and two pages to store to, the context page and its own."""
    head = b"\0" + name.encode().ljust(8, b"\0") + struct.pack("<II", BASE, accept)
    return sha(head + struct.pack("<II", 1, 1) + bytes(PAGE) + struct.pack("<II", 2, 1) + body(words).ljust(PAGE, b"\0"))


def differ(index: int, left: str, right: str) -> str:
    return f"differ {index}\n{left}\n{right}\n"


def shown(words: Sequence[int], pc: int, registers: Dict[int, int], excess: int = 0, context: bytes = b"", more: str = "") -> str:
    """The line `same` of a flat program that has a page of code, is stopped here, and owes so much; with the bytes of its context page
    up to the zeros, and the lines of its bindings."""
    values = {29: STACK_POINTER, **registers}
    lines = ["env 0 a live", 'out 0 0 ""', f"cpu 0 {pc:08x} {pc + 4:08x} 0 00000000 00000000",
             "regs 0 " + " ".join(f"{values.get(place, 0):08x}" for place in range(1, 32)), f"excess 0 {excess}",
             f"keep 0 00001 {sha(context.ljust(PAGE, bytes(1)))}", f"keep 0 00002 {sha(body(words).ljust(PAGE, bytes(1)))}"]
    return f"same 0 {sha(''.join(f'{line}{chr(10)}' for line in [*lines, *more.splitlines()]).encode())}\n"


# --- The record ------------------------------------------------------------------------------------------------


def records() -> Iterator[Row]:
    """Images whose records differ, which is item 0. The versions are told by no line."""
    def pair(name: str, left: bytes, right: bytes, *shas: str) -> Row:
        return Row(name, Run(left), Run(right), 1, FOUND, differ(0, *(f"boot {it}" for it in shas)))

    one = machine(COUNT)
    yield pair("versions", one, machine(COUNT, version=2), record(COUNT), record(COUNT))
    yield pair("names", one, binary.image(64, 16, [0], [flat(COUNT, "b")]), record(COUNT), record(COUNT, "b"))
    yield pair("masks", one, machine(COUNT, masks=[1 << 31]), record(COUNT), record(COUNT, accept=1 << 31))
    other = [*COUNT, 1]
    yield pair("a byte of a page", one, machine(other), record(COUNT), record(other))
    elves = [binary.elf(entry, [binary.Segment(BASE, body([NOP, *COUNT]))]) for entry in (BASE, BASE + 4)]
    pages = struct.pack("<II", 1, 1) + bytes(PAGE) + struct.pack("<II", 2, 0) + body([NOP, *COUNT]).ljust(PAGE, b"\0")
    entries = [sha(b"\0a" + bytes(7) + struct.pack("<II", entry, 0) + pages) for entry in (BASE, BASE + 4)]
    left, right = (binary.image(64, 16, [0], [binary.Program("a", it, is_elf=True)]) for it in elves)
    yield pair("entries", left, right, *entries)


# --- Slices ----------------------------------------------------------------------------------------------------


def slices() -> Iterator[Row]:
    """Slices of 16 and 17 ticks, with and without a handler of ends; ends of runs."""
    left, right = Run(machine(COUNT)), Run(machine(COUNT, quantum=17))
    yield Row("a feed that ends first", left, right, 1, FOUND, differ(18, "none", "step"))
    yield Row("a feed that ends first, on the right", right, left, 1, FOUND, differ(18, "step", "none"))
    yield Row("a start", left, right, 2, FOUND, differ(18, "start", "step"))
    # 4 steps and an answer, 12 steps, the end; the handler yields
    ends = [*call(CONTEXT, ENDS, BASE + 24), *SPIN, *GIVE_UP, *SPIN]
    yield Row("an end", Run(machine(ends)), Run(machine(ends, quantum=20)), 1, FOUND, differ(19, "end", "step"))
    exits = call(EXIT, 7)
    yield Row("a death before slice 2", Run(machine(exits)), Run(machine(exits)), 2, FOUND, "short left 1\n")
    yield Row("a death in slice 1 on the right", left, Run(machine(exits)), 2, FOUND, "short right 1\n")
    yield Row("short on both sides is left", Run(machine(exits)), Run(machine(exits, slots=[EMPTY])), 2, FOUND, "short left 1\n")
    idle = Run(machine(COUNT, slots=[EMPTY]))
    yield Row("an idle board", idle, left, 1, FOUND, "short left 0\n")
    yield Row("an idle board on the right", left, idle, 1, FOUND, "short right 0\n")
    yield Row("an absent environment", left, left, 1, FOUND, "short left 0\n", 1)
    yield Row("the last number", left, left, 1_000_000, FOUND, "short left 0\n", 31)
    yield Row("an environment that is absent on the right", Run(machine(COUNT, COUNT)), left, 1, FOUND, "short right 0\n", 1)
    yield Row("a difference before a run that is short", left, Run(machine([*COUNT, 1], slots=[EMPTY])), 1, FOUND, "short right 0\n")
    # 4,194,304 ticks are 262,144 slices of 16. The first one adds six times, and each other ends at the branch, which runs again, and adds
    # five times
    yield Row("the most slices of 16 ticks", left, left, 262_144, DONE, shown(COUNT, BASE + 4, {8: 6 + 5 * 262_143}))
    yield Row("one more", left, left, 262_145, FOUND, "short left 262144\n")
    yield Row("a million slices", left, left, 1_000_000, FOUND, "short left 262144\n")
    # it yields in its second tick, and then in each third
    both = Run(machine(YIELDS))
    yield Row("a million slices that are reached", both, both, 1_000_000, DONE, shown(YIELDS, BASE + 8, {4: 0xFFFFFFFF}))


def given_slices() -> Iterator[Row]:
    """Environment 0 handles ends. In its first grace it runs 24 ticks, owes a quantum, and yields. Then environment 1 gives it a slice:
    on the left before the forfeit, on the right behind it. The first slice has the items up to 44: 16 steps with a call, the end, 24
    steps and the answer. The gift has 13 ticks.
    """
    handler = BASE + 24
    begins = [*call(CONTEXT, ENDS, handler), *SPIN, branch(BNE, 16, 23), NOP, number(16, 1), *[NOP] * 18, *GIVE_UP]
    gives = [*call(YIELD, 0), *SPIN]

    def sides(words: Sequence[int]) -> List[Run]:
        return [Run(machine(words, other, masks=[2])) for other in (gives, [*[NOP] * 16, *gives])]

    # the start, 13 steps, the end, and 8 quanta of grace; on the right 9
    left, right = sides([*begins, *SPIN])
    yield Row("death by excess", left, right, 2, FOUND, differ(188, "killed excess", "step"))
    # It yields in the slice that it was given. The end area has $26, which was 0, and the address of the loop. Now it owes a quantum on the
    # left alone
    yields = [*begins, *GIVE_UP, *SPIN]
    left, right = sides(yields)
    registers, area = {4: 0xFFFFFFFF, 5: handler, 16: 1, 26: BASE + 16}, bytes(0x54) + struct.pack("<I", BASE + 16)
    for name, pair, excess in (("more excess", (left, right), 1), ("less excess", (right, left), 0)):
        yield Row(name, *pair, 2, DONE, shown(yields, BASE + 4 * 33, registers, excess, area))


# --- What others and the kernel give ---------------------------------------------------------------------------


def shared_pages() -> Iterator[Row]:
    """Environment 1 has page 10, and yields in tick 16 of its first slice of 32; then environment 0 binds the page by its word to read
    it. Its first slice has the items up to 35: 7 steps, the answer, the page, 25 steps."""
    reads = [*READS, *SPIN]

    def run(*more: int, before: Sequence[int] = ()) -> Run:
        return Run(machine(reads, [*ALLOCATES, *BINDS, *before, *GIVE_UP, *more, *SPIN], slots=[1, 0], quantum=32))

    def word(value: int) -> bytes:
        return struct.pack("<I", value)

    one, two = run(*stores(1)), run(*stores(2))
    yield Row("bytes that another stores", one, two, 2, FOUND, differ(36, "left 10 0 01000000", "left 10 0 02000000"))
    yield Row("bytes that another stores behind the slice", one, two, 1, DONE,
              shown(reads, BASE + 4 * 7, {4: 0x500, 5: 10, 7: 5}, more="bind 0 00500 10 r"))
    yield Row("slices of 32 ticks of 64, from tick 17 on", one, one, 1_000_000, FOUND, "short left 65536\n")
    half = [number(10, 1), lui(9, 0x50), binary.immediate(41, 9, 10, 6)]  # SH
    yield Row("a half word", run(*half), one, 2, FOUND, differ(36, "left 10 6 0100", "left 10 0 01000000"))
    part = [number(10, 0x201), lui(9, 0x50), binary.immediate(42, 9, 10, 5)]  # SWL: the two high bytes, up to the address
    yield Row("a part of a word", run(*part), one, 2, FOUND, differ(36, "left 10 4 0000", "left 10 0 01000000"))
    left, right = (run(before=stores(value)) for value in (1, 2))
    pages = [sha(word(value) + bytes(PAGE - 4)) for value in (1, 2)]
    yield Row("a page with other bytes", left, right, 1, FOUND, differ(10, *(f"gained 10 r {it}" for it in pages)))
    none = run()
    for name, breaks in (("a recap", call(RECAP, 10, 1, 0, 1, 0)), ("a free", call(FREE, 10)), ("a death", call(EXIT, 0))):
        yield Row(f"a page that is lost by {name}", run(*breaks), none, 2, FOUND, differ(36, "lost 10", "start"))


def answers() -> Iterator[Row]:
    """What calls are answered, in the first slice and in its last tick."""
    clock = [*call(CLOCK), *SPIN]
    first, second = (Run(machine(clock, COUNT, slots=slots)) for slots in ((0, 1), (1, 0)))
    yield Row("an answer", first, second, 1, FOUND, differ(4, "answer 0 1", "answer 0 17"))
    last = [*[NOP] * 14, *call(CLOCK), *SPIN]
    first, second = (Run(machine(last, COUNT, slots=slots)) for slots in ((0, 1), (1, 0)))
    yield Row("the last item of the last slice", first, second, 1, FOUND, differ(18, "answer 0 15", "answer 0 31"))
    # the page's number is its answer
    some = [*call(ALLOC, ANY), *SPIN]
    yield Row("the lowest free page", Run(machine(some)), Run(machine(some, COUNT)), 1, FOUND, differ(5, "answer 0 2", "answer 0 4"))
    taken = [*call(ALLOC, 3), *SPIN]
    yield Row("a refusal", Run(machine(taken)), Run(machine(taken, COUNT)), 1, FOUND, differ(5, "answer 0 3", "answer 2 0"))
    # version 2: 12 free pages of 16, which environment 0 allocates by a loop of five instructions in its first slice of 64 ticks, with 24
    # items beside the steps; then environment 1 asks for one in its third tick
    hoards = [addiu(4, 0, -1), number(9, 12), number(2, ALLOC), SYSCALL, addiu(9, 9, -1), branch(BNE, 9, -4), NOP, *SPIN]
    wants, rests = (Run(machine(hoards, words, quantum=64, pages=16, version=2)) for words in ([*call(ALLOC, ANY), *SPIN], SPIN))
    yield Row("a page that another's call asks for", wants, rests, 2, FOUND, differ(90, "asked 1 194", "start"))


def packets() -> Iterator[Row]:
    """Packets, signals and revocations in tick 20. Environment 0 claims all packets into page 10 in twelve steps, with two answers and the
    page, and then has eight steps."""
    claims = [*ALLOCATES, *call(CLAIM, FILTER, 1, 10), *SPIN]
    claims += [NOP] * ((FILTER - BASE) // 4 - len(claims)) + [0x00010000, 0, 0]  # a byte at 0, with the mask 0
    image = machine(claims, quantum=32)
    one, two, none = (Run(image, f"20 packet {it}\n" if it else "") for it in ("aa", "bb01", ""))
    yield Row("a packet", one, two, 1, FOUND, differ(25, "packet 0 aa", "packet 0 bb01"))
    yield Row("no packet", none, two, 1, FOUND, differ(25, "step", "packet 0 bb01"))
    left, right = (Run(image, f"2{at} packet aa\n" * 2 + f"2{at} packet {it}\n") for at, it in ((0, "cc"), (0, "dd")))
    yield Row("packets that are lost", left, right, 1, FOUND, differ(27, "packet 0 cc", "packet 0 dd"))
    line = machine([*call(LINE, 3, 1), *SPIN], quantum=32)
    yield Row("a signal", Run(line, "20 line 3\n"), Run(line, "20 line 2\n"), 1, FOUND, differ(23, "line 3", "step"))
    left, right = (Run(machine(COUNT, quantum=32), f"20 revoke 0 {count} 500\n") for count in (1, 2))
    yield Row("a revocation", left, right, 1, FOUND, differ(22, "asked 1 520", "asked 2 520"))
    # Environment 1 has the ring bound, and environment 2 in its place doesn't claim
    sees = [*READS, *SPIN]
    beside = machine(sees, claims, slots=[1, 0], quantum=16, pages=64)
    ring = struct.pack("<I", 1) + b"\xaa" + bytes(PAGE - 5)
    # 7 steps, the answer, the page, 9 steps
    left, right = (Run(beside, text) for text in ("40 packet aa\n", ""))
    yield Row("a packet in another's ring", left, right, 2, FOUND, differ(20, f"left 10 0 {ring.hex()}", "start"))


def takings() -> Iterator[Row]:
    """Environment 0 has page 10, and 11 as a backup, in its first slice of 20 ticks: 17 steps with three answers and two pages, three
    more steps. In tick 20 it is asked for a page up to tick 24. On the left it runs then, on the right it waits for its neighbour."""
    loads = [*ALLOCATES, *call(ALLOC, 11, 5, 0, 9, 0), *call(BACKUP, 11), *SPIN]
    alone, beside = (Run(machine(*programs, quantum=20), "20 revoke 0 1 4\n") for programs in ((loads,), (loads, COUNT)))
    yield Row("a page that is taken, with a copy", alone, beside, 2, FOUND, differ(28, "start", "taken 10 11"))
    keeps = [*ALLOCATES, *SPIN]
    alone, beside = (Run(machine(*programs), "16 revoke 0 1 4\n") for programs in ((keeps,), (keeps, COUNT)))
    yield Row("a page that is taken", beside, alone, 2, FOUND, differ(21, "taken 10 -", "start"))
    # Environment 1 has page 10 and the backup 11, and is asked for a page in tick 60. Environment 0 sees the backup; it has read 7
    # steps, the answer, the page and 25 steps then
    gives = [*ALLOCATES, *BINDS, *stores(7), *call(ALLOC, 11, 5, 0, 9, 0), *call(BACKUP, 11), *SPIN]
    sees = [*call(BIND, 0x500, 11, 0, 5, 0), *SPIN]
    image = machine(sees, gives, slots=[1, 0], quantum=32)
    copy = struct.pack("<I", 7) + bytes(PAGE - 4)
    yield Row("a copy", Run(image, "60 revoke 1 1 4\n"), Run(image), 2, FOUND, differ(36, f"left 11 0 {copy.hex()}", "start"))


def thousands() -> Iterator[Row]:
    """Most of the items that a tick can give. Environment 1 has pages 4 to 131, of which the last 64 are backups, and yields in its tick
    1,218. Then environment 0 binds all 128, in a step and nine steps for each, and allocates the other 3,964 pages, in a step and six for
    each: 24,943 steps, with an answer and a page for each call. In the tick behind that all pages of both are asked for and taken: its own,
    and then 64 of environment 1, whose copies it sees, and which it loses. On the right the last two backups are loaded in the other order.
    """
    hoards = [*(put(place, value) for place, value in ((5, 5), (6, 0), (7, 9), (8, 0), (9, 128))),
              *call(ALLOC, ANY), addiu(9, 9, -1), branch(BNE, 9, -5), NOP,
              number(10, 68), number(9, 62), move(4, 10), number(2, BACKUP), SYSCALL, addiu(10, 10, 1), addiu(9, 9, -1), branch(BNE, 9, -6), NOP]
    sees = [*(put(place, value) for place, value in ((10, 4), (11, 0x500), (6, 0), (7, 5), (8, 0), (9, 128))),
            move(4, 11), move(5, 10), number(2, BIND), SYSCALL, addiu(10, 10, 1), addiu(11, 11, 1), addiu(9, 9, -1), branch(BNE, 9, -8), NOP,
            number(9, 3964), *call(ALLOC, ANY), addiu(9, 9, -1), branch(BNE, 9, -5), NOP, *SPIN]

    def run(*last: int) -> Run:
        words = [*hoards, *(word for page in last for word in call(BACKUP, page)), *GIVE_UP, *SPIN]
        image = machine(sees, words, slots=[1, 0], quantum=25_000, pages=4096, version=2)
        return Run(image, "26161 revoke 0 4096 0\n26161 revoke 1 4096 0\n")

    first = 2 + 24_943 + 2 * (128 + 3_964) + 1 + 3_964  # behind the revocation and its own takings
    pages = [f"left {page} 0 {bytes(PAGE).hex()}" for page in (130, 131)]
    yield Row("thousands of items in a tick", run(130, 131), run(131, 130), 1, FOUND, differ(first + 2 * 62, *pages))


def transfers() -> Iterator[Row]:
    """Environment 0 accepts, sets both entries, and yields, in 14 steps with four answers; environment 1 enters it in its fifth tick."""
    entry = BASE + 4 * 14
    serves = [*call(ACCEPT, ALL), *call(CONTEXT, ASYNCHRONOUS, entry), *call(CONTEXT, SYNCHRONOUS, entry), *GIVE_UP, *SPIN]

    def run(value: int, kind: int) -> Tuple[Run, str]:
        registers = {2: TRANSFER, 5: kind, 8: value, 29: STACK_POINTER}
        words = struct.pack("<33I", *(registers.get(place, 0) for place in range(1, 32)), 0, 0)
        return Run(machine(serves, [number(8, value), *call(TRANSFER, 0, kind), *SPIN], quantum=32)), f"transfer 1 {kind} {sha(words)}"

    (one, one_text), (two, two_text), (held, held_text) = run(1, 0), run(2, 0), run(1, 1)
    yield Row("a transfer with other registers", one, two, 2, FOUND, differ(20, one_text, two_text))
    yield Row("a transfer of another kind", one, held, 2, FOUND, differ(20, one_text, held_text))
    yield Row("no transfer", Run(machine(serves, COUNT, quantum=32)), two, 2, FOUND, differ(20, "start", two_text))


# --- Quiet environments, and files -----------------------------------------------------------------------------


ATTACKS = [*ALLOCATES, *[word for page in range(4) for word in (*call(BIND, 0x500, page, 1, 1, 1), *call(FREE, page))],
           *call(TRANSFER, 0, 0), *call(YIELD, 0), *call(LINE, 0, 1), *call(QUERY, 5, 0), *COUNT]
OVERRUNS = [*call(CONTEXT, ENDS, BASE + 16), *SPIN]
NEIGHBOURS = {"a quiet one": COUNT, "one that yields": YIELDS, "an overrunner": OVERRUNS, "an attacker": ATTACKS, "a suicide": call(EXIT, 1)}
EVENTS = "3 packet aa\n5 line 0\n20 revoke 1 3 5\n40 line 0\n41 packet 00\n"


def quiet() -> Iterator[Row]:
    """A program that calls nothing is the same beside whomever: after three slices of 16 ticks it has counted to 16, and stands
    at its branch."""
    same = shown(COUNT, BASE + 4, {8: 16})
    alone = Run(machine(COUNT))
    for name, words in NEIGHBOURS.items():
        yield Row(f"quiet beside {name}", alone, Run(machine(COUNT, words, slots=[1, 0, 1]), EVENTS), 3, DONE, same)
    yield Row("quiet beside itself", alone, alone, 3, DONE, same)
    three = Run(machine(COUNT, OVERRUNS, ATTACKS, slots=[1, 2, EMPTY, 0, 2], pages=32), EVENTS)
    yield Row("quiet beside two, and beside one", three, Run(machine(COUNT, ATTACKS)), 3, DONE, same)


ROWS = (records, slices, given_slices, shared_pages, answers, packets, takings, thousands, transfers, quiet)


def rows() -> Iterator[Row]:
    for group in ROWS:
        yield from group()
