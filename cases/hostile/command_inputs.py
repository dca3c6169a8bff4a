"""Good files of each format, and what is made of them: words of a command and the files that these name."""
from __future__ import annotations

import glob
import os
import random
import sys
from typing import Callable, Dict, Iterator, List, Sequence, Tuple

from commands import CASES, Files, is_command
from changes import drawn, whole

sys.path += [CASES, f"{CASES}/bare", f"{CASES}/wire"]
import bare_board
import binary
from assembler import assemble
from random_boards import Board
from files import Fault, read_image, read_schedule
from guests import System
from run_report import answer
from twin import Side

Input = Tuple[List[str], Files]
EXAMPLES = os.path.join(os.path.dirname(CASES), "examples")
SYSTEMS, BOARDS = range(40), range(40)  # the seeds of those whose files are changed
LONG, SHORT = 300, 60  # ticks
PLANS = (b"from 0\nclient 1 3\nclient 2 2\nclient 3 1\n", b"from 1\nclient 0 1\nclient 2 12\n",
         b"from 31\n" + b"".join(b"client %d 12\n" % env for env in range(8)))

SOURCE = b"""\
start:  li $4, text # a
 la $5,size
\tlw $2, lo(more)($0)
loop: addiu $2,$2,-1
 bne $2,$zero,loop
 b start+4
 .equ size,0x3
 j loop-4
 syscall 7
 sll $t1,$8,31
 ori $a0,$0,hi(hi(more))
.data
text: .ascii "a\\"#\\n"
 .byte -128, 255
 .align 2
more: .word 4294967295,more--4
 .half 65535
 .space 2
"""
MANIFEST = b"version 2\npages 16\nquantum 16\r\nslots 1 - 0\nenv hi flat 0x2000 0 0 a.bin\nenv two elf 1 0x3 b.elf # two\n"
SCHEDULE = b"0 packet 0f\n0x2\tline 07\n3 revoke 0 1 2\n"
# A program that allocates a page, stores its number, puts two bytes of it and exits with what register 4 has.
HI = binary.code((
    binary.number(binary.V0, 3), binary.addiu(binary.A0, binary.ZERO, -1), binary.SYSCALL, binary.sw(binary.V1, binary.ZERO, 0x2030),
    binary.number(binary.V0, 1), binary.number(binary.A0, 0x2030), binary.number(binary.A1, 2), binary.SYSCALL, binary.number(binary.V0, 2), binary.SYSCALL))
# A program that exits, and data.
ELF = binary.elf(0x400000, (binary.Segment(0x400000, binary.code((binary.number(binary.V0, 2), binary.SYSCALL))), binary.Segment(0x400102, b"abcd", 6, 8)))
# A kernel that writes a row of the TLB, loads through it, stores, and halts.
KERNEL = bytes(0x100) + binary.code((
    binary.number(8, 0x2000), 0x40885000, binary.number(9, 0x1700), 0x40891000, 0x42000002, binary.lw(10, 8, 0), binary.sw(8, 8, 4), binary.SYSCALL,
    binary.BREAK))


def image_of(body: bytes, version: int, is_elf: bool) -> bytes:
    """An image with this program alone."""
    return binary.image(16, 16, (0, 255), (binary.Program("hi", body, 0 if is_elf else 0x2000, is_elf=is_elf),), version)


def report_of(image: bytes, ticks: int) -> bytes:
    """The report of a run in which nothing happens from outside, by the reference."""
    return answer((("a.img", image), ("a.sch", b"")), ticks)[1].encode("latin-1")


# --- Each beginning, and each byte


def with_changed(words: Sequence[str], files: Files, name: str) -> Iterator[Input]:
    first = 0x100 if words[0] == "bare" else 0  # before it there are zeros, which nobody runs
    for file in whole(files[name], first):
        yield list(words), {**files, name: file}


def everywhere() -> Iterator[Input]:
    """Each file of a call of each command, changed at each place."""
    flat, elf = image_of(HI, 1, False), image_of(ELF, 2, True)
    two = binary.image(16, 16, (0, 1), [binary.Program(name, HI, 0x2000) for name in ("hi", "ho")])
    calls: List[Tuple[str, Files, str]] = [
        ("asm a.s", {"a.s": SOURCE}, "a.s"),
        ("list b.elf", {"b.elf": ELF}, "b.elf"),
        ("image a.txt", {"a.txt": MANIFEST, "a.bin": HI, "b.elf": ELF}, "a.txt"),
        ("run a.img a.sch 60", {"a.img": flat, "a.sch": SCHEDULE}, "a.img"),
        ("tlb a.img a.sch 60", {"a.img": elf, "a.sch": SCHEDULE}, "a.img"),
        ("trace a.img a.sch 60 0", {"a.img": flat, "a.sch": SCHEDULE}, "a.sch"),
        ("core a.img a.sch 6 0", {"a.img": elf, "a.sch": SCHEDULE}, "a.sch"),
        ("bare a.bin 40 7", {"a.bin": KERNEL}, "a.bin"),
        ("audit a.report 16", {"a.report": report_of(two, 100)}, "a.report"),
        ("audit a.report 16 a.plan", {"a.report": report_of(two, 100), "a.plan": PLANS[1]}, "a.plan"),
    ]
    net = {"a.img": flat, "a.sch": SCHEDULE, "b.img": image_of(HI, 2, False), "b.sch": b"1 line 2\n"}
    calls += [("wire 2 40 a.img a.sch b.img b.sch", net, name) for name in net]
    same = {"a.img": flat, "a.sch": SCHEDULE, "b.img": flat, "b.sch": SCHEDULE}
    calls += [("twin a.img a.sch b.img b.sch 0 1", same, name) for name in same]
    for words, files, name in calls:
        yield from with_changed(words.split(), files, name)
    yield from ((["bare", "a.bin", "9", "0"], {"a.bin": bytes(size)}) for size in (0, bare_board.SIZE, bare_board.SIZE + 1))


# --- Drawn


class Pools:
    """Good files of each format, of the examples and of random systems."""

    def __init__(self) -> None:
        systems = [System(seed) for seed in SYSTEMS]
        self.schedules = [it.schedule for it in systems] + [SCHEDULE, b""]
        self.images = [it.image for it in systems] + contents(f"{EXAMPLES}/*.img")
        self.reports = [report_of(it, LONG) for it in self.images if len(it) < 1 << 14]
        self.sources = [it for it in contents(f"{EXAMPLES}/*.s", f"{EXAMPLES}/*/*.s", f"{CASES}/*/*.s") if len(it) < 1 << 13] + [SOURCE]
        self.elfs = [ELF, *contents(f"{EXAMPLES}/c/*.elf"), *assembled(self.sources)]
        self.manifests = contents(f"{EXAMPLES}/*.txt", f"{EXAMPLES}/exos/*.txt") + [MANIFEST]
        self.kernels = [Board(seed).file[:0x1000] for seed in BOARDS] + [KERNEL]


def contents(*patterns: str) -> List[bytes]:
    found = []
    for path in sorted(path for pattern in patterns for path in glob.glob(pattern)):
        with open(path, "rb") as file:
            found.append(file.read())
    return found


def assembled(sources: Sequence[bytes]) -> Iterator[bytes]:
    for source in sources:
        try:
            yield assemble(source)
        except Fault:
            pass


def some(chance: random.Random, pool: Sequence[bytes], share: float = 1.0) -> bytes:
    """A file of a pool, mostly changed."""
    file = chance.choice(pool)
    return drawn(chance, file, pool) if chance.random() < share else file


def run_input(chance: random.Random, pools: Pools) -> Input:
    command, share = chance.choice(("run", "tlb", "long", "trace", "core")), chance.choice((0.0, 1.0))
    files = {"a.img": some(chance, pools.images, 1 - 0.9 * share), "a.sch": some(chance, pools.schedules, share)}
    ticks, env = chance.randrange(SHORT), chance.choice(("0", "1", "31"))
    first = [str(chance.randrange(ticks + 2))] if command == "trace" and chance.random() < 0.6 else []
    return [command, "a.img", "a.sch", str(ticks), *[env] * (command in ("trace", "core")), *first], files


def asm_input(chance: random.Random, pools: Pools) -> Input:
    return ["asm", "a.s"], {"a.s": some(chance, pools.sources)}


def list_input(chance: random.Random, pools: Pools) -> Input:
    return ["list", "b.elf"], {"b.elf": some(chance, pools.elfs)}


def image_input(chance: random.Random, pools: Pools) -> Input:
    text, files = chance.choice(pools.manifests), {}
    for word in sorted(set(text.split())):
        if b"." in word and b"/" not in word:
            files[word.decode("latin-1")] = some(chance, pools.elfs if word.endswith(b".elf") else pools.kernels, 0.2)
    files["a.txt"] = drawn(chance, text, pools.manifests) if chance.random() < 0.8 else text
    return ["image", "a.txt"], files


def audit_input(chance: random.Random, pools: Pools) -> Input:
    files = {"a.report": some(chance, pools.reports, 0.8)}
    words = ["audit", "a.report", str(chance.choice((16, 16, 64, chance.randrange(16, 100))))]
    if chance.random() < 0.4:
        files["a.plan"] = some(chance, PLANS, 0.8)
        words.append("a.plan")
    return words, files


def bare_input(chance: random.Random, pools: Pools) -> Input:
    return ["bare", "a.bin", str(chance.randrange(2 * SHORT)), str(chance.choice((0, 1, 7, 30)))], {"a.bin": some(chance, pools.kernels)}


def wire_input(chance: random.Random, pools: Pools) -> Input:
    words, files, count = ["wire", str(chance.choice((1, 2, 5, 65536))), str(chance.randrange(SHORT))], {}, chance.choice((1, 2, 2, 3))
    changed = chance.randrange(2 * count)
    for at in range(2 * count):
        name = f"{at}.sch" if at % 2 else f"{at}.img"
        files[name] = some(chance, pools.schedules if at % 2 else pools.images, 1.0 if at == changed else 0.0)
        words.append(name)
    return words, files


def twin_input(chance: random.Random, pools: Pools) -> Input:
    """Two runs of one image and one schedule, of which one file is mostly changed, up to a slice to which the reference comes."""
    image, schedule = chance.choice(pools.images), chance.choice(pools.schedules)
    contents = [image, schedule, image, schedule]
    if chance.random() < 0.9:
        place = chance.randrange(4)
        pool = pools.schedules if place % 2 else pools.images
        contents[place] = some(chance, pool, 0.6) if chance.random() < 0.5 else drawn(chance, contents[place], pool)
    env, slices = 31, 1
    try:
        sides = [Side(read_image(contents[place]), read_schedule(contents[place + 1])).run(LONG) for place in (0, 2)]
        reached = {it: min(side.slices(it) for side in sides) for it in range(32)}
        env = chance.choice([it for it in reached if reached[it]] or [31])
        slices = chance.randint(1, max(1, reached[env]))
    except Fault:
        pass
    names = ["left.img", "left.sch", "right.img", "right.sch"]
    return ["twin", *names, str(env), str(slices)], dict(zip(names, contents))


WORDS = ("", "-1", "+1", " 1", "0x10", "00000000001", "run", "asm", "no.img", "--help", "-", "1e3", "16", "65536", "65537", "4194304", "4194305", "262145",
         "4294967295", "4294967296", "9999999999")


def words_input(chance: random.Random, pools: Pools) -> Input:
    """Words of which some are other ones, over files that mostly aren't there."""
    words, files = chance.choice(INPUTS)(chance, pools)
    if chance.random() < 0.2:
        words = ["load", "1"]
    for _ in range(chance.choice((1, 1, 2))):
        at, kind = chance.randrange(len(words) + 1), chance.random()
        if kind < 0.2:
            words[at : at + 1] = []
        elif kind < 0.3:
            words.insert(at, chance.choice(words or [""]))
        else:
            words[at : at + 1] = [chance.choice(WORDS)]
    runs = is_command(words) and (words[0] in ("load", "twin") or any(word.isdigit() and int(word) > 1000 for word in words))
    return (words, {} if chance.random() < 0.8 else files) if not runs else ([], {})


INPUTS: List[Callable[[random.Random, Pools], Input]] = [run_input, run_input, asm_input, list_input, image_input, audit_input, bare_input, wire_input,
                                                         twin_input]


def drawn_input(number: int, pools: Pools) -> Input:
    """What the number draws."""
    chance = random.Random(number)
    return chance.choice((*INPUTS, words_input))(chance, pools)
