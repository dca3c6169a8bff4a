"""What `core` writes: docs/REPORT.md, "The core". `python3 core.py IMAGE SCHEDULE TICKS ENV` writes it, and ends with the status."""
from __future__ import annotations

import struct
import sys
from typing import Iterator, List, Sequence, Tuple

from board import Board, Env
from files import PAGE, Refusal, read_systems
from run_report import DONE, REFUSED
from ticks import run

FILE_HEADER, PROGRAM_HEADER, NOTES = 52, 32, 352  # bytes
READ, WRITE, RUN = 4, 2, 1

# Pages at VPNs one after another that may all be stored to, or none: the first VPN, that, and the pages' bytes.
Pages = Tuple[int, bool, List[bytes]]


def seen_pages(board: Board, env: Env) -> Iterator[Tuple[int, bytes, bool]]:
    """By rising VPN what an environment sees there: a page's bytes, and whether it may be stored to."""
    for vpn in sorted({*env.guaranteed, *(it[0] for it in env.bindings.values())}):
        seen = env.sees(vpn)
        assert seen is not None, "something is mapped there"
        yield vpn, bytes(board.pages[seen[0]].data), seen[1]


def runs_of_pages(board: Board, env: Env) -> List[Pages]:
    """What an environment sees, in as few runs as can be."""
    found: List[Pages] = []
    for vpn, data, is_writable in seen_pages(board, env):
        if found and found[-1][0] + len(found[-1][2]) == vpn and found[-1][1] == is_writable:
            found[-1][2].append(data)
        else:
            found.append((vpn, is_writable, [data]))
    return found


def position(board: Board, env: Env) -> Tuple[int, int, bool]:
    """PC, the address after it, and whether PC is in a delay slot; of who doesn't run those with which it goes on."""
    cpu = env.cpu
    if env is board.runner:
        return cpu.pc, cpu.next, cpu.slot
    return cpu.restart(), cpu.restart() + 4 & 0xFFFFFFFF, False


def note(name: bytes, kind: int, content: bytes) -> bytes:
    return struct.pack("<III8s", len(name), len(content), kind, name) + content


def notes(board: Board, env: Env) -> bytes:
    """The registers as Linux has them, and what only this kernel knows."""
    cpu, (pc, after, in_slot) = env.cpu, position(board, env)
    status = bytes(24) + struct.pack("<I", env.number) + bytes(44) + struct.pack("<45I", *[0] * 6, *cpu.regs, cpu.lo, cpu.hi, pc, *[0] * 4) + bytes(4)
    runs = (1 + board.in_grace, board.left, board.slot) if env is board.runner else (0, 0, 0)
    own = (board.time, board.version, after, in_slot, env.excess, env.mask, *env.handlers, *runs)
    return note(b"CORE\0", 1, status) + note(b"AEGIS\0", 0x49474541, struct.pack("<14I", *own))


def core(board: Board, env: Env) -> bytes:
    """The core of an environment that lives."""
    runs = runs_of_pages(board, env)
    count, content = 1 + len(runs), notes(board, env)
    place = FILE_HEADER + PROGRAM_HEADER * count
    assert len(content) == NOTES, "they have one size"
    file = b"\x7fELF\1\1\1" + bytes(9) + struct.pack("<HHIIIIIHHHHHH", 4, 8, 1, 0, FILE_HEADER, 0, 0x1000, FILE_HEADER, PROGRAM_HEADER, count, 0, 0, 0)
    file += struct.pack("<8I", 4, place, 0, 0, NOTES, 0, 0, 4)
    place += NOTES
    for vpn, is_writable, pages in runs:
        size = len(pages) * PAGE
        file += struct.pack("<8I", 1, place, vpn * PAGE, 0, size, size, READ | (WRITE if is_writable else 0) | RUN, 1)
        place += size
    return file + content + b"".join(page for _, _, pages in runs for page in pages)


def answer_of(board: Board, image: str, number: int) -> Tuple[int, bytes]:
    """The status and what is written of an environment, which may be dead, or none of the image whose name this is."""
    why = "Absent" if number >= len(board.envs) else "" if board.envs[number].is_alive else "Dead"
    return (REFUSED, f"aegis: {image}: {why} {number}\n".encode()) if why else (DONE, core(board, board.envs[number]))


def core_answer(files: Sequence[Tuple[str, bytes]], ticks: int, number: int) -> Tuple[int, bytes]:
    """The status of `core IMAGE SCHEDULE TICKS ENV`, and what it writes; files are (name, bytes), image first."""
    try:
        (image, events), = read_systems(files)
    except Refusal as why:
        return REFUSED, str(why).encode()
    return answer_of(run(image, events, ticks), files[0][0], number)


def main() -> None:
    files = []
    for name in sys.argv[1:3]:
        with open(name, "rb") as file:
            files.append((name, file.read()))
    status, text = core_answer(files, *map(int, sys.argv[3:]))
    sys.stdout.buffer.write(text)
    sys.exit(status)


if __name__ == "__main__":
    main()
