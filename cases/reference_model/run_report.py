"""What a run writes: docs/REPORT.md. `python3 run_report.py IMAGE SCHEDULE TICKS` writes it, and ends with the status."""
from __future__ import annotations

import sys
from hashlib import sha256
from typing import Callable, Iterator, Optional, Sequence, Tuple, Union

from board import Board, Env
from files import Refusal, read_systems
from ticks import run

DONE, REFUSED = 0, 3
SHOWN = {byte: chr(byte) for byte in range(32, 127)} | {0x22: '\\"', 0x5C: "\\\\", 0x0A: "\\n"}


def text_of(data: Union[bytes, bytearray]) -> str:
    return "".join(SHOWN.get(byte) or f"\\x{byte:02x}" for byte in data)


def env_lines(board: Board, env: Env) -> Iterator[str]:
    yield f"env {env.number} {env.name} {env.life}"
    yield f'out {env.number} {len(env.console)} "{text_of(env.console)}"'
    if env.is_alive:
        yield from living_lines(board, env)
    for packet in env.sent:
        yield f"sent {env.number} {len(packet)} {packet.hex()}"


def living_lines(board: Board, env: Env) -> Iterator[str]:
    cpu = env.cpu
    if env is not board.runner:
        cpu.rest()
    yield f"cpu {env.number} {cpu.pc:08x} {cpu.next:08x} {cpu.slot:d} {cpu.hi:08x} {cpu.lo:08x}"
    yield f"regs {env.number} " + " ".join(f"{value:08x}" for value in cpu.regs[1:])
    yield f"excess {env.number} {env.excess}"
    for vpn, (number, _) in sorted(env.guaranteed.items()):
        yield f"keep {env.number} {vpn:05x} {sha256(board.pages[number].data).hexdigest()}"
    for number, page in enumerate(board.pages):
        if page.owner is env and not page.is_guaranteed:
            yield f"page {env.number} {number} {sha256(page.data).hexdigest()}"
    for vpn, bound, is_writable in sorted(env.bindings.values()):
        yield f"bind {env.number} {vpn:05x} {bound} {'w' if is_writable else 'r'}"


def end_line(board: Board, ticks: int) -> str:
    return f"end {'limit' if board.time == ticks else 'idle'} {board.time}"


def report_lines(board: Board, ticks: int) -> Iterator[str]:
    yield "aegis run"
    yield end_line(board, ticks)
    for env in board.envs:
        yield from env_lines(board, env)
    yield from board.rows
    for env in board.envs:
        counts = (sum(row.split()[0] == name and row.split()[3] == str(env.number) for row in board.rows) for name in ("run", "pay", "over"))
        yield f"sum {env.number} " + " ".join(map(str, counts))
    yield "done"


def answer(
    files: Sequence[Tuple[str, bytes]], ticks: int, finish: Optional[Callable[[Board], None]] = None
) -> Tuple[int, str, Optional[Board]]:
    """The status and the text of `run IMAGE SCHEDULE TICKS`, and the board if there is one; files are (name, bytes), image first.
    `finish` is what is done of a tick behind its turn."""
    try:
        (image, events), = read_systems(files)
    except Refusal as why:
        return REFUSED, str(why), None
    board = run(image, events, ticks, finish)
    return DONE, "".join(f"{line}\n" for line in report_lines(board, ticks)), board


def main() -> None:
    *names, ticks = sys.argv[1:]
    files = []
    for name in names:
        with open(name, "rb") as file:
            files.append((name, file.read()))
    status, text, _ = answer(files, int(ticks))
    print(text, end="")
    sys.exit(status)


if __name__ == "__main__":
    main()
