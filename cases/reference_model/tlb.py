"""What `tlb` writes: docs/REPORT.md, "The TLB". `python3 tlb.py IMAGE SCHEDULE TICKS` writes it, and ends with the status."""
from __future__ import annotations

import sys
from typing import Optional, Sequence, Tuple

from board import Board
from run_report import answer, end_line


def tlb_text(board: Board, ticks: int) -> str:
    """What stands behind the report."""
    return "".join(f"{line}\n" for line in ("aegis tlb", end_line(board, ticks), *board.cache.lines(), "done"))


def tlb_answer(files: Sequence[Tuple[str, bytes]], ticks: int) -> Tuple[int, str, Optional[Board]]:
    """The status and the text of `tlb IMAGE SCHEDULE TICKS`, and the board if there is one; files are (name, bytes), image first."""
    status, text, board = answer(files, ticks)
    return status, text + (tlb_text(board, ticks) if board else ""), board


def main() -> None:
    files = []
    for name in sys.argv[1:3]:
        with open(name, "rb") as file:
            files.append((name, file.read()))
    status, text, _ = tlb_answer(files, int(sys.argv[3]))
    print(text, end="")
    sys.exit(status)


if __name__ == "__main__":
    main()
