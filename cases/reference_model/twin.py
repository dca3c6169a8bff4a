"""What `twin` writes: docs/REPORT.md, "Two runs compared". `python3 twin.py IMAGE SCHEDULE IMAGE SCHEDULE ENV N` writes it, and ends
with the status.

The feed of an environment (docs/MODEL.md, "An environment alone") is a list of items, which the reference keeps of its run. Two
feeds are compared as lists.
"""
from __future__ import annotations

import sys
from collections import deque
from hashlib import sha256
from typing import Callable, Dict, List, NamedTuple, Optional, Sequence, Set, Tuple

from board import Board, Item
from files import MOST_RUN_TICKS, Event, Image, Refusal, read_systems
from run_report import DONE, REFUSED, env_lines
from ticks import happen_now, tick

FOUND = 1
BEGINNINGS = ("start", "transfer")  # the items with which a slice begins


class End(NamedTuple):
    """The end of a slice: how many ticks there were, how many items the environment was given, and what a report shows of it."""

    ticks: int
    items: int
    text: str


class Side:
    """A run of which all feeds are kept, and by environment the ends of its slices, in order."""

    def __init__(self, image: Image, events: List[Event]):
        self.board, self.coming = Board(image, keeps_feeds=True), deque(events)
        self.ends: List[List[End]] = [[] for _ in self.board.envs]
        self.begun: Set[int] = set()  # who has a slice that hasn't ended

    def feeds(self) -> List[List[Item]]:
        """What each environment was given so far."""
        assert self.board.feeds is not None, "this board keeps them"
        return self.board.feeds

    def tick(self) -> None:
        """Makes a tick. A slice ends in the first tick behind which its environment doesn't run."""
        board, before = self.board, list(map(len, self.feeds()))
        happen_now(board, self.coming)
        tick(board)
        for number, feed in enumerate(self.feeds()):
            if any(item[0] in BEGINNINGS for item in feed[before[number]:]):
                self.begun.add(number)
        for number in self.begun - ({board.runner.number} if board.runner else set()):
            self.begun.remove(number)
            self.ends[number].append(End(board.time, len(self.feeds()[number]), self.text(number)))

    def run(self, ticks: int) -> Side:
        """Goes on to so many ticks, or until the board is idle."""
        while self.board.time < ticks and not self.board.is_idle():
            self.tick()
        return self

    def reach(self, number: int, slices: int) -> Side:
        """Goes on until so many slices of an environment have ended, if they do. The dead, and who isn't there, have no more."""
        while self.slices(number) < slices and self.board.time < MOST_RUN_TICKS and not self.board.is_idle() and self.lives(number):
            self.tick()
        return self

    def lives(self, number: int) -> bool:
        return number < len(self.board.envs) and self.board.envs[number].is_alive

    def slices(self, number: int) -> int:
        """How many slices of an environment have ended. One that isn't there has none."""
        return len(self.ends[number]) if number < len(self.ends) else 0

    def feed_to(self, number: int, slices: int) -> List[Item]:
        """What an environment was given up to the end of so many slices."""
        return self.feeds()[number][: self.ends[number][slices - 1].items]

    def text(self, number: int) -> str:
        """The lines that a report has of an environment."""
        return "".join(f"{line}\n" for line in env_lines(self.board, self.board.envs[number]))


def digest(data: bytes) -> str:
    return sha256(data).hexdigest()


# The words behind the name of an item's kind.
WORDS: Dict[object, Callable[..., Tuple[object, ...]]] = {
    "boot": lambda version, record: (digest(record),),
    "step": lambda: (),
    "start": lambda: (),
    "end": lambda: (),
    "transfer": lambda caller, kind, registers: (caller, kind, digest(registers)),
    "killed": lambda: ("excess",),
    "answer": lambda code, value: (code, value),
    "gained": lambda page, is_writable, data: (page, "w" if is_writable else "r", digest(data)),
    "lost": lambda page: (page,),
    "left": lambda page, place, data: (page, place, data.hex()),
    "packet": lambda claim, packet: (claim, packet.hex()),
    "line": lambda line: (line,),
    "asked": lambda outstanding, deadline: (outstanding, deadline),
    "taken": lambda page, backup: (page, "-" if backup is None else backup),
}


def item_text(item: Optional[Item]) -> str:
    """The text of an item, or of none past the end of a feed."""
    return "none" if item is None else " ".join(map(str, (item[0], *WORDS[item[0]](*item[1:]))))


def first_difference(left: List[Item], right: List[Item]) -> Optional[int]:
    """The first place at which two feeds differ, also where one ends there."""
    if left == right:
        return None
    most = min(len(left), len(right))
    return next((place for place in range(most) if left[place] != right[place]), most)


def compared(left: Side, right: Side, number: int, slices: int) -> Tuple[int, str]:
    """The status and the text, where both runs went on as far as they are to be compared."""
    for name, side in (("left", left), ("right", right)):
        if side.slices(number) < slices:
            return FOUND, f"short {name} {side.slices(number)}\n"
    feeds = left.feed_to(number, slices), right.feed_to(number, slices)
    place = first_difference(*feeds)
    if place is None:
        return DONE, f"same {number} {digest(left.ends[number][slices - 1].text.encode('latin-1'))}\n"
    items = (item_text(feed[place] if place < len(feed) else None) for feed in feeds)
    return FOUND, "".join(f"{line}\n" for line in (f"differ {place}", *items))


def twin_answer(files: Sequence[Tuple[str, bytes]], number: int, slices: int) -> Tuple[int, str]:
    """The status and the text of `twin IMAGE SCHEDULE IMAGE SCHEDULE ENV N`; files are (name, bytes), in the order of the words."""
    try:
        left, right = (Side(*system).reach(number, slices) for system in read_systems(files))
    except Refusal as why:
        return REFUSED, str(why)
    return compared(left, right, number, slices)


def main() -> None:
    files = []
    for name in sys.argv[1:5]:
        with open(name, "rb") as file:
            files.append((name, file.read()))
    status, text = twin_answer(files, *map(int, sys.argv[5:]))
    print(text, end="")
    sys.exit(status)


if __name__ == "__main__":
    main()
