"""What a program reads: a text as packets of a schedule, for the tools that run programs. `examples/spim.s` reads them."""

from __future__ import annotations

import argparse
import re
from typing import List, Optional, Tuple

from limits import MOST_EVENTS, MOST_PACKET_SIZE, MOST_RUN_TICKS
from packets import event_tick
from programs import USAGE, Failed, Machine, content, prepared, run, write
from report import Report

# From nobody to all, of the second kind that is for experiments.
HEAD = bytes.fromhex("ffffffffffff00000000000088b6")
FIRST, BETWEEN = 1_000, 100_000  # the tick of the first packet, and the ticks from one to the next
MOST_TEXT = 1_500  # bytes in a packet
ESCAPES = {"n": "\n", "t": "\t", "\\": "\\", "@": "@"}
NO_FILE = "the input"  # as a schedule that is made of it alone is named
assert len(HEAD) + MOST_TEXT <= MOST_PACKET_SIZE


def add_input_word(parser: argparse.ArgumentParser) -> None:
    """The word that says what a program reads."""
    parser.add_argument("--input", metavar="TEXT", help=argparse.SUPPRESS)


def text_of(word: str) -> bytes:
    """What is read: the file behind an `@`, or the word, in which `\\n`, `\\t` and `\\\\` are written as in a source. It ends a line."""
    if word.startswith("@"):
        text = content(word[1:])
    else:
        text = re.sub(r"\\([nt\\@])", lambda it: ESCAPES[it[1]], word).encode("utf-8", errors="surrogateescape")
    if b"\0" in text:
        raise Failed(USAGE, "--input: a text has no byte 0, which ends it")
    return text if not text or text.endswith(b"\n") else text + b"\n"


def arrivals(text: bytes) -> List[Tuple[int, bytes]]:
    """The packets of a text, with the tick in which each comes: after the text comes a byte 0."""
    pieces = [text[at: at + MOST_TEXT] for at in range(0, len(text) + 1, MOST_TEXT)] or [b""]
    pieces[-1] += b"\0"
    return [(FIRST + BETWEEN * at, HEAD + piece) for at, piece in enumerate(pieces)]


def with_input(schedule: str, text: bytes) -> str:
    """A schedule without a fault, with the packets of a text: in their tick they come after its own events."""
    own = [(event_tick(line), line) for line in schedule.splitlines() if line.split("#")[0].split()]
    found = [(tick, f"{tick} packet {data.hex()}") for tick, data in arrivals(text)]
    if found[-1][0] > MOST_RUN_TICKS or len(own) + len(found) > MOST_EVENTS:
        raise Failed(USAGE, f"--input: a text has at most {(MOST_RUN_TICKS - FIRST) // BETWEEN * MOST_TEXT:,} bytes, and a schedule {MOST_EVENTS:,} events")
    return "".join(f"{line}\n" for _, line in sorted(own + found, key=lambda it: it[0]))


def dropped(report: Report, word: Optional[str]) -> List[str]:
    """That packets of a text came when no program had claimed them."""
    ticks = {tick for tick, _ in arrivals(text_of(word))} if word is not None else set()
    first = min((it.time for it in report.marks if it.kind == "drop" and it.time in ticks), default=None)
    return [] if first is None else [f"-- in tick {first:,} a part of the input came, and no program had claimed packets of the kind 0x88b6"]


def prepared_with_input(chosen: argparse.Namespace, room: str) -> Machine:
    """The machine that the words name, with what it reads in its schedule."""
    machine = prepared(chosen, room)
    if chosen.input is not None:
        if machine.schedule:
            run(machine, 0)  # a schedule with a fault is refused as it is
        own = content(f"{room}/try.sch").decode("latin-1") if machine.schedule else ""
        write(f"{room}/try.sch", with_input(own, text_of(chosen.input)).encode("latin-1"))
        machine.schedule = machine.schedule or NO_FILE
    return machine
