"""What each command answers to words and files, by docs/REPORT.md and the reference in cases/reference_model."""
from __future__ import annotations

import os
import re
import sys
from typing import Callable, Dict, List, Optional, Sequence, Tuple

CASES = os.path.dirname(os.path.dirname(os.path.realpath(__file__)))
sys.path[:0] = [f"{CASES}/reference_model", f"{CASES}/audit"]
import auditor
import bare_board
import run_report
import wire
from assembler import assemble, listed
from core import core_answer
from files import Fault, image_of, read_elf, read_image, read_manifest
from limits import (LEAST_QUANTUM, MOST_COMPARED_SLICES, MOST_DELAY, MOST_MACHINES, MOST_QUANTUM, MOST_TARGET, MOST_RUN_TICKS, MOST_TICKS,
                    MOST_TRACED_TICKS, MOST_WIRE_TICKS)
from long_run import long_answer
from tlb import tlb_answer
from trace import Traces
from twin import twin_answer

DONE, USAGE, REFUSED, READ_FAULT = 0, 2, 3, 4
Files = Dict[str, bytes]
Answer = Tuple[int, bytes]  # a status, and what is written
FILE = None  # of a form: a word that names a file
# By command, its words: the name of a file, or the least and the greatest number.
TICKS, LONG = (0, MOST_RUN_TICKS), (0, MOST_TICKS)
Form = Tuple[Optional[Tuple[int, int]], ...]
FORMS: Dict[str, Form] = {
    "run": (FILE, FILE, TICKS), "tlb": (FILE, FILE, TICKS), "long": (FILE, FILE, LONG), "trace": (FILE, FILE, LONG, (0, MOST_TARGET)),
    "core": (FILE, FILE, LONG, (0, MOST_TARGET)), "asm": (FILE,),
    "image": (FILE,), "list": (FILE,), "load": ((0, 2**32 - 1),), "bare": (FILE, TICKS, TICKS), "audit": (FILE, (LEAST_QUANTUM, MOST_QUANTUM)),
    "twin": (FILE, FILE, FILE, FILE, (0, MOST_TARGET), (1, MOST_COMPARED_SLICES)),
}
WIRE = ((1, MOST_DELAY), (0, MOST_WIRE_TICKS))


def form_of(words: Sequence[str]) -> Form:
    """The form that so many words of a command have, or none."""
    if words[0] == "wire" and len(words) > 3 and len(words) % 2 and len(words) <= 3 + 2 * MOST_MACHINES:
        return WIRE + (FILE,) * (len(words) - 3)
    if words[0] == "audit" and len(words) == 4:
        return (*FORMS["audit"], FILE)
    if words[0] == "trace" and len(words) == 6:
        return (*FORMS["trace"], LONG)
    return FORMS.get(words[0], ())


def fits(word: str, part: Optional[Tuple[int, int]]) -> bool:
    return part is None or re.fullmatch("[0-9]{1,10}", word) is not None and part[0] <= int(word) <= part[1]


def is_command(words: Sequence[str]) -> bool:
    """Whether these are words of a command."""
    form = form_of(words) if words else ()
    if not (len(form) == len(words) - 1 > 0 and all(map(fits, words[1:], form))):
        return False
    return words[0] != "trace" or 0 <= int(words[3]) - first_traced(words) <= MOST_TRACED_TICKS


def first_traced(words: Sequence[str]) -> int:
    """The tick from which a trace goes on."""
    return int(words[5]) if len(words) > 5 else 0


def names_in(words: Sequence[str]) -> List[str]:
    """The words of a command that name files."""
    return [word for word, part in zip(words[1:], form_of(words)) if part is FILE]


def refusal(name: str, fault: Fault) -> Answer:
    return REFUSED, f"aegis: {name}: {fault}\n".encode()


def named(words: Sequence[str], files: Files) -> List[Tuple[str, bytes]]:
    return [(name, files[name]) for name in names_in(words)]


def run(words: Sequence[str], files: Files) -> Answer:
    status, text, _ = run_report.answer(named(words, files), int(words[3]))
    return status, text.encode("latin-1")


def tlb(words: Sequence[str], files: Files) -> Answer:
    status, text, _ = tlb_answer(named(words, files), int(words[3]))
    return status, text.encode("latin-1")


def long(words: Sequence[str], files: Files) -> Answer:
    status, text = long_answer(named(words, files), int(words[3]))
    return status, text.encode("latin-1")


def trace(words: Sequence[str], files: Files) -> Answer:
    traces, ticks = Traces(), int(words[3])
    status, text, board = run_report.answer(named(words, files), ticks, traces.finish)
    return status, (traces.text(board, ticks, int(words[4]), first_traced(words)) if board else text).encode("latin-1")


def core(words: Sequence[str], files: Files) -> Answer:
    return core_answer(named(words, files), int(words[3]), int(words[4]))


def asm(words: Sequence[str], files: Files) -> Answer:
    try:
        return DONE, assemble(files[words[1]])
    except Fault as fault:
        return refusal(words[1], fault)


def list_elf(words: Sequence[str], files: Files) -> Answer:
    try:
        return DONE, "".join(f"{line}\n" for line in listed(read_elf(files[words[1]])[1])).encode()
    except Fault as fault:
        return refusal(words[1], fault)


def image(words: Sequence[str], files: Files) -> Answer:
    try:
        manifest = read_manifest(files[words[1]])
        by_name = {name.encode(): content for name, content in files.items()}
        if any(entry[-1] not in by_name for entry in manifest.entries):
            return READ_FAULT, b""
        made = image_of(manifest, by_name)
        read_image(made)
        return DONE, made
    except Fault as fault:
        return refusal(words[1], fault)


def audit(words: Sequence[str], files: Files) -> Answer:
    names = names_in(words)
    status, text = auditor.answer_to(files[names[0]], int(words[2]), files[names[1]] if names[1:] else None, (names[0], names[-1]))
    return status, text.encode("latin-1")


def bare(words: Sequence[str], files: Files) -> Answer:
    status, text, _ = bare_board.answer(words[1], files[words[1]], int(words[2]), int(words[3]))
    return status, text.encode("latin-1")


def wired(words: Sequence[str], files: Files) -> Answer:
    pairs = named(words, files)
    status, text, _ = wire.answer(list(zip(pairs[::2], pairs[1::2])), int(words[1]), int(words[2]))
    return status, text.encode("latin-1")


def twin(words: Sequence[str], files: Files) -> Answer:
    status, text = twin_answer(named(words, files), *map(int, words[5:]))
    return status, text.encode("latin-1")


COMMANDS: Dict[str, Callable[[Sequence[str], Files], Answer]] = {
    "run": run, "tlb": tlb, "long": long, "trace": trace, "core": core, "asm": asm, "list": list_elf, "image": image, "audit": audit,
    "bare": bare, "wire": wired, "twin": twin,
}


def answer_to(words: Sequence[str], files: Files) -> Answer:
    """What is due of these words, where these files and no others are there. Of `load` only what isn't its form is asked."""
    if not is_command(words):
        return USAGE, b"aegis: usage\n"
    if any(name not in files for name in names_in(words)):
        return READ_FAULT, b""
    return COMMANDS[words[0]](words, files)
