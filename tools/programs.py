"""Programs of a run, for the tools that make and run them: made of sources in assembly or C, or of ELF files; packed into an image
by a manifest; and run by a schedule. Why it can't be done is raised as `Failed`.
"""

from __future__ import annotations

import argparse
import io
import os
import re
import shutil
import signal
import struct
import subprocess
import sys
import tempfile
from dataclasses import dataclass, field
from types import ModuleType
from typing import Callable, Dict, List, Optional, Set, Tuple

import built
import manifests
import refusals
from elf_symbols import symbols
from faults import faults, plain
from limits import LEAST_QUANTUM, MOST_ENVIRONMENTS, MOST_MAPPINGS, MOST_QUANTUM, MOST_RUN_TICKS, PAGE_SIZE, VERSIONS
from loading import loaded
from report import Report, read
from shown import decoded, open_output, shown
from source import Source, read_source


HERE = os.path.dirname(os.path.abspath(os.path.realpath(__file__)))
ROOT = os.path.dirname(HERE)


def tool(name: str) -> ModuleType:
    """Another tool of this folder, as a module."""
    return loaded(f"{HERE}/{name}")


LINT = tool("lint")
COMPILER = "mipsel-linux-gnu-gcc"
# What a compiler or linker of C lacks here, and why.
LACKING = (
    (r"(?:stdio|stdlib|string|math|unistd|time|errno|assert|ctype|inttypes|signal|setjmp|fcntl|locale|wchar)\.h\b|gnu/stubs\S*\.h"
     r"|undefined reference to .(?:\w*printf|puts|putchar|scanf|malloc|free|exit|strlen|strcmp)\b",
     "There is no C library: `#include \"aegis.h\"` has print, print_number and the kernel calls, and `examples/c/README.md` says what else there is."),
    (r"undefined reference to .__\w*[sd]f\w*",
     "There is no floating point: the machine has no unit for it, and nothing here computes it. Count in whole parts, such as thousandths."),
    (r"undefined reference to .__(?!\w*[sd]f)\w+",
     "The compiler calls this function by its name, and its own library isn't linked: `examples/c/library.c` has those that there are. Compute it "
     "in another way, or write a function of this name."),
)
USAGE, REFUSED, UNREAD, UNWRITTEN = 2, 3, 4, 5
STACK = 4  # pages
NO_MANIFEST = "the manifest"  # that is made of sources
LONGEST_QUOTE = 100  # characters of an event that is shown


class Failed(Exception):
    """Why nothing was run: a status, and lines that say it."""

    def __init__(self, status: int, *lines: str):
        super().__init__("\n".join(lines))
        self.status = status


@dataclass(eq=False)  # what is kept of a program is found by itself
class Program:
    """A program of the run."""

    name: str
    shown: str  # the file that it was made of
    elf: str  # its ELF file
    source: Optional[Source] = None
    directory: str = ""  # where a program in C was made, so that its lines can be found
    listing: Dict[int, str] = field(default_factory=dict)  # lines of `aegis list` by their addresses


@dataclass
class Machine:
    """A machine of the run: the folder with its files, its programs, and its schedule as it is shown, if it has one, with the file
    that has it there."""

    room: str
    programs: List[Program]
    schedule: Optional[str]
    events: str = "try.sch"

    def files(self) -> List[str]:
        """The image and the schedule, from its folder."""
        return ["try.img", self.events if self.schedule else os.devnull]


Again = Callable[[int], Report]  # a machine's report of a run with another limit


def aegis(*words: str, cwd: Optional[str] = None) -> Tuple[int, bytes]:
    """Runs the program: its status and what it wrote."""
    try:
        ran = subprocess.run([built.program(), *words], stdout=subprocess.PIPE, cwd=cwd)
    except OSError as fault:
        raise Failed(UNREAD, f"{built.program()}: {fault.strerror}") from None
    return ran.returncode, ran.stdout


def refusal(said: bytes) -> Tuple[str, int]:
    """The name and the place of a refusal."""
    words = said.decode(errors="replace").split()
    return words[-2], int(words[-1])


def content(path: str) -> bytes:
    """A file's bytes, or why there are none."""
    try:
        with open(path, "rb") as file:
            return file.read()
    except OSError as fault:
        raise Failed(UNREAD, f"{path}: {fault.strerror}") from None


def quoted(line: str) -> List[str]:
    """A line of a file as it is shown, where it has anything."""
    return [f"    {decoded(line).strip()}"] if line.strip() else []


def say(text: str) -> None:
    """Prints lines, in which nothing of a source or a console moves the terminal's cursor."""
    if text:
        print(shown(text))


def write(path: str, bytes_of: bytes) -> None:
    try:
        with open(path, "wb") as file:
            file.write(bytes_of)
    except OSError as fault:
        raise Failed(UNWRITTEN, f"{path}: {fault.strerror}") from None


# --- From a file to a program ---------------------------------------------------------------------------------


WARNED: Set[str] = set()  # the sources of which the linter's warnings were said


def asm(text: bytes) -> Tuple[int, bytes]:
    """Assembles a text: the status, and what is written."""
    with tempfile.TemporaryDirectory(prefix="aegis-asm-") as folder:
        write(f"{folder}/text.s", text)
        return aegis("asm", "text.s", cwd=folder)


def asked(text: bytes) -> Optional[Tuple[str, int]]:
    """What the assembler refuses a text for."""
    status, said = asm(text)
    return refusal(said) if status == REFUSED else None


def assembled(path: str, room: str, name: str) -> Program:
    """The program of a source in assembly, which is linted first. Of one that is refused all faults are told."""
    text = content(path)
    source = read_source(text.decode("latin-1"))
    if path not in WARNED:
        WARNED.add(path)
        # what the linter says of a source with a fault is said too: it may be the fault
        say("\n".join(LINT.shown_warnings(path, source)))
    status, said = asm(plain(text))
    if status == REFUSED:
        found, has_more = faults(text, asked)
        more = [f"There are more faults than these {len(found)}."] if has_more else []
        raise Failed(REFUSED, *(line for it in found for line in it.lines(path)), *more)
    if status:
        raise Failed(status, f"{path}: `asm` ended with {status}")
    write(f"{room}/{name}.elf", said)
    return Program(name, path, f"{name}.elf", source)


def without_blanks(folder: str, room: str, link: str) -> str:
    """A path of a folder that `make`, which runs in room, takes as one word: its own, or a link to it there where it has blanks."""
    if not re.search(r"\s", folder):
        return folder
    if not os.path.islink(f"{room}/{link}"):
        os.symlink(folder, f"{room}/{link}")
    return link


def is_over_library(path: str) -> bool:
    """Whether a source in C is a program over the library of examples/libexos: by itself or by a header, it includes the library's."""
    words = [COMPILER, "-MM", "-MG", "-iquote", os.path.dirname(os.path.abspath(path)), f"-I{ROOT}/examples/libexos", f"-I{ROOT}/examples/c", path]
    found = subprocess.run(words, stdout=subprocess.PIPE, stderr=subprocess.DEVNULL).stdout
    return re.search(rb"(^|[\s/])exos\.h\s", found) is not None


def made(path: str, room: str, target: str) -> subprocess.CompletedProcess[bytes]:
    """Has the examples' Makefile make this of a program in C, or the library's, where it is a program over the library."""
    beside = without_blanks(os.path.dirname(os.path.abspath(path)), room, "beside.link")
    examples = without_blanks(f"{ROOT}/examples", room, "examples.link")
    makefile = f"{examples}/{'libexos' if is_over_library(path) else 'c'}/Makefile"
    words = ["make", "-s", "-f", makefile, f"CPPFLAGS=-iquote {beside}", target]
    return subprocess.run(words, cwd=room, stdout=subprocess.PIPE, stderr=subprocess.STDOUT)


def made_of(path: str, room: str, targets: List[str], sources: str, library: List[str]) -> subprocess.CompletedProcess[bytes]:
    """Has the library's Makefile make these of sources in a folder and of some of its own files. Headers are found beside `path` too."""
    beside = without_blanks(os.path.dirname(os.path.abspath(path)), room, "beside.link")
    examples = without_blanks(f"{ROOT}/examples", room, "examples.link")
    words = ["make", "-s", f"-j{os.cpu_count() or 1}", "-f", f"{examples}/libexos/Makefile", f"SOURCES={sources}", f"SERVERS={examples}/c/start.s",
             f"LIBRARY={' '.join(f'{examples}/libexos/{it}' for it in library)}", f"CPPFLAGS=-iquote . -iquote {beside}", *targets]
    return subprocess.run(words, cwd=room, stdout=subprocess.PIPE, stderr=subprocess.STDOUT)


def compiled(path: str, room: str, name: str) -> Program:
    """The program of a source in C."""
    content(path)
    if not shutil.which(COMPILER):
        raise Failed(REFUSED, f"{path}: a source in C wants GNU's compiler for MIPS, {COMPILER}: on Debian `apt-get install "
                              "gcc-mipsel-linux-gnu make`.")
    shutil.copyfile(path, f"{room}/{name}.c")
    ran = made(path, room, f"{name}.elf")
    said = ran.stdout.decode(errors="replace").replace(f"{name}.c:", f"{path}:")
    if ran.returncode:
        why = [advice for pattern, advice in LACKING if re.search(pattern, said)]
        raise Failed(REFUSED, said.rstrip("\n"), f"{path}: it can't be compiled or linked, as the lines above say.", *why)
    say(said.rstrip("\n"))
    return Program(name, path, f"{name}.elf", directory=room)


def taken(path: str, room: str, name: str) -> Program:
    """The program of an ELF file, which is copied."""
    write(f"{room}/{name}.elf", content(path))
    return Program(name, path, f"{name}.elf")


def listed(program: Program, room: str) -> None:
    """Reads what a program executes; an ELF file with a fault is refused."""
    status, said = aegis("list", program.elf, cwd=room)
    if status == REFUSED:
        why, place = refusal(said)
        raise Failed(REFUSED, *bad_elf(program.shown, content(f"{room}/{program.elf}"), why, place))
    if status:
        raise Failed(status, f"{program.shown}: `list` ended with {status}")
    for line in said.decode().splitlines():
        program.listing[int(line[:8], 16)] = line


def bad_elf(path: str, file: bytes, why: str, place: int) -> List[str]:
    """What is wrong with an ELF file."""
    if file.startswith(b"aegis: "):
        said = file.split(b"\n")[0].decode(errors="replace")
        return [f"{path}: {why}: it isn't an ELF file: it holds the refusal `{said}` of an earlier command.",
                "Mend that file, and chain commands by `&&`, so that the second doesn't run where the first is refused."]
    lines = [f"{path}: {why} at byte {place}: {refusals.meaning('ELF file', why)}."]
    if why in ("NotElf", "Short") and (not file or all(byte in b"\t\n\r" or 32 <= byte < 127 for byte in file[:512])):
        lines.append("The file is empty." if not file else "It is a text: a source ends in `.s` or `.c`, and a manifest in `.txt`.")
    return lines


def name_of(path: str, names: List[str]) -> str:
    """A name for an environment, of its file's."""
    stem = re.sub(r"[^a-z0-9_]", "_", os.path.splitext(os.path.basename(path))[0].lower())[:8] or "program"
    name, count = stem, 1
    while name in names:
        count += 1
        name = stem[: 8 - len(str(count))] + str(count)
    return name


def maker(path: str) -> Maker:
    """What makes a program of a file of this name."""
    make = MAKERS.get(os.path.splitext(path)[1].lower())
    if make is None:
        raise Failed(USAGE, f"{path}: a source ends in .s, .asm, .c or .elf, and a manifest, which stands alone, in .txt")
    return make


def sources_beside(path: str) -> List[str]:
    """The sources of which a file of a program may be made: those beside it, of the same name."""
    stem = os.path.splitext(path)[0]
    return [stem + it for it in SOURCES if os.path.exists(stem + it)]


def is_older(path: str, source: str) -> bool:
    """Whether a file of a program is older than its source, or, where that is in C, than a header beside it."""
    headers = [it.path for it in os.scandir(os.path.dirname(source) or ".") if it.name.endswith(".h")] if source.endswith(".c") else []
    return any(os.path.getmtime(path) < os.path.getmtime(it) for it in [source, *headers])


def unchecked(path: str, sources: List[str]) -> str:
    """Why an ELF file isn't made anew of a source, though it may be older."""
    if any(symbols(content(path))):
        return "it has symbols, so it is of another build"
    if len(sources) > 1:
        return f"{' and '.join(sources)} stand beside it"
    return f"{COMPILER}, which would make it anew, isn't there" if sources[0].endswith(".c") and not shutil.which(COMPILER) else ""


def current(path: str, room: str, name: str) -> Program:
    """The program of an ELF file. One that is another program than the source beside it means is made anew; one in C, whose
    bytes are the compiler's too, where the source is newer. One with symbols is another build's, which is taken as it is."""
    sources = sources_beside(path)
    newer = [it for it in sources if os.path.exists(path) and is_older(path, it)]
    if not sources or not newer and sources[0].endswith(".c"):
        return taken(path, room, name)
    why = unchecked(path, sources)
    if why:
        say(f"{path} is older than {newer[0]}, and is run as it is: {why}." if newer else "")
        return taken(path, room, name)
    (source,), is_elf = sources, content(path).startswith(b"\x7fELF")
    try:
        program = maker(source)(source, room, name)
    except Failed as fault:
        if newer:
            raise
        say(f"{path} is run, and {source}, which is older, can't be made: {str(fault).splitlines()[0]}" if is_elf else "")
        return taken(path, room, name)
    if content(f"{room}/{program.elf}") != content(path):
        why = "is older than" if newer else "is another program than" if is_elf else "isn't the ELF file of"
        say(f"{path} {why} {source}: made anew for this run.")
    return program


Maker = Callable[[str, str, str], Program]  # of a file, in a room, by a name
SOURCES = (".s", ".asm", ".c")
MAKERS: Dict[str, Maker] = {".s": assembled, ".asm": assembled, ".c": compiled, ".elf": current, "": taken}


def from_sources(paths: List[str], quantum: int, room: str) -> List[Program]:
    """The programs of these files, and a manifest of them."""
    programs: List[Program] = []
    for path in paths:
        programs.append(maker(path)(path, room, name_of(path, [it.name for it in programs])))
        listed(programs[-1], room)
    version, most = next((number, most) for number, most in VERSIONS.items() if len(programs) <= most.most_environments)
    lines = [*([f"version {version}"] if version > 1 else []), f"pages {most.most_pages}",
             f"quantum {quantum}", "slots " + " ".join(str(env) for env in range(len(programs)))]
    lines += [f"env {it.name} elf {STACK} 0 {it.elf}" for it in programs]
    write(f"{room}/try.txt", "".join(f"{line}\n" for line in lines).encode())
    return programs


def flat(path: str, source: str, room: str) -> Program:
    """The program of a flat file. One that is older than its source is made anew."""
    file, stem = os.path.basename(path), os.path.splitext(os.path.basename(path))[0]
    is_there = os.path.exists(path)
    if is_there and not (source and is_older(path, source)):
        program, text = taken(path, room, stem), content(path)
    else:
        program = maker(source)(source, room, stem)
        listed(program, room)
        text = content(f"{room}/{program.elf}")[84:]  # after the headers of a file with one part
        if is_there and text != content(path):
            say(f"{path} is older than {source}: made anew for this run.")
    write(f"{room}/{file}", text)
    return program


def from_manifest(path: str, room: str) -> List[Program]:
    """The programs of a manifest, whose files stand beside it, or are made of sources there."""
    text = plain(content(path))
    write(f"{room}/try.txt", text)
    programs: List[Program] = []
    made: Dict[str, Program] = {}
    for line in text.decode("latin-1").split("\n"):
        words = line.split("#")[0].split()
        if len(words) >= 6 and words[0] == "env":
            if words[-1] not in made:
                made[words[-1]] = body(os.path.dirname(path), words[-1], words[2] == "flat", room)
            programs.append(made[words[-1]])
    return programs


def body(folder: str, file: str, is_flat: bool, room: str) -> Program:
    """The file of a program that a manifest names."""
    path, (stem, ending) = os.path.join(folder, file), os.path.splitext(file)
    if "/" in file:
        raise Failed(UNREAD, f"{path}: name files beside the manifest, without a folder")
    source = next(iter(sources_beside(path)), "")
    if not os.path.exists(path) and not source:
        raise Failed(UNREAD, f"{path}: there is no such file, nor {stem}.s or {stem}.c to make it of")
    if is_flat and (ending != ".elf" or os.path.exists(path)):
        return flat(path, source, room)
    program = current(path, room, stem) if os.path.exists(path) else maker(source)(source, room, stem)
    listed(program, room)
    if file != program.elf:
        os.rename(f"{room}/{program.elf}", f"{room}/{file}")
        program.elf = file
    return program


def made_machine(sources: List[str], quantum: int, schedule: Optional[str], room: str) -> Machine:
    """The machine of these sources or of this manifest: its image and its schedule are in the folder."""
    is_manifest = sources[0].endswith(".txt")
    if is_manifest and len(sources) > 1 or len(sources) > MOST_ENVIRONMENTS:
        raise Failed(USAGE, "a manifest stands alone" if is_manifest else f"more than {MOST_ENVIRONMENTS} environments")
    programs = from_manifest(sources[0], room) if is_manifest else from_sources(sources, quantum, room)
    packed(sources[0] if is_manifest else NO_MANIFEST, programs, room)
    if schedule:
        write(f"{room}/try.sch", plain(content(schedule)))
    return Machine(room, programs, schedule)


# --- The run --------------------------------------------------------------------------------------------------


def packed(shown: str, programs: List[Program], room: str) -> None:
    """Makes the image of the manifest, which is shown as this file, or is one of these programs' own."""
    status, said = aegis("image", "try.txt", cwd=room)
    if status == REFUSED:
        why, place = refusal(said)
        lines = content(f"{room}/try.txt").decode("latin-1").split("\n")
        raise Failed(REFUSED, *bad_image(shown, lines, why, place, programs if shown == NO_MANIFEST else [], room))
    if status:
        raise Failed(status, f"{shown}: `image` ended with {status}")
    write(f"{room}/try.img", said)


def bad_image(shown: str, lines: List[str], why: str, place: int, made_of: List[Program], room: str) -> List[str]:
    """What is wrong with a manifest, or with the image that it makes, by the line that says it; or, where it is made of
    these programs, by the program."""
    if why in refusals.MANIFEST:
        text = lines[place - 1] if place <= len(lines) else ""
        advice = manifests.advice(why, lines, place)
        return [f"{shown}:{place}: {why}: {refusals.meaning('manifest', why)}.", *quoted(text), *([advice] if advice else [])]
    said = {words[0]: at for at, line in enumerate(lines, 1) if (words := line.split("#")[0].split())}
    programs = [at for at, line in enumerate(lines, 1) if line.split("#")[0].split()[:1] == ["env"]]
    advice, line = "", said.get("slots", 1)
    if why == "SlotOwner":
        owner = lines[line - 1].split("#")[0].split()[1:][place - 16]
        advice = f"Slot {place - 16} is owned by {owner}, and the environments are counted from 0 to {len(programs) - 1}."
    elif why == "TooBig":
        line = said.get("pages", 1)
        advice = "Each environment has a page for its context, those of its program and those of its stack: let `pages` be larger."
    elif why == "TooMany" and programs:
        line, advice = too_large(lines, programs, room)
        if made_of:
            return [f"{made_of[programs.index(line)].shown}: {why}: {refusals.meaning('image', why)}.", advice]
    elif programs:
        line = next((at for at in programs if why.lower() in ("base", "empty") and "flat" in lines[at - 1]), programs[-1])
    return [f"{shown}:{line}: {why} at byte {place} of the image: {refusals.meaning('image', why)}.", *quoted(lines[line - 1]),
            *([advice] if advice else [])]


def too_large(lines: List[str], programs: List[int], room: str) -> Tuple[int, str]:
    """The line of the program that needs most pages, and how many these are. A file's segments are counted with the zeros
    behind them, which a variable without a value needs in memory and not in the file."""
    sizes = {at: size_of(f"{room}/{lines[at - 1].split('#')[0].split()[-1]}") for at in programs}
    line = max(sizes, key=lambda it: sizes[it])
    size = sizes[line]
    return line, f"It has {size:,} bytes in memory, which are {-(-size // PAGE_SIZE):,} pages, and a program has at most {MOST_MAPPINGS}."


def size_of(path: str) -> int:
    """How many bytes of memory a program has: those of its segments, or of the file where that is no ELF file."""
    file = content(path)
    if not file.startswith(b"\x7fELF") or len(file) < 52:
        return len(file)
    first, count = struct.unpack_from("<I", file, 28)[0], struct.unpack_from("<H", file, 44)[0]
    heads = [struct.unpack_from("<8I", file, first + 32 * at) for at in range(count) if first + 32 * (at + 1) <= len(file)]
    return sum(head[5] for head in heads if head[0] == 1)


def bad_schedule(shown: str, text: bytes, why: str, place: int) -> List[str]:
    """What is wrong with a schedule, by the line that says it."""
    line = text.decode("latin-1").split("\n")[place - 1]
    advice = refusals.event_advice(why, line)
    return [f"{shown}:{place}: {why}: {refusals.meaning('schedule', why)}.", *quoted(line[:LONGEST_QUOTE]), *([advice] if advice else [])]


def run_text(machine: Machine, ticks: int) -> str:
    """Runs a machine alone: its report, which is kept. Beyond what `run` allows it is `long`."""
    command = "run" if ticks <= MOST_RUN_TICKS else "long"
    status, said = aegis(command, *machine.files(), str(ticks), cwd=machine.room)
    if status == REFUSED and machine.schedule:
        raise Failed(REFUSED, *bad_schedule(machine.schedule, content(f"{machine.room}/try.sch"), *refusal(said)))
    if status:
        raise Failed(status, f"`{command}` ended with {status}: {said.decode(errors='replace').strip()}")
    write(f"{machine.room}/try.report", said)
    return said.decode("latin-1")


def run(machine: Machine, ticks: int) -> Report:
    """Runs a machine alone, and reads its report."""
    return read(io.StringIO(run_text(machine, ticks), newline="\n"))


def reported(machine: Machine, text: str) -> Report:
    """Keeps a machine's report, and reads it."""
    write(f"{machine.room}/try.report", text.encode("latin-1"))
    return read(io.StringIO(text, newline="\n"))


# --- The words of a tool that runs programs -------------------------------------------------------------------


def whole(least: int, most: int) -> Callable[[str], int]:
    """A word that is a number between two others."""
    def number(word: str) -> int:
        if not re.fullmatch(r"[0-9]{1,10}", word) or not least <= int(word) <= most:
            raise argparse.ArgumentTypeError(f"{word!r} isn't a number from {least} to {most:,}")
        return int(word)
    return number


def add_run_words(parser: argparse.ArgumentParser, ticks: int, most: int) -> None:
    """The words that say what is run, and how long where nothing is said."""
    parser.add_argument("sources", nargs="+", metavar="SOURCE", help=argparse.SUPPRESS)
    parser.add_argument("--ticks", type=whole(0, most), default=ticks, help=argparse.SUPPRESS)
    parser.add_argument("--quantum", type=whole(LEAST_QUANTUM, MOST_QUANTUM), default=100, help=argparse.SUPPRESS)
    parser.add_argument("--schedule", metavar="FILE", help=argparse.SUPPRESS)
    parser.add_argument("--keep", metavar="DIR", help=argparse.SUPPRESS)


def prepared(chosen: argparse.Namespace, room: str) -> Machine:
    """The machine that the words name."""
    return made_machine(chosen.sources, chosen.quantum, chosen.schedule, room)


def worked(name: str, chosen: argparse.Namespace, work: Callable[[argparse.Namespace, str], int]) -> int:
    """Has a tool work by its words, in the folder of `--keep` or in one that goes; the status. Why it failed is said."""
    signal.signal(signal.SIGPIPE, signal.SIG_DFL)
    open_output()
    with tempfile.TemporaryDirectory(prefix=f"aegis-{name}-") as room:
        try:
            if chosen.keep:
                os.makedirs(chosen.keep, exist_ok=True)
            return work(chosen, chosen.keep or room)
        except Failed as why:
            sys.stdout.flush()
            is_refused = why.status == REFUSED
            print(shown(str(why) if is_refused else f"{name}: {why}"), file=sys.stdout if is_refused else sys.stderr)
            return why.status
        except OSError as fault:
            print(f"{name}: {fault.filename}: {fault.strerror}", file=sys.stderr)
            return UNWRITTEN
