#!/usr/bin/env python3
"""Makes a boot image from a manifest: `cases/pack.py MANIFEST IMAGE`.

A manifest is a text of these lines, in this order; `#` begins a comment:

    version N                               1 or 2; it may be left out, and is 1 then
    pages N
    quantum N
    slots X ..                              an environment's number for each slot, or - for an empty one
    env NAME flat BASE STACK ACCEPT FILE    once for each environment, or
    env NAME elf STACK ACCEPT FILE

FILE stands beside the manifest and has the program's bytes. A FILE that isn't there is made of what has its name: of
a source .s by `aegis asm` (all of an .elf file, and for a .bin file the bytes of its parts, one behind the other), or
of hexadecimal digits in .hex. Whether the image has no fault is left to `aegis run`. The image's layout is in
docs/FORMATS.md. What `aegis image` makes is compared with what this makes.
"""
from __future__ import annotations

import os
import struct
import subprocess
import sys
from typing import Dict, Iterator, List, Tuple

import binary


class Refused(Exception):
    """A manifest or a source that makes no image."""


def lines_of(path: str) -> Iterator[Tuple[int, List[str]]]:
    """The words of each line that isn't empty, with the line's number."""
    with open(path, encoding="ascii") as file:
        for number, line in enumerate(file, 1):
            if words := line.split("#")[0].split():
                yield number, words


def bytes_of_elf(elf: bytes) -> bytes:
    """What the program headers of an ELF file load, in order, without what lies between in memory."""
    place, count = struct.unpack_from("<I", elf, 28)[0], struct.unpack_from("<H", elf, 44)[0]
    parts = (struct.unpack_from("<IIIII", elf, place + 32 * number) for number in range(count))
    return b"".join(elf[offset : offset + size] for kind, offset, _, _, size in parts if kind == 1)


def assembled(aegis: str, source: str) -> bytes:
    """The ELF file of a source."""
    ran = subprocess.run([aegis, "asm", source], stdout=subprocess.PIPE)
    if ran.returncode:
        raise Refused(ran.stdout.decode(errors="replace").strip() or f"asm {source} ended with {ran.returncode}")
    return ran.stdout


def body(aegis: str, path: str) -> bytes:
    """The bytes of a program's file."""
    stem, ending = os.path.splitext(path)
    if ending in (".bin", ".elf") and not os.path.exists(path):
        if os.path.exists(f"{stem}.s"):
            elf = assembled(aegis, f"{stem}.s")
            return elf if ending == ".elf" else bytes_of_elf(elf)
        if os.path.exists(f"{stem}.hex"):
            return bytes.fromhex("".join("".join(words) for _, words in lines_of(f"{stem}.hex")))
    with open(path, "rb") as file:
        return file.read()


def packed(aegis: str, manifest: str) -> bytes:
    """The bytes of the manifest's image."""
    folder = os.path.dirname(manifest)
    fields: Dict[str, int] = {"version": 1}  # what the lines so far say, with how many slots there are
    slots: List[int] = []
    programs: List[binary.Program] = []
    for number, words in lines_of(manifest):
        wanted = "version" if len(fields) == 1 and words[0] == "version" else ("pages", "quantum", "slots", "env")[min(len(fields), 4) - 1]
        try:
            if words[0] != wanted:
                raise ValueError
            if wanted == "env":
                if words[2] == "elf":
                    words.insert(3, "0")  # the file itself says where it stands
                name, kind, base, stack, accept, file = words[1:]
                code = body(aegis, os.path.join(folder, file))
                numbers = (int(base, 0), int(stack, 0), int(accept, 0), bool(("flat", "elf").index(kind)))
                programs.append(binary.Program(name, code, *numbers))
            elif wanted == "slots":
                slots = list(bytes(255 if word == "-" else int(word, 0) for word in words[1:]))
                fields[wanted] = len(slots)
            else:
                value, = words[1:]
                fields[wanted] = int(value, 0)
        except (ValueError, TypeError, IndexError, struct.error):
            raise Refused(f"{manifest}: line {number} isn't of the form of a manifest's '{wanted}' line") from None
    if not programs:
        raise Refused(f"{manifest}: it ends too early")
    return binary.image(fields["pages"], fields["quantum"], slots, programs, fields["version"])


def main() -> None:
    if len(sys.argv) != 3:
        sys.exit("usage: cases/pack.py MANIFEST IMAGE")
    aegis = os.environ.get("AEGIS") or os.path.join(os.path.dirname(os.path.abspath(__file__)), "..", "aegis")
    try:
        image = packed(aegis, sys.argv[1])
        with open(sys.argv[2], "wb") as file:
            file.write(image)
    except (Refused, OSError) as why:
        sys.exit(f"pack.py: {why}")


if __name__ == "__main__":
    main()
