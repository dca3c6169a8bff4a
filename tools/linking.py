"""Links the proved program as it is shipped: for Linux on x86-64 with each glibc from 2.14 on, and as a WebAssembly module.

The kit's `rattle build` compiles the program by the clang of a toolchain folder. Folder, below, is one whose tools pass
on to the kit's, in which clang keeps the LLVM module that it compiles, and the start-up object is runtime/start.c's. The
WebAssembly module is that very LLVM module for another processor, over runtime/module.c.
"""
from __future__ import annotations

import hashlib
import os
import re
import shlex
import shutil
import subprocess
from dataclasses import dataclass
from typing import Optional

ROOT = os.path.dirname(os.path.dirname(os.path.realpath(__file__)))
# Where the folder of the program that was built is made.
TOOLCHAIN = f"{ROOT}/out/toolchain"
NATIVE, PORTABLE = "x86_64-unknown-linux-gnu", "wasm64-unknown-unknown"
# What of the module's text is of a processor: the layout of its memory, its name, and attributes of its functions.
LAYOUT = "e-m:e-p:64:64-p10:8:8-p20:8:8-i64:64-i128:128-n32:64-S128"
OF_A_PROCESSOR = re.compile(r' "(?:probe-stack|stack-probe-size|target-cpu|target-features|tune-cpu)"="[^"]*"')
# The instructions that the module may have: those that each engine of today takes.
MODULE_WORDS = ("-mcpu=lime1",)
# A table of 64-bit addresses, which is empty, and the same table of 32-bit ones: the lowering takes no other.
TABLE, LOWERED_TABLE = bytes((4, 5, 1, 0x70, 5, 1, 1)), bytes((4, 5, 1, 0x70, 1, 1, 1))
LOWERING = ("--enable-memory64", "--enable-bulk-memory", "--enable-sign-ext", "--enable-mutable-globals", "--enable-nontrapping-float-to-int",
            "--enable-multivalue", "--memory64-lowering")
# The version of binaryen whose bytes prebuilt/aegis.wasm has: Debian 12's.
BINARYEN = "108"


def sum_of_parts() -> str:
    """A sum of the files of this repository that link the program: this one, and runtime/."""
    total = hashlib.sha256()
    for name in ("tools/linking.py", *(f"runtime/{it}" for it in sorted(os.listdir(f"{ROOT}/runtime")))):
        with open(f"{ROOT}/{name}", "rb") as it:
            total.update(it.read())
    return total.hexdigest()


class Unlinked(Exception):
    """A step of the kit's or of binaryen's that failed, with what it said."""


def run(*words: str, tool: Optional[str] = None) -> None:
    """Runs a command, of the kit's many-named clang under the name that is its first word; what it says where it fails is the error's."""
    ran = subprocess.run(words, executable=tool, stdin=subprocess.DEVNULL, stdout=subprocess.PIPE, stderr=subprocess.STDOUT, text=True, errors="replace")
    if ran.returncode:
        raise Unlinked(f"{words[0]} ended with {ran.returncode}: {ran.stdout.strip()[-900:]}")


def binaryen() -> Optional[str]:
    """Why the module can't be made as prebuilt/ has it, or None: there is no wasm-opt, or it is another version's."""
    found = shutil.which("wasm-opt")
    if not found:
        return "there is no wasm-opt (Debian's binaryen)"
    said = subprocess.run([found, "--version"], stdout=subprocess.PIPE, text=True, check=False).stdout
    version = re.search(r"version (\d+)", said)
    return None if version and version[1] == BINARYEN else f"wasm-opt isn't of version {BINARYEN}, but says: {said.strip()}"


@dataclass
class Folder:
    """A toolchain folder, for the kit that stands at a path."""

    kit: str
    at: str

    @property
    def clang(self) -> str:
        """The kit's clang, which is also its linker and its archiver, by the name that it is called by."""
        return f"{self.kit}/toolchain/bin/clang"

    @property
    def module(self) -> str:
        """The LLVM module that was compiled last by this folder's clang."""
        return f"{self.at}/module.bc"

    def make(self) -> None:
        """Makes the folder anew, without links, which `rt ci` takes nowhere in a repository."""
        shutil.rmtree(self.at, ignore_errors=True)
        shutil.copytree(f"{self.kit}/toolchain/lib", f"{self.at}/lib")
        os.makedirs(f"{self.at}/bin")
        for name in os.listdir(f"{self.kit}/toolchain/bin"):
            kept = f'for word do case "$word" in *.bc) cp "$word" {shlex.quote(self.module)} ;; esac; done\n' if name == "clang" else ""
            with open(f"{self.at}/bin/{name}", "w", encoding="utf-8") as it:
                it.write(f'#!/bin/sh\n{kept}exec {shlex.quote(f"{self.kit}/toolchain/bin/{name}")} "$@"\n')
            os.chmod(f"{self.at}/bin/{name}", 0o755)
        self.compile(NATIVE, "-O2", "-fPIE", "-fno-asynchronous-unwind-tables", "-std=c11", f"{ROOT}/runtime/start.c", "-o", f"{self.at}/lib/Scrt1.o")

    def compile(self, target: str, *words: str) -> None:
        """Compiles by the kit's clang."""
        run("clang", f"--target={target}", "--no-default-config", "-no-canonical-prefixes", "-c", *words, tool=self.clang)

    def link_native(self, made: str, to: str) -> None:
        """Links the object file of the program for Linux, and leaves its names out."""
        run(f"{self.kit}/bin/rattle-link", "--target", NATIVE, "--toolchain", self.at, "-o", to, made, f"{self.kit}/c/libos_c.a", f"{self.kit}/c/liblibc_c.a")
        run("llvm-strip", to, tool=self.clang)

    def link_module(self, to: str) -> None:
        """Makes the WebAssembly module of the LLVM module that is kept."""
        room = f"{self.at}/portable"
        os.makedirs(room, exist_ok=True)
        text, program, below = f"{room}/program.ll", f"{room}/program.o", f"{room}/module.o"
        run("clang", "-S", "-emit-llvm", "-O0", "-Xclang", "-disable-llvm-passes", "--no-default-config", "-x", "ir", self.module, "-o", text, tool=self.clang)
        with open(text, encoding="utf-8") as it:
            told = portable(it.read())
        with open(text, "w", encoding="utf-8") as it:
            it.write(told)
        self.compile(PORTABLE, *MODULE_WORDS, "-O3", "-mllvm", "-expand-div-rem-bits=64", "-ffunction-sections", "-fdata-sections",
                     "-x", "ir", text, "-o", program)
        self.compile(PORTABLE, *MODULE_WORDS, "-O2", "-std=c11", "-ffreestanding", "-Wno-incompatible-library-redeclaration",
                     f"{ROOT}/runtime/module.c", "-o", below)
        run("llvm-ar", "rcs", f"{room}/both.a", program, below, tool=self.clang)
        run(f"{self.kit}/bin/rattle-link", "--target", PORTABLE, "--toolchain", f"{self.kit}/toolchain", "-o", f"{room}/wide.wasm", f"{room}/both.a")
        lower(f"{room}/wide.wasm", to)
        shutil.rmtree(room)


def portable(text: str) -> str:
    """The text of an LLVM module with what is of a processor exchanged for WebAssembly's."""
    text = re.sub(r'^target datalayout = ".*"$', f'target datalayout = "{LAYOUT}"', text, count=1, flags=re.M)
    text = re.sub(r'^target triple = ".*"$', f'target triple = "{PORTABLE}"', text, count=1, flags=re.M)
    return re.sub(r"^attributes #.*$", lambda found: OF_A_PROCESSOR.sub("", found[0]), text, flags=re.M)


def lower(wide: str, to: str) -> None:
    """Lowers a module of 64-bit memory to one of 32-bit memory, which each engine takes. Right only where each address is
    below 2^32, which runtime/module.c sees to."""
    with open(wide, "rb") as it:
        module = it.read()
    if module.count(TABLE) != 1:
        raise Unlinked(f"the module has the empty table of 64-bit addresses {module.count(TABLE)} times, and not once")
    with open(wide, "wb") as it:
        it.write(module.replace(TABLE, LOWERED_TABLE))
    run("wasm-opt", *LOWERING, wide, "-o", to)
