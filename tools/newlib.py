"""The C library newlib and glibc's floating point, made for MIPS I of Debian's sources (tools/foreign)."""

from __future__ import annotations

import python_version  # first: ends the tool where Python is too old
import glob
import os
import shutil
import subprocess
from concurrent.futures import ThreadPoolExecutor
from typing import Iterator, List, NamedTuple, Sequence

SUITE, MIRROR, KEYS = "bookworm", "http://deb.debian.org/debian", "/usr/share/keyrings/debian-archive-keyring.gpg"
PREFIX = "mipsel-linux-gnu-"
JOBS = int(os.environ.get("JOBS") or os.cpu_count() or 1)

# MIPS I without a floating point unit, as in examples/c/Makefile. A program is told nothing of Linux.
MACHINE = ("-EL -march=mips1 -mabi=32 -msoft-float -mno-abicalls -fno-pic -G0 -mno-check-zero-division -O2 -w -ffunction-sections -fdata-sections "
           "-fno-asynchronous-unwind-tables -U__linux__ -U__linux -Ulinux -U__gnu_linux__ -U__unix__ -U__unix -Uunix").split()

# What newlib's own configure chooses for mips-elf, with the formats of C99.
NEWLIB_H = """#define _NEWLIB_VERSION "3.3.0"
#define __NEWLIB__ 3
#define __NEWLIB_MINOR__ 3
#define _WANT_IO_C99_FORMATS 1
#define _WANT_IO_LONG_LONG 1
#define _REENT_CHECK_VERIFY 1
#define _MB_LEN_MAX 1
#define _ATEXIT_DYNAMIC_ALLOC 1
#define _HAVE_LONG_DOUBLE 1
#define _HAVE_CC_INHIBIT_LOOP_TO_LIBCALL 1
#define _LDBL_EQ_DBL 1
#define _FVWRITE_IN_STREAMIO 1
#define _FSEEK_OPTIMIZATION 1
#define _UNBUF_STREAM_OPT 1
"""
PARTS = ("libc/ctype", "libc/errno", "libc/locale", "libc/misc", "libc/reent", "libc/search", "libc/signal", "libc/stdio", "libc/stdlib", "libc/string",
         "libc/time", "libm/common", "libm/math")
# Sources that are compiled more than once, or that a program in C90's ways has no use for.
VARIANTS = {
    **{f"libc/stdio/vf{name}f": [[f"-D{word}_ONLY" for word in words] for words in ((), ("INTEGER",), ("STRING",), ("INTEGER", "STRING"))]
       for name in ("print", "scan")},
    "libc/stdlib/mallocr": [["-DINTERNAL_NEWLIB", f"-DDEFINE_{word}"] for word in ("MALLOC", "FREE", "REALLOC", "CALLOC", "MEMALIGN")],
}
LEFT_OUT = ("nano-", "hash", "ndbm", "bcmp", "extra", "vfw", "swprintf", "mallinfo", "pvalloc", "valloc", "cfree", "malign", "mstats", "msize")

PAIRS = "".join(f" {name}{kind}f{end}" for kind in "sd" for name, end in
                (("add", 3), ("sub", 3), ("mul", 3), ("div", 3), ("neg", 2), ("eq", 2), ("ge", 2), ("le", 2), ("unord", 2)))
CHANGES = "".join(f" fix{kind}f{to} fixuns{kind}f{to} float{to}{kind}f floatun{to}{kind}f" for kind in "sd" for to in ("si", "di"))
SOFT_FP = f"{PAIRS}{CHANGES} extendsfdf2 truncdfsf2".split()


class Failed(Exception):
    """What couldn't be made."""


class Absent(Exception):
    """What isn't there, or can't be fetched."""


class Source(NamedTuple):
    """A source, its words for the compiler, and the object that is made of it."""

    path: str
    words: Sequence[str]
    made: str


def called(words: Sequence[str], folder: str) -> None:
    """Calls a program that has to do its work."""
    ran = subprocess.run(words, cwd=folder, stdout=subprocess.PIPE, stderr=subprocess.STDOUT, text=True, errors="replace")
    if ran.returncode:
        raise Failed(f"{' '.join(words)[:300]} ended with {ran.returncode}:\n{ran.stdout[-2000:]}")


def unpacked(folder: str, package: str, *parts: str) -> str:
    """The folder with the original source of one of Debian's packages, or with parts of it: fetched where it isn't there."""
    target = f"{folder}/{package}"
    if os.path.isdir(target):
        return target
    os.makedirs(f"{folder}/apt/lists/partial", exist_ok=True)
    os.makedirs(f"{folder}/apt/archives/partial", exist_ok=True)
    with open(f"{folder}/apt/sources.list", "w", encoding="ascii") as out:
        out.write(f"deb-src [signed-by={KEYS}] {MIRROR} {SUITE} main\n")
    own = [f"Dir::Etc::SourceList={folder}/apt/sources.list", "Dir::Etc::SourceParts=/dev/null", f"Dir::State={folder}/apt", f"Dir::Cache={folder}/apt",
           "APT::Sandbox::User="]
    apt = ["apt-get", "-q", *(word for option in own for word in ("-o", option))]
    try:
        if not glob.glob(f"{folder}/apt/lists/*Sources*"):
            called([*apt, "update", "-o", "APT::Update::Error-Mode=any"], folder)
        called([*apt, "source", "--download-only", package], f"{folder}/apt")
    except (Failed, OSError) as why:
        raise Absent(f"Debian's sources of {package} can't be fetched: {why}")
    os.makedirs(f"{target}.part", exist_ok=True)
    archive = glob.glob(f"{folder}/apt/{package}_*.orig.tar.*")[0]
    called(["tar", "-xf", archive, "-C", f"{target}.part", "--strip-components=1", "--wildcards", *parts], folder)
    os.rename(f"{target}.part", target)
    return target


def compiled(sources: Sequence[Source]) -> List[str]:
    """The objects of sources, of which those are made that aren't there or are older."""
    def one(source: Source) -> None:
        if not os.path.exists(source.made) or os.path.getmtime(source.made) < os.path.getmtime(source.path):
            called([f"{PREFIX}gcc", *MACHINE, *source.words, "-c", "-o", f"{source.made}.part", source.path], os.path.dirname(source.made))
            os.rename(f"{source.made}.part", source.made)
    for folder in {os.path.dirname(it.made) for it in sources}:
        os.makedirs(folder, exist_ok=True)
    with ThreadPoolExecutor(JOBS) as pool:
        list(pool.map(one, sources))
    return [it.made for it in sources]


class Library:
    """newlib and floating point in an archive, and the words by which a program is compiled with them."""

    def __init__(self, folder: str):
        if not shutil.which(f"{PREFIX}gcc"):
            raise Absent("there is no compiler for MIPS (Debian's gcc-mipsel-linux-gnu)")
        self.folder, self.newlib = folder, unpacked(folder, "newlib", "*/newlib/libc/*", "*/newlib/libm/*") + "/newlib"
        self.soft_fp = unpacked(folder, "glibc", "*/soft-fp/*", "*/sysdeps/mips/mips32/sfp-machine.h", "*/stdlib/longlong.h")
        os.makedirs(f"{folder}/include", exist_ok=True)
        for name, text in (("newlib.h", NEWLIB_H), ("_newlib_version.h", "")):
            with open(f"{folder}/include/{name}", "w", encoding="ascii") as out:
                out.write(text)
        own = subprocess.run([f"{PREFIX}gcc", "-print-file-name=include"], stdout=subprocess.PIPE, text=True, check=True).stdout.strip()
        self.words = ["-nostdinc", "-isystem", f"{folder}/include", "-isystem", f"{self.newlib}/libc/include", "-isystem", own]
        self.archive = f"{folder}/libc.a"

    def sources(self) -> Iterator[Source]:
        """All that the archive is made of."""
        objects = f"{self.folder}/objects/libc"
        common = [*self.words, "-D_COMPILING_NEWLIB", "-DMISSING_SYSCALL_NAMES", "-fno-builtin", "-I", f"{self.newlib}/libm/common"]
        for part in PARTS:
            for path in sorted(glob.glob(f"{self.newlib}/{part}/*.c")):
                name = os.path.basename(path)[:-2]
                if not name.startswith(LEFT_OUT):
                    for number, words in enumerate(VARIANTS.get(f"{part}/{name}", [[]])):
                        yield Source(path, ["-I", os.path.dirname(path), *common, *words], f"{objects}/{part.replace('/', '_')}_{name}{number or ''}.o")
        yield Source(f"{self.newlib}/libc/machine/mips/setjmp.S", common, f"{objects}/setjmp.o")
        within = ["-I", f"{self.soft_fp}/soft-fp", "-I", f"{self.soft_fp}/sysdeps/mips/mips32", "-I", f"{self.soft_fp}/stdlib"]
        order = ["-D__BYTE_ORDER=1234", "-D__LITTLE_ENDIAN=1234", "-D__BIG_ENDIAN=4321"]
        alias = ["-Dstrong_alias(a,b)=extern __typeof(a) b __attribute__((alias(#a)))"]
        for name in SOFT_FP:
            yield Source(f"{self.soft_fp}/soft-fp/{name}.c", [*self.words, *within, *order, *alias], f"{objects}/{name}.o")

    def make(self) -> None:
        """Makes the archive, where it isn't there."""
        if not os.path.exists(self.archive):
            objects = compiled(list(self.sources()))
            called([f"{PREFIX}ar", "rcs", f"{self.archive}.part", *objects], self.folder)
            os.rename(f"{self.archive}.part", self.archive)
