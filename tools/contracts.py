"""Reads the contracts of the code: the functions of each crate's src/, with their clauses and what is said of them."""

from __future__ import annotations

import glob
import os
import re
from dataclasses import dataclass, field
from typing import Dict, Iterator, List, Optional, Set, Tuple

from matching import matched

ROOT = os.path.dirname(os.path.dirname(os.path.realpath(__file__)))
FN = re.compile(r"^\s*(pub(?:\(\w+\))? )?(?:const )?fn (\w+)")
HOLDER = re.compile(r"^(pub )?(impl|trait)\b(?:<[^{]*?>)? ?(.*)$")
CLAUSE = re.compile(r"^\s*(ensures|requires)\*?\s*(\w*)\s*\{")
INVARIANT = re.compile(r"^\s*ghost invariant = \{")


@dataclass
class Clause:
    """What a function ensures or requires; the name is empty where it has none."""

    kind: str
    name: str
    text: str
    about: str = ""


@dataclass
class Function:
    """A function with its contract. Its type is empty where it is no method; the trait is the one that it meets or has."""

    crate: str
    path: str
    line: int
    name: str
    public: bool
    type: str = ""
    trait: str = ""
    about: str = ""
    clauses: List[Clause] = field(default_factory=list)

    @property
    def title(self) -> str:
        return f"{self.type}::{self.name}" if self.type else self.name

    def kept(self) -> List[Clause]:
        """What it ensures."""
        return [it for it in self.clauses if it.kind == "ensures"]


@dataclass
class Source:
    """A file of code: its functions, its traits, and the invariants of its types."""

    functions: List[Function] = field(default_factory=list)
    traits: List[str] = field(default_factory=list)
    invariants: List[Tuple[str, int, str]] = field(default_factory=list)


def text_of(path: str) -> Optional[str]:
    """The text of a file of the repository, or none."""
    try:
        with open(f"{ROOT}/{path}", encoding="utf-8") as file:
            return file.read()
    except OSError:
        return None


def crates() -> List[Tuple[str, List[str]]]:
    """The crates by the headings of crates.txt."""
    found: List[Tuple[str, List[str]]] = []
    for line in (text_of("crates.txt") or "").splitlines()[1:]:
        if line.startswith("# "):
            found.append((line[2:], []))
        elif re.match(r"[a-z]", line):
            found[-1][1].append(line.partition(":")[0])
    return found


def braced(lines: List[str], at: int, start: int) -> Tuple[str, int]:
    """The text between the brace that stands before a place and the one that closes it, and the line of the latter."""
    depth, taken = 1, []
    while at < len(lines):
        for place in range(start, len(lines[at])):
            depth += {"{": 1, "}": -1}.get(lines[at][place], 0)
            if depth == 0:
                taken.append(lines[at][start:place])
                return " ".join(" ".join(taken).split()), at
        taken.append(lines[at][start:])
        at, start = at + 1, 0
    return " ".join(" ".join(taken).split()), at


def type_name(text: str) -> str:
    return matched(r"\W*(\w*)", text)[1]


def holder_of(line: str) -> Tuple[str, str]:
    """The type and the trait of a block whose first line this is."""
    found = matched(HOLDER, line)
    rest = found[3]
    if found[2] == "trait":
        return type_name(rest), type_name(rest)
    trait, for_, kind = rest.partition(" for ")
    return (type_name(kind), type_name(trait)) if for_ else (type_name(rest), "")


def said(lines: List[str], at: int, mark: str) -> str:
    """The comment that ends above a line; attributes may stand between."""
    taken: List[str] = []
    at -= 1
    while at >= 0 and lines[at].strip().startswith("#["):
        at -= 1
    while at >= 0 and lines[at].strip().startswith(mark):
        taken.insert(0, lines[at].strip()[len(mark):].strip())
        at -= 1
    return " ".join(taken)


def source(crate: str, path: str) -> Source:
    """What a file has."""
    lines = (text_of(path) or "").splitlines()
    found, of_type, trait, in_trait = Source(), "", "", False
    at = 0
    while at < len(lines):
        line = lines[at]
        if HOLDER.match(line) and not line.startswith(" "):
            of_type, trait = holder_of(line)
            in_trait = bool(re.match(r"(pub )?trait\b", line))
            found.traits += [of_type] if in_trait else []
        elif line.startswith("}"):
            of_type, trait, in_trait = "", "", False
        elif INVARIANT.match(line):
            text, at = braced(lines, at, line.index("{") + 1)
            found.invariants.append((of_type, at + 1, text))
        elif mark := FN.match(line):
            it = Function(crate, path, at + 1, mark[2], in_trait or (mark[1] or "").strip() == "pub", of_type, trait, said(lines, at, "///"))
            at = contract(lines, at, it)
            found.functions.append(it)
        at += 1
    return found


def shared(lines: List[str], at: int, it: Function) -> str:
    """The comment of the clause right above, where an empty line stands above that comment: it is of both."""
    above = it.clauses[-1].about if it.clauses and CLAUSE.match(lines[at - 1]) else ""
    up = at - 1
    while above and lines[up].strip() and not FN.match(lines[up]):
        up -= 1
    return above if above and not lines[up].strip() else ""


def contract(lines: List[str], at: int, it: Function) -> int:
    """Takes in the clauses after a function's head, and answers the last line of them."""
    last = at
    while at < len(lines):
        line = lines[at]
        mark = CLAUSE.match(line)
        if mark:
            about = said(lines, at, "//") or shared(lines, at, it)
            text, at = braced(lines, at, mark.end())
            it.clauses.append(Clause(mark[1], mark[2], text, about))
            last = at
            if lines[at].rstrip().endswith(";"):
                return last
        elif at > last and (line.startswith("{") or re.match(r"\s*(\{|///|\}|fn|pub|#\[)", line)):
            return last
        elif line.rstrip().endswith((";", "{", "{}")) and not line.strip().startswith("//"):
            return max(last, at) if line.rstrip().endswith(";") else last
        at += 1
    return last


def exported(crate: str) -> Set[str]:
    """The names that a crate's root file gives to other crates."""
    root = text_of(f"crates/{crate}/src/lib.rt") or ""
    names = set(re.findall(r"(?m)^pub (?:fn|struct|enum|trait) (\w+)", root))
    for one, many in re.findall(r"(?m)^pub use [\w:]+?::(?:(\w+)|\{([^}]*)\});", root):
        names |= {it.split(" as ")[-1].strip().split("::")[-1] for it in (one or many).split(",")}
    return names


def sources(crate: str) -> Iterator[Source]:
    """The files of a crate's code but for its tests, in the order of their paths. Public is what the crate exports."""
    names = exported(crate)
    for path in sorted(glob.glob(f"{ROOT}/crates/{crate}/src/**/*.rt", recursive=True)):
        short = os.path.relpath(path, ROOT)
        if not re.search(r"/tests?(/|\.rt)", short):
            found = source(crate, short)
            for it in found.functions:
                it.public = it.public and (it.type or it.name) in names
            yield found


def functions() -> Dict[str, List[Function]]:
    """All functions, by crate."""
    return {crate: [it for file in sources(crate) for it in file.functions] for _, names in crates() for crate in names}
