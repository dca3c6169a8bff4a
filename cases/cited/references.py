"""References that lead nowhere, in the sources' comments and in the documents.

Where a page is followed by a name in quotes, as in `docs/KERNEL.md`, "Boot", it has a heading of that name; where it is
followed by the number of a section, it has that section. A path in backticks is there: at the top, beside the file, or in a
crate, whose files may be named without their endings. A path is looked up where it begins with a folder of the top, with a
crate's name and its src/, specs/ or proofs/, or with one of these. In it NAME, or another word in capitals, stands for any.
"""

from __future__ import annotations

import functools
import glob
import os
import re
import tempfile
from typing import Iterator, List, Set

FOLDERS = ("crates/*/src", "crates/*/specs", "docs", "tools", "web", "runtime", "bench", "examples", "labs", "cases", ".ci")
FILES = ("README.md", "aegis", "crates.txt")
SAMPLES = ("cases/release/case.md", "cases/clauses/test", "cases/cited/references.py")  # they have files of small trees
ENDINGS = ("", ".rt", ".antt", ".md", ".py", ".s", ".c", ".h", ".js", ".mjs", ".css", ".html", ".txt", ".sch")
LEADER = re.compile(r"(?m)^[ \t]*(?://[!/]?|--|#+|;+|\*)[ \t]+")  # what begins a line of a comment
PAGE = r"((?:docs|labs|examples)/[\w./-]+\.md|README\.md)"
QUOTED = re.compile(rf"{PAGE}`?,? ((?:(?:,? and |, )?\"[^\"\n]+\")+)")
NUMBERED = re.compile(rf"{PAGE}`?,? section (\d+)")
NAMED_PAGE = re.compile(r"\bdocs/(?!NAME)[A-Z_]+\.md\b")
TICKED = re.compile(r"`([\w.*-]+/[\w./*-]*)`")
IN_A_CRATE = re.compile(r"(?:\w+/)?(?:src|specs|proofs|must-fail)(?:/|$)")
MADE = re.compile(r"/out/|\.(?:img|elf|bin)$")  # what a tool or a build makes


def text_of(path: str) -> str:
    """The text of a file, nothing where it is none."""
    try:
        with open(path, encoding="utf-8") as file:
            return file.read()
    except (OSError, UnicodeDecodeError):
        return ""


def files(root: str) -> Iterator[str]:
    """The sources and documents below a folder."""
    for folder in FOLDERS:
        for path in sorted(glob.glob(f"{root}/{folder}/**", recursive=True)):
            name = os.path.relpath(path, root)
            if os.path.isfile(path) and os.path.splitext(path)[1] in ENDINGS and name not in SAMPLES:
                yield name
    yield from (it for it in FILES if os.path.isfile(f"{root}/{it}"))


@functools.lru_cache(maxsize=None)
def headings(page: str) -> Set[str]:
    """The headings of a page, without marks and numbers, also without what stands in parentheses or behind a colon; and these numbers."""
    found = re.findall(r"(?m)^#+ (?:(\d+)\. )?((.*?)(?:(?: \(|: ).*)?)$", text_of(page))
    return {it.replace("`", "") for names in found for it in names if it}


def flowing(path: str, text: str) -> str:
    """A text whose lines run on; of a source without what begins the lines of its comments."""
    return re.sub(r"\s+", " ", text if path.endswith(".md") else LEADER.sub("", text))


def places(root: str, path: str, said: str) -> Iterator[str]:
    """The places that a path in backticks may mean, in a file with this path."""
    yield from (f"{root}/{said}", f"{root}/{os.path.dirname(path)}/{said}")
    if IN_A_CRATE.match(said):
        for ending in ("", ".rt", ".antt"):
            yield from (f"{root}/crates/{said}{ending}", f"{root}/{crate_of(path)}/{said}{ending}")


def crate_of(path: str) -> str:
    """The crate of a file, or any."""
    return "/".join(path.split("/")[:2]) if path.startswith("crates/") else "crates/*"


def is_there(place: str) -> bool:
    """Whether there is such a path, in which a word in capitals stands for any."""
    pattern = re.sub(r"\b[A-Z]{3,}\b(?!\.md)", "*", place)
    return bool(glob.glob(pattern)) if "*" in pattern else os.path.exists(pattern)


def is_lost(root: str, path: str, said: str) -> bool:
    """Whether a path in backticks is one of ours, isn't made by a tool, and isn't there."""
    is_ours = IN_A_CRATE.match(said) or os.path.isdir(f"{root}/{said.split('/')[0]}")
    return bool(is_ours) and not MADE.search(said) and not any(map(is_there, places(root, path, said)))


def lost_of(root: str, path: str) -> Iterator[str]:
    """The references of a file that lead nowhere."""
    text = text_of(f"{root}/{path}")
    if ".md" not in text and "/" not in "".join(text.split("`")[1:]):
        return
    text = flowing(path, text)
    named = [(page, it) for page, names in QUOTED.findall(text) for it in re.findall(r'"([^"]+)"', names)]
    for page, name in [*named, *NUMBERED.findall(text)]:
        if name not in headings(f"{root}/{page}"):
            yield f"{page} has no {name}"
    yield from (f"there is no {it}" for it in sorted(set(NAMED_PAGE.findall(text))) if not os.path.exists(f"{root}/{it}"))
    yield from (f"there is no {it}" for it in sorted(set(TICKED.findall(text))) if is_lost(root, path, it))


def lost(root: str) -> List[str]:
    """The references that lead nowhere, each after the file that has it."""
    return sorted({f"{path}: {it}" for path in files(root) for it in lost_of(root, path)})


# A small tree: a page, and sources and a page whose references lead somewhere or nowhere; and those that do the latter.
TREE = {
    "docs/A.md": "# One\n\n## 2. The `two` (`x`)\n\n### Three: four\n",
    "crates/b/src/lib.rt": "//! `docs/A.md`, \"The\n//! two\" and \"Three\", and \"No\n//! such\". `src/lib.rt`, `src/c.rt`\n",
    "crates/b/specs/D.antt": "-- docs/A.md, section 2, docs/A.md, section 3\n",
    "tools/e": "# docs/A.md, \"One\"; docs/B.md; `b/specs/D`, `b/specs/E`, `crates/NAME/src/*.rt`, `crates/NAME/src/*.s`, `out/x`\n",
    "examples/README.md": "`../docs/A.md`, `docs/A.md`, \"Two\", `examples/f.s`, `examples/f.img`, `/dev/null`, `g/h`\n",
}
LOST = ("crates/b/specs/D.antt: docs/A.md has no 3", "crates/b/src/lib.rt: docs/A.md has no No such", "crates/b/src/lib.rt: there is no src/c.rt",
        "examples/README.md: docs/A.md has no Two", "examples/README.md: there is no examples/f.s", "tools/e: there is no b/specs/E",
        "tools/e: there is no crates/NAME/src/*.s", "tools/e: there is no docs/B.md")


def misjudged() -> List[str]:
    """What is found in the small tree and isn't so, and what isn't found."""
    with tempfile.TemporaryDirectory(prefix="aegis-cited-") as room:
        for path, text in TREE.items():
            os.makedirs(os.path.dirname(f"{room}/{path}"), exist_ok=True)
            with open(f"{room}/{path}", "w", encoding="utf-8") as file:
                file.write(text)
        return [f"in the small tree: {it}" for it in sorted({*lost(room)} ^ {*LOST})]
