#!/usr/bin/env python3
"""What the page's modules tell, against tools/try and tools/step: all sources and manifests of the repository, the exercises with
their wrong solutions, and sources, manifests and schedules with faults.

    cases/web/parity.py PAGE [WORD]     compares the items whose names have the word, and prints each line that differs

Status: 0 nothing differs; 1 something does.
"""

from __future__ import annotations

import argparse
import contextlib
import difflib
import io
import json
import os
import re
import shutil
import subprocess
import sys
import tempfile
from concurrent.futures import ProcessPoolExecutor
from typing import Any, Dict, Iterator, List, NamedTuple, Optional, Tuple

sys.dont_write_bytecode = True
CASE = os.path.dirname(os.path.realpath(__file__))
ROOT = os.path.dirname(os.path.dirname(CASE))
sys.path[:0] = [f"{ROOT}/tools", f"{ROOT}/cases"]
import step_page
from loading import loaded
from places import places_of
from programs import WARNED, Failed, made_machine, tool
from steps import Steps, run_of

TRY = tool("try")
RUNNER = loaded(f"{ROOT}/cases/run")
TICKS, QUANTUM = 1_000, 100
LONGEST_ROW = 3_000  # characters
WORKERS = 2
LEAST, LEAST_RECORDINGS = 1_000, 600  # runs and recordings that are compared


class Item(NamedTuple):
    """A run: its name, its folder, what runs, the schedule, and the environment whose steps are compared, if one is."""

    name: str
    folder: str
    sources: List[str]
    schedule: str = ""
    env: Optional[int] = None


# --- What is compared -----------------------------------------------------------------------------------------


def copied(room: str, name: str, *folders: str) -> str:
    """A folder of its own with the files of some folders, the later ones above."""
    folder = f"{room}/{name.replace('/', '_')}"
    os.makedirs(folder)
    for it in folders:
        for file in os.scandir(it):
            if file.is_file() and os.path.splitext(file.name)[1] in (".s", ".asm", ".txt", ".sch", ".elf", ".bin") and file.name != "rows.txt":
                shutil.copyfile(file.path, f"{folder}/{file.name}")
    return folder


def of_folder(name: str, folder: str) -> Iterator[Item]:
    """The sources and the manifests of a folder, each by each schedule that has its name."""
    for file in sorted(os.listdir(folder)):
        stem, ending = os.path.splitext(file)
        if ending in (".s", ".asm", ".txt", ".elf"):
            schedule = f"{stem}.sch" if os.path.exists(f"{folder}/{stem}.sch") else ""
            yield Item(f"{name}/{file}", folder, [file], schedule, 0)


def sources(room: str) -> Iterator[Item]:
    """The folders of the repository that have sources."""
    for top in ("examples", "labs", "cases"):
        for at, folders, files in sorted(os.walk(f"{ROOT}/{top}")):
            folders[:] = [it for it in folders if it not in ("out", "web")]
            name = os.path.relpath(at, ROOT)
            if any(it.endswith((".s", ".asm", ".elf")) for it in files):
                lab = f"{ROOT}/labs/{os.path.basename(at)}"
                yield from of_folder(name, copied(room, name, *([lab] if name.startswith("cases/labs/") else []), at))


def wrong_solutions(room: str) -> Iterator[Item]:
    """The exercises' solutions in assembly with each edit that makes them wrong, by each manifest of the exercise."""
    for at, _, files in sorted(os.walk(f"{ROOT}/cases/labs")):
        lab = os.path.basename(at)
        if not os.path.exists(f"{at}/{lab}.s"):
            continue
        for edit in sorted(it for it in files if it.endswith(".edit")):
            with open(f"{at}/{lab}.s", encoding="utf-8") as file, open(f"{at}/{edit}", encoding="utf-8") as changes:
                text = file.read()
                for old, new in re.findall(r"(?m)^old: (.*)\nnew: (.*)$", changes.read()):
                    text = text.replace(old.replace(r"\n", "\n"), new.replace(r"\n", "\n"))
            folder = copied(room, f"labs_{lab}_{edit}", f"{ROOT}/labs/{lab}")
            with open(f"{folder}/{lab}.s", "w", encoding="utf-8") as file:
                file.write(text)
            manifest = f"{lab}.txt" if os.path.exists(f"{folder}/{lab}.txt") else f"{lab}.s"
            yield Item(f"labs/{lab}/{edit}", folder, [manifest], "", 0)


def written(room: str, name: str, files: Dict[str, bytes]) -> str:
    """A folder with these files."""
    folder = f"{room}/{re.sub(r'[^a-z0-9]', '_', name)}"
    os.makedirs(folder)
    for file, content in files.items():
        with open(f"{folder}/{file}", "wb") as out:
            out.write(content)
    return folder


def faults(room: str) -> Iterator[Item]:
    """The rows of tables of faults: a source, a manifest or a schedule each."""
    with open(f"{ROOT}/examples/hi.img", "rb") as file:
        flat = file.read()[-34:]
    forms: Dict[str, Tuple[str, Dict[str, bytes]]] = {
        "assembler_faults": ("x.s", {}),
        "schedules": ("x.sch", {"hi.s": b"start: b start\n nop\n"}),
        "manifests": ("x.txt", {"hi.bin": flat}),
    }
    for table, (name, more) in forms.items():
        with open(f"{ROOT}/cases/{table}/rows.txt", encoding="utf-8") as file:
            rows = [line.rpartition(" => ")[0] for line in file if " => " in line and not line.startswith("#")]
        for at, row in enumerate(it for it in rows if len(RUNNER.repeated(it)) < LONGEST_ROW):
            folder = written(room, f"{table} {at}", {name: RUNNER.unescaped(RUNNER.repeated(row)), **more})
            yield Item(f"{table}: {row[:60]}", folder, ["hi.s"] if table == "schedules" else [name], "x.sch" if table == "schedules" else "")


def habits(room: str) -> Iterator[Item]:
    """The sources that documents and cases write by `printf`, for tools/try or tools/lint."""
    for case in ("mistakes", "spim_habits", "trying", "escapes"):
        with open(f"{ROOT}/cases/{case}/case.md", encoding="utf-8") as file:
            commands = re.findall(r"(?m)^\$ (printf [^\n;]*?> ([\w.]+\.(?:s|asm|elf|txt|sch))); tools/(?:try|lint) \2", file.read())
        for at, (command, name) in enumerate(commands):
            folder = written(room, f"{case} {at}", {})
            subprocess.run(["bash", "-c", command], cwd=folder, check=True)
            yield Item(f"{case}: {command[:80]}", folder, [name], "", None if name.endswith(".sch") else 0)


def items(room: str) -> List[Item]:
    return [it for way in (sources, wrong_solutions, faults, habits) for it in way(room)]


# --- What is told of it ---------------------------------------------------------------------------------------


def of_tools(item: Item) -> Dict[str, Any]:
    """What tools/try tells, and the data of tools/step --html."""
    os.chdir(item.folder)
    WARNED.clear()  # a run of its own
    out = io.StringIO()
    words = [*item.sources, "--ticks", str(TICKS), "--quantum", str(QUANTUM), *(["--schedule", item.schedule] if item.schedule else [])]
    with contextlib.redirect_stdout(out), contextlib.redirect_stderr(out):
        status = int(TRY.main(words))
    lines = [line[5:] if line.startswith("try: ") else line for line in out.getvalue().split("\n")]  # the tool's name
    return {"status": status, "lines": lines[:-1] if lines and not lines[-1] else lines, "steps": steps_of(item) if item.env is not None else None}


def steps_of(item: Item) -> Optional[Dict[str, Any]]:
    """The data of the stepper, where the run is made."""
    with tempfile.TemporaryDirectory(prefix="aegis-web-") as room, contextlib.redirect_stdout(io.StringIO()):
        try:
            machine = made_machine(item.sources, QUANTUM, item.schedule or None, room)
            steps = Steps(run_of(machine, TICKS), item.env or 0)
        except Failed:
            return None
        program = machine.programs[item.env or 0]
        return json.loads(json.dumps(step_page.Data(steps, places_of(program), program, item.name).all()))


def of_page(page: str, tried: List[Item]) -> List[Dict[str, Any]]:
    """What the page's modules tell of all items."""
    asked = [{"folder": it.folder, "sources": it.sources, "schedule": it.schedule, "ticks": TICKS, "quantum": QUANTUM, "title": it.name,
              **({} if it.env is None else {"env": it.env})} for it in tried]
    ran = subprocess.run(["node", f"{CASE}/told.mjs", page], input="".join(f"{json.dumps(it)}\n" for it in asked), stdout=subprocess.PIPE, text=True,
                         encoding="utf-8", check=True)
    return [json.loads(line) for line in ran.stdout.split("\n")[:-1]]


# --- The comparison -------------------------------------------------------------------------------------------


def differences(ours: Dict[str, Any], theirs: Dict[str, Any]) -> Iterator[str]:
    """The lines that differ, of what is told and of the steps."""
    if ours["status"] != theirs["status"]:
        yield f"status {ours['status']} and not {theirs['status']}"
    yield from list(difflib.unified_diff(theirs["lines"], ours["lines"], "tools/try", "page", lineterm="", n=0))[2:]
    here, there = ours["steps"], theirs["steps"]
    if (here is None) != (there is None):
        yield "steps of one of both alone"
    elif here is not None and there is not None:
        for part in there:
            if here.get(part) == there[part]:
                continue
            pairs = zip(here[part], there[part]) if isinstance(there[part], list) else [(here.get(part), there[part])]
            at, first = next(((at, pair) for at, pair in enumerate(pairs) if pair[0] != pair[1]), (-1, (len(here[part]), len(there[part]))))
            yield f"steps, {part} {at}: {first[0]!r:.300} and not {first[1]!r:.300}"


def compared(page: str, word: str = "") -> Tuple[int, int, List[str]]:
    """How many items were compared, how many recordings among them, and what differs."""
    with tempfile.TemporaryDirectory(prefix="aegis-web-") as room:
        tried = [it for it in items(room) if word in it.name]
        with ProcessPoolExecutor(WORKERS) as pool:
            theirs = list(pool.map(of_tools, tried, chunksize=8))
        ours = of_page(page, tried)
        said = [f"{item.name}: {line}" for item, one, other in zip(tried, ours, theirs) for line in differences(one, other)]
        return len(tried), sum(it["steps"] is not None for it in theirs), said


def main(words: List[str]) -> int:
    parser = argparse.ArgumentParser(prog="parity", description=__doc__, formatter_class=argparse.RawDescriptionHelpFormatter)
    parser.add_argument("page")
    parser.add_argument("word", nargs="?", default="")
    chosen = parser.parse_args(words)
    count, recordings, said = compared(os.path.abspath(chosen.page), chosen.word)
    print("\n".join([*said, f"{count} runs, {recordings} recordings: {len({it.partition(': ')[0] for it in said})} differ"]))
    return 1 if said else 0


if __name__ == "__main__":
    sys.exit(main(sys.argv[1:]))
