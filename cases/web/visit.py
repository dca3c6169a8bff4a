"""A visit of the page in a browser: its programs, their reports, faults, steps, memory, commands, hand-ins and links."""

from __future__ import annotations

import hashlib
import json
import os
import re
import subprocess
import tarfile
import time
from typing import Any, Callable, Dict, List, Union

from browser import Chromium, Firefox, Lost

PATIENCE = 60.0  # seconds for something to be shown
Check = Callable[[str, object, object], None]
BAD = "start: li $33, 5\n syscall\n"


class Visit:
    """A browser with the page, and what is checked there. `check` takes a name, what is due and what was found."""

    def __init__(self, browser: Union[Chromium, Firefox], address: str, folder: str, check: Check):
        self.browser, self.address, self.folder = browser, address, folder
        self.check = lambda name, wanted, found: check(f"{browser.name}, {name}", wanted, found)

    # What is done in the page

    def value(self, expression: str) -> Any:
        return self.browser.evaluate(expression)

    def text(self, name: str) -> str:
        return self.value(f"document.getElementById('{name}').textContent")

    def click(self, name: str) -> None:
        self.value(f"document.getElementById('{name}').click()")

    def write(self, name: str, text: str) -> None:
        """Writes into a field as a reader does."""
        it = f"document.getElementById('{name}')"
        self.value(f"({it}.value = {json.dumps(text)}, {it}.dispatchEvent(new Event('input', {{ bubbles: true }})), 0)")

    def wait(self, what: str, condition: str) -> None:
        """Waits until an expression holds."""
        end = time.monotonic() + PATIENCE
        while not self.value(condition):
            if time.monotonic() > end:
                raise Lost(f"waited in vain for {what}")
            time.sleep(0.02)

    def open(self, name: str) -> None:
        """Opens a program of the list."""
        self.value(f"(location.hash = '#{name}', 0)")
        self.wait(name, f"document.getElementById('examples').value === {json.dumps(name)}")
        self.wait(f"{name} before its run", "document.getElementById('digest').textContent === ''")

    def run(self) -> str:
        """Runs, and answers the digest of the report, or nothing where it wasn't run."""
        self.click("run")
        self.wait("the run", "document.getElementById('ends').childElementCount > 0 && !document.getElementById('ends').textContent.startsWith('running')")
        return (re.findall(r"sha256 ([0-9a-f]{64})", self.text("digest")) or [""])[0]

    # What is checked

    def all(self, digests: Dict[str, str], command: List[str], written: bytes) -> None:
        self.browser.open(self.address)
        self.wait("the page", "document.getElementById('examples').childElementCount > 0 && document.getElementById('sources').value !== ''")
        self.check("it fits on 1280 by 720", True,
                   self.value("(it => it.scrollHeight <= innerHeight && it.scrollWidth <= innerWidth)(document.documentElement)"))
        for name, digest in digests.items():
            self.open(name)
            self.check(f"the report of {name}", digest, self.run())
        self.fault()
        self.steps()
        self.ledger()
        self.command(command, written)
        self.hand_in(digests["share"])
        self.link()
        self.check("complaints", [], self.browser.complaints())

    def fault(self) -> None:
        """A fault is said and marked; the browser keeps the edit, and it can be undone."""
        self.open("hello")
        before = self.value("document.getElementById('text').value")
        self.write("text", BAD)
        self.run()
        self.check("a fault", True, self.text("ends").startswith("hello.s:1: UnknownName: there is no such instruction"))
        self.check("its advice", True, "There is no register `$33`" in self.text("ends"))
        self.check("its mark", [False, "start: li $33, 5"], self.value(
            "(it => [document.getElementById('band').hidden, it.value.slice(it.selectionStart, it.selectionEnd)])(document.getElementById('text'))"))
        self.browser.open("about:blank")
        self.browser.open(f"{self.address}#hello")
        self.wait("the page", "document.getElementById('sources').value !== ''")
        self.check("an edit that is kept", BAD, self.value("document.getElementById('text').value"))
        self.click("undo")
        self.check("an edit undone", before, self.value("document.getElementById('text').value"))

    def steps(self) -> None:
        """By hand: `hello` makes 4 instructions for its put, and its first word of data is `hell`. By keys alone."""
        self.open("hello")
        self.value("(document.getElementById('text').focus(), 0)")
        self.browser.key("Enter", control=True)
        self.wait("the run", "document.getElementById('digest').textContent !== ''")
        self.browser.key("Enter", control=True, shift=True)
        self.wait("the steps", "!document.getElementById('stepper').hidden")
        self.check("the first step", True, self.text("step-where").startswith("step 1 of 12, tick 0: 00400000 start  lui $4,0x1000"))
        self.check("a pseudo-instruction", True, "the first of the two instructions of `la $4, text`" in self.text("step-where"))
        for key in ("ArrowRight", "ArrowRight", "ArrowLeft"):
            self.browser.key(key)
        self.check("a step by keys", True, self.text("step-where").startswith("step 2 of 12, tick 1"))
        self.browser.key("c")
        self.check("to the next call", True, "put(0x10000000, 6) = 6" in self.text("step-where"))
        self.check("its console", "hello\n", self.text("step-console"))
        self.check("registers, in both", True, "$5 a110000000" not in self.text("step-regs") and "$4 a0100000002684354" in self.text("step-regs"))
        self.write("step-address", "text")
        self.check("memory at a label", True, self.text("step-memory").startswith("10000000  6c6c6568 "))
        self.browser.key("End")
        self.check("the end", True, "exit 0 in tick 11" in self.text("step-where"))
        self.browser.key("Escape")
        self.check("back", [True, False], self.value("[document.getElementById('stepper').hidden, document.getElementById('page').hidden]"))
        self.stores()

    def stores(self) -> None:
        """A store lights up what it changed: 5 into the word of `x`."""
        self.open("own")
        self.write("text", "start: la $8, x\n li $9, 5\n sw $9, 4($8)\n li $2, 2\n syscall\n.data\nx: .word 1, 2\n")
        self.click("step")
        self.wait("the steps", "!document.getElementById('stepper').hidden")
        for _ in range(4):
            self.browser.key("ArrowRight")
        self.check("a store", ["00000005", "10000000  00000001 00000005"],
                   self.value("(it => [it?.textContent, it?.parentNode.textContent.slice(0, 27)])(document.querySelector('#step-memory .new'))"))
        self.browser.key("ArrowLeft")
        self.check("before it", True, self.text("step-memory").startswith("10000000  00000001 00000002"))
        self.browser.key("Escape")
        self.click("undo")

    def ledger(self) -> None:
        """A slice leads to its step: the second environment of `two` begins in tick 7."""
        self.open("two")
        self.run()
        self.value("(document.querySelectorAll('#ledger .bar-of')[1].dispatchEvent(new MouseEvent('click')), 0)")
        self.wait("the steps", "!document.getElementById('stepper').hidden")
        self.check("a slice leads to its step", True, self.text("step-where").startswith("step 1 of 7, tick 7:"))
        self.browser.key("Escape")

    def command(self, words: List[str], written: bytes) -> None:
        """A command in the box, over the files of `two`, writes what the program does."""
        self.click("tab-command")
        self.write("command-words", " ".join(words))
        self.value("(document.querySelector('#command-form button').click(), 0)")
        self.wait("the command", "document.getElementById('command-said').textContent.startsWith('status')")
        self.check("a command", written.decode("ascii"), self.text("command-output"))
        self.check("its digest", True, f"status 0, {len(written):,} bytes, sha256 {hashlib.sha256(written).hexdigest()}" in self.text("command-said"))

    def hand_in(self, digest: str) -> None:
        """All files go out as one that tar unpacks, and come in again with the words of the run."""
        self.open("share")
        self.run()
        self.click("save")
        path = f"{self.folder}/share.tar"
        end = time.monotonic() + PATIENCE
        while not (os.path.exists(path) and os.path.getsize(path)) and time.monotonic() < end:
            time.sleep(0.05)
        room = f"{self.folder}/unpacked"
        with tarfile.open(path) as tar:
            tar.extractall(room)
        said = open(f"{room}/HAND-IN", encoding="ascii").read()
        self.check("a hand-in", ["HAND-IN", "share.s", "share.txt"], sorted(os.listdir(room)))
        self.check("what it says", f"tools/try share.txt --ticks 1000000 --quantum 100\nsha256 {digest}  of the report\n", said)
        self.browser.choose("#files", [path])
        self.wait("the files", "document.getElementById('examples').value === 'opened'")
        self.check("a hand-in that comes back", digest, self.run())
        subprocess.run(["rm", "-r", path, room], check=True)

    def link(self) -> None:
        """A link has a small program."""
        self.open("hello")
        self.write("text", "start: li $4, 9\n li $2, 2\n syscall\n")
        self.click("link")
        address = self.value("location.href")
        self.click("undo")
        self.browser.open("about:blank")
        self.browser.open(address)
        self.wait("the page", "document.getElementById('sources').value !== ''")
        self.check("a link's program", True, self.run() != "" and "exit 9 in tick 4" in self.text("ends"))
        self.browser.open("about:blank")
        self.browser.open(self.address)
