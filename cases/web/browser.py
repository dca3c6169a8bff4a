"""Drives Chromium by the pipe of its DevTools protocol, and Firefox by Marionette, with Python alone.

    with Chromium(folder) as browser:
        browser.open(url)
        browser.evaluate("document.title")

Both have the same methods: `open`, `evaluate` an expression in the page, `key`, `choose` files, `picture`, `size`, and `complaints`:
what the page's console said of faults, and which addresses it asked for. What is saved comes into the folder.
"""

from __future__ import annotations

import base64
import contextlib
import json
import os
import select
import shutil
import signal
import socket
import subprocess
import time
from typing import Any, Dict, List, Optional

CHROMIUM = next((it for it in ("chromium", "chromium-browser", "google-chrome") if shutil.which(it)), None)
FIREFOX = next((it for it in ("firefox-esr", "firefox") if shutil.which(it)), None)
PATIENCE = 60.0  # seconds for an answer
CONTROL, SHIFT = 2, 8  # Chromium's bits of held keys
KEYS = {"Enter": (13, "\ue007"), "Escape": (27, "\ue00c"), "ArrowRight": (39, "\ue014"), "ArrowLeft": (37, "\ue012"), "End": (35, "\ue010"),
        "Home": (36, "\ue011"), "Tab": (9, "\ue004")}


class Lost(Exception):
    """The browser doesn't answer, or says that something is wrong."""


class Chromium:
    """A Chromium without a window."""

    name = "Chromium"

    def __init__(self, folder: str):
        from_us, self.outgoing = os.pipe()
        self.incoming, to_us = os.pipe()
        words = [CHROMIUM or "", "--headless=new", "--no-sandbox", "--disable-gpu", "--disable-dev-shm-usage", "--no-first-run", "--remote-debugging-pipe",
                 "--disable-background-networking", "--disable-component-update", f"--user-data-dir={folder}/chromium", "about:blank"]
        self.process = subprocess.Popen(["bash", "-c", f'exec "$@" 3<&{from_us} 4>&{to_us}', "bash", *words], pass_fds=(from_us, to_us),
                                        stdin=subprocess.DEVNULL, stdout=subprocess.DEVNULL, stderr=subprocess.DEVNULL, start_new_session=True)
        os.close(from_us)
        os.close(to_us)
        self.number, self.rest, self.session = 0, b"", None
        self.faults: List[str] = []
        target = self.call("Target.createTarget", url="about:blank")["targetId"]
        self.session = self.call("Target.attachToTarget", targetId=target, flatten=True)["sessionId"]
        for part in ("Page", "Runtime", "Log", "Network"):
            self.call(f"{part}.enable")
        self.size(1280, 720)
        self.call("Page.setDownloadBehavior", behavior="allow", downloadPath=folder)

    def __enter__(self) -> "Chromium":
        return self

    def __exit__(self, *_: object) -> None:
        with contextlib.suppress(Lost, OSError):
            self.session = None
            self.call("Browser.close")
        with contextlib.suppress(subprocess.TimeoutExpired):
            self.process.wait(10)
        os.killpg(self.process.pid, signal.SIGKILL) if self.process.poll() is None else None
        os.close(self.outgoing)
        os.close(self.incoming)

    def message(self) -> Dict[str, Any]:
        """The next message."""
        end = time.monotonic() + PATIENCE
        while b"\0" not in self.rest:
            if not select.select([self.incoming], [], [], max(end - time.monotonic(), 0))[0]:
                raise Lost("Chromium doesn't answer")
            piece = os.read(self.incoming, 1 << 20)
            if not piece:
                raise Lost("Chromium has ended")
            self.rest += piece
        text, _, self.rest = self.rest.partition(b"\0")
        return json.loads(text)

    def call(self, method: str, **words: Any) -> Dict[str, Any]:
        """Has a method done, and notes what is said meanwhile."""
        self.number += 1
        said = {"id": self.number, "method": method, "params": words, **({"sessionId": self.session} if self.session else {})}
        os.write(self.outgoing, json.dumps(said).encode() + b"\0")
        while True:
            found = self.message()
            if found.get("id") == self.number:
                if "error" in found:
                    raise Lost(f"{method}: {found['error']}")
                return found["result"]
            self.note(found.get("method", ""), found.get("params", {}))

    def note(self, method: str, words: Dict[str, Any]) -> None:
        """Keeps what is a fault, or a request."""
        if method == "Runtime.exceptionThrown":
            self.faults.append(json.dumps(words["exceptionDetails"])[:600])
        elif method == "Log.entryAdded" and words["entry"]["level"] in ("error", "warning"):
            self.faults.append(words["entry"]["text"])
        elif method == "Runtime.consoleAPICalled" and words["type"] in ("error", "warning", "assert"):
            self.faults.append(json.dumps(words["args"])[:600])
        elif method == "Network.requestWillBeSent" and not words["request"]["url"].startswith(("file:", "blob:", "about:")):
            self.faults.append(f"a request: {words['request']['url'][:200]}")

    def open(self, address: str) -> None:
        self.call("Page.navigate", url=address)
        while self.evaluate("document.readyState") != "complete":
            time.sleep(0.02)

    def evaluate(self, expression: str) -> Any:
        """The value of an expression in the page."""
        found = self.call("Runtime.evaluate", expression=expression, returnByValue=True, awaitPromise=True)
        if "exceptionDetails" in found:
            raise Lost(json.dumps(found["exceptionDetails"])[:800])
        return found["result"].get("value")

    def key(self, name: str, control: bool = False, shift: bool = False) -> None:
        held = CONTROL * control + SHIFT * shift
        code = KEYS[name][0] if name in KEYS else ord(name.upper())
        text = {} if name in KEYS or control else {"text": name}
        for kind in ("keyDown", "keyUp"):
            self.call("Input.dispatchKeyEvent", type=kind, key=name, windowsVirtualKeyCode=code, modifiers=held, **(text if kind == "keyDown" else {}))

    def size(self, width: int, height: int, scale: int = 1, is_mobile: bool = False, is_dark: bool = False) -> None:
        self.call("Emulation.setDeviceMetricsOverride", width=width, height=height, deviceScaleFactor=scale, mobile=is_mobile)
        self.call("Emulation.setEmulatedMedia", features=[{"name": "prefers-color-scheme", "value": "dark" if is_dark else "light"}])

    def choose(self, selector: str, paths: List[str]) -> None:
        """Gives files to an input for files."""
        root = self.call("DOM.getDocument")["root"]["nodeId"]
        self.call("DOM.setFileInputFiles", files=paths, nodeId=self.call("DOM.querySelector", nodeId=root, selector=selector)["nodeId"])

    def picture(self, path: str) -> None:
        with open(path, "wb") as file:
            file.write(base64.b64decode(self.call("Page.captureScreenshot", format="png")["data"]))

    def complaints(self) -> List[str]:
        self.evaluate("0")
        return self.faults


class Firefox:
    """A Firefox without a window."""

    name = "Firefox"

    def __init__(self, folder: str):
        with socket.socket() as free:
            free.bind(("127.0.0.1", 0))
            port = free.getsockname()[1]
        profile = f"{folder}/firefox"
        os.makedirs(profile, exist_ok=True)
        with open(f"{profile}/user.js", "w", encoding="ascii") as file:
            file.write(f'user_pref("marionette.port", {port});\n' + f'user_pref("browser.download.dir", {json.dumps(folder)});\n'
                       + "".join(f'user_pref("{name}", {value});\n' for name, value in PREFERENCES.items()))
        words = [FIREFOX or "", "--headless", "--marionette", "--remote-allow-system-access", "--no-remote", "--profile", profile, "about:blank"]
        self.process = subprocess.Popen(words, stdin=subprocess.DEVNULL, stdout=subprocess.DEVNULL, stderr=subprocess.DEVNULL, start_new_session=True)
        self.connection, self.rest, self.number = connected(port, self.process), b"", 0
        self.message()  # its greeting
        self.call("WebDriver:NewSession", capabilities={"alwaysMatch": {"acceptInsecureCerts": True}})
        self.size(1280, 720)
        self.in_chrome(WATCH)

    def __enter__(self) -> "Firefox":
        return self

    def __exit__(self, *_: object) -> None:
        self.connection.close()
        self.process.terminate()
        try:
            self.process.wait(10)
        except subprocess.TimeoutExpired:
            self.process.kill()
            self.process.wait()

    def message(self) -> Any:
        """The next message: its length, a colon, and as many bytes."""
        while True:
            length, colon, body = self.rest.partition(b":")
            if colon and len(body) >= int(length):
                self.rest = body[int(length):]
                return json.loads(body[:int(length)])
            piece = self.connection.recv(1 << 20)
            if not piece:
                raise Lost("Firefox has ended")
            self.rest += piece

    def call(self, method: str, **words: Any) -> Any:
        self.number += 1
        text = json.dumps([0, self.number, method, words]).encode()
        self.connection.sendall(str(len(text)).encode() + b":" + text)
        _, number, error, result = self.message()
        if error or number != self.number:
            raise Lost(f"{method}: {json.dumps(error)[:800]}")
        return result

    def in_chrome(self, script: str) -> Any:
        """The value of a script in the browser itself."""
        self.call("Marionette:SetContext", value="chrome")
        try:
            return self.call("WebDriver:ExecuteScript", script=script, args=[])["value"]
        finally:
            self.call("Marionette:SetContext", value="content")

    def open(self, address: str) -> None:
        self.call("WebDriver:Navigate", url=address)

    def evaluate(self, expression: str) -> Any:
        return self.call("WebDriver:ExecuteScript", script=f"return ({expression})", args=[])["value"]

    def key(self, name: str, control: bool = False, shift: bool = False) -> None:
        held = ["\ue009"] * control + ["\ue008"] * shift
        pressed = KEYS[name][1] if name in KEYS else name
        actions = [{"type": "keyDown", "value": it} for it in (*held, pressed)] + [{"type": "keyUp", "value": it} for it in (pressed, *reversed(held))]
        self.call("WebDriver:PerformActions", actions=[{"type": "key", "id": "keys", "actions": actions}])

    def size(self, width: int, height: int) -> None:
        self.call("WebDriver:SetWindowRect", width=width, height=height)

    def choose(self, selector: str, paths: List[str]) -> None:
        """Gives files to an input for files."""
        found = self.call("WebDriver:FindElement", using="css selector", value=selector)["value"]
        self.call("WebDriver:ElementSendKeys", id=next(iter(found.values())), text="\n".join(paths))

    def picture(self, path: str) -> None:
        with open(path, "wb") as file:
            file.write(base64.b64decode(self.call("WebDriver:TakeScreenshot", full=False)["value"]))

    def complaints(self) -> List[str]:
        """What its console has of the page, and the requests that the page made."""
        said = self.in_chrome("return Services.console.getMessageArray().filter(it => it instanceof Ci.nsIScriptError && /^file:/.test(it.sourceName))"
                              ".map(it => it.errorMessage);")
        asked = self.in_chrome("return window.aegisRequests;")
        return [*said, *(f"a request: {it}" for it in asked)]


# What keeps Firefox from asking for things of its own.
PREFERENCES: Dict[str, str] = {
    "app.update.enabled": "false", "browser.shell.checkDefaultBrowser": "false", "browser.startup.homepage_override.mstone": '"ignore"',
    "datareporting.policy.dataSubmissionEnabled": "false", "toolkit.telemetry.enabled": "false", "network.captive-portal-service.enabled": "false",
    "network.connectivity-service.enabled": "false", "extensions.update.enabled": "false", "browser.safebrowsing.malware.enabled": "false",
    "browser.safebrowsing.phishing.enabled": "false", "services.settings.server": '"data:,"', "browser.region.update.enabled": "false",
    "extensions.systemAddon.update.enabled": "false", "app.normandy.enabled": "false", "browser.aboutwelcome.enabled": "false",
    "media.gmp-provider.enabled": "false", "media.gmp-manager.updateEnabled": "false", "browser.download.folderList": "2",
    "browser.download.useDownloadDir": "true", "browser.download.always_ask_before_handling_new_types": "false",
    "datareporting.healthreport.uploadEnabled": "false", "browser.topsites.contile.enabled": "false", "extensions.getAddons.cache.enabled": "false",
}
# Has Firefox note each request that isn't its own.
WATCH = """
window.aegisRequests = [];
Services.obs.addObserver(it => {
  const channel = it.QueryInterface(Ci.nsIChannel);
  if (!channel.loadInfo.triggeringPrincipal.isSystemPrincipal) window.aegisRequests.push(channel.URI.spec);
}, "http-on-modify-request");
Services.console.reset();
"""


def connected(port: int, process: "subprocess.Popen[bytes]") -> socket.socket:
    """A connection to Firefox, once it listens."""
    end: float = time.monotonic() + PATIENCE
    why: Optional[OSError] = None
    while time.monotonic() < end and process.poll() is None:
        try:
            connection = socket.create_connection(("127.0.0.1", port), timeout=PATIENCE)
            connection.settimeout(PATIENCE)
            return connection
        except OSError as fault:
            why = fault
            time.sleep(0.1)
    raise Lost(f"Firefox doesn't listen: {why}")
