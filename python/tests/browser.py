"""Chromium by a pipe: a page from a file, real clicks and keys, and all that it logs, refuses or asks for. No port, no
network."""
from __future__ import annotations

import base64
import contextlib
import fcntl
import json
import os
import select
import shutil
import signal
import subprocess
import tempfile
import time
from collections.abc import Iterator
from pathlib import Path
from typing import Any

PROGRAMS = ("chromium", "chromium-browser", "google-chrome")
FLAGS = (
    "--headless=new",
    "--disable-gpu",
    "--hide-scrollbars",
    "--no-first-run",
    "--disable-extensions",
    "--disable-background-networking",
    "--disable-sync",
    "--disable-component-update",
    "--host-resolver-rules=MAP * ~NOTFOUND",
    "--remote-debugging-pipe",
    "--force-color-profile=srgb",
    "--disable-dev-shm-usage",
    "--js-flags=--expose-gc",
)
SECONDS = 40  # that an answer may take
SHELL = 'exec "$@" 3<&"$READS" 4>&"$WRITES"'
LOADING = ("Document",)  # the only thing that a page may ask for is itself


def found() -> str | None:
    return next(filter(None, map(shutil.which, PROGRAMS)), None)


class Fails(Exception):
    """The browser does not do what it is asked for."""


class Browser:
    """A browser with one page."""

    def __init__(self, program: str, folder: str):
        reads, ours_writes = os.pipe()
        ours_reads, writes = os.pipe()
        theirs = [fcntl.fcntl(one, fcntl.F_DUPFD, 20) for one in (reads, writes)]
        os.close(reads)
        os.close(writes)
        more = ["--no-sandbox"] if os.geteuid() == 0 else []
        self.process = subprocess.Popen(
            ["bash", "-c", SHELL, "bash", program, *FLAGS, *more, f"--user-data-dir={folder}", "about:blank"],
            pass_fds=theirs,
            stdout=subprocess.DEVNULL,
            stderr=subprocess.DEVNULL,
            stdin=subprocess.DEVNULL,
            env={**os.environ, "READS": str(theirs[0]), "WRITES": str(theirs[1]), "HOME": folder},
            start_new_session=True,
        )
        for one in theirs:
            os.close(one)
        self.reads, self.writes, self.number, self.rest = ours_reads, ours_writes, 0, b""
        self.events: list[dict[str, Any]] = []
        self.session = ""
        target = next(one for one in self.call("Target.getTargets")["targetInfos"] if one["type"] == "page")
        self.session = self.call("Target.attachToTarget", targetId=target["targetId"], flatten=True)["sessionId"]
        for domain in ("Page", "Runtime", "Log", "Network"):
            self.call(f"{domain}.enable")

    def close(self) -> None:
        with contextlib.suppress(ProcessLookupError):
            os.killpg(self.process.pid, signal.SIGKILL)
        self.process.wait(10)
        os.close(self.reads)
        os.close(self.writes)

    # -- messages

    def message(self) -> dict[str, Any]:
        until = time.monotonic() + SECONDS
        while b"\0" not in self.rest:
            if not select.select([self.reads], [], [], max(0.0, until - time.monotonic()))[0]:
                raise Fails("it does not answer")
            octets = os.read(self.reads, 1 << 20)
            if not octets:
                raise Fails("it has ended")
            self.rest += octets
        text, _, self.rest = self.rest.partition(b"\0")
        told: dict[str, Any] = json.loads(text)
        return told

    def call(self, method: str, **given: Any) -> dict[str, Any]:
        self.number += 1
        text = {"id": self.number, "method": method, "params": given} | (
            {"sessionId": self.session} if self.session else {}
        )
        octets = json.dumps(text).encode() + b"\0"
        while octets:
            octets = octets[os.write(self.writes, octets) :]
        while True:
            told = self.message()
            if told.get("id") == self.number:
                if "error" in told:
                    raise Fails(f"{method}: {told['error']}")
                result: dict[str, Any] = told["result"]
                return result
            if "method" in told:
                self.events.append(told)

    # -- a page

    def open(self, file: Path, fragment: str = "", width: int = 1280, height: int = 800, dark: bool = False) -> float:
        """Opens a page, and answers the seconds until it was ready."""
        self.call("Emulation.setDeviceMetricsOverride", width=width, height=height, deviceScaleFactor=1, mobile=False)
        self.call(
            "Emulation.setEmulatedMedia",
            features=[{"name": "prefers-color-scheme", "value": "dark" if dark else "light"}],
        )
        self.call("Page.navigate", url="about:blank")
        self.until("location.href === 'about:blank'")
        self.events.clear()
        begun = time.monotonic()
        self.call("Page.navigate", url=file.resolve().as_uri() + fragment)
        self.until("location.protocol === 'file:' && document.readyState === 'complete'")
        self.ask("new Promise(done => requestAnimationFrame(() => requestAnimationFrame(() => done(1))))")
        return time.monotonic() - begun

    def ask(self, script: str) -> Any:
        """The value of an expression in the page."""
        told = self.call("Runtime.evaluate", expression=script, returnByValue=True, awaitPromise=True)
        if "exceptionDetails" in told:
            raise Fails(f"{script}: {told['exceptionDetails'].get('exception', {}).get('description')}")
        return told["result"].get("value")

    def until(self, script: str) -> None:
        end = time.monotonic() + SECONDS
        while time.monotonic() < end:
            with contextlib.suppress(Fails):
                if self.ask(script):
                    return
            time.sleep(0.02)
        raise Fails(f"this does not come true: {script}")

    def settle(self) -> None:
        self.ask("new Promise(done => requestAnimationFrame(() => requestAnimationFrame(() => done(1))))")

    def click(self, script: str) -> None:
        """Clicks in the middle of the element that an expression gives."""
        x, y = self.place(script)
        for kind in ("mousePressed", "mouseReleased"):
            self.call("Input.dispatchMouseEvent", type=kind, x=x, y=y, button="left", clickCount=1)
        self.settle()

    def point(self, script: str) -> None:
        x, y = self.place(script)
        self.call("Input.dispatchMouseEvent", type="mouseMoved", x=x, y=y)
        self.settle()

    def place(self, script: str) -> tuple[float, float]:
        at = self.ask(
            f"(() => {{ const it = {script}; if (!it) return null; it.scrollIntoView({{block: 'nearest'}}); const at "
            f"= it.getBoundingClientRect(); return [at.x + at.width / 2, at.y + at.height / 2]; }})()"
        )
        if at is None:
            raise Fails(f"there is no such element: {script}")
        return at[0], at[1]

    def key(self, name: str, text: str = "") -> None:
        """Presses a key; `text` is what it types."""
        more = {"text": text} if text else {"text": "\r"} if name == "Enter" else {}
        code = {
            "Enter": 13,
            "Escape": 27,
            "Tab": 9,
            "ArrowUp": 38,
            "ArrowDown": 40,
            "ArrowLeft": 37,
            "ArrowRight": 39,
            "Home": 36,
            "End": 35,
        }.get(name, 0)
        self.call("Input.dispatchKeyEvent", type="keyDown", key=name, windowsVirtualKeyCode=code, **more)
        self.call("Input.dispatchKeyEvent", type="keyUp", key=name, windowsVirtualKeyCode=code)
        self.settle()

    def types(self, text: str) -> None:
        for one in text:
            self.key(one, one)

    def picture(self, file: Path) -> None:
        file.write_bytes(base64.b64decode(self.call("Page.captureScreenshot", format="png")["data"]))

    def heap(self) -> int:
        """Octets of the page's heap that are in use."""
        self.ask("window.gc && window.gc()")
        return int(self.call("Runtime.getHeapUsage")["usedSize"])

    def faults(self) -> list[str]:
        """All that was logged, refused, thrown, or asked for beside the page itself."""
        self.ask("1")
        told = []
        for one in self.events:
            given = one["params"]
            if one["method"] == "Runtime.exceptionThrown":
                told.append("exception: " + str(given["exceptionDetails"].get("exception", {}).get("description")))
            elif one["method"] == "Runtime.consoleAPICalled":
                told.append("console: " + str(given["args"]))
            elif one["method"] == "Log.entryAdded":
                told.append("log: " + given["entry"]["text"])
            elif one["method"] == "Network.requestWillBeSent" and (
                given.get("type") not in LOADING or not given["request"]["url"].startswith(("file:", "about:"))
            ):
                told.append("request: " + given["request"]["url"][:200])
        return told


@contextlib.contextmanager
def browser() -> Iterator[Browser]:
    """A browser, which ends with its folder."""
    program = found()
    if program is None:
        raise Fails("there is none")
    folder = tempfile.mkdtemp()
    one = Browser(program, folder)
    try:
        yield one
    finally:
        one.close()
        shutil.rmtree(folder, ignore_errors=True)
