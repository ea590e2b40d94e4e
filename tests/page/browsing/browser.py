"""A Chromium without a window, spoken to over its DevTools pipe."""
from __future__ import annotations

import base64
import contextlib
import fcntl
import json
import os
import pathlib
import select
import shutil
import subprocess
import tempfile
import time
from typing import Any, Dict, Iterator

from toolbox.commands import Refused

NAMES = ("chromium", "chromium-browser", "google-chrome")
MOST_SECONDS = 60
START_SECONDS = 30
OPTIONS = ("--headless=new", "--no-sandbox", "--disable-gpu", "--hide-scrollbars", "--no-first-run",
           "--disable-dev-shm-usage", "--remote-debugging-pipe")
# of the DevTools protocol: https://chromedevtools.github.io/devtools-protocol/
Message = Dict[str, Any]


class NoBrowser(Exception):
    """There is no Chromium here, or it doesn't start."""


def program() -> str:
    """The path of Chromium."""
    for name in NAMES:
        found = shutil.which(name)
        if found:
            return found
    raise NoBrowser("Chromium isn't installed (on Debian: apt install chromium)")


@contextlib.contextmanager
def folder_of_its_own() -> Iterator[str]:
    """A folder for what the browser keeps; what its last processes still hold of it is no fault."""
    folder = tempfile.mkdtemp(prefix="page-browser-")
    try:
        yield folder
    finally:
        shutil.rmtree(folder, ignore_errors=True)


@contextlib.contextmanager
def started() -> Iterator[Browser]:
    """A browser with one page; it is gone afterwards."""
    path = program()
    with folder_of_its_own() as folder:
        # it reads file 3 and writes file 4
        read_end, output = os.pipe()
        source, write_end = os.pipe()

        def take_ends() -> None:
            # both are copied away first, so that neither is overwritten
            copies = fcntl.fcntl(read_end, fcntl.F_DUPFD, 10), fcntl.fcntl(write_end, fcntl.F_DUPFD, 10)
            for place, copy in enumerate(copies, 3):
                os.dup2(copy, place)

        process = subprocess.Popen([path, *OPTIONS, f"--user-data-dir={folder}", "about:blank"], preexec_fn=take_ends,
                                   close_fds=False, stdin=subprocess.DEVNULL, stdout=subprocess.DEVNULL,
                                   stderr=subprocess.DEVNULL)
        os.close(read_end)
        os.close(write_end)
        try:
            yield attached(Browser(source, output))
        finally:
            end(process)
            os.close(source)
            os.close(output)


def attached(browser: Browser) -> Browser:
    """The browser, once it answers."""
    try:
        browser.attach()
    except (Refused, OSError) as fault:
        raise NoBrowser(f"Chromium doesn't start here ({fault})") from None
    return browser


def end(process: subprocess.Popen[bytes]) -> None:
    process.terminate()
    try:
        process.wait(10)
    except subprocess.TimeoutExpired:
        process.kill()
        process.wait()


class Browser:
    """One page in one browser, whose messages come by the file `source` and go by `output`."""

    def __init__(self, source: int, output: int) -> None:
        self.source, self.output = source, output
        self.number, self.rest, self.seconds = 0, b"", START_SECONDS
        self.session: str | None = None
        self.events: list[Message] = []

    def attach(self) -> None:
        targets = self.call("Target.getTargets")["targetInfos"]
        target = next(one["targetId"] for one in targets if one["type"] == "page")
        self.session = self.call("Target.attachToTarget", targetId=target, flatten=True)["sessionId"]
        for name in ("Page", "Runtime", "Network"):
            self.call(f"{name}.enable")
        self.seconds = MOST_SECONDS

    def call(self, method: str, **values: object) -> Message:
        """What a method of the protocol gives."""
        self.number += 1
        message: Message = {"id": self.number, "method": method, "params": values}
        if self.session:
            message["sessionId"] = self.session
        os.write(self.output, json.dumps(message).encode() + b"\0")
        wanted = self.number
        while True:
            answer = self.read()
            if answer.get("id") == wanted:
                if "error" in answer:
                    raise Refused(f"{method}: {answer['error'].get('message')}")
                result: Message = answer["result"]
                return result
            self.events.append(answer)

    def read(self) -> Message:
        end = time.monotonic() + self.seconds
        while b"\0" not in self.rest:
            if not select.select([self.source], [], [], max(0, end - time.monotonic()))[0]:
                raise Refused("the browser doesn't answer")
            data = os.read(self.source, 1 << 20)
            if not data:
                raise Refused("the browser ended")
            self.rest += data
        message, _, self.rest = self.rest.partition(b"\0")
        found: Message = json.loads(message)
        return found

    def window(self, width: int, height: int, media: str = "screen", scheme: str = "light") -> None:
        """How large the window is, and what for and in which colours a page is shown."""
        self.call("Emulation.setDeviceMetricsOverride", width=width, height=height, deviceScaleFactor=1, mobile=False)
        self.call("Emulation.setEmulatedMedia", media=media,
                  features=[{"name": "prefers-color-scheme", "value": scheme},
                            {"name": "prefers-reduced-motion", "value": "reduce"}])

    def open(self, path: str, fragment: str = "") -> float:
        """Opens a page, and answers the seconds until its records can be looked at."""
        self.call("Page.navigate", url="about:blank")
        begun = time.monotonic()
        self.call("Page.navigate", url=pathlib.Path(path).resolve().as_uri() + fragment)
        while self.value("document.documentElement && document.documentElement.dataset.ready") != "yes":
            if time.monotonic() - begun > MOST_SECONDS:
                raise Refused(f"{path}: it isn't ready after {MOST_SECONDS} s")
            time.sleep(0.01)
        return time.monotonic() - begun

    def value(self, expression: str) -> Any:
        """What an expression of the page's script gives."""
        result = self.call("Runtime.evaluate", expression=expression, returnByValue=True, awaitPromise=True)
        if "exceptionDetails" in result:
            fault = result["exceptionDetails"].get("exception", {}).get("description", "a fault")
            raise Refused(f"{expression[:60]}: {fault}")
        return result["result"].get("value")

    def key(self, key: str) -> None:
        code = {"Escape": 27, "Enter": 13}.get(key, 0)
        for kind in ("keyDown", "keyUp"):
            text = key if len(key) == 1 and kind == "keyDown" else ""
            self.call("Input.dispatchKeyEvent", type=kind, key=key, windowsVirtualKeyCode=code, text=text)

    def click(self, x: float, y: float) -> None:
        """A click of the mouse, as a reader's."""
        for kind in ("mousePressed", "mouseReleased"):
            self.call("Input.dispatchMouseEvent", type=kind, x=x, y=y, button="left", clickCount=1)

    def screenshot(self, path: str, whole: bool = False) -> None:
        picture = self.call("Page.captureScreenshot", format="png", captureBeyondViewport=whole)
        pathlib.Path(path).write_bytes(base64.b64decode(picture["data"]))

    def pdf(self, path: str) -> None:
        """The page as it is printed on A4."""
        self.call("Emulation.setEmulatedMedia", media="print")
        printed = self.call("Page.printToPDF", printBackground=True, paperWidth=8.27, paperHeight=11.69)
        pathlib.Path(path).write_bytes(base64.b64decode(printed["data"]))

    def requests(self) -> list[str]:
        """What pages asked for, but themselves."""
        urls = [one["params"]["request"]["url"] for one in self.events
                if one.get("method") == "Network.requestWillBeSent"]
        return [url for url in urls if not url.startswith(("file:", "about:"))]

    def faults(self) -> list[Message]:
        """What went wrong in scripts, or was logged."""
        names = ("Runtime.exceptionThrown", "Runtime.consoleAPICalled")
        return [one["params"] for one in self.events if one.get("method") in names]
