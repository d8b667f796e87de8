"""A headless Chromium, driven by the DevTools protocol over its pipe."""
import base64
import collections
import fcntl
import json
import os
import select
import shutil
import subprocess
import tempfile
import time
from typing import Any, Dict, List, Optional, Tuple

NAMES = ("chromium", "chromium-browser", "google-chrome")
# No network: what would be asked for finds neither a host nor a proxy.
SWITCHES = ("--headless=new", "--no-sandbox", "--disable-gpu", "--no-first-run",
            "--disable-background-networking", "--disable-component-update", "--disable-sync",
            "--remote-debugging-pipe", "--host-resolver-rules=MAP * ~NOTFOUND",
            "--proxy-server=127.0.0.1:9", "--force-color-profile=srgb", "--hide-scrollbars")
# The ends of the pipes get the numbers that Chromium wants.
START = 'exec "${@:3}" 3<&"$1" 4>&"$2"'
KEYS = {"Tab": 9, "Enter": 13, "ArrowLeft": 37, "ArrowRight": 39, "ArrowUp": 38, "ArrowDown": 40,
        "Home": 36, "End": 35, " ": 32}


def found() -> Optional[str]:
    """The Chromium of this machine, None where there is none."""
    return next(filter(None, map(shutil.which, NAMES)), None)


def high_pipe() -> List[int]:
    """A pipe, both ends of numbers that no shell takes."""
    ends = os.pipe()
    high = [fcntl.fcntl(end, fcntl.F_DUPFD, 20) for end in ends]
    for end in ends:
        os.close(end)
    return high


class Failed(Exception):
    """What the browser, or a script in it, answered in place of a value."""


class Browser:
    def __init__(self, seconds: int = 60) -> None:
        self.folder = tempfile.TemporaryDirectory(prefix="chromium-", ignore_cleanup_errors=True)
        self.seconds, self.number, self.held = seconds, 0, b""
        self.answers, self.events = {}, collections.deque()
        taken, self.to = high_pipe()
        self.of, given = high_pipe()
        self.process = subprocess.Popen(
            ["bash", "-c", START, "bash", str(taken), str(given), found(), *SWITCHES,
             f"--user-data-dir={self.folder.name}", "about:blank"], pass_fds=(taken, given),
            stdin=subprocess.DEVNULL, stdout=subprocess.DEVNULL, stderr=subprocess.DEVNULL)
        for end in (taken, given):
            os.close(end)

    def __enter__(self) -> "Browser":
        return self

    def __exit__(self, *_: Any) -> None:
        self.process.terminate()
        self.process.wait()
        for end in (self.to, self.of):
            os.close(end)
        self.folder.cleanup()

    def receive(self, until: float) -> None:
        """Takes what the browser says next."""
        if not select.select([self.of], [], [], max(0, until - time.monotonic()))[0]:
            raise Failed("the browser does not answer in time")
        piece = os.read(self.of, 1 << 20)
        if not piece:
            raise Failed("the browser ended")
        *texts, self.held = (self.held + piece).split(b"\0")
        for text in texts:
            message = json.loads(text)
            if "id" in message:
                self.answers[message["id"]] = message
            else:
                self.events.append(message)

    def call(self, method: str, session: Optional[str] = None, **given: Any) -> Dict[str, Any]:
        self.number += 1
        message = {"id": self.number, "method": method, "params": given}
        if session:
            message["sessionId"] = session
        text = json.dumps(message).encode() + b"\0"
        while text:
            text = text[os.write(self.to, text):]
        number, until = self.number, time.monotonic() + self.seconds
        while number not in self.answers:
            self.receive(until)
        answer = self.answers.pop(number)
        if "error" in answer:
            raise Failed(f"{method}: {answer['error']}")
        return answer["result"]

    def tab(self, place: str) -> "Tab":
        return Tab(self, place)


class Tab:
    """A page in the browser, and what it asked for."""

    def __init__(self, browser: Browser, place: str) -> None:
        self.browser = browser
        target = browser.call("Target.createTarget", url="about:blank")["targetId"]
        self.session = browser.call("Target.attachToTarget", targetId=target,
                                    flatten=True)["sessionId"]
        for domain in ("Page", "Runtime", "Network", "Log"):
            self.call(f"{domain}.enable")
        self.show(1400)
        self.call("Page.navigate", url=place)

    def call(self, method: str, **given: Any) -> Dict[str, Any]:
        return self.browser.call(method, self.session, **given)

    def show(self, width: int, scheme: str = "light") -> None:
        """Gives the window a width, and light or dark colours."""
        self.call("Emulation.setDeviceMetricsOverride", width=width, height=1000,
                  deviceScaleFactor=1, mobile=False)
        self.call("Emulation.setEmulatedMedia", features=[
            {"name": "prefers-color-scheme", "value": scheme}])

    def value(self, script: str) -> Any:
        """What a script's last expression is, waited for where it is a promise."""
        answer = self.call("Runtime.evaluate", expression=script, returnByValue=True,
                           awaitPromise=True)
        if "exceptionDetails" in answer:
            raise Failed(json.dumps(answer["exceptionDetails"])[:500])
        return answer["result"].get("value")

    def wait(self, script: str, seconds: int = 30) -> None:
        """Waits until this holds in the page."""
        until = time.monotonic() + seconds
        while not self.value(f"!!({script})"):
            if time.monotonic() > until:
                raise Failed(f"it does not come that {script}")
            time.sleep(0.02)

    def asked(self) -> Tuple[List[str], List[Dict[str, Any]]]:
        """The addresses that were asked for, and what the console was told of faults."""
        mine = [event for event in self.browser.events if event.get("sessionId") == self.session]
        urls = [event["params"]["request"]["url"] for event in mine
                if event["method"] == "Network.requestWillBeSent"]
        faults = [event["params"] for event in mine
                  if event["method"] == "Runtime.exceptionThrown"
                  or event["method"] == "Log.entryAdded"
                  and event["params"]["entry"]["level"] == "error"]
        return urls, faults

    def key(self, name: str) -> None:
        """A key that is pressed; a character is typed by it."""
        given = {"key": name, "windowsVirtualKeyCode": KEYS.get(name, ord(name[0].upper()))}
        text = "\r" if name == "Enter" else name if len(name) == 1 else ""
        self.call("Input.dispatchKeyEvent", type="keyDown" if text else "rawKeyDown",
                  text=text, **given)
        self.call("Input.dispatchKeyEvent", type="keyUp", **given)

    def click(self, x: float, y: float) -> None:
        for kind in ("mousePressed", "mouseReleased"):
            self.call("Input.dispatchMouseEvent", type=kind, x=x, y=y, button="left", buttons=1,
                      clickCount=1)

    def drop(self, name: str, x: float = 200, y: float = 200) -> None:
        """A file that is dragged into the page and dropped there."""
        data = {"items": [], "files": [name], "dragOperationsMask": 1}
        for kind in ("dragEnter", "dragOver", "drop"):
            self.call("Input.dispatchDragEvent", type=kind, x=x, y=y, data=data)

    def picture(self) -> bytes:
        """What is seen in the window, as PNG."""
        return base64.b64decode(self.call("Page.captureScreenshot")["data"])
