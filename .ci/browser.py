"""Chromium without a window, driven by its own protocol over two pipes, for the tests of pages."""
import base64
import fcntl
import json
import os
import select
import shutil
import subprocess
import time
from typing import Any

# A browser that tells nothing for so long isn't waited for.
SECONDS = 60
NAMES = ("chromium", "chromium-browser", "google-chrome")


def found() -> str | None:
    return next(filter(None, map(shutil.which, NAMES)), None)


class Browser:
    """One page. What it asks the net for, what fails in it and each dialog are kept in `events`."""

    def __init__(self, room: str, width: int = 1280, height: int = 800) -> None:
        words, self.writes = os.pipe()
        self.reads, answers = os.pipe()
        ends = [fcntl.fcntl(it, fcntl.F_DUPFD, 10) for it in (words, answers)]

        def place() -> None:
            os.dup2(ends[0], 3)
            os.dup2(ends[1], 4)

        self.process = subprocess.Popen(
            [found() or "chromium", "--headless", "--no-sandbox", "--disable-gpu", "--no-first-run", "--remote-debugging-pipe",
             "--disable-dev-shm-usage", f"--user-data-dir={room}/profile", f"--window-size={width},{height}", "about:blank"],
            close_fds=False, preexec_fn=place, stdin=subprocess.DEVNULL, stdout=subprocess.DEVNULL, stderr=subprocess.DEVNULL)
        for it in (words, answers, *ends):
            os.close(it)
        self.rest, self.number, self.session = b"", 0, None
        self.events: list[dict[str, Any]] = []
        target = self.ask("Target.createTarget", url="about:blank")["targetId"]
        self.session = self.ask("Target.attachToTarget", targetId=target, flatten=True)["sessionId"]
        for it in ("Page", "Runtime", "Log", "Network"):
            self.ask(it + ".enable")
        self.ask("Emulation.setDeviceMetricsOverride", width=width, height=height, deviceScaleFactor=1, mobile=False)

    def read(self) -> dict[str, Any]:
        while b"\0" not in self.rest:
            ready, _, _ = select.select([self.reads], [], [], SECONDS)
            more = os.read(self.reads, 1 << 20) if ready else b""
            if not more:
                raise EOFError("the browser has ended" if ready else f"the browser told nothing for {SECONDS} seconds")
            self.rest += more
        text, self.rest = self.rest.split(b"\0", 1)
        return json.loads(text)

    def ask(self, method: str, **params: Any) -> Any:
        self.number += 1
        words = {"id": self.number, "method": method, "params": params}
        if self.session:
            words["sessionId"] = self.session
        os.write(self.writes, json.dumps(words).encode() + b"\0")
        while True:
            answer = self.read()
            if answer.get("id") == self.number:
                if "error" in answer:
                    raise RuntimeError(f"{method}: {answer['error']}")
                return answer["result"]
            self.events.append(answer)

    def named(self, *methods: str) -> list[dict[str, Any]]:
        return [it["params"] for it in self.events if it.get("method") in methods]

    def open(self, address: str) -> None:
        """Opens a page anew, also where its address differs in the fragment alone, and waits until it is loaded."""
        for it in ("about:blank", address):
            before = len(self.named("Page.loadEventFired"))
            self.ask("Page.navigate", url=it)
            while len(self.named("Page.loadEventFired")) == before:
                self.events.append(self.read())

    def value(self, expression: str) -> Any:
        """What an expression gives in the page."""
        answer = self.ask("Runtime.evaluate", expression=expression, returnByValue=True)
        if "exceptionDetails" in answer:
            raise RuntimeError(f"{expression}: {answer['exceptionDetails']}")
        return answer["result"].get("value")

    def wait(self, expression: str, seconds: float = 20) -> Any:
        """Waits until an expression gives something true, and returns it, or what it gave last."""
        last = time.monotonic() + seconds
        while not (value := self.value(expression)) and time.monotonic() < last:
            time.sleep(0.05)
        return value

    def click(self, selector: str) -> None:
        """Clicks the middle of the first element that a selector finds, as a mouse does."""
        x, y = self.value(f"(it => {{ it.scrollIntoView({{block: 'nearest'}}); const at = it.getBoundingClientRect();"
                          f" return [at.x + at.width / 2, at.y + at.height / 2]; }})(document.querySelector({json.dumps(selector)}))")
        for kind in ("mousePressed", "mouseReleased"):
            self.ask("Input.dispatchMouseEvent", type=kind, x=x, y=y, button="left", clickCount=1)

    def press(self, *keys: str) -> None:
        for key in keys:
            text = {"text": key} if len(key) == 1 else {}
            self.ask("Input.dispatchKeyEvent", type="keyDown", key=key, **text)
            self.ask("Input.dispatchKeyEvent", type="keyUp", key=key)

    def picture(self, name: str) -> None:
        with open(name, "wb") as file:
            file.write(base64.b64decode(self.ask("Page.captureScreenshot", format="png")["data"]))

    def close(self) -> None:
        try:
            self.session = None
            self.ask("Browser.close")
            self.process.wait(20)
        except (OSError, EOFError, RuntimeError, subprocess.TimeoutExpired):
            self.process.kill()
            self.process.wait()
