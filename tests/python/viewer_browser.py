"""A Chromium that tests drive, and what they read of its pages."""

from __future__ import annotations

import html.parser
import json
import os
import pathlib
import subprocess
import tempfile
import threading
from typing import Any, Optional

Lane = tuple[str, int]  # its kind and number
Element = dict[str, Any]  # the attributes of an element

MOST_SECONDS = 600
# a folder for coverage (v8_coverage.py)
COVERAGE = os.environ.get("VIEWER_COVERAGE")


class Document(html.parser.HTMLParser):
    """The elements of a document with their attributes, and of a mark its lane."""

    VOID = {"meta", "input", "br", "link", "img"}

    def __init__(self, text: str) -> None:
        super().__init__()
        self.stack: list[tuple[str, Element]] = []
        self.elements: list[tuple[str, Element]] = []
        self.marks: list[Element] = []
        self.lanes: list[Lane] = []
        self.traces: list[tuple[str, int, Optional[int]]] = []
        self.lives: dict[Lane, tuple[int, Optional[int]]] = {}
        self.faults: list[str] = []
        self.texts: list[str] = []
        self.tips: list[str] = []
        self.body: Element = {}
        self.feed(text)

    def handle_starttag(self, tag: str, attrs: list[tuple[str, Optional[str]]]) -> None:
        found: Element = dict(attrs)
        self.elements.append((tag, found))
        if tag not in self.VOID:
            self.stack.append((tag, found))
        if tag == "body":
            self.body = found
        if "data-lane" in found:
            self.lanes.append((found["data-lane"], int(found["data-number"])))
        if "data-from" in found:
            stretch = int(found["data-from"]), int(found["data-to"]) if found["data-to"] else None
            if "data-trace" in found:
                self.traces.append((found["data-trace"], *stretch))
            elif found["class"] == "life":
                self.lives[self.lane()[0]] = stretch
        if "data-mark" in found:
            found["lane"], found["owner"] = self.lane()
            self.marks.append(found)
        if tag == "li":
            self.faults.append("")

    def lane(self) -> tuple[Lane, str]:
        """The lane that is being read, as its kind and number, and its user."""
        lane = next(one for _, one in reversed(self.stack) if "data-lane" in one)
        return (lane["data-lane"], int(lane["data-number"])), lane["data-user"]

    def handle_endtag(self, tag: str) -> None:
        while self.stack and self.stack.pop()[0] != tag:
            pass

    def handle_data(self, data: str) -> None:
        if self.stack and self.stack[-1][0] == "li":
            self.faults[-1] += data
        if self.stack and self.stack[-1][0] in ("text", "title"):
            (self.texts if self.stack[-1][0] == "text" else self.tips).append(data)

    def primary(self) -> list[Element]:
        """The marks of steps, a step each, in their order."""
        return sorted((mark for mark in self.marks if "data-more" not in mark), key=lambda mark: int(mark["data-line"]))

    def steps(self, kind: str) -> list[tuple[int, int]]:
        """The processes and steps of the marks of a kind beside those of steps."""
        return sorted((mark["lane"][1], int(mark["data-line"])) for mark in self.marks if mark["data-mark"] == kind)


class Browser:
    """A Chromium without a window, driven by its debugging pipe: messages of JSON, each with a NUL byte behind it.

    It is killed after MOST_SECONDS, and whoever waits for it then fails.
    """

    def __init__(self, program: str) -> None:
        self.profile = tempfile.TemporaryDirectory(ignore_cleanup_errors=True)
        words = [
            "--headless",
            "--no-sandbox",
            "--disable-gpu",
            "--disable-dev-shm-usage",
            "--no-first-run",
            "--disable-extensions",
            "--disable-component-update",
            f"--user-data-dir={self.profile.name}",
        ]
        (heard, self.to), (self.from_, said) = os.pipe(), os.pipe()
        script = f'exec "$@" --remote-debugging-pipe 3<&{heard} 4>&{said}'
        self.process = subprocess.Popen(
            ["bash", "-c", script, "bash", program, *words],
            pass_fds=(heard, said),
            stdout=subprocess.DEVNULL,
            stderr=subprocess.DEVNULL,
        )
        os.close(heard)
        os.close(said)
        self.timer = threading.Timer(MOST_SECONDS, self.process.kill)
        self.timer.start()
        self.count, self.rest = 0, b""
        self.events: list[tuple[Optional[str], Optional[str]]] = []

    def close(self) -> None:
        self.process.terminate()
        self.process.wait()
        self.timer.cancel()
        self.profile.cleanup()

    def message(self) -> dict[str, Any]:
        """The next message of the browser."""
        while b"\0" not in self.rest:
            data = os.read(self.from_, 1 << 20)
            if not data:
                raise EOFError("the browser has ended")
            self.rest += data
        first, self.rest = self.rest.split(b"\0", 1)
        message: dict[str, Any] = json.loads(first)
        return message

    def ask(self, method: str, session: Optional[str] = None, **parameters: Any) -> Any:
        self.count += 1
        message = {"id": self.count, "method": method, "params": parameters}
        if session:
            message["sessionId"] = session
        data = json.dumps(message).encode() + b"\0"
        while data:
            data = data[os.write(self.to, data) :]
        while (answer := self.message()).get("id") != self.count:
            self.events.append((answer.get("sessionId"), answer.get("method")))
        if "error" in answer:
            raise ValueError(f"{method}: {answer['error']}")
        return answer["result"]

    def wait(self, session: str, method: str) -> None:
        """Waits for an event of a session."""
        event = session, method
        while event not in self.events:
            answer = self.message()
            self.events.append((answer.get("sessionId"), answer.get("method")))
        self.events.remove(event)


class Tab:
    """A page that is open in a browser."""

    def __init__(self, browser: Browser, path: pathlib.Path, address: str, width: int = 1400, height: int = 800) -> None:
        self.browser = browser
        self.target = browser.ask("Target.createTarget", url="about:blank")["targetId"]
        self.session = browser.ask("Target.attachToTarget", targetId=self.target, flatten=True)["sessionId"]
        self.ask("Page.enable")
        self.ask("Emulation.setDeviceMetricsOverride", width=width, height=height, deviceScaleFactor=1, mobile=False)
        if COVERAGE:
            self.ask("Profiler.enable")
            self.ask("Profiler.startPreciseCoverage", callCount=True, detailed=True)
        self.ask("Page.navigate", url=f"{path.as_uri()}#{address}")
        browser.wait(self.session, "Page.loadEventFired")

    def ask(self, method: str, **parameters: Any) -> Any:
        return self.browser.ask(method, self.session, **parameters)

    def value(self, expression: str) -> Any:
        """What an expression of JavaScript, or its promise, comes to in the page."""
        answer = self.ask("Runtime.evaluate", expression=expression, awaitPromise=True, returnByValue=True)
        if "exceptionDetails" in answer:
            raise ValueError(answer["exceptionDetails"])
        return answer["result"].get("value")

    def press(self, key: str, code: int = 0) -> None:
        for kind in ("rawKeyDown", "keyUp"):
            self.ask("Input.dispatchKeyEvent", type=kind, key=key, windowsVirtualKeyCode=code)

    def middle(self, selector: str) -> tuple[float, float]:
        """The middle of an element in the window."""
        x, y = self.value(
            f"(box => [box.x + box.width / 2, box.y + box.height / 2])"
            f"(document.querySelector({json.dumps(selector)}).getBoundingClientRect())"
        )
        return x, y

    def mouse(self, kind: str, x: float, y: float, buttons: int = 0) -> None:
        button = "left" if buttons or kind == "mouseReleased" else "none"
        self.ask(
            "Input.dispatchMouseEvent", type=kind, x=x, y=y, button=button, buttons=buttons, clickCount=int(kind != "mouseMoved")
        )

    def point(self, selector: str, click: bool = False) -> None:
        """Moves the pointer to the middle of an element, and clicks there."""
        x, y = self.middle(selector)
        self.mouse("mouseMoved", x, y)
        if click:
            self.mouse("mousePressed", x, y, 1)
            self.mouse("mouseReleased", x, y)

    def drag(self, x: float, y: float, right: float, down: float) -> None:
        """Drags from a place."""
        self.mouse("mouseMoved", x, y)
        self.mouse("mousePressed", x, y, 1)
        for part in (0.25, 0.5, 1):
            self.mouse("mouseMoved", x + part * right, y + part * down, 1)
        self.mouse("mouseReleased", x + right, y + down)

    def write(self, text: str) -> None:
        """Types a text into the field that has the focus."""
        self.ask("Input.insertText", text=text)

    def settle(self, seconds: float = 0.05) -> None:
        """Waits so long, and until the page has then drawn two frames."""
        self.value(
            f"new Promise(done => setTimeout(() => requestAnimationFrame(() => requestAnimationFrame(done))," f"{1000 * seconds}))"
        )

    def document(self) -> Document:
        return Document(self.value("document.documentElement.outerHTML"))

    def keep_coverage(self) -> None:
        """Leaves V8's counts of the page's script: the one with the most functions."""
        scripts = self.ask("Profiler.takePreciseCoverage")["result"]
        functions: list[dict[str, Any]] = max(
            (one["functions"] for one in scripts if one["url"].startswith("file:")), key=len, default=[]
        )
        with tempfile.NamedTemporaryFile("w", prefix="page-", suffix=".json", dir=COVERAGE, delete=False) as file:
            json.dump(functions, file)

    def close(self) -> None:
        if COVERAGE:
            self.keep_coverage()
        self.browser.ask("Target.closeTarget", targetId=self.target)
