"""A browser without a window, driven by the DevTools protocol over two pipes: Debian's chromium, if it is there."""
import base64
import json
import os
import shutil
import subprocess
import tempfile
from collections.abc import Iterator
from contextlib import contextmanager
from typing import Any

from nfs4tools.processes import PATIENCE

BROWSER = shutil.which("chromium")
OPTIONS = ["--headless=new", "--no-sandbox", "--disable-gpu", "--no-first-run", "--disable-extensions"]
OPTIONS += ["--remote-debugging-pipe", "--hide-scrollbars", "--disable-background-networking", "--mute-audio"]


class Page:
    """A page that the browser shows. What it says of itself, such as an error of its script, is in `messages`."""

    def __init__(self, requests: Any, answers: Any) -> None:
        self.requests, self.answers = requests, answers
        self.number = 0
        self.session: str | None = None
        self.events: list[dict[str, Any]] = []
        target = self.ask("Target.createTarget", url="about:blank")["targetId"]
        self.session = self.ask("Target.attachToTarget", targetId=target, flatten=True)["sessionId"]
        for domain in ("Page", "Runtime", "Log", "Performance", "Network"):
            self.ask(f"{domain}.enable")

    def ask(self, method: str, **parameters: Any) -> dict[str, Any]:
        """What the browser answers."""
        self.number += 1
        message = {"id": self.number, "method": method, "params": parameters}
        if self.session is not None:
            message["sessionId"] = self.session
        self.requests.write(json.dumps(message).encode() + b"\0")
        self.requests.flush()
        while True:
            answer = self.next()
            if answer.get("id") == self.number:
                assert "error" not in answer, answer
                result: dict[str, Any] = answer["result"]
                return result
            self.events.append(answer)

    def next(self) -> dict[str, Any]:
        data = bytearray()
        while True:
            byte = self.answers.read(1)
            assert byte, "the browser has ended"
            if byte == b"\0":
                found: dict[str, Any] = json.loads(data)
                return found
            data += byte

    def run(self, script: str) -> Any:
        """The value of an expression of JavaScript, which is waited for."""
        found = self.ask("Runtime.evaluate", expression=script, awaitPromise=True, returnByValue=True)
        assert "exceptionDetails" not in found, found["exceptionDetails"]
        return found["result"].get("value")

    def open(self, path: str, address: str = "") -> None:
        """Shows a file, and waits until its script has drawn it."""
        for url in ("about:blank", f"file://{path}{address}"):
            self.ask("Page.navigate", url=url)
            while not any(it["method"] == "Page.loadEventFired" for it in self.events):
                self.events.append(self.next())
            self.events = [it for it in self.events if it["method"] != "Page.loadEventFired"]
        self.run(DRAWN)

    def messages(self) -> list[dict[str, Any]]:
        """Errors, what the script says in the console, and what isn't from the file."""
        return [
            it
            for it in self.events
            if it["method"] in ("Runtime.exceptionThrown", "Runtime.consoleAPICalled", "Log.entryAdded")
        ]

    def asked(self) -> list[str]:
        """What the pages asked for."""
        found = [it["params"]["request"]["url"] for it in self.events if it["method"] == "Network.requestWillBeSent"]
        return [url for url in found if url != "about:blank"]

    def size(self, width: int, height: int) -> None:
        self.ask("Emulation.setDeviceMetricsOverride", width=width, height=height, deviceScaleFactor=1, mobile=False)

    def look(self, scheme: str = "light", media: str = "screen") -> None:
        features = [{"name": "prefers-color-scheme", "value": scheme}]
        self.ask("Emulation.setEmulatedMedia", media=media, features=features)

    def click(self, x: float, y: float) -> None:
        for kind in ("mousePressed", "mouseReleased"):
            self.ask("Input.dispatchMouseEvent", type=kind, x=x, y=y, button="left", clickCount=1)

    def press(self, key: str) -> None:
        for kind in ("keyDown", "keyUp"):
            self.ask(
                "Input.dispatchKeyEvent", type=kind, key=key, text=key if len(key) == 1 and kind == "keyDown" else ""
            )

    def picture(self) -> bytes:
        return base64.b64decode(self.ask("Page.captureScreenshot", format="png")["data"])

    def paper(self) -> bytes:
        """The page as a PDF."""
        return base64.b64decode(self.ask("Page.printToPDF", preferCSSPageSize=True, printBackground=True)["data"])

    def seconds(self) -> float:
        """The processor time of the page so far."""
        metrics = self.ask("Performance.getMetrics")["metrics"]
        return float(next(it["value"] for it in metrics if it["name"] == "ProcessTime"))


# Waits until the page is drawn.
DRAWN = """new Promise((done, fail) => {
    const isDrawn = () => document.documentElement.dataset.drawn;
    const look = () => isDrawn() ? requestAnimationFrame(() => done()) : setTimeout(look, 20);
    setTimeout(() => fail(new Error("it isn't drawn")), 30000);
    look();
})"""


@contextmanager
def browser() -> Iterator[Page]:
    """A browser with a page."""
    assert BROWSER is not None
    reads, requests = os.pipe()
    answers, writes = os.pipe()
    with tempfile.TemporaryDirectory(ignore_cleanup_errors=True) as folder:
        words = [BROWSER, *OPTIONS, f"--user-data-dir={folder}"]
        script = f'exec "$@" 3<&{reads} 4>&{writes}'
        ran = subprocess.Popen(
            ["bash", "-c", script, "bash", *words], pass_fds=(reads, writes), stderr=subprocess.DEVNULL
        )
        os.close(reads)
        os.close(writes)
        try:
            with open(requests, "wb") as sent, open(answers, "rb") as got:
                yield Page(sent, got)
        finally:
            ran.terminate()
            ran.wait(PATIENCE)
