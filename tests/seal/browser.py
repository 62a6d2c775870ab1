"""Drives a real Chromium over its debugging pipe: keys, a telephone's screen, files, what a screen reader is told, and pictures."""
from __future__ import annotations

import base64
import contextlib
import itertools
import json
import os
import select
import shutil
import signal
import subprocess
import tempfile
import time
from typing import Any, Dict, List, Optional

SECONDS = 60.0


class Chromium:
    """A browser with one page, which knows no network."""

    def __init__(self, program: str, *more: str) -> None:
        commands, ours = os.pipe()
        theirs, answers = os.pipe()
        self.numbers, self.left = itertools.count(1), b""
        self.to, self.of = ours, theirs
        self.events: List[Dict[str, Any]] = []
        self.room = tempfile.mkdtemp()
        words = [program, "--headless", "--no-sandbox", "--disable-gpu", "--hide-scrollbars", "--remote-debugging-pipe",
                 f"--user-data-dir={self.room}", *more, "about:blank"]
        # The browser takes commands at the descriptor 3 and answers at 4.
        line = f'exec "$@" 3<&{commands} 4>&{answers}'
        self.process = subprocess.Popen(["bash", "-c", line, "bash", *words], pass_fds=(commands, answers), stderr=subprocess.DEVNULL,
                                        start_new_session=True)
        os.close(commands)
        os.close(answers)
        self.session: Optional[str] = None
        made = self.ask("Target.createTarget", url="about:blank")
        self.session = self.ask("Target.attachToTarget", targetId=made["targetId"], flatten=True)["sessionId"]
        for domain in ("Page", "DOM", "Accessibility", "Network", "Log", "Runtime"):
            self.ask(f"{domain}.enable")

    def __enter__(self) -> Chromium:
        return self

    def __exit__(self, *_: object) -> None:
        """Ends the browser with all its helpers, and removes what it wrote. A helper may write for a moment after the browser ended."""
        with contextlib.suppress(ProcessLookupError):
            os.killpg(self.process.pid, signal.SIGKILL)
        self.process.wait(SECONDS)
        os.close(self.to)
        os.close(self.of)
        end = time.monotonic() + SECONDS
        while os.path.exists(self.room) and time.monotonic() < end:
            shutil.rmtree(self.room, ignore_errors=True)
            time.sleep(0.05)

    def read(self, end: float) -> Dict[str, Any]:
        """The next message."""
        while b"\0" not in self.left:
            if not select.select([self.of], [], [], max(0.0, end - time.monotonic()))[0]:
                raise TimeoutError("the browser says nothing")
            data = os.read(self.of, 1 << 16)
            if not data:
                raise EOFError("the browser ended")
            self.left += data
        message, self.left = self.left.split(b"\0", 1)
        found = json.loads(message)
        assert isinstance(found, dict)
        self.events.append(found)
        return found

    def ask(self, method: str, **words: Any) -> Dict[str, Any]:
        """What the browser answers to a command."""
        number = next(self.numbers)
        told: Dict[str, Any] = {"id": number, "method": method, "params": words}
        if self.session:
            told["sessionId"] = self.session
        os.write(self.to, json.dumps(told).encode() + b"\0")
        end = time.monotonic() + SECONDS
        while True:
            message = self.read(end)
            if message.get("id") == number:
                if "error" in message:
                    raise RuntimeError(f"{method}: {message['error']}")
                result = message["result"]
                assert isinstance(result, dict)
                return result

    def open(self, path: str, width: int = 1280, height: int = 900) -> None:
        """Opens a file at a screen of this size; under 600 pixels it is a telephone's."""
        self.visit(f"file://{path}", width, height)

    def screen(self, width: int, height: int = 900) -> None:
        self.ask("Emulation.setDeviceMetricsOverride", width=width, height=height, deviceScaleFactor=1, mobile=width < 600)

    def visit(self, address: str, width: int = 1280, height: int = 900) -> None:
        """Opens a page by its address."""
        self.screen(width, height)
        self.events.clear()
        self.ask("Page.navigate", url=address)
        end = time.monotonic() + SECONDS
        while not any(event.get("method") == "Page.loadEventFired" for event in self.events):
            self.read(end)

    def value(self, text: str) -> Any:
        """The value of an expression in the page."""
        return self.ask("Runtime.evaluate", expression=text, returnByValue=True, awaitPromise=True)["result"].get("value")

    def wait(self, text: str, seconds: float = SECONDS) -> None:
        """Waits until an expression in the page is true."""
        end = time.monotonic() + seconds
        while not self.value(f"Boolean({text})"):
            if time.monotonic() > end:
                raise TimeoutError(f"the page doesn't come to this: {text}")
            time.sleep(0.02)

    def press(self, key: str, code: int, text: str = "") -> None:
        for kind in ("keyDown", "keyUp"):
            self.ask("Input.dispatchKeyEvent", type=kind, key=key, code=key, windowsVirtualKeyCode=code, **({"text": text} if text else {}))

    def type(self, text: str) -> None:
        self.ask("Input.insertText", text=text)

    def give(self, selector: str, path: str) -> None:
        """Chooses a file in a form."""
        root = self.ask("DOM.getDocument")["root"]["nodeId"]
        node = self.ask("DOM.querySelector", nodeId=root, selector=selector)["nodeId"]
        self.ask("DOM.setFileInputFiles", nodeId=node, files=[path])

    def spoken(self) -> List[str]:
        """The roles and names that a screen reader is given."""
        nodes = self.ask("Accessibility.getFullAXTree")["nodes"]
        return [f"{node['role']['value']}: {node.get('name', {}).get('value', '')}".strip() for node in nodes if not node.get("ignored")]

    def requests(self) -> List[str]:
        """What the page asked of the network since it was opened, but for itself."""
        asked = [event["params"]["request"]["url"] for event in self.events if event.get("method") == "Network.requestWillBeSent"]
        return [url for url in asked if not url.startswith("file://")]

    def complaints(self) -> List[str]:
        return [str(event["params"]) for event in self.events if event.get("method") in ("Log.entryAdded", "Runtime.exceptionThrown")]

    def picture(self) -> bytes:
        """The whole page as a picture (PNG)."""
        return base64.b64decode(self.ask("Page.captureScreenshot", format="png", captureBeyondViewport=True)["data"])
