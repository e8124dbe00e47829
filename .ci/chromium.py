"""A Chromium without a window, as the gate's own checks drive it: by its protocol, over a pipe."""
import json
import os
import select
import shutil
import subprocess
import tempfile
import time
from typing import Any

NAMES = ("chromium", "chromium-browser", "google-chrome")
QUIET = ("--headless", "--no-sandbox", "--disable-gpu", "--hide-scrollbars", "--no-first-run")
# seconds that an answer takes at most, on a machine under load
PATIENCE = 120
# what the virtual keys of those that are pressed are
KEYS = {
    **{"Tab": 9, "Enter": 13, "Escape": 27, "ArrowUp": 38, "ArrowRight": 39, "Delete": 46},
    **{"y": 89, "z": 90, "F2": 113},
}


def chromium() -> str | None:
    """The command of a browser, where one is."""
    return next((it for it in NAMES if shutil.which(it)), None)


class Browser:
    """A browser with one page.

    With the program option --remote-debugging-pipe it reads messages from its file 3, and writes
    to 4: each is JSON, and ends with a zero byte.
    """

    def __init__(self) -> None:
        # (a process of the browser may still write there while it is cleared away)
        self.room = tempfile.TemporaryDirectory(
            prefix="avsim-browser-", ignore_cleanup_errors=True
        )
        (given, self.to), (self.out, told) = os.pipe(), os.pipe()
        words = [chromium() or NAMES[0], *QUIET, f"--user-data-dir={self.room.name}"]
        self.ran = subprocess.Popen(
            ["sh", "-c", f'exec "$@" 3<&{given} 4>&{told}', "sh", *words]
            + ["--remote-debugging-pipe", "about:blank"],
            pass_fds=(given, told),
            stderr=subprocess.DEVNULL,
        )
        os.close(given)
        os.close(told)
        self.count, self.opened, self.rest = 0, 0, b""
        self.page = {"sessionId": ""}
        page = self.tell("Target.createTarget", url="about:blank")["targetId"]
        self.page = self.tell("Target.attachToTarget", targetId=page, flatten=True)
        for part in ("Page", "Runtime"):
            self.tell(f"{part}.enable")

    def __enter__(self) -> "Browser":
        return self

    def __exit__(self, *_: object) -> None:
        os.close(self.to)
        self.ran.terminate()
        self.ran.wait()
        os.close(self.out)
        self.room.cleanup()

    def tell(self, method: str, **words: Any) -> dict:
        """A command of the protocol, and what it answers."""
        self.count += 1
        message = {"id": self.count, "method": method, "params": words}
        if self.page["sessionId"]:
            message["sessionId"] = self.page["sessionId"]
        text = json.dumps(message).encode() + b"\0"
        while text:
            text = text[os.write(self.to, text) :]
        # (what else it tells are events)
        while (answer := self.read()).get("id") != self.count:
            pass
        if "error" in answer:
            raise RuntimeError(f"{method}: {answer['error']}")
        return answer["result"]

    def read(self) -> dict:
        while b"\0" not in self.rest:
            is_there = select.select([self.out], [], [], PATIENCE)[0]
            block = os.read(self.out, 1 << 16) if is_there else b""
            if not block:
                raise RuntimeError("the browser ended, or takes too long")
            self.rest += block
        text, self.rest = self.rest.split(b"\0", 1)
        return json.loads(text)

    def open(self, file: str, behind: str = "") -> None:
        """Opens a file anew, and waits till it is loaded."""
        self.opened += 1
        self.visit(f"file://{os.path.abspath(file)}?{self.opened}", behind)

    def visit(self, wanted: str, behind: str = "") -> None:
        """Goes to an address, and waits till the page is loaded."""
        self.tell("Page.navigate", url=f"{wanted}{behind}")
        while not self.is_loaded(wanted):
            time.sleep(0.02)

    def is_loaded(self, wanted: str) -> bool:
        try:
            place, state = self.value("[location.href, document.readyState]")
        except RuntimeError:
            # (the page before it has just gone)
            return False
        return place.startswith(wanted) and state == "complete"

    def value(self, script: str) -> Any:
        """What a script of the page gives."""
        found = self.tell(
            "Runtime.evaluate", expression=script, returnByValue=True, awaitPromise=True
        )
        if "exceptionDetails" in found:
            raise RuntimeError(str(found["exceptionDetails"])[:2000])
        return found["result"].get("value")

    def press(self, key: str, modifiers: int = 0) -> None:
        """A key goes down and up, as from a keyboard; modifier 2 is control, and 8 shift."""
        words = {"key": key, "code": key, "windowsVirtualKeyCode": KEYS[key]}
        words["modifiers"] = modifiers
        text = {"text": "\r"} if key == "Enter" else {}
        self.tell("Input.dispatchKeyEvent", type="keyDown", **words, **text)
        self.tell("Input.dispatchKeyEvent", type="keyUp", **words)

    def tap(self, x: float, y: float) -> None:
        """A finger at a place of the window."""
        self.tell("Input.dispatchTouchEvent", type="touchStart", touchPoints=[{"x": x, "y": y}])
        self.tell("Input.dispatchTouchEvent", type="touchEnd", touchPoints=[])

    def size(self, width: int, height: int, is_phone: bool = False) -> None:
        """The window's size; that of a phone has touch, and lays out as one."""
        self.tell(
            "Emulation.setDeviceMetricsOverride",
            width=width,
            height=height,
            deviceScaleFactor=2 if is_phone else 1,
            mobile=is_phone,
        )
        self.tell("Emulation.setTouchEmulationEnabled", enabled=is_phone)

    def prefer(self, scheme: str) -> None:
        """Colours that are light or dark."""
        features = [{"name": "prefers-color-scheme", "value": scheme}]
        self.tell("Emulation.setEmulatedMedia", features=features)
