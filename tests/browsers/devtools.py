"""Headless Chromium with a page, over its debugging pipe: expressions are evaluated in the page, and it is pictured."""
import base64
import fcntl
import json
import os
import re
import select
import subprocess
import sys
import time
from pathlib import Path

from nghttp3 import Failure
from processes import stop

sys.path.insert(0, str(Path(__file__).resolve().parents[1]))
from chromium import CHROMIUM  # pylint: disable=wrong-import-position # tests/chromium.py

SECONDS = 60
KEYS = {"Tab": 9, "Enter": 13, "Escape": 27, "PageDown": 34, "End": 35, "Home": 36, "ArrowUp": 38, "ArrowDown": 40}


class Browser:
    """Chromium without a window. Close it at the end."""

    name, program, schemes = "Chromium", CHROMIUM[0], ("light", "dark")

    def __init__(self, room, more=()):
        own_read, its_write = os.pipe()
        its_read, own_write = os.pipe()
        passed = [fcntl.fcntl(it, fcntl.F_DUPFD, 10) for it in (its_read, its_write)]
        self.process = subprocess.Popen(
            [
                *CHROMIUM,
                "--hide-scrollbars",
                "--host-resolver-rules=MAP * ~NOTFOUND",
                "--window-size=1200,1000",
                "--force-device-scale-factor=1",
                f"--user-data-dir={room}/profile",
                "--remote-debugging-pipe",
                *more,
                "about:blank",
            ],
            pass_fds=(3, 4),
            preexec_fn=lambda: [os.dup2(fd, number) for fd, number in zip(passed, (3, 4))],
            env={**os.environ, "TMPDIR": room},
            stdout=subprocess.DEVNULL,
            stderr=subprocess.DEVNULL,
            start_new_session=True,
        )
        for it in (its_read, its_write, *passed):
            os.close(it)
        self.read, self.write, self.waiting, self.number = own_read, own_write, b"", 0

    def close(self):
        """Ends it."""
        stop(self.process)
        os.close(self.read)
        os.close(self.write)

    def call(self, method, session=None, **params):
        """Calls a method of the debugging protocol, and returns its result."""
        self.number += 1
        message = {"id": self.number, "method": method, "params": params, **({"sessionId": session} if session else {})}
        os.write(self.write, json.dumps(message).encode() + b"\0")
        until = time.time() + SECONDS
        while time.time() < until:
            answer = self.receive(until)
            if answer.get("id") == self.number:
                if "error" in answer:
                    raise Failure(f"{method}: {answer['error']['message']}")
                return answer["result"]
        raise Failure(f"{method}: no answer within {SECONDS} seconds")

    def receive(self, until):
        """Returns the next message."""
        while b"\0" not in self.waiting:
            if not select.select([self.read], [], [], max(0, until - time.time()))[0]:
                return {}
            got = os.read(self.read, 1 << 20)
            if not got:
                raise Failure("the browser ended")
            self.waiting += got
        message, _, self.waiting = self.waiting.partition(b"\0")
        return json.loads(message)

    def open(self, url):
        """Opens a page."""
        target = self.call("Target.createTarget", url=url)["targetId"]
        return Page(self, self.call("Target.attachToTarget", targetId=target, flatten=True)["sessionId"], target)


class Page:
    """A page in a browser."""

    def __init__(self, browser, session, target):
        self.browser, self.session, self.target = browser, session, target
        browser.call("Performance.enable", session, timeDomain="threadTicks")

    def close(self):
        """Closes it."""
        self.browser.call("Target.closeTarget", targetId=self.target)

    def ask(self, expression):
        """Returns the value of an expression in the page."""
        answer = self.browser.call(
            "Runtime.evaluate", self.session, expression=expression, returnByValue=True, awaitPromise=True
        )
        if "exceptionDetails" in answer:
            raise Failure(f"{expression[:60]}: {answer['exceptionDetails'].get('exception', {}).get('description')}")
        return answer["result"].get("value")

    def wait_for(self, expression):
        """Waits until an expression is true."""
        until = time.time() + SECONDS
        while not self.ask(expression):
            if time.time() > until:
                raise Failure(f"{expression} is not true after {SECONDS} seconds")
            time.sleep(0.05)

    def go(self, url):
        """Opens another page in its place."""
        self.browser.call("Page.navigate", self.session, url=url)

    def look(self, width, height, scheme="light"):
        """Gives the page a size, and light or dark colours."""
        self.browser.call(
            "Emulation.setDeviceMetricsOverride",
            self.session,
            width=width,
            height=height,
            deviceScaleFactor=1,
            mobile=width < 600,
        )
        self.browser.call(
            "Emulation.setEmulatedMedia", self.session, features=[{"name": "prefers-color-scheme", "value": scheme}]
        )

    def press(self, key, text=""):
        """Presses a key, which may type a text."""
        words = {"key": key, "windowsVirtualKeyCode": KEYS.get(key, 0), **({"text": text} if text else {})}
        self.browser.call("Input.dispatchKeyEvent", self.session, type="keyDown", **words)
        self.browser.call("Input.dispatchKeyEvent", self.session, type="keyUp", key=key)

    def click(self, expression):
        """Clicks in the middle of the element that an expression gives."""
        x, y = self.ask(f"(it => [it.left + it.width / 2, it.top + it.height / 2])(({expression}).getBoundingClientRect())")
        for kind in ("mousePressed", "mouseReleased"):
            self.browser.call("Input.dispatchMouseEvent", self.session, type=kind, x=x, y=y, button="left", clickCount=1)

    def type(self, text):
        """Types a text."""
        self.browser.call("Input.insertText", self.session, text=text)

    def processor(self):
        """Returns the seconds of the processor that its thread took."""
        found = self.browser.call("Performance.getMetrics", self.session)["metrics"]
        return next(it["value"] for it in found if it["name"] == "TaskDuration")

    def printed(self):
        """Returns how many pages it prints."""
        data = base64.b64decode(self.browser.call("Page.printToPDF", self.session)["data"])
        return len(re.findall(rb"/Type\s*/Page\b", data))

    def picture(self):
        """Returns a picture of what the window shows, as PNG."""
        return base64.b64decode(self.browser.call("Page.captureScreenshot", self.session, format="png")["data"])
