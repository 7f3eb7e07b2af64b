"""Headless Firefox with a page, by WebDriver BiDi over its websocket: with the calls of devtools.py, as far as it has them."""
import base64
import json
import os
import re
import secrets
import socket
import struct
import subprocess
import time
import zlib

from nghttp3 import Failure
from processes import stop

SECONDS = 60
PROGRAM = "firefox-esr"
SETTINGS = {
    "app.update.enabled": False,
    "browser.aboutwelcome.enabled": False,
    "browser.shell.checkDefaultBrowser": False,
    "browser.startup.homepage_override.mstone": "ignore",
    "datareporting.policy.dataSubmissionEnabled": False,
    "network.captive-portal-service.enabled": False,
    "network.connectivity-service.enabled": False,
    "network.dns.forceResolve": "127.0.0.1",
    "remote.active-protocols": 1,
    "services.settings.server": "data:,#remote-settings-dummy/v1",
    "toolkit.telemetry.enabled": False,
    "ui.systemUsesDarkTheme": 0,
}
KEYS = {
    "Tab": "\ue004",
    "Enter": "\ue007",
    "Escape": "\ue00c",
    "PageDown": "\ue00f",
    "End": "\ue010",
    "Home": "\ue011",
    "ArrowUp": "\ue013",
    "ArrowDown": "\ue015",
}
TEXT, CLOSE, PING, PONG = 1, 8, 9, 10  # kinds of frames (RFC 6455, section 5.2)


class Socket:
    """A websocket, as its client (RFC 6455)."""

    def __init__(self, port, path):
        self.socket = socket.create_connection(("127.0.0.1", port), SECONDS)
        self.waiting = b""
        key = base64.b64encode(secrets.token_bytes(16)).decode()
        self.socket.sendall(
            (
                f"GET {path} HTTP/1.1\r\nHost: 127.0.0.1:{port}\r\nUpgrade: websocket\r\nConnection: Upgrade\r\n"
                f"Sec-WebSocket-Key: {key}\r\nSec-WebSocket-Version: 13\r\n\r\n"
            ).encode()
        )
        head = b""
        while not head.endswith(b"\r\n\r\n"):
            head += self.take(1)
        if b" 101 " not in head.splitlines()[0]:
            raise Failure(f"the browser answers {head.splitlines()[0].decode()}")

    def take(self, size):
        """Returns the next bytes."""
        while len(self.waiting) < size:
            got = self.socket.recv(1 << 20)
            if not got:
                raise Failure("the browser ended")
            self.waiting += got
        data, self.waiting = self.waiting[:size], self.waiting[size:]
        return data

    def send(self, data, kind=TEXT):
        """Sends a message in one frame, masked, as a client must."""
        size, mask = len(data), secrets.token_bytes(4)
        form, length = (
            (">BB", [0x80 | size]) if size < 126 else (">BBH", [0xFE, size]) if size < 1 << 16 else (">BBQ", [0xFF, size])
        )
        head = struct.pack(form, 0x80 | kind, *length)
        masks = (mask * (size // 4 + 1))[:size]
        masked = (int.from_bytes(data, "big") ^ int.from_bytes(masks, "big")).to_bytes(size, "big")
        self.socket.sendall(head + mask + masked)

    def receive(self):
        """Returns the next message."""
        parts = []
        while True:
            first, size = self.take(2)
            if size >= 126:
                size = int.from_bytes(self.take(2 if size == 126 else 8), "big")
            data, kind = self.take(size), first & 15
            if kind == CLOSE:
                raise Failure("the browser closed the connection")
            if kind == PING:
                self.send(data, PONG)
            else:
                parts.append(data)
                if first & 0x80:
                    return b"".join(parts)


class Browser:
    """Firefox without a window. Close it at the end."""

    name, program, schemes = "Firefox", PROGRAM, ("light",)

    def __init__(self, room):
        profile = f"{room}/firefox"
        os.mkdir(profile)
        with open(f"{profile}/user.js", "w", encoding="utf-8") as file:
            file.writelines(f"user_pref({json.dumps(name)}, {json.dumps(value)});\n" for name, value in SETTINGS.items())
        environment = {**os.environ, "HOME": profile, "TMPDIR": room, "MOZ_CRASHREPORTER_DISABLE": "1"}
        environment.pop("DISPLAY", None)
        words = [PROGRAM, "--headless", "--no-remote", "--profile", profile, "--remote-debugging-port", "0", "about:blank"]
        pipes = {"stdout": subprocess.DEVNULL, "stderr": subprocess.DEVNULL}
        self.process = subprocess.Popen(words, env=environment, start_new_session=True, **pipes)
        self.number = 0
        try:
            self.socket = Socket(self.find_port(f"{profile}/WebDriverBiDiServer.json"), "/session")
            self.call("session.new", capabilities={})
        except BaseException:
            stop(self.process)
            raise

    def find_port(self, path):
        """Returns the port that the browser wrote into a file."""
        until = time.time() + SECONDS
        while time.time() < until and self.process.poll() is None:
            time.sleep(0.1)
            if os.path.exists(path):
                with open(path, encoding="utf-8") as file:
                    text = file.read()
                if text.endswith("}"):
                    return json.loads(text)["ws_port"]
        raise Failure("Firefox names no port")

    def close(self):
        """Ends it."""
        self.socket.socket.close()
        stop(self.process)

    def call(self, method, **params):
        """Calls a method of the protocol, and returns its result."""
        self.number += 1
        self.socket.send(json.dumps({"id": self.number, "method": method, "params": params}).encode())
        while True:
            answer = json.loads(self.socket.receive())
            if answer.get("id") == self.number:
                if answer["type"] == "error":
                    raise Failure(f"{method}: {answer['message']}")
                return answer["result"]

    def open(self, url):
        """Opens a page."""
        page = Page(self, self.call("browsingContext.create", type="tab")["context"])
        page.go(url)
        return page


class Page:
    """A page in a browser."""

    def __init__(self, browser, context):
        self.browser, self.context = browser, context

    def close(self):
        """Closes it."""
        self.browser.call("browsingContext.close", context=self.context)

    def ask(self, expression):
        """Returns the value of an expression in the page."""
        asked = f"(async () => JSON.stringify(await ({expression}\n) ?? null))()"
        answer = self.browser.call("script.evaluate", expression=asked, target={"context": self.context}, awaitPromise=True)
        if answer["type"] == "exception":
            raise Failure(f"{expression[:60]}: {answer['exceptionDetails']['text']}")
        return json.loads(answer["result"]["value"])

    def wait_for(self, expression):
        """Waits until an expression is true."""
        until = time.time() + SECONDS
        while not self.ask(expression):
            if time.time() > until:
                raise Failure(f"{expression} is not true after {SECONDS} seconds")
            time.sleep(0.05)

    def go(self, url):
        """Opens another page in its place."""
        self.browser.call("browsingContext.navigate", context=self.context, url=url, wait="complete")

    def look(self, width, height, _="light"):
        """Gives the page a size."""
        viewport = {"width": width, "height": height}
        self.browser.call("browsingContext.setViewport", context=self.context, viewport=viewport, devicePixelRatio=1)

    def act(self, kind, actions, **more):
        """Makes actions of a key or of a pointer."""
        own = [{"type": kind, "id": kind, "actions": actions, **more}]
        self.browser.call("input.performActions", context=self.context, actions=own)

    def press(self, key, text=""):
        """Presses a key, which may type a text."""
        self.type(text or KEYS[key])

    def click(self, expression):
        """Clicks in the middle of the element that an expression gives."""
        x, y = self.ask(f"(it => [it.left + it.width / 2, it.top + it.height / 2])(({expression}).getBoundingClientRect())")
        move = {"type": "pointerMove", "x": round(x), "y": round(y)}
        self.act("pointer", [move, *({"type": it, "button": 0} for it in ("pointerDown", "pointerUp"))])

    def type(self, text):
        """Types a text."""
        self.act("key", [{"type": it, "value": sign} for sign in text for it in ("keyDown", "keyUp")])

    def printed(self):
        """Returns how many pages it prints."""
        data = base64.b64decode(self.browser.call("browsingContext.print", context=self.context)["data"])
        packed = re.findall(rb"/Type\s*/ObjStm.*?stream\r?\n(.*?)\r?\nendstream", data, re.S)
        return len(re.findall(rb"/Type\s*/Page\b", b"".join([data, *map(zlib.decompress, packed)])))

    def picture(self):
        """Returns a picture of what the window shows, as PNG."""
        return base64.b64decode(self.browser.call("browsingContext.captureScreenshot", context=self.context)["data"])
