"""Drives headless Firefox by WebDriver BiDi (https://w3c.github.io/webdriver-bidi/) over a WebSocket; nothing else has to be
installed. `Browser` and `Page` have the methods of those of page_browser.py, so that the same cases run in both.
"""
import base64
import contextlib
import json
import os
import pathlib
import re
import secrets
import select
import shutil
import signal
import socket
import struct
import subprocess
import tempfile
import time

from page_browser import LeftOut, PATIENCE, Tab, WATCH

PROGRAM = "firefox-esr"
START = 180
TEXT, CLOSE, PING, PONG = 1, 8, 9, 10
PREFS = {
    "app.update.enabled": False, "browser.shell.checkDefaultBrowser": False, "browser.startup.page": 0,
    "datareporting.policy.dataSubmissionEnabled": False, "intl.accept_languages": "en-US, en", "network.proxy.type": 0,
    "general.smoothScroll": False, "toolkit.telemetry.enabled": False, "ui.useOverlayScrollbars": 1,
}
# The code points of WebDriver for keys without a letter.
KEYS = {"Enter": "\ue007", "Escape": "\ue00c", "ArrowLeft": "\ue012", "ArrowUp": "\ue013", "ArrowRight": "\ue014",
        "ArrowDown": "\ue015", "Tab": "\ue004", "Home": "\ue011", "End": "\ue010"}


def is_installed():
    return shutil.which(PROGRAM) is not None


class WebSocket:
    """A client of RFC 6455 for text messages."""

    def __init__(self, port, path):
        self.socket = socket.create_connection(("127.0.0.1", port), START)
        key = base64.b64encode(secrets.token_bytes(16)).decode()
        fields = {"Host": f"127.0.0.1:{port}", "Upgrade": "websocket", "Connection": "Upgrade", "Sec-WebSocket-Key": key,
                  "Sec-WebSocket-Version": "13"}
        head = "".join(f"{name}: {it}\r\n" for name, it in fields.items())
        self.socket.sendall(f"GET {path} HTTP/1.1\r\n{head}\r\n".encode())
        self.rest = b""
        while b"\r\n\r\n" not in self.rest:
            self.more()
        head, self.rest = self.rest.split(b"\r\n\r\n", 1)
        if b" 101 " not in head.split(b"\r\n")[0]:
            raise ConnectionError(head.decode())

    def more(self):
        got = self.socket.recv(1 << 20)
        if not got:
            raise EOFError("the browser has ended")
        self.rest += got

    def send(self, content, kind=TEXT):
        mask = secrets.token_bytes(4)
        size = len(content)
        if size < 126:
            head = bytes([0x80 | kind, 0x80 | size])
        elif size < 1 << 16:
            head = bytes([0x80 | kind, 0x80 | 126]) + struct.pack(">H", size)
        else:
            head = bytes([0x80 | kind, 0x80 | 127]) + struct.pack(">Q", size)
        pattern = (mask * (size // 4 + 1))[:size]
        masked = (int.from_bytes(content, "big") ^ int.from_bytes(pattern, "big")).to_bytes(size, "big")
        self.socket.sendall(head + mask + masked)

    def frame(self):
        """The next frame as its first byte and its content, or None if it is not yet complete."""
        if len(self.rest) < 2:
            return None
        first, size = self.rest[0], self.rest[1] & 0x7f
        start = 2 + {126: 2, 127: 8}.get(size, 0)
        if len(self.rest) < start:
            return None
        if size > 125:
            size = int.from_bytes(self.rest[2:start], "big")
        if len(self.rest) < start + size:
            return None
        content, self.rest = self.rest[start:start + size], self.rest[start + size:]
        return first, content

    def receive(self, until):
        """The next text, or None if there is none by then."""
        parts = b""
        while True:
            while (got := self.frame()) is None:
                if not select.select([self.socket], [], [], max(until - time.monotonic(), 0))[0]:
                    return None
                self.more()
            first, content = got
            if first & 0xf == CLOSE:
                raise EOFError("the browser has ended")
            if first & 0xf == PING:
                self.send(content, PONG)
            elif first & 0xf != PONG:
                parts += content
                if first & 0x80:
                    return parts


def plain(remote):
    """A value of the page's script from its form in the protocol."""
    kind, value = remote["type"], remote.get("value")
    if kind in ("string", "boolean"):
        return value
    if kind == "number":
        return value if isinstance(value, (int, float)) else float(value.replace("Infinity", "inf"))
    if kind == "array":
        return [plain(it) for it in value]
    if kind == "object":
        return {name if isinstance(name, str) else plain(name): plain(it) for name, it in value}
    return None


class Browser:
    def __init__(self):
        self.folder = tempfile.mkdtemp(prefix="firefox")
        lines = (f"user_pref({json.dumps(name)}, {json.dumps(value)});\n" for name, value in PREFS.items())
        pathlib.Path(self.folder, "user.js").write_text("".join(lines))
        log = pathlib.Path(self.folder, "log")
        words = [PROGRAM, "--headless", "--no-remote", "--profile", self.folder, "--remote-debugging-port", "0"]
        with log.open("wb") as out:
            self.process = subprocess.Popen(words, env={**os.environ, "HOME": self.folder, "MOZ_HEADLESS": "1"},
                                            stdout=out, stderr=out, start_new_session=True)
        self.sent, self.events, self.patience = 0, [], START
        try:
            self.socket = WebSocket(self.port_in(log), "/session")
            self.call("session.new", capabilities={})
            self.call("session.subscribe", events=["log.entryAdded", "network.beforeRequestSent"])
        except BaseException:
            self.__exit__()
            raise
        self.patience = PATIENCE

    def port_in(self, log):
        """The port that Firefox chose, from what it prints."""
        end = time.monotonic() + START
        while time.monotonic() < end and self.process.poll() is None:
            found = re.search(r"ws://127\.0\.0\.1:(\d+)", log.read_text(errors="replace"))
            if found:
                return int(found[1])
            time.sleep(0.1)
        raise TimeoutError(f"{PROGRAM} does not start: {log.read_text(errors='replace')[-500:]}")

    def read(self, until):
        got = self.socket.receive(until)
        return None if got is None else json.loads(got)

    def call(self, method, **parameters):
        self.sent += 1
        number = self.sent
        self.socket.send(json.dumps({"id": number, "method": method, "params": parameters}).encode())
        until = time.monotonic() + self.patience
        while (got := self.read(until)) is not None:
            if got.get("id") != number:
                self.events.append(got)
            elif got["type"] == "error":
                raise RuntimeError(f"{method}: {got['error']}: {got['message']}")
            else:
                return got["result"]
        raise TimeoutError(method)

    def wait(self, seconds):
        until = time.monotonic() + seconds
        while (got := self.read(until)) is not None:
            self.events.append(got)

    def page(self, width=1000, height=900):
        storage = self.call("browser.createUserContext")["userContext"]
        context = self.call("browsingContext.create", type="window", userContext=storage)["context"]
        return Page(self, context, storage, width, height)

    def __enter__(self):
        return self

    def __exit__(self, *error):
        with contextlib.suppress(Exception):
            self.call("browser.close")
        with contextlib.suppress(Exception):
            self.process.wait(10)
        with contextlib.suppress(ProcessLookupError):
            os.killpg(self.process.pid, signal.SIGKILL)
        self.process.wait()
        shutil.rmtree(self.folder, ignore_errors=True)


class Page(Tab):
    def __init__(self, browser, context, storage, width, height):
        self.browser, self.context, self.storage = browser, context, storage
        self.before_load(WATCH)
        self.size(width, height)

    def do(self, method, **parameters):
        return self.browser.call(method, context=self.context, **parameters)

    def call(self, method, **parameters):
        raise LeftOut(f"Firefox has no {method}")

    def before_load(self, source):
        self.browser.call("script.addPreloadScript", functionDeclaration=f"() => {{ {source} }}", contexts=[self.context])

    def size(self, width, height, phone=False):
        self.do("browsingContext.setViewport", viewport={"width": width, "height": height}, devicePixelRatio=1)

    def prefer(self, features):
        raise LeftOut(f"a test of Firefox cannot set {next(iter(features))}")

    def accept(self, languages):
        if "," in languages:
            raise LeftOut("a test of Firefox sets one language only")
        self.browser.call("emulation.setLocaleOverride", locale=languages, contexts=[self.context])

    def frame_address(self):
        tree = self.browser.call("browsingContext.getTree", root=self.context)
        return self.value("document.documentURI", tree["contexts"][0]["children"][0]["context"])

    def open(self, url):
        self.do("browsingContext.navigate", url=url, wait="complete")

    def reload(self):
        self.do("browsingContext.reload", wait="complete")

    def value(self, code, context=None):
        target = {"context": context or self.context}
        got = self.browser.call("script.evaluate", expression=code, target=target, awaitPromise=True, resultOwnership="none")
        if got["type"] == "exception":
            raise RuntimeError(f"{code}: {got['exceptionDetails']['text']}")
        return plain(got["result"])

    def act(self, kind, actions, **parameters):
        source = {"type": kind, "id": "finger" if parameters else kind, "actions": actions, **parameters}
        self.do("input.performActions", actions=[source])

    def point(self, places, by_touch=False):
        """Presses at the first place, moves over the others, and releases at the last."""
        first, *others = [{"type": "pointerMove", "x": round(x), "y": round(y)} for x, y in places]
        actions = [first, {"type": "pointerDown", "button": 0}, *others, {"type": "pointerUp", "button": 0}]
        self.act("pointer", actions, **({"parameters": {"pointerType": "touch"}} if by_touch else {}))

    def move_pointer(self, place):
        self.act("pointer", [{"type": "pointerMove", "x": place[0], "y": place[1]}])

    def enable_touch(self):
        """Firefox takes touches from the protocol without a setting."""

    def insert(self, words):
        self.keys(words)

    def press(self, key):
        self.keys([KEYS.get(key, key)])

    def keys(self, letters):
        self.do("browsingContext.activate")
        self.act("key", [{"type": kind, "value": it} for it in letters for kind in ("keyDown", "keyUp")])

    def download_to(self, folder):
        how = {"type": "allowed", "destinationFolder": folder}
        self.browser.call("browser.setDownloadBehavior", downloadBehavior=how, userContexts=[self.storage])

    def picture(self, clip=None):
        more = {"clip": {"type": "box", **clip}, "origin": "document"} if clip else {}
        return base64.b64decode(self.do("browsingContext.captureScreenshot", **more)["data"])

    def close(self):
        self.do("browsingContext.close")
        self.browser.call("browser.removeUserContext", userContext=self.storage)

    def asked(self):
        return [it["params"]["request"]["url"] for it in self.browser.events
                if it.get("method") == "network.beforeRequestSent" and it["params"]["context"] == self.context]

    def faults(self):
        found = self.value("window.violations ?? []")
        for it in self.browser.events:
            entry = it["params"] if it.get("method") == "log.entryAdded" else {}
            if entry.get("source", {}).get("context") == self.context and entry["level"] == "error":
                found.append(entry["text"])
        return found
