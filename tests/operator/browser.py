"""Chromium without a window, controlled through its DevTools protocol."""
import base64
import json
import os
import re
import shutil
import socket
import struct
import subprocess
import tempfile
import time
import urllib.request

from programs import PATIENCE


class Browser:
    """Chromium with one page. `events` are what it reported about the page: requests, messages and exceptions."""

    def __init__(self, chromium):
        self.folder = tempfile.mkdtemp(prefix="browser-")
        command = [chromium, "--headless=new", "--no-sandbox", "--disable-gpu", "--hide-scrollbars", "--remote-debugging-port=0",
                   f"--user-data-dir={self.folder}", "about:blank"]
        self.process = subprocess.Popen(command, stdout=subprocess.DEVNULL, stderr=subprocess.PIPE)
        self.number, self.events, self.stream = 0, [], None

    def __enter__(self):
        try:
            self._begins()
        except BaseException:
            self.__exit__()
            raise
        return self

    def _begins(self):
        """Finds the page and opens the connection to it."""
        for line in self.process.stderr:
            found = re.search(rb"DevTools listening on ws://([^:]+):([0-9]+)", line)
            if found:
                break
        place = f"{found[1].decode()}:{found[2].decode()}"
        with urllib.request.urlopen(f"http://{place}/json", timeout=PATIENCE) as answer:
            pages = json.load(answer)
        self._opens(place, next(it["webSocketDebuggerUrl"] for it in pages if it["type"] == "page"))
        for it in ["Page", "Runtime", "Log", "Network"]:
            self.call(f"{it}.enable")

    def __exit__(self, *why):
        if self.stream:
            self.stream.close()
        self.process.terminate()
        self.process.communicate(timeout=PATIENCE)
        shutil.rmtree(self.folder, ignore_errors=True)

    def _opens(self, place, url):
        """Opens the connection of messages."""
        path = re.fullmatch(r"ws://[^/]+(/.*)", url)[1]
        self.stream = socket.create_connection(tuple(place.split(":")), PATIENCE)
        self.read = self.stream.makefile("rb")
        key = base64.b64encode(os.urandom(16)).decode()
        self.stream.sendall((f"GET {path} HTTP/1.1\r\nHost: {place}\r\nUpgrade: websocket\r\nConnection: Upgrade\r\n"
                             f"Sec-WebSocket-Key: {key}\r\nSec-WebSocket-Version: 13\r\n\r\n").encode())
        while self.read.readline().strip():
            pass

    def call(self, method, **words):
        """Calls the browser, and returns its answer."""
        self.number += 1
        data = json.dumps({"id": self.number, "method": method, "params": words}).encode()
        size = bytes([0x80 | len(data)]) if len(data) < 126 else b"\xfe" + struct.pack(">H", len(data))
        # The mask consists of zeros, so the data stays as it is.
        self.stream.sendall(b"\x81" + size + b"\0\0\0\0" + data)
        while True:
            told = json.loads(self._message())
            if told.get("id") == self.number:
                return told["result"]
            self.events.append(told)

    def _message(self):
        text, last = b"", False
        while not last:
            first, size = self.read.read(2)
            last, size = first & 0x80, size & 0x7F
            if size > 125:
                size = struct.unpack(*((">H", self.read.read(2)) if size == 126 else (">Q", self.read.read(8))))[0]
            text += self.read.read(size)
        return text

    def shows(self, url, width=1200, height=800, scheme="light"):
        """Loads a page in a window of this size, in light or dark mode."""
        self.call("Emulation.setDeviceMetricsOverride", width=width, height=height, deviceScaleFactor=1, mobile=width < 600)
        self.call("Emulation.setEmulatedMedia", features=[{"name": "prefers-color-scheme", "value": scheme}])
        self.call("Page.navigate", url="about:blank")
        self.call("Page.navigate", url=url)

    def value(self, script):
        """Returns the value of a script in the page."""
        found = self._evaluated(script)
        assert "exceptionDetails" not in found, found
        return found["result"].get("value")

    def _evaluated(self, script):
        return self.call("Runtime.evaluate", expression=script, awaitPromise=True, returnByValue=True)

    def awaits(self, script, wanted):
        """Waits until a script has this value. It has none while the page is loading."""
        for _ in range(200):
            found = self._evaluated(script)["result"].get("value")
            if found == wanted:
                return
            time.sleep(0.05)
        raise AssertionError(f"{script}: wanted {wanted!r}, found {found!r}")

    def press(self, key, code):
        """Presses a key and releases it, as a person does."""
        for kind in ["keyDown", "keyUp"]:
            text = {"text": "\r"} if key == "Enter" and kind == "keyDown" else {}
            self.call("Input.dispatchKeyEvent", type=kind, key=key, code=key, windowsVirtualKeyCode=code, **text)

    def picture(self, path):
        """Writes a picture of the whole page."""
        size = self.call("Page.getLayoutMetrics")["cssContentSize"]
        clip = {"x": 0, "y": 0, "width": size["width"], "height": size["height"], "scale": 1}
        found = self.call("Page.captureScreenshot", format="png", captureBeyondViewport=True, clip=clip)
        with open(path, "wb") as stream:
            stream.write(base64.b64decode(found["data"]))

    def faults(self):
        """Returns the exceptions and errors of the page, except answers that say that there is nothing."""
        told = [it for it in self.events if it.get("method") in ("Runtime.exceptionThrown", "Runtime.consoleAPICalled", "Log.entryAdded")]
        return [str(it["params"])[:400] for it in told if "404 (Not Found)" not in str(it)]

    def hosts(self):
        """Returns the hosts that the page contacted."""
        sent = [it["params"]["request"]["url"] for it in self.events if it.get("method") == "Network.requestWillBeSent"]
        return {it.split("/")[2] for it in sent if it.startswith(("http", "ws"))}
