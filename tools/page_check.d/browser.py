# SPDX-License-Identifier: Apache-2.0
"""A Chromium without a window, asked over its pipe by the DevTools protocol: no package beside Python is wanted."""

import base64
import json
import os
import select
import shutil
import subprocess
import tempfile
import time

# How long an answer may take, in seconds.
PATIENCE = 30
NAMES = ("chromium", "chromium-browser", "google-chrome")
KEYS = {"Enter": 13, "Escape": 27, "PageDown": 34, "End": 35, "Home": 36, "ArrowLeft": 37, "ArrowUp": 38}
KEYS |= {"ArrowRight": 39, "ArrowDown": 40}
SHIFT = 8


def found():
    """The path of a Chromium; none where none is installed."""
    return next((path for path in map(shutil.which, NAMES) if path), None)


def is_refusal(event):
    """Whether it says that something was against the policy of the page."""
    is_issue = event["method"] == "Audits.issueAdded"
    return is_issue and event["params"]["issue"]["code"] == "ContentSecurityPolicyIssue"


class Browser:
    """One page, what it asked the network for, and what it was refused or said to be wrong."""

    def __init__(self, path):
        self.room = tempfile.mkdtemp(prefix="page-check-")
        there, self.out = os.pipe()
        self.into, back = os.pipe()
        words = [path, "--headless=new", "--disable-gpu", "--remote-debugging-pipe", f"--user-data-dir={self.room}"]
        words += ["--no-first-run", "--disable-extensions", "--disable-background-networking"]
        # The sandbox of a Chromium does not go with root.
        words += ["--no-sandbox"] if os.geteuid() == 0 else []
        shell = ["sh", "-c", f'exec "$@" 3<&{there} 4>&{back}', "sh", *words]
        quiet = subprocess.DEVNULL
        self.process = subprocess.Popen(shell, pass_fds=(there, back), stdin=quiet, stdout=quiet, stderr=quiet)
        os.close(there)
        os.close(back)
        self.number = 0
        self.left = b""
        self.session = None
        self.url = None
        self.events = []
        target = self.ask("Target.createTarget", url="about:blank")["targetId"]
        self.session = self.ask("Target.attachToTarget", targetId=target, flatten=True)["sessionId"]
        for domain in ("Page", "Runtime", "Network", "Log", "Audits"):
            self.ask(f"{domain}.enable")
        self.size(1400, 900)

    def close(self):
        """Ends the process, and removes what it kept."""
        self.process.terminate()
        self.process.wait()
        os.close(self.into)
        os.close(self.out)
        shutil.rmtree(self.room, ignore_errors=True)

    def next_message(self, until):
        while b"\0" not in self.left:
            ready, _, _ = select.select([self.into], [], [], max(0, until - time.monotonic()))
            piece = os.read(self.into, 1 << 20) if ready else b""
            if not piece:
                raise TimeoutError("the browser does not answer")
            self.left += piece
        message, _, self.left = self.left.partition(b"\0")
        return json.loads(message)

    def ask(self, method, **parameters):
        """Asks, and gives the answer; events that come before it are kept."""
        self.number += 1
        message = {"id": self.number, "method": method, "params": parameters}
        if self.session:
            message["sessionId"] = self.session
        os.write(self.out, json.dumps(message).encode() + b"\0")
        until = time.monotonic() + PATIENCE
        while True:
            said = self.next_message(until)
            if said.get("id") == self.number:
                if "error" in said:
                    raise RuntimeError(f"{method}: {said['error']['message']}")
                return said["result"]
            self.events.append(said)

    def open(self, path):
        """Opens a file, waits until it is drawn, and gives how many seconds that took."""
        self.events.clear()
        self.ask("Page.navigate", url="about:blank")
        began = time.monotonic()
        self.url = f"file://{path}"
        self.ask("Page.navigate", url=self.url)
        self.value("new Promise(done => { const look = () => document.readyState === 'complete' && location.protocol"
                   " === 'file:' ? requestAnimationFrame(() => setTimeout(done)) : setTimeout(look, 5); look(); })")
        return time.monotonic() - began

    def value(self, script):
        """What an expression comes to in the page."""
        asked = {"expression": script, "awaitPromise": True, "returnByValue": True}
        answer = self.ask("Runtime.evaluate", **asked)
        if "exceptionDetails" in answer:
            raise RuntimeError(f"{script}: {answer['exceptionDetails'].get('exception', {}).get('description')}")
        return answer["result"].get("value")

    def settle(self):
        """Waits until the page is drawn again."""
        self.value("new Promise(done => requestAnimationFrame(() => setTimeout(done)))")

    def mouse(self, kind, x, y, held=1):
        self.ask("Input.dispatchMouseEvent", type=kind, x=x, y=y, button="left", buttons=held, clickCount=1)

    def drag(self, start, end, y):
        """Presses at a place, moves, and lets go at another on the same line."""
        self.mouse("mouseMoved", start, y, 0)
        self.mouse("mousePressed", start, y)
        self.mouse("mouseMoved", (start + end) / 2, y)
        self.mouse("mouseMoved", end, y)
        self.mouse("mouseReleased", end, y, 0)
        self.settle()

    def click(self, selector):
        """Clicks the middle of the first element that fits."""
        x, y, width, height = self.box(selector)
        self.drag(x + width / 2, x + width / 2, y + height / 2)

    def box(self, selector):
        """Where an element stands: left, top, width, height."""
        text = json.dumps(selector)
        found = self.value(f"(e => e && [...['x','y','width','height'].map(k => e.getBoundingClientRect()[k])])"
                           f"(document.querySelector({text}))")
        if not found:
            raise RuntimeError(f"nothing on the page fits {selector}")
        return found

    def key(self, key, shift=False):
        """Presses a key."""
        asked = {"key": key, "modifiers": SHIFT if shift else 0, "windowsVirtualKeyCode": KEYS.get(key, 0)}
        if len(key) == 1:
            asked["text"] = key
        self.ask("Input.dispatchKeyEvent", type="keyDown", **asked)
        asked.pop("text", None)
        self.ask("Input.dispatchKeyEvent", type="keyUp", **asked)
        self.settle()

    def type(self, text):
        """Writes a text where the focus is."""
        self.ask("Input.insertText", text=text)
        self.settle()

    def size(self, width, height):
        measures = {"width": width, "height": height, "deviceScaleFactor": 1, "mobile": False}
        self.ask("Emulation.setDeviceMetricsOverride", **measures)

    def scheme(self, name):
        """The colours that the page is asked for: `light` or `dark`."""
        self.ask("Emulation.setEmulatedMedia", features=[{"name": "prefers-color-scheme", "value": name}])

    def picture(self, path):
        """Writes a PNG of what is seen."""
        self.settle()
        data = self.ask("Page.captureScreenshot", format="png")["data"]
        with open(path, "wb") as file:
            file.write(base64.b64decode(data))

    def requests(self):
        """What the page asked for beside itself."""
        urls = [it["params"]["request"]["url"] for it in self.events if it["method"] == "Network.requestWillBeSent"]
        return [it for it in urls if it not in ("about:blank", self.url)]

    def complaints(self):
        """What the browser refused, and what went wrong in a script."""
        bad = ("Runtime.exceptionThrown", "Log.entryAdded", "Page.javascriptDialogOpening")
        return [json.dumps(it["params"]) for it in self.events if it["method"] in bad or is_refusal(it)]
