"""A Chromium without a window, told what to do through a pipe in its developer protocol: JSON messages, each ended by a byte 0."""
import base64
import json
import os
import select
import shutil
import subprocess
import tempfile
import time

NO_BROWSER = "there is no chromium: 'apt-get install chromium' installs it on Debian, or CHROMIUM=PROGRAM names one"
SECONDS = 60
KEYS = {
    "Tab": 9, "Enter": 13, " ": 32, "PageUp": 33, "PageDown": 34, "End": 35, "Home": 36,
    "ArrowLeft": 37, "ArrowUp": 38, "ArrowRight": 39, "ArrowDown": 40,
}
TYPED = {"Enter": "\r", " ": " "}
SHIFT, CTRL = 8, 2


class Missing(Exception):
    """No browser is installed."""


class Browser:
    """One page in a browser of its own, which ends with it."""

    def __init__(self):
        program = os.environ.get("CHROMIUM") or shutil.which("chromium")
        if not program or not shutil.which(program):
            raise Missing(NO_BROWSER)
        self.profile = tempfile.mkdtemp(prefix="page-test-")
        told, self.write_to = os.pipe()
        self.read_from, answers = os.pipe()
        flags = [
            "--headless", "--remote-debugging-pipe", "--no-first-run", "--disable-gpu", "--hide-scrollbars", "--disable-dev-shm-usage",
            f"--user-data-dir={self.profile}",
        ]
        if os.getuid() == 0:
            flags.append("--no-sandbox")
        # The browser reads from 3 and writes to 4.
        command = f'exec "$@" 3<&{told} 4>&{answers}'
        self.process = subprocess.Popen(
            ["sh", "-c", command, "sh", program, *flags, "about:blank"], pass_fds=(told, answers), stdin=subprocess.DEVNULL,
            stdout=subprocess.DEVNULL, stderr=subprocess.DEVNULL)
        os.close(told)
        os.close(answers)
        self.rest, self.number, self.events, self.session = b"", 0, [], None
        page = next(t for t in self.call("Target.getTargets")["targetInfos"] if t["type"] == "page")
        self.session = self.call("Target.attachToTarget", targetId=page["targetId"], flatten=True)["sessionId"]
        for domain in ("Page", "Runtime", "Network", "Log", "Accessibility"):
            self.call(f"{domain}.enable")

    def __enter__(self):
        return self

    def __exit__(self, *_):
        try:
            self.session = None
            self.call("Browser.close")
            self.process.wait(10)
        except (OSError, subprocess.TimeoutExpired, TimeoutError):
            self.process.kill()
            self.process.wait()
        os.close(self.write_to)
        os.close(self.read_from)
        shutil.rmtree(self.profile, ignore_errors=True)

    def message(self):
        until = time.monotonic() + SECONDS
        while b"\0" not in self.rest:
            if not select.select([self.read_from], [], [], max(0, until - time.monotonic()))[0]:
                raise TimeoutError("the browser does not answer")
            part = os.read(self.read_from, 1 << 20)
            if not part:
                raise OSError("the browser has ended")
            self.rest += part
        one, self.rest = self.rest.split(b"\0", 1)
        return json.loads(one)

    def call(self, method, **params):
        self.number += 1
        request = {"id": self.number, "method": method, "params": params}
        if self.session:
            request["sessionId"] = self.session
        data = json.dumps(request).encode() + b"\0"
        while data:
            data = data[os.write(self.write_to, data):]
        while True:
            answer = self.message()
            if answer.get("id") == self.number:
                if "error" in answer:
                    raise RuntimeError(f"{method}: {answer['error']}")
                return answer["result"]
            self.events.append(answer)

    def wait_for(self, event):
        while not any(e.get("method") == event for e in self.events):
            self.events.append(self.message())

    def value(self, expression):
        answer = self.call("Runtime.evaluate", expression=expression, returnByValue=True, awaitPromise=True)
        if "exceptionDetails" in answer:
            raise RuntimeError(f"{expression}: {answer['exceptionDetails']}")
        return answer["result"].get("value")

    def open(self, path, width=1280, height=800, dark=False, fragment=""):
        """Opens a file anew, in a window of this size, and waits until its script has run."""
        self.call("Page.navigate", url="about:blank")
        self.call("Emulation.setDeviceMetricsOverride", width=width, height=height, deviceScaleFactor=1, mobile=False)
        self.media(dark=dark)
        self.events.clear()
        self.call("Page.navigate", url=path.as_uri() + fragment)
        self.wait_for("Page.loadEventFired")
        self.settle()

    def media(self, dark=False, printed=False):
        scheme = [{"name": "prefers-color-scheme", "value": "dark" if dark else "light"}]
        self.call("Emulation.setEmulatedMedia", media="print" if printed else "", features=scheme)

    def settle(self):
        """Two frames later."""
        self.value("new Promise((done) => requestAnimationFrame(() => requestAnimationFrame(() => setTimeout(done))))")

    def key(self, name, modifiers=0):
        code = KEYS.get(name) or ord(name.upper())
        typed = TYPED.get(name) or (name if len(name) == 1 else None)
        same = {"key": name, "windowsVirtualKeyCode": code, "nativeVirtualKeyCode": code, "modifiers": modifiers}
        self.call("Input.dispatchKeyEvent", type="keyDown", **same, **({"text": typed} if typed else {}))
        self.call("Input.dispatchKeyEvent", type="keyUp", **same)
        self.settle()

    def keys(self, *names):
        for name in names:
            self.key(name)

    def click(self, expression):
        """A click of the mouse in the middle of an element."""
        x, y = self.value(f"(() => {{ const r = ({expression}).getBoundingClientRect(); return [r.x + r.width / 2, r.y + r.height / 2]; }})()")
        for kind in ("mousePressed", "mouseReleased"):
            self.call("Input.dispatchMouseEvent", type=kind, x=x, y=y, button="left", clickCount=1)
        self.settle()

    def wheel(self, expression):
        """One turn of the mouse's wheel over an element."""
        x, y = self.value(f"(() => {{ const r = ({expression}).getBoundingClientRect(); return [r.x + r.width / 2, r.y + r.height / 2]; }})()")
        self.call("Input.dispatchMouseEvent", type="mouseWheel", x=x, y=y, deltaX=0, deltaY=240)

    def picture(self, path):
        path.write_bytes(base64.b64decode(self.call("Page.captureScreenshot", format="png")["data"]))

    def printed(self, path):
        path.write_bytes(base64.b64decode(self.call("Page.printToPDF", paperWidth=8.27, paperHeight=11.69)["data"]))

    def complaints(self):
        """What the browser told of errors, and every request but that for the file itself."""
        found = [e for e in self.events if e.get("method") in ("Runtime.exceptionThrown", "Log.entryAdded")]
        asked = [e["params"]["request"]["url"] for e in self.events if e.get("method") == "Network.requestWillBeSent"]
        return found + asked[1:]
