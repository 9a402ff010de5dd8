"""What the tests ask of every browser, and a headless Chromium over its debugging pipe: Python's standard library alone, no driver, no port."""
import base64
import json
import os
import shutil
import signal
import subprocess
import tempfile
import time

LOCAL = ("file:", "blob:", "data:", "about:")
PROGRAMS = ("chromium", "chromium-headless-shell", "google-chrome")
KEYS = {"ArrowDown": 40, "ArrowUp": 38, "ArrowLeft": 37, "ArrowRight": 39, "End": 35, "Home": 36, "PageDown": 34, "Enter": 13, "Tab": 9, " ": 32}


class Browser:
    """A browser of its own, with an empty home and a folder for what is saved. An engine gives start, js, open, choose_file and key."""

    def __init__(self, wide=1360, tall=900):
        self.folder = tempfile.mkdtemp()
        self.saved = os.path.join(self.folder, "saved")
        os.mkdir(self.saved)
        self.process, self.wide, self.tall = None, wide, tall
        try:
            self.start()
        except BaseException:
            self.close()
            raise

    def run(self, command, env=None, **more):
        """in a group of its own, so that it can be ended with all that it starts"""
        home = {name: self.folder for name in ("HOME", "XDG_CONFIG_HOME", "XDG_CACHE_HOME")}
        self.process = subprocess.Popen(command, env={**os.environ, **home, **(env or {})}, stdout=subprocess.DEVNULL, stderr=subprocess.DEVNULL,
                                        start_new_session=True, **more)

    def until(self, text, seconds=30):
        """waits until it is true in the page, and gives it"""
        end = time.time() + seconds
        while time.time() < end:
            got = self.js(text)
            if got:
                return got
            time.sleep(0.02)
        raise RuntimeError("never came true: " + text)

    def saved_file(self, name, seconds=60):
        """the text of a file that the page saves"""
        path, end = os.path.join(self.saved, name), time.time() + seconds
        while time.time() < end:
            if self.rests(path):
                with open(path, encoding="utf-8", newline="") as f:
                    text = f.read()
                os.remove(path)
                return text
            time.sleep(0.02)
        return f"{name} was not saved: {os.listdir(self.saved)}"

    def rests(self, path):
        """Whether a file is there and whole. Chromium and Firefox write under another name, Firefox beside an empty file; WebKit lets the file grow."""
        if not os.path.exists(path) or any(x.endswith((".crdownload", ".part")) for x in os.listdir(self.saved)):
            return False
        return os.path.getsize(path) > 0 and time.time() - os.path.getmtime(path) > 0.1

    def close(self):
        if self.process:
            os.killpg(self.process.pid, signal.SIGTERM)
            try:
                self.process.wait(10)
            except subprocess.TimeoutExpired:
                os.killpg(self.process.pid, signal.SIGKILL)
        shutil.rmtree(self.folder, ignore_errors=True)


class Chromium(Browser):
    def start(self):
        self.kept, self.number, self.events, self.session = b"", 0, [], None
        self.begin()
        self.call("Browser.setDownloadBehavior", behavior="allow", downloadPath=self.saved)
        self.about = self.call("Browser.getVersion")["product"].replace("/", " ")
        target = next(t for t in self.call("Target.getTargets")["targetInfos"] if t["type"] == "page")
        self.session = self.call("Target.attachToTarget", targetId=target["targetId"], flatten=True)["sessionId"]
        for domain in "Page", "Runtime", "Network", "DOM", "Log":
            self.call(domain + ".enable")
        self.size(self.wide, self.tall)

    def begin(self):
        program = next(filter(None, map(shutil.which, PROGRAMS)))
        down, self.down = os.pipe()
        self.up, up = os.pipe()

        def pipes():
            # the browser reads from 3 and writes to 4
            first, second = os.dup(down), os.dup(up)
            os.dup2(first, 3)
            os.dup2(second, 4)

        self.run([program, "--headless", "--no-sandbox", "--disable-gpu", "--no-first-run", "--disable-dev-shm-usage", "--disable-background-networking",
                  f"--user-data-dir={self.folder}", "--remote-debugging-pipe", "about:blank"], preexec_fn=pipes, close_fds=False)
        os.close(down)
        os.close(up)

    def receive(self):
        while b"\0" not in self.kept:
            more = os.read(self.up, 1 << 20)
            if not more:
                raise RuntimeError("the browser has ended")
            self.kept += more
        line, self.kept = self.kept.split(b"\0", 1)
        return json.loads(line)

    def call(self, method, **params):
        self.number += 1
        message = {"id": self.number, "method": method, "params": params}
        if self.session:
            message["sessionId"] = self.session
        data = json.dumps(message).encode() + b"\0"
        while data:
            data = data[os.write(self.down, data):]
        while True:
            got = self.receive()
            if got.get("id") == self.number:
                if "error" in got:
                    raise RuntimeError(f"{method}: {got['error']}")
                return got["result"]
            self.events.append(got)

    def js(self, text):
        got = self.call("Runtime.evaluate", expression=text, awaitPromise=True, returnByValue=True, userGesture=True)
        if "exceptionDetails" in got:
            raise RuntimeError(f"{text[:200]}: {json.dumps(got['exceptionDetails'])[:600]}")
        return got["result"].get("value")

    def open(self, url):
        self.call("Page.navigate", url=url)
        self.until("document.readyState === 'complete'")

    def size(self, wide, tall):
        self.call("Emulation.setDeviceMetricsOverride", width=wide, height=tall, deviceScaleFactor=1, mobile=False)
        # the page has heard of it, and has drawn
        self.js("new Promise((go) => requestAnimationFrame(() => requestAnimationFrame(() => requestAnimationFrame(go))))")

    def choose_file(self, selector, path):
        root = self.call("DOM.getDocument")["root"]["nodeId"]
        node = self.call("DOM.querySelector", nodeId=root, selector=selector)["nodeId"]
        self.call("DOM.setFileInputFiles", nodeId=node, files=[str(path)])

    def drop(self, path, x=600, y=400):
        for kind in "dragEnter", "dragOver", "drop":
            self.call("Input.dispatchDragEvent", type=kind, x=x, y=y, data={"items": [], "files": [str(path)], "dragOperationsMask": 1})

    def key(self, key, shift=False):
        text = {"text": {"Enter": "\r"}.get(key, key)} if len(key) == 1 or key == "Enter" else {}
        code = KEYS.get(key) or ord(key.upper())
        common = {"key": key, "windowsVirtualKeyCode": code, "modifiers": 8 if shift else 0}
        self.call("Input.dispatchKeyEvent", type="keyDown" if text else "rawKeyDown", **common, **text)
        self.call("Input.dispatchKeyEvent", type="keyUp", **common)

    def mouse(self, *points):
        """pressed at the first point, dragged over the others, let go at the last"""
        moves = [("mouseMoved", point, 1) for point in points[1:]]
        steps = [("mouseMoved", points[0], 0), ("mousePressed", points[0], 1), *moves, ("mouseReleased", points[-1], 0)]
        for kind, (x, y), held in steps:
            button = {} if kind == "mouseMoved" and not held else {"button": "left", "buttons": held, "clickCount": 1}
            self.call("Input.dispatchMouseEvent", type=kind, x=x, y=y, **button)

    def media(self, dark=False, kind="", forced=False):
        features = {"prefers-color-scheme": "dark" if dark else "light", "forced-colors": "active" if forced else "none"}
        self.call("Emulation.setEmulatedMedia", media=kind, features=[{"name": name, "value": value} for name, value in features.items()])

    def picture(self, path):
        time.sleep(0.2)
        with open(path, "wb") as f:
            f.write(base64.b64decode(self.call("Page.captureScreenshot", format="png")["data"]))

    def faults(self, since=0):
        """what the page threw, what the browser complained of, and what went to a network: all requests but those that the policy blocked"""
        out, requests = [], {}
        for event in self.events[since:]:
            name, params = event.get("method"), event.get("params", {})
            if name == "Runtime.exceptionThrown":
                out.append("thrown: " + json.dumps(params["exceptionDetails"])[:400])
            if name == "Log.entryAdded" and params["entry"]["level"] == "error":
                out.append("log: " + params["entry"]["text"])
            if name == "Network.requestWillBeSent" and not params["request"]["url"].startswith(LOCAL):
                requests[params["requestId"]] = "request: " + params["request"]["url"]
            if name == "Network.loadingFailed" and params.get("blockedReason") == "csp":
                requests.pop(params["requestId"], None)
        return out + list(requests.values())

    def close(self):
        try:
            self.session = None
            self.call("Browser.close")
            self.process.wait(10)
            self.process = None
        except Exception:  # it has ended, or does not answer: its group is ended
            pass
        try:
            super().close()
        except ProcessLookupError:
            shutil.rmtree(self.folder, ignore_errors=True)
