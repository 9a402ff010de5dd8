"""Firefox over Marionette, its own protocol, and WebKitGTK over its WebDriver, as the tests ask for a browser. Python's standard library alone; Debian's
packages are firefox-esr, and webkit2gtk-driver with xvfb: its browser needs a display, and nobody has to look at it."""
import json
import os
import pathlib
import socket
import subprocess
import time
import urllib.error
import urllib.request

from browser import Browser, Chromium

# the name of an element's number in WebDriver
ELEMENT = "element-6066-11e4-a52e-4f735466cecf"
KEYS = {"ArrowLeft": "\ue012", "ArrowUp": "\ue013", "ArrowRight": "\ue014", "ArrowDown": "\ue015", "End": "\ue010", "Home": "\ue011",
        "PageUp": "\ue00e", "PageDown": "\ue00f", "Enter": "\ue007", "Tab": "\ue004"}
# saved without asking, and nothing asked of a network by the browser itself
SETTINGS = {
    "browser.download.folderList": 2, "browser.download.useDownloadDir": True, "browser.download.alwaysOpenPanel": False,
    "browser.helperApps.neverAsk.saveToDisk": "text/plain,text/csv", "browser.shell.checkDefaultBrowser": False,
    "datareporting.policy.dataSubmissionEnabled": False, "app.normandy.enabled": False, "network.captive-portal-service.enabled": False,
}


def free_port():
    with socket.create_server(("127.0.0.1", 0)) as s:
        return s.getsockname()[1]


def pressed(key):
    """a key that goes down and up, as WebDriver's actions have it"""
    value = KEYS.get(key, key)
    return [{"type": "key", "id": "keyboard", "actions": [{"type": "keyDown", "value": value}, {"type": "keyUp", "value": value}]}]


class Firefox(Browser):
    def start(self):
        port, profile = free_port(), pathlib.Path(self.folder, "profile")
        profile.mkdir()
        settings = {**SETTINGS, "browser.download.dir": self.saved, "marionette.port": port}
        lines = (f"user_pref({json.dumps(name)}, {json.dumps(value)});\n" for name, value in settings.items())
        (profile / "user.js").write_text("".join(lines), encoding="utf-8")
        self.run(["firefox-esr", "--headless", "--marionette", "--no-remote", "--profile", str(profile), "--width", str(self.wide), "--height", str(self.tall)])
        self.kept, self.number = b"", 0
        self.socket = self.connect(port)
        self.receive()
        found = self.call("WebDriver:NewSession")["capabilities"]
        self.about = f"Firefox {found['browserVersion']}"

    def connect(self, port):
        end = time.time() + 90
        while True:
            try:
                return socket.create_connection(("127.0.0.1", port), 300)
            except OSError:
                if time.time() > end or self.process.poll() is not None:
                    raise RuntimeError("Firefox does not start") from None
                time.sleep(0.1)

    def receive(self):
        """a message is its length, a colon, and JSON"""
        while True:
            size, colon, rest = self.kept.partition(b":")
            if colon and len(rest) >= int(size):
                self.kept = rest[int(size):]
                return json.loads(rest[:int(size)])
            more = self.socket.recv(1 << 20)
            if not more:
                raise RuntimeError("the browser has ended")
            self.kept += more

    def call(self, name, **params):
        self.number += 1
        data = json.dumps([0, self.number, name, params]).encode()
        self.socket.sendall(str(len(data)).encode() + b":" + data)
        _, _, error, result = self.receive()
        if error:
            raise RuntimeError(f"{name}: {error['error']}: {error['message']}")
        return result

    def js(self, text):
        # without a sandbox a script sees what the page's own see
        return self.call("WebDriver:ExecuteScript", script=f"return {text}", args=[], sandbox=None)["value"]

    def open(self, url):
        self.call("WebDriver:Navigate", url=url)

    def choose_file(self, selector, path):
        element = self.call("WebDriver:FindElement", using="css selector", value=selector)["value"][ELEMENT]
        self.call("WebDriver:ElementSendKeys", id=element, text=str(path))

    def key(self, key):
        self.call("WebDriver:PerformActions", actions=pressed(key))


class WebKit(Browser):
    def start(self):
        self.display, port = None, free_port()
        pathlib.Path(self.folder, "user-dirs.dirs").write_text(f'XDG_DOWNLOAD_DIR="{self.saved}"\n', encoding="utf-8")
        browser = next(pathlib.Path("/usr/lib").glob("*/webkit2gtk-4.*/MiniBrowser"), None)
        if browser is None:
            raise RuntimeError("webkit2gtk-driver has brought no MiniBrowser")
        # the driver starts the browser; without the first setting drawing stalls on such a display
        self.run(["WebKitWebDriver", f"--port={port}"],
                 {"WEBKIT_DISABLE_DMABUF_RENDERER": "1", "WEBKIT_DISABLE_SANDBOX_THIS_IS_DANGEROUS": "1", "DISPLAY": self.show(), "GDK_BACKEND": "x11",
                  "NO_AT_BRIDGE": "1"})
        self.url = f"http://127.0.0.1:{port}"
        self.wait()
        options = {"binary": str(browser), "args": ["--automation", f"--geometry={self.wide}x{self.tall}"]}
        session = self.call("POST", "/session", capabilities={"alwaysMatch": {"browserName": "MiniBrowser", "webkitgtk:browserOptions": options}})
        self.url += f"/session/{session['sessionId']}"
        self.about = f"WebKitGTK {session['capabilities']['browserVersion']}"

    def show(self):
        """a display that nobody sees: its number is the first that is free, told when it is there"""
        told, tell = os.pipe()
        self.display = subprocess.Popen(["Xvfb", "-displayfd", str(tell), "-screen", "0", "1400x1000x24", "-nolisten", "tcp"], pass_fds=[tell],
                                        stdout=subprocess.DEVNULL, stderr=subprocess.DEVNULL)
        os.close(tell)
        with os.fdopen(told) as line:
            return f":{line.readline().strip()}"

    def wait(self):
        end = time.time() + 60
        while time.time() < end:
            try:
                self.call("GET", "/status")
                return
            except OSError:
                time.sleep(0.1)
        raise RuntimeError("WebKit's driver does not start")

    def close(self):
        super().close()
        if self.display:
            self.display.terminate()
            self.display.wait()

    def call(self, method, path, **params):
        data = json.dumps(params).encode() if method == "POST" else None
        try:
            with urllib.request.urlopen(urllib.request.Request(self.url + path, data, method=method), timeout=300) as got:
                return json.load(got)["value"]
        except urllib.error.HTTPError as fault:
            raise RuntimeError(f"{path}: {fault.read()[:400]}") from None

    def js(self, text):
        return self.call("POST", "/execute/sync", script=f"return {text}", args=[])

    def open(self, url):
        self.call("POST", "/url", url=url)

    def choose_file(self, selector, path):
        element = self.call("POST", "/element", using="css selector", value=selector)[ELEMENT]
        self.call("POST", f"/element/{element}/value", text=str(path))

    def key(self, key):
        self.call("POST", "/actions", actions=pressed(key))


ENGINES = {"chromium": Chromium, "firefox": Firefox, "webkit": WebKit}
