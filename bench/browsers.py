"""Drives a page in Chromium, by chromedriver, or in Firefox, by its own port, without a window and without any package."""
import base64
import json
import shutil
import socket
import subprocess
import tempfile
import time
import urllib.error
import urllib.request

PATIENCE = 600
SIZE = (1500, 1000)

# Keys by their names.
ENTER, BACKSPACE, HOME, LEFT, UP, RIGHT, DOWN = "\ue007", "\ue003", "\ue011", "\ue012", "\ue013", "\ue014", "\ue015"


class Refused(Exception):
    """What a browser answered in place of a value."""


def free_port():
    with socket.socket() as taken:
        taken.bind(("127.0.0.1", 0))
        return taken.getsockname()[1]


def pressing(keys):
    return {"type": "key", "id": "keys", "actions": [{"type": kind, "value": key} for key in keys for kind in ("keyDown", "keyUp")]}


class Chromium:
    name = "Chromium"

    def __init__(self):
        self.port = free_port()
        self.profile = tempfile.mkdtemp(prefix="chromium-")
        self.driver = subprocess.Popen(["chromedriver", f"--port={self.port}"], stdout=subprocess.DEVNULL, stderr=subprocess.DEVNULL)
        self._wait_for_driver()
        words = ["--headless=new", "--no-sandbox", "--disable-gpu", f"--window-size={SIZE[0]},{SIZE[1]}", f"--user-data-dir={self.profile}"]
        wanted = {"browserName": "chrome", "goog:chromeOptions": {"args": words}, "timeouts": {"script": PATIENCE * 1000, "pageLoad": PATIENCE * 1000}}
        told = self._ask("POST", "/session", {"capabilities": {"alwaysMatch": wanted}})
        self.session = told["sessionId"]
        self.version = told["capabilities"]["browserVersion"]
        self.process = told["capabilities"].get("goog:processID")
        self.downloads = tempfile.mkdtemp(prefix="saved-")
        self._do("POST", "/goog/cdp/execute", {"cmd": "Browser.setDownloadBehavior", "params": {
            "behavior": "allow", "downloadPath": self.downloads}})

    def _wait_for_driver(self):
        for _ in range(200):
            try:
                socket.create_connection(("127.0.0.1", self.port)).close()
                return
            except OSError:
                time.sleep(0.05)
        raise Refused("chromedriver doesn't answer")

    def _ask(self, method, path, body=None):
        data = json.dumps(body or {}).encode() if method == "POST" else None
        request = urllib.request.Request(f"http://127.0.0.1:{self.port}{path}", data, {"Content-Type": "application/json"}, method=method)
        try:
            with urllib.request.urlopen(request, timeout=PATIENCE) as answer:
                return json.load(answer)["value"]
        except urllib.error.HTTPError as error:
            raise Refused(error.read().decode()[:600]) from error

    def _do(self, method, path, body=None):
        return self._ask(method, f"/session/{self.session}{path}", body)

    def _element(self, selector):
        return next(iter(self._do("POST", "/element", {"using": "css selector", "value": selector}).values()))

    def go(self, url):
        self._do("POST", "/url", {"url": url})

    def run(self, script, *values):
        return self._do("POST", "/execute/sync", {"script": script, "args": list(values)})

    def later(self, script, *values):
        """Runs a script whose last argument is a function that takes the answer."""
        return self._do("POST", "/execute/async", {"script": script, "args": list(values)})

    def type(self, selector, text):
        """Types into an element; a file's path, if it takes files."""
        self._do("POST", f"/element/{self._element(selector)}/value", {"text": text})

    def click(self, selector):
        self._do("POST", f"/element/{self._element(selector)}/click", {})

    def press(self, *keys):
        """Presses keys, each by itself, for whatever has the focus."""
        self._do("POST", "/actions", {"actions": [pressing(keys)]})

    def resize(self, width, height):
        self._do("POST", "/goog/cdp/execute", {"cmd": "Emulation.setDeviceMetricsOverride", "params": {
            "width": width, "height": height, "deviceScaleFactor": 1, "mobile": False}})

    def scheme(self, name):
        """Asks for light or dark colours."""
        self._do("POST", "/goog/cdp/execute", {"cmd": "Emulation.setEmulatedMedia", "params": {
            "features": [{"name": "prefers-color-scheme", "value": name}]}})

    def click_at(self, x, y):
        pointer = {"type": "pointer", "id": "mouse", "parameters": {"pointerType": "mouse"}, "actions": [
            {"type": "pointerMove", "x": x, "y": y}, {"type": "pointerDown", "button": 0}, {"type": "pointerUp", "button": 0}]}
        self._do("POST", "/actions", {"actions": [pointer]})

    def picture(self):
        return base64.b64decode(self._do("GET", "/screenshot"))

    def print_page(self):
        return base64.b64decode(self._do("POST", "/print", {}))

    def close(self):
        try:
            self._do("DELETE", "")
        finally:
            self.driver.terminate()
            self.driver.wait()
            shutil.rmtree(self.profile, ignore_errors=True)
            shutil.rmtree(self.downloads, ignore_errors=True)


class Firefox:
    name = "Firefox"

    def __init__(self):
        port = free_port()
        self.profile = tempfile.mkdtemp(prefix="firefox-")
        self.downloads = tempfile.mkdtemp(prefix="saved-")
        with open(f"{self.profile}/user.js", "w", encoding="utf-8") as file:
            for key, value in self._preferences(port).items():
                file.write(f"user_pref({json.dumps(key)}, {json.dumps(value)});\n")
        words = ["firefox-esr", "--headless", "--marionette", "--no-remote", "--profile", self.profile, "--width", str(SIZE[0]), "--height", str(SIZE[1])]
        self.browser = subprocess.Popen(words, stdout=subprocess.DEVNULL, stderr=subprocess.DEVNULL)
        self.process = self.browser.pid
        self.socket = self._connected(port)
        self.count = 0
        self._take()
        told = self._ask("WebDriver:NewSession", {"timeouts": {"script": PATIENCE * 1000, "pageLoad": PATIENCE * 1000}})
        self.version = told["capabilities"]["browserVersion"]

    def _preferences(self, port):
        return {"marionette.port": port, "dom.max_script_run_time": 0, "browser.download.folderList": 2, "browser.download.dir": self.downloads,
                "browser.helperApps.neverAsk.saveToDisk": "text/plain"}

    def _connected(self, port):
        for _ in range(200):
            try:
                return socket.create_connection(("127.0.0.1", port))
            except OSError:
                time.sleep(0.2)
        raise Refused("Firefox doesn't answer")

    def _take(self):
        head = b""
        while not head.endswith(b":"):
            head += self.socket.recv(1)
        body = b""
        while len(body) < int(head[:-1]):
            body += self.socket.recv(int(head[:-1]) - len(body))
        return json.loads(body)

    def _ask(self, name, words):
        self.count += 1
        text = json.dumps([0, self.count, name, words]).encode()
        self.socket.sendall(b"%d:%s" % (len(text), text))
        _, _, error, value = self._take()
        if error:
            raise Refused(str(error)[:600])
        return value

    def _element(self, selector):
        found = self._ask("WebDriver:FindElement", {"using": "css selector", "value": selector})
        return next(iter(found["value"].values()))

    def go(self, url):
        self._ask("WebDriver:Navigate", {"url": url})

    def run(self, script, *values):
        return self._ask("WebDriver:ExecuteScript", {"script": script, "args": list(values), "sandbox": None})["value"]

    def later(self, script, *values):
        return self._ask("WebDriver:ExecuteAsyncScript", {"script": script, "args": list(values), "sandbox": None})["value"]

    def type(self, selector, text):
        self._ask("WebDriver:ElementSendKeys", {"id": self._element(selector), "text": text})

    def click(self, selector):
        self._ask("WebDriver:ElementClick", {"id": self._element(selector)})

    def press(self, *keys):
        self._ask("WebDriver:PerformActions", {"actions": [pressing(keys)]})

    def click_at(self, x, y):
        pointer = {"type": "pointer", "id": "mouse", "parameters": {"pointerType": "mouse"}, "actions": [
            {"type": "pointerMove", "x": x, "y": y}, {"type": "pointerDown", "button": 0}, {"type": "pointerUp", "button": 0}]}
        self._ask("WebDriver:PerformActions", {"actions": [pointer]})

    def picture(self):
        return base64.b64decode(self._ask("WebDriver:TakeScreenshot", {"full": False})["value"])

    def print_page(self):
        return base64.b64decode(self._ask("WebDriver:Print", {})["value"])

    def close(self):
        try:
            self._ask("Marionette:Quit", {"flags": ["eForceQuit"]})
        except (Refused, OSError):
            pass
        self.browser.wait(timeout=30)
        shutil.rmtree(self.profile, ignore_errors=True)
        shutil.rmtree(self.downloads, ignore_errors=True)
