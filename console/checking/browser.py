"""A headless Chromium, driven by WebDriver over the standard library's HTTP client."""
import base64
import http.client
import json
import os
import shutil
import signal
import socket
import subprocess
import time

ELEMENT = "element-6066-11e4-a52e-4f735466cecf"
KEYS = {"enter": "\ue007", "escape": "\ue00c", "shift": "\ue008", "left": "\ue012", "right": "\ue014"}


def is_here():
    """Whether the browser and its driver are."""
    return all(shutil.which(name) for name in ("chromium", "chromedriver"))


def free_port():
    """A port that nobody listens on."""
    with socket.socket() as one:
        one.bind(("127.0.0.1", 0))
        return one.getsockname()[1]


class Browser:
    """One browser with one page, its profile in a folder of its own."""

    def __init__(self, folder):
        self._port = free_port()
        self._driver = subprocess.Popen(["chromedriver", "--port=%d" % self._port, "--log-path=%s" % os.path.join(folder, "driver.log")],
                                        stdout=subprocess.DEVNULL, stderr=subprocess.DEVNULL, start_new_session=True)
        for _ in range(200):
            try:
                if self._call("GET", "/status")["ready"]:
                    break
            except OSError:
                time.sleep(0.1)
        words = ["--headless=new", "--no-sandbox", "--disable-gpu", "--disable-dev-shm-usage", "--no-first-run", "--disable-background-networking",
                 "--disable-component-update", "--no-proxy-server", "--host-resolver-rules=MAP * ~NOTFOUND, EXCLUDE 127.0.0.1",
                 "--user-data-dir=" + os.path.join(folder, "profile"), "--window-size=1400,1000"]
        told = self._call("POST", "/session", {"capabilities": {"alwaysMatch": {
            "browserName": "chrome", "goog:chromeOptions": {"args": words, "binary": shutil.which("chromium")}, "goog:loggingPrefs": {"browser": "ALL"}}}})
        self._session = "/session/" + told["sessionId"]

    def _call(self, method, path, value=None):
        connection = http.client.HTTPConnection("127.0.0.1", self._port, timeout=60)
        try:
            connection.request(method, path, None if value is None else json.dumps(value), {"Content-Type": "application/json"})
            told = json.loads(connection.getresponse().read())["value"]
        finally:
            connection.close()
        if isinstance(told, dict) and "error" in told:
            raise RuntimeError("%s: %s" % (told["error"], told.get("message", "")[:300]))
        return told

    def _do(self, method, path, value=None):
        return self._call(method, self._session + path, value)

    def open(self, url):
        """Opens a page."""
        self._do("POST", "/url", {"url": url})

    def run(self, script, *words):
        """What a script returns."""
        return self._do("POST", "/execute/sync", {"script": script, "args": list(words)})

    def _find(self, selector):
        return self._do("POST", "/element", {"using": "css selector", "value": selector})[ELEMENT]

    def type(self, selector, text, key=""):
        """Types into a box in place of what is in it, and then a key."""
        element = self._find(selector)
        self._do("POST", "/element/%s/clear" % element, {})
        self._do("POST", "/element/%s/value" % element, {"text": text + KEYS.get(key, "")})

    def press(self, text, beside=""):
        """Presses keys, one after the other, wherever the focus is, with another one held down beside them."""
        actions = [{"type": kind, "value": each} for each in text for kind in ("keyDown", "keyUp")]
        if beside:
            actions = [{"type": "keyDown", "value": beside}, *actions, {"type": "keyUp", "value": beside}]
        self._do("POST", "/actions", {"actions": [{"type": "key", "id": "keys", "actions": actions}]})

    def drag(self, left, top, right, bottom):
        """Drags the pointer from one place of the window to another."""
        moves = [{"type": "pointerMove", "x": int(left), "y": int(top)}, {"type": "pointerDown", "button": 0},
                 {"type": "pointerMove", "x": int((left + right) / 2), "y": int(bottom)}, {"type": "pointerMove", "x": int(right), "y": int(bottom)}, {"type": "pointerUp", "button": 0}]
        self._do("POST", "/actions", {"actions": [{"type": "pointer", "id": "mouse", "parameters": {"pointerType": "mouse"}, "actions": moves}]})

    def click(self, selector):
        """Clicks."""
        self._do("POST", "/element/%s/click" % self._find(selector), {})

    def wait(self, script, *words, seconds=20):
        """Waits until a script returns what is true, and gives that; the last one where it never is."""
        end = time.monotonic() + seconds
        while True:
            found = self.run(script, *words)
            if found or time.monotonic() > end:
                return found
            time.sleep(0.05)

    def show_as(self, width, height, scheme):
        """The size and the colours of the page."""
        self._do("POST", "/goog/cdp/execute", {"cmd": "Emulation.setDeviceMetricsOverride", "params": {
            "width": width, "height": height, "deviceScaleFactor": 1, "mobile": False}})
        self._do("POST", "/goog/cdp/execute", {"cmd": "Emulation.setEmulatedMedia", "params": {
            "features": [{"name": "prefers-color-scheme", "value": scheme}, {"name": "prefers-reduced-motion", "value": "reduce"}]}})

    def picture(self, path):
        """Makes a PNG of the page as it is shown."""
        with open(path, "wb") as file:
            file.write(base64.b64decode(self._do("GET", "/screenshot")))

    def complaints(self):
        """What the browser said of the page: faults of scripts, what the content policy stopped, what wasn't found."""
        return [each["message"] for each in self._do("POST", "/se/log", {"type": "browser"}) if each["level"] in ("SEVERE", "WARNING")]

    def close(self):
        """Ends the browser and its driver."""
        try:
            self._do("DELETE", "")
        except (OSError, RuntimeError, AttributeError, http.client.HTTPException):
            pass
        try:
            os.killpg(self._driver.pid, signal.SIGTERM)
        except ProcessLookupError:
            pass
        try:
            self._driver.wait(5)
        except subprocess.TimeoutExpired:
            os.killpg(self._driver.pid, signal.SIGKILL)
            self._driver.wait()
