"""A headless Chromium, driven by chromedriver (Debian: chromium, chromium-driver) with the WebDriver protocol over plain HTTP."""
import base64
import json
import os
import re
import shutil
import signal
import subprocess
import tempfile
import time
import urllib.request

TAB, ENTER, CONTROL, SHIFT = "\ue004", "\ue007", "\ue009", "\ue008"


def is_there():
    return all(shutil.which(name) for name in ("chromium", "chromedriver"))


class Browser:
    """One window. It is ended by `end`, with all processes that belong to it."""

    def __init__(self):
        self.folder = tempfile.TemporaryDirectory()
        self.driver = subprocess.Popen(
            ["chromedriver", "--port=0"], stdout=subprocess.PIPE, stderr=subprocess.DEVNULL, text=True, start_new_session=True
        )
        try:
            self.base = f"http://127.0.0.1:{self.port()}"
            words = ["--headless=new", "--disable-gpu", "--no-first-run", "--disable-background-networking"]
            words += [f"--user-data-dir={self.folder.name}", *(["--no-sandbox"] if os.geteuid() == 0 else [])]
            wanted = {"browserName": "chrome", "goog:chromeOptions": {"args": words}, "goog:loggingPrefs": {"browser": "ALL"}}
            session = self.call("POST", "/session", capabilities={"alwaysMatch": wanted})
            self.base += f"/session/{session['sessionId']}"
        except BaseException:
            self.end()
            raise

    def port(self):
        for line in self.driver.stdout:
            found = re.search(r"started successfully on port (\d+)", line)
            if found:
                return found[1]
        raise OSError("chromedriver doesn't start")

    def call(self, method, path, **words):
        body = json.dumps(words).encode() if method == "POST" else None
        request = urllib.request.Request(self.base + path, body, {"Content-Type": "application/json"}, method=method)
        opener = urllib.request.build_opener(urllib.request.ProxyHandler({}))
        with opener.open(request, timeout=120) as reply:
            return json.load(reply)["value"]

    def open(self, url):
        self.call("POST", "/url", url="about:blank")
        self.call("POST", "/url", url=url)

    def script(self, text, *words):
        return self.call("POST", "/execute/sync", script=text, args=words)

    def wait_for(self, text, *words, seconds=30):
        """Returns what the script says once that is true, or what it says at the end."""
        end = time.monotonic() + seconds
        while True:
            found = self.script(text, *words)
            if found or time.monotonic() > end:
                return found
            time.sleep(0.05)

    def keys(self, *keys, held=""):
        """Presses keys one after another while those of `held` are down."""
        down, up = ([{"type": kind, "value": key} for key in held] for kind in ("keyDown", "keyUp"))
        pressed = [{"type": kind, "value": key} for key in keys for kind in ("keyDown", "keyUp")]
        self.call("POST", "/actions", actions=[{"type": "key", "id": "keys", "actions": [*down, *pressed, *up]}])

    def look(self, width, height, dark=False):
        """Gives the window a size and a scheme of colours. (A headless window itself isn't narrower than 500 pixels.)"""
        self.develop("Emulation.setDeviceMetricsOverride", width=width, height=height, deviceScaleFactor=1, mobile=False)
        scheme = {"name": "prefers-color-scheme", "value": "dark" if dark else "light"}
        self.develop("Emulation.setEmulatedMedia", features=[scheme])

    def develop(self, command, **words):
        return self.call("POST", "/goog/cdp/execute", cmd=command, params=words)

    def picture(self, file):
        with open(file, "wb") as target:
            target.write(base64.b64decode(self.call("GET", "/screenshot")))

    def errors(self):
        return [entry["message"] for entry in self.call("POST", "/se/log", type="browser") if entry["level"] == "SEVERE"]

    def end(self):
        try:
            os.killpg(self.driver.pid, signal.SIGTERM)
            self.driver.wait(5)
        except (ProcessLookupError, subprocess.TimeoutExpired):
            pass
        try:
            os.killpg(self.driver.pid, signal.SIGKILL)
        except ProcessLookupError:
            pass
        self.driver.wait()
        self.driver.stdout.close()
        self.folder.cleanup()
