"""A browser without a screen, for tests: Debian's chromium by its chromedriver. Called by itself it is installed, where it can be."""
import base64
import http.client
import json
import os
import shutil
import socket
import subprocess
import time
import urllib.error
import urllib.request


class NoBrowser(Exception):
    """There is no browser here, or none that starts, and why."""


# A minute or two where the net is there, more on a busy machine; where it isn't, a try ends soon. An installation that is cut off
# leaves packages half configured.
APT = "timeout 900 apt-get -y -q -o Acquire::Retries=0 -o Acquire::http::Timeout=10 -o DPkg::Lock::Timeout=10".split()
PACKAGES = ("chromium", "chromium-driver")


def installed():
    """Whether there is a browser, once it was tried to install one where that may be done."""
    def is_there():
        return bool(shutil.which("chromedriver") and shutil.which("chromium"))

    if is_there() or os.geteuid() or not shutil.which("apt-get"):
        return is_there()
    how = {"stdout": subprocess.DEVNULL, "stderr": subprocess.DEVNULL, "stdin": subprocess.DEVNULL, "check": False}
    how["env"] = {**os.environ, "DEBIAN_FRONTEND": "noninteractive"}
    for words in (["update"], ["install", "--no-install-recommends", *PACKAGES]):
        if subprocess.run([*APT, *words], **how).returncode:
            break
    return is_there()


def free_port():
    with socket.socket() as it:
        it.bind(("127.0.0.1", 0))
        return it.getsockname()[1]


# how long chromedriver may take to start on a busy machine, in seconds
START = 120
# (--disable-dev-shm-usage: a container's /dev/shm may be small)
ARGUMENTS = "--headless --no-sandbox --disable-gpu --disable-dev-shm-usage --window-size=1400,1000 --force-color-profile=srgb".split()


class Browser:
    """A window."""

    def __init__(self):
        driver, browser = shutil.which("chromedriver"), shutil.which("chromium")
        if not driver or not browser:
            raise NoBrowser
        port = free_port()
        how = {"stdin": subprocess.DEVNULL, "stdout": subprocess.DEVNULL, "stderr": subprocess.DEVNULL}
        self.driver = subprocess.Popen([driver, f"--port={port}"], **how)
        self.base, self.session = f"http://127.0.0.1:{port}", None
        try:
            self.await_driver()
            self.begin(browser)
        except BaseException:
            self.close()
            raise

    def await_driver(self):
        began = time.time()
        while time.time() - began < START and self.driver.poll() is None:
            try:
                self.ask("GET", "/status")
                return
            except OSError:
                time.sleep(0.2)
        raise NoBrowser("chromedriver doesn't answer")

    def begin(self, browser):
        """Opens the window."""
        options = {"binary": browser, "args": ARGUMENTS}
        always = {"browserName": "chrome", "goog:chromeOptions": options, "goog:loggingPrefs": {"browser": "ALL"}, "timeouts": {"script": 120000}}
        for left in (2, 1, 0):  # on a busy machine the driver gives up too soon
            try:
                made = self.ask("POST", "/session", {"capabilities": {"alwaysMatch": always}})
                break
            except (RuntimeError, OSError) as error:
                if not left:
                    raise NoBrowser(f"chromium doesn't start: {error}") from None
        self.session = f"/session/{made['sessionId']}"
        self.version = made["capabilities"]["browserVersion"]

    def ask(self, how, path, body=None):
        """What the driver answers."""
        data = None if body is None else json.dumps(body).encode()
        asked = urllib.request.Request(self.base + path, data=data, method=how, headers={"Content-Type": "application/json"})
        try:
            with urllib.request.urlopen(asked, timeout=180) as answer:
                return json.load(answer)["value"]
        except urllib.error.HTTPError as error:
            raise RuntimeError(json.load(error)["value"]["message"].split("\n")[0]) from None

    def open(self, address):
        self.ask("POST", f"{self.session}/url", {"url": address})

    def run(self, script, *words):
        """What a script returns."""
        return self.ask("POST", f"{self.session}/execute/sync", {"script": script, "args": list(words)})

    def later(self, script, *words):
        """What a script answers by calling its last argument."""
        return self.ask("POST", f"{self.session}/execute/async", {"script": script, "args": list(words)})

    def find(self, css):
        found = self.ask("POST", f"{self.session}/element", {"using": "css selector", "value": css})
        return next(iter(found.values()))

    def click(self, css):
        self.ask("POST", f"{self.session}/element/{self.find(css)}/click", {})

    def keys(self, text, css="body"):
        """Types into an element."""
        self.ask("POST", f"{self.session}/element/{self.find(css)}/value", {"text": text})

    def picture(self, path):
        with open(path, "wb") as file:
            file.write(base64.b64decode(self.ask("GET", f"{self.session}/screenshot")))

    def media(self, features):
        """Emulates what a person prefers, as {"prefers-color-scheme": "dark"}."""
        told = [{"name": name, "value": value} for name, value in features.items()]
        self.command("Emulation.setEmulatedMedia", {"features": told})

    def command(self, name, words):
        return self.ask("POST", f"{self.session}/goog/cdp/execute", {"cmd": name, "params": words})

    def messages(self):
        """What stands in the browser's console."""
        return self.ask("POST", f"{self.session}/se/log", {"type": "browser"})

    def close(self):
        if self.session:
            try:
                self.ask("DELETE", self.session)
            except (OSError, RuntimeError, http.client.HTTPException):
                pass
        self.driver.terminate()
        self.driver.wait()


if __name__ == "__main__":
    installed()
