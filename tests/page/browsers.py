"""Browsers without a window: Chromium by its driver, and Firefox by the protocol that its driver speaks, since Debian has none."""
import base64
import contextlib
import json
import pathlib
import shutil
import socket
import subprocess
import tempfile
import time
import urllib.error
import urllib.request

# How long a page may take to get ready, and how long and how often a browser may be tried to start, in seconds: on a busy machine Firefox sometimes
# does not.
LIMIT, START_LIMIT, STARTS = 180, 60, 3
# The key under which a driver hands out an element, and codes of keys.
ELEMENT = "element-6066-11e4-a52e-4f735466cecf"
KEYS = {"Tab": "\ue004", "ArrowLeft": "\ue012", "ArrowUp": "\ue013", "ArrowRight": "\ue014", "ArrowDown": "\ue015", "End": "\ue010",
        "Home": "\ue011", "Enter": "\ue007", "PageDown": "\ue00f", "PageUp": "\ue00e", "Escape": "\ue00c", "Backspace": "\ue003", "Space": " "}


class BrowserError(Exception):
    """The browser refused a command."""


def free_port():
    with socket.socket() as found:
        found.bind(("127.0.0.1", 0))
        return found.getsockname()[1]


def wait_until(holds, what):
    """Waits for what a function returns once it is true."""
    until = time.monotonic() + LIMIT
    while time.monotonic() < until:
        if found := holds():
            return found
        time.sleep(0.02)
    raise BrowserError(f"waited for {what} in vain")


class Browser:
    """What both have in common; `command` sends one command of WebDriver."""

    def run(self, script, *given):
        """What the body of a function returns in the page."""
        return self.command("script", {"script": script, "args": list(given)})

    def wait(self, script, *given):
        return wait_until(lambda: self.run(script, *given), script)

    def open(self, url):
        """Opens a page, also if only what follows its `#` differs."""
        self.command("open", {"url": "about:blank"})
        self.command("open", {"url": url})
        self.wait("return document.body.dataset.ready === 'yes'")

    def press(self, *keys):
        """Presses keys, one after the other: a name of KEYS or a character each."""
        codes = [KEYS.get(key, key) for key in keys]
        actions = [{"type": kind, "value": code} for code in codes for kind in ("keyDown", "keyUp")]
        self.command("press", {"actions": [{"type": "key", "id": "keys", "actions": actions}]})

    def type_into(self, place, text):
        """Types a text into a field in place of what is there."""
        self.run("const it = document.getElementById(arguments[0]); it.focus(); it.select(); return true", place)
        self.press(*text)

    def give_file(self, place, path):
        """Gives a file to the button with this id, as a person who chooses it."""
        element = self.command("find", {"using": "css selector", "value": f"#{place}"})[ELEMENT]
        self.command("keys", {"id": element, "text": str(path)})

    def shoot(self, path):
        pathlib.Path(path).write_bytes(base64.b64decode(self.command("shoot", {})))


class Chromium(Browser):
    name = "Chromium"
    tools = ("chromium", "chromedriver")
    PATHS = {"open": "/url", "script": "/execute/sync", "press": "/actions", "find": "/element", "shoot": "/screenshot", "log": "/se/log",
             "size": "/window/rect", "cdp": "/goog/cdp/execute"}

    def __init__(self, is_dark=False):
        port = free_port()
        self.base = f"http://127.0.0.1:{port}"
        self.folder = tempfile.TemporaryDirectory()
        silent = {"stdout": subprocess.DEVNULL, "stderr": subprocess.DEVNULL}
        self.driver = subprocess.Popen(["chromedriver", f"--port={port}"], start_new_session=True, **silent)
        try:
            wait_until(self.is_up, "chromedriver")
        except BrowserError:
            self.driver.kill()
            raise
        words = ["--headless=new", "--no-sandbox", "--window-size=1500,1250", f"--user-data-dir={self.folder.name}"]
        words += ["--blink-settings=preferredColorScheme=0"] if is_dark else []
        wanted = {"browserName": "chrome", "goog:chromeOptions": {"args": words}, "goog:loggingPrefs": {"browser": "ALL", "performance": "ALL"}}
        made = self.send("POST", "/session", {"capabilities": {"alwaysMatch": wanted}})
        self.session, self.version = made["sessionId"], made["capabilities"]["browserVersion"]

    def is_up(self):
        with contextlib.suppress(OSError, BrowserError):
            return self.send("GET", "/status")["ready"]

    def send(self, method, path, body=None):
        data = None if body is None else json.dumps(body).encode()
        asked = urllib.request.Request(self.base + path, data, {"Content-Type": "application/json"}, method=method)
        try:
            with urllib.request.urlopen(asked, timeout=LIMIT) as answer:
                return json.load(answer)["value"]
        except urllib.error.HTTPError as error:
            raise BrowserError(json.load(error)["value"]["message"].splitlines()[0]) from error

    def command(self, name, body):
        path = f"/element/{body['id']}/value" if name == "keys" else self.PATHS[name]
        return self.send("GET" if name == "shoot" else "POST", f"/session/{self.session}{path}", None if name == "shoot" else body)

    def resize(self, width, height):
        self.command("size", {"width": width, "height": height})

    def complaints(self):
        """What the console has."""
        return [line["message"] for line in self.command("log", {"type": "browser"})]

    def requests(self):
        """The addresses that were asked for."""
        messages = [json.loads(line["message"])["message"] for line in self.command("log", {"type": "performance"})]
        return [it["params"]["request"]["url"] for it in messages if it["method"] == "Network.requestWillBeSent"]

    def close(self):
        with contextlib.suppress(BrowserError, OSError):
            self.send("DELETE", f"/session/{self.session}")
        self.driver.terminate()
        self.driver.wait(LIMIT)
        self.folder.cleanup()


class Firefox(Browser):
    name = "Firefox"
    tools = ("firefox-esr",)
    NAMES = {"open": "WebDriver:Navigate", "script": "WebDriver:ExecuteScript", "press": "WebDriver:PerformActions",
             "find": "WebDriver:FindElement", "keys": "WebDriver:ElementSendKeys", "shoot": "WebDriver:TakeScreenshot"}

    def __init__(self, is_dark=False):
        port, self.number = free_port(), 0
        self.folder = tempfile.TemporaryDirectory(ignore_cleanup_errors=True)
        # Messages of the console go to standard error, which a file takes.
        preferences = {"marionette.port": port, "devtools.console.stdout.content": True, "browser.dom.window.dump.enabled": True,
                       "layout.css.prefers-color-scheme.content-override": 0 if is_dark else 1, "datareporting.policy.dataSubmissionEnabled": False}
        lines = [f"user_pref({json.dumps(name)}, {json.dumps(value)});\n" for name, value in preferences.items()]
        (pathlib.Path(self.folder.name) / "user.js").write_text("".join(lines))
        self.said = open(pathlib.Path(self.folder.name) / "said", "wb+")
        words = ["firefox-esr", "--headless", "--marionette", "--no-remote", "--profile", self.folder.name, "--width", "1500", "--height", "1250"]
        self.process = subprocess.Popen(words, stdout=self.said, stderr=self.said, start_new_session=True)
        try:
            self.wire = wait_until(lambda: self.connected(port), "Firefox")
            self.wire.settimeout(START_LIMIT)
            self.read()
            made = self.send("WebDriver:NewSession", {"capabilities": {"alwaysMatch": {}}})
            self.wire.settimeout(LIMIT)
        except (OSError, BrowserError):
            self.process.kill()
            raise
        self.version = made["capabilities"]["browserVersion"]

    def connected(self, port):
        with contextlib.suppress(OSError):
            return socket.create_connection(("127.0.0.1", port), LIMIT)

    def read(self):
        """A message: its size, a colon, and JSON."""
        size = b""
        while not size.endswith(b":"):
            size += self.wire.recv(1)
        text = b""
        while len(text) < int(size[:-1]):
            text += self.wire.recv(int(size[:-1]) - len(text))
        return json.loads(text)

    def send(self, name, body):
        self.number += 1
        text = json.dumps([0, self.number, name, body]).encode()
        self.wire.sendall(f"{len(text)}:".encode() + text)
        _, _, error, result = self.read()
        if error:
            raise BrowserError(error["message"])
        return result

    def command(self, name, body):
        result = self.send(self.NAMES[name], {**body, "sandbox": None} if name == "script" else body)
        return result["value"] if result and "value" in result else result

    def resize(self, width, height):
        self.send("WebDriver:SetWindowRect", {"width": width, "height": height})

    def complaints(self):
        self.said.flush()
        text = (pathlib.Path(self.folder.name) / "said").read_text(errors="replace")
        return [line for line in text.splitlines() if line.startswith(("JavaScript error", "console.error", "JavaScript warning"))]

    def requests(self):
        return []

    def close(self):
        with contextlib.suppress(BrowserError, OSError):
            self.send("Marionette:Quit", {"flags": ["eForceQuit"]})
        self.wire.close()
        with contextlib.suppress(subprocess.TimeoutExpired):
            self.process.wait(15)
        if self.process.poll() is None:
            self.process.kill()
            self.process.wait(LIMIT)
        self.said.close()
        self.folder.cleanup()


def started(kind, is_dark=False):
    """A browser that got ready."""
    for _ in range(STARTS - 1):
        with contextlib.suppress(OSError, BrowserError):
            return kind(is_dark)
    return kind(is_dark)


def installed(kind):
    return all(shutil.which(tool) for tool in kind.tools)
