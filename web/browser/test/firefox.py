"""A firefox without a window, driven by its own protocol (Marionette): messages of JSON, each behind its length."""
import json
import os
import shutil
import socket
import subprocess
import tempfile
import time

PROGRAMS = ("firefox-esr", "firefox")
SECONDS = 600
PREFERENCES = """user_pref("marionette.port", {port});
user_pref("network.proxy.type", 1);
user_pref("network.proxy.http", "127.0.0.1");
user_pref("network.proxy.http_port", 1);
user_pref("network.proxy.ssl", "127.0.0.1");
user_pref("network.proxy.ssl_port", 1);
user_pref("datareporting.policy.dataSubmissionEnabled", false);
user_pref("browser.shell.checkDefaultBrowser", false);
"""
# A page is told that its reader wants dark colours.
DARK = 'user_pref("layout.css.prefers-color-scheme.content-override", 0);\n'
# The letters that stand for keys in the protocol.
KEYS = {"Tab": "\ue004", "Enter": "\ue007", "Escape": "\ue00c", "ArrowLeft": "\ue012", "ArrowUp": "\ue013",
        "ArrowRight": "\ue014", "ArrowDown": "\ue015", "Shift": "\ue008"}


def program():
    """The path of a firefox, or None."""
    return next(filter(None, map(shutil.which, PROGRAMS)), None)


class Firefox:
    """A browser with one page; every address but that of a file goes to a proxy that does not exist."""

    def __init__(self, preferences=""):
        self.folder = tempfile.mkdtemp(prefix="browser_test_")
        with socket.create_server(("127.0.0.1", 0)) as free:
            port = free.getsockname()[1]
        with open(os.path.join(self.folder, "user.js"), "w", encoding="utf-8") as file:
            file.write(PREFERENCES.format(port=port) + preferences)
        words = [program(), "--headless", "--marionette", "--no-remote", "--profile", self.folder]
        self.process = subprocess.Popen(words, stdin=subprocess.DEVNULL, stdout=subprocess.DEVNULL,
                                        stderr=subprocess.DEVNULL, env={**os.environ, "HOME": self.folder})
        self.socket, self.waiting, self.number = self.connected(port), b"", 0
        self.message()
        self.call("WebDriver:NewSession", capabilities={"alwaysMatch": {"acceptInsecureCerts": False}})
        self.call("WebDriver:SetTimeouts", script=SECONDS * 1000)

    def connected(self, port):
        until = time.time() + SECONDS
        while True:
            try:
                return socket.create_connection(("127.0.0.1", port), SECONDS)
            except OSError:
                if time.time() > until or self.process.poll() is not None:
                    raise
                time.sleep(0.2)

    def message(self):
        while b":" not in self.waiting or len(self.waiting.split(b":", 1)[1]) < int(self.waiting.split(b":", 1)[0]):
            read = self.socket.recv(1 << 20)
            if not read:
                raise RuntimeError("the browser ended")
            self.waiting += read
        length, rest = self.waiting.split(b":", 1)
        self.waiting = rest[int(length):]
        return json.loads(rest[:int(length)])

    def call(self, name, **params):
        """Calls a method of the browser and gives its answer."""
        self.number += 1
        text = json.dumps([0, self.number, name, params]).encode()
        self.socket.sendall(str(len(text)).encode() + b":" + text)
        _, _, fault, answer = self.message()
        if fault:
            raise RuntimeError(f"{name}: {fault['message']}")
        return answer

    def open(self, url):
        self.call("WebDriver:Navigate", url=url)

    def value(self, expression):
        """The value of an expression in the page, which may be a promise."""
        script = f"const done = arguments[arguments.length - 1]; (async () => ({expression}))()" \
            ".then(done, (fault) => done({ fault: String(fault) }))"
        return self.call("WebDriver:ExecuteAsyncScript", script=script, args=[], sandbox=None).get("value")

    def press(self, key, *, shift=False):
        """Presses a key, as a reader would."""
        value = KEYS.get(key, key)
        strokes = [{"type": stroke, "value": value} for stroke in ("keyDown", "keyUp")]
        if shift:
            strokes = [{"type": "keyDown", "value": KEYS["Shift"]}, *strokes, {"type": "keyUp", "value": KEYS["Shift"]}]
        self.call("WebDriver:PerformActions", actions=[{"type": "key", "id": "keys", "actions": strokes}])

    def insert(self, text):
        """Types a text, as a reader would."""
        for letter in text:
            self.press(letter)

    def click_at(self, left, top, times=1):
        """Clicks with the mouse at a place of the window, so often at once."""
        strokes = [{"type": "pointerMove", "x": round(left), "y": round(top)}]
        strokes += times * [{"type": stroke, "button": 0} for stroke in ("pointerDown", "pointerUp")]
        self.call("WebDriver:PerformActions", actions=[{"type": "pointer", "id": "mouse", "actions": strokes}])

    def resize(self, width, height):
        """Gives the window a size; it stays at 500 pixels where less is asked for."""
        self.call("WebDriver:SetWindowRect", width=width, height=height)

    def close(self):
        try:
            self.call("Marionette:Quit", flags=["eForceQuit"])
        except (RuntimeError, OSError):
            self.process.terminate()
        self.process.wait(SECONDS)
        self.socket.close()
        shutil.rmtree(self.folder, ignore_errors=True)
