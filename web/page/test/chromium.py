"""A chromium without a window, driven through its debugging pipe, that can reach nobody.

Every name is made unknown to it. What the browser asks for itself (the time, updates, accounts) goes to a proxy that
does not exist. Its page stands in a context of its own, whose proxy is a recorder on this machine: it keeps the first
line of whatever asks for a connection, and gives no answer.
"""
import contextlib
import fcntl
import itertools
import json
import os
import select
import shutil
import socket
import subprocess
import sys
import tempfile
import threading
import time

PROGRAMS = ("chromium", "chromium-browser", "google-chrome")
SECONDS = 600
# A browser that says nothing for so long after it was started is ended, and another one is started, so often.
SECONDS_TO_START = 120
STARTS = 3
# A window that is narrower is that of a phone.
PHONE = 400
NOBODY = "127.0.0.1:1"
BECOME = "import os, sys; _, read, write, *words = sys.argv; os.dup2(int(read), 3); os.dup2(int(write), 4); " \
    "os.execv(words[0], words)"
LOADED = "new Promise((done) => document.readyState === 'complete' ? done() : addEventListener('load', done))"
# Waits until a window has a size, for a while, and then until it and its frames were laid out and told.
LAID_OUT = """new Promise((done) => {
  const end = performance.now() + 10_000;
  const drawn = () => requestAnimationFrame(() => requestAnimationFrame(done));
  const look = () => (HOLDS || performance.now() > end ? drawn() : setTimeout(look, 10));
  setTimeout(done, 20_000);
  look();
})"""
# Notes in the page, and in its frames, that a click came.
CLICKED = """(() => {
  window.wasClicked = false;
  for (const it of [window, ...Array.from({ length: frames.length }, (_, at) => frames[at])]) {
    it.addEventListener("click", () => { window.wasClicked = true; }, { capture: true, once: true });
  }
})()"""
QUIET = [
    "--headless=new", "--no-first-run", "--no-default-browser-check", "--disable-background-networking",
    "--disable-component-update", "--disable-default-apps", "--disable-sync", "--disable-extensions", "--disable-gpu",
    "--password-store=basic", "--use-mock-keychain", "--disable-dev-shm-usage",
]
WITHOUT_BARS = ["--hide-scrollbars"]


def program():
    """The path of a chromium, or None."""
    return next(filter(None, map(shutil.which, PROGRAMS)), None)


class Recorder:
    """A proxy that answers nobody: `asked` has the first line of each request."""

    def __init__(self):
        self.asked = []
        self.socket = socket.create_server(("127.0.0.1", 0))
        self.port = self.socket.getsockname()[1]
        threading.Thread(target=self.serve, daemon=True).start()

    def serve(self):
        while True:
            try:
                connection, _ = self.socket.accept()
            except OSError:
                return
            with connection:
                connection.settimeout(5)
                try:
                    first = connection.recv(4096).split(b"\r\n")[0].decode("latin-1")
                except OSError:
                    first = "a connection without a word"
                self.asked.append(first)

    def close(self):
        self.socket.close()


class Chromium:
    """A browser with one page. `asked` has the addresses that its page asked for, `denied` what its policy denied."""

    def __init__(self, *, width=1200, height=800, has_bars=False):
        self.has_bars, self.seconds = has_bars, SECONDS_TO_START
        self.recorder = Recorder()
        self.folder = tempfile.mkdtemp(prefix="page_test_")
        self.numbers = itertools.count(1)
        self.asked, self.complaints = [], []
        read_end, our_write_end = os.pipe()
        our_read_end, write_end = os.pipe()
        # The browser reads from 3 and writes to 4: a python puts the ends of the pipes there and becomes the browser.
        ends = tuple(fcntl.fcntl(end, fcntl.F_DUPFD, 10) for end in (read_end, write_end))
        words = [sys.executable, "-c", BECOME, *map(str, ends), *self.command(width, height)]
        self.process = subprocess.Popen(words, pass_fds=ends, stdin=subprocess.DEVNULL, stdout=subprocess.DEVNULL,
                                        stderr=subprocess.DEVNULL)
        for end in (read_end, write_end, *ends):
            os.close(end)
        self.out, self.into = os.fdopen(our_write_end, "wb"), os.fdopen(our_read_end, "rb")
        self.waiting = b""
        self.session = self.context = None
        try:
            self.attach()
        except (OSError, RuntimeError):
            self.end(0)
            raise
        self.seconds = SECONDS

    @classmethod
    def started(cls, **how):
        """A browser; where one does not come, as it happens on a machine that is busy, another one is started."""
        for _ in range(STARTS - 1):
            with contextlib.suppress(OSError, RuntimeError):
                return cls(**how)
        return cls(**how)

    def command(self, width, height):
        root = ["--no-sandbox"] if os.getuid() == 0 else []
        bars = [] if self.has_bars else WITHOUT_BARS
        return [program(), *QUIET, *bars, *root, f"--window-size={width},{height}", f"--user-data-dir={self.folder}",
                "--host-resolver-rules=MAP * ~NOTFOUND , EXCLUDE 127.0.0.1", f"--proxy-server={NOBODY}",
                "--remote-debugging-pipe", "about:blank"]

    def attach(self):
        made = self.call("Target.createBrowserContext", proxyServer=f"127.0.0.1:{self.recorder.port}",
                         proxyBypassList="<-loopback>")
        self.context = made["browserContextId"]
        page = self.call("Target.createTarget", url="about:blank", browserContextId=self.context)["targetId"]
        self.use(self.call("Target.attachToTarget", targetId=page, flatten=True)["sessionId"])

    def another_page(self):
        """Opens another page beside the one that is used: what `use` takes to go to it, and what it takes to come back."""
        there = self.session
        self.session = None
        page = self.call("Target.createTarget", url="about:blank", browserContextId=self.context)["targetId"]
        here = self.call("Target.attachToTarget", targetId=page, flatten=True)["sessionId"]
        self.use(here)
        return here, there

    def use(self, session):
        """Goes to another page of the browser, and brings it to the front."""
        self.session = session
        for domain in ("Page", "Network", "Runtime", "Log", "Accessibility"):
            self.call(f"{domain}.enable")
        self.call("Page.bringToFront")

    def message(self):
        """The next message of the browser."""
        while b"\0" not in self.waiting:
            ready, _, _ = select.select([self.into], [], [], self.seconds)
            read = os.read(self.into.fileno(), 1 << 20) if ready else b""
            if not ready:
                raise RuntimeError(f"the browser gave no answer for {self.seconds} seconds")
            if not read:
                raise RuntimeError("the browser ended")
            self.waiting += read
        text, self.waiting = self.waiting.split(b"\0", 1)
        return json.loads(text)

    def note(self, message):
        """Keeps what a page asked for, and what it complained of."""
        method, told = message.get("method", ""), message.get("params", {})
        if method == "Network.requestWillBeSent":
            self.asked.append(told["request"]["url"])
        elif method == "Runtime.exceptionThrown":
            self.complaints.append(told["exceptionDetails"].get("exception", {}).get("description", "an exception"))
        elif method == "Log.entryAdded" and told["entry"]["level"] in ("error", "warning"):
            self.complaints.append(told["entry"]["text"])

    def call(self, method, **params):
        """Calls a method of the browser and gives its answer."""
        number = next(self.numbers)
        message = {"id": number, "method": method, "params": params}
        if self.session:
            message["sessionId"] = self.session
        self.out.write(json.dumps(message).encode() + b"\0")
        self.out.flush()
        while True:
            answer = self.message()
            if answer.get("id") == number:
                if "error" in answer:
                    raise RuntimeError(f"{method}: {answer['error']['message']}")
                return answer["result"]
            self.note(answer)

    def value(self, expression):
        """The value of an expression in the page."""
        answer = self.call("Runtime.evaluate", expression=expression, returnByValue=True, awaitPromise=True)
        if "exceptionDetails" in answer:
            raise RuntimeError(answer["exceptionDetails"].get("exception", {}).get("description", expression))
        return answer["result"].get("value")

    def until(self, holds):
        """Waits until an expression holds in the page, or for fifty seconds."""
        self.value(f"(async () => {{ const end = performance.now() + 50_000; while (!({holds}) && performance.now() < end)"
                   " await new Promise((done) => setTimeout(done, 10)); })()")

    def open(self, url):
        """Opens a page and waits until it is loaded."""
        self.call("Page.navigate", url="about:blank")
        self.asked.clear()
        self.complaints.clear()
        self.call("Page.navigate", url=url)
        self.value(LOADED)

    def reload(self):
        """Loads the page anew, and waits until it is loaded."""
        self.value("void (window.isBefore = true)")
        self.call("Page.reload")
        until = time.time() + self.seconds
        while self.is_before():
            if time.time() > until:
                raise RuntimeError("the page is not loaded anew")
            time.sleep(0.02)
        self.value(LOADED)

    def is_before(self):
        """Whether the page is still the one that is to be loaded anew, or neither."""
        try:
            return self.value("window.isBefore === true")
        except RuntimeError:
            if self.process.poll() is not None:
                raise
            return True

    def laid_out(self, holds="true"):
        """Waits until what was changed is drawn, and something holds of it."""
        self.value(LAID_OUT.replace("HOLDS", holds))

    def resize(self, width, height, *, is_phone=None):
        """Gives the window a size, and waits until the page has it."""
        is_phone = width < PHONE if is_phone is None else is_phone
        self.call("Emulation.setDeviceMetricsOverride", width=width, height=height, deviceScaleFactor=1, mobile=is_phone)
        self.laid_out(f"matchMedia('(width: {width}px){'' if is_phone else f' and (height: {height}px)'}').matches")

    def resize_back(self):
        """Gives the window the size again that it has by itself."""
        self.call("Emulation.clearDeviceMetricsOverride")
        self.laid_out()

    def press(self, key, *, shift=False):
        """Presses a key, as a reader would."""
        code = {"Enter": 13, "Home": 36, "End": 35, "PageUp": 33, "PageDown": 34, "ArrowLeft": 37, "ArrowUp": 38,
                "ArrowRight": 39, "ArrowDown": 40, "Tab": 9, "Escape": 27, "F2": 113}.get(key, ord(key[0].upper()))
        told = {"key": key, "windowsVirtualKeyCode": code, "modifiers": 8 if shift else 0}
        if len(key) == 1:
            told["text"] = key
        self.call("Input.dispatchKeyEvent", type="keyDown", **told)
        self.call("Input.dispatchKeyEvent", type="keyUp", **told)

    def insert(self, text):
        """Types a text, as a reader would."""
        self.call("Input.insertText", text=text)

    def click_at(self, left, top, times=1):
        """Clicks with the mouse at a place of the window, so often at once."""
        self.call("Input.dispatchMouseEvent", type="mouseMoved", x=left, y=top)
        for count in range(1, times + 1):
            for stroke in ("mousePressed", "mouseReleased"):
                self.call("Input.dispatchMouseEvent", type=stroke, x=left, y=top, button="left", clickCount=count)

    def tap_at(self, left, top):
        """Taps with a finger at a place of the window."""
        self.value(CLICKED)
        self.call("Input.dispatchTouchEvent", type="touchStart", touchPoints=[{"x": left, "y": top}])
        self.call("Input.dispatchTouchEvent", type="touchEnd", touchPoints=[])
        # The browser makes a click of a tap behind its last event.
        self.laid_out("window.wasClicked")

    def close(self):
        self.session = None
        with contextlib.suppress(RuntimeError, OSError):
            self.call("Browser.close")
        self.end(SECONDS)

    def end(self, seconds):
        """Ends the browser, where it does not end by itself within some seconds, and forgets what it kept."""
        try:
            self.process.wait(seconds)
        except subprocess.TimeoutExpired:
            self.process.kill()
            self.process.wait()
        with contextlib.suppress(OSError):
            self.out.close()
        self.into.close()
        self.recorder.close()
        shutil.rmtree(self.folder, ignore_errors=True)
