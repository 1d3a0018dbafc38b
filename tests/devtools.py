"""A chromium without a window, asked over a pipe what it shows of a page."""
import base64
import fcntl
import json
import os
import select
import shutil
import signal
import tempfile
import time

from claims import Skipped, expect

NAMES = ("chromium", "chromium-browser", "google-chrome", "chrome")
FLAGS = ("--headless", "--no-sandbox", "--disable-gpu", "--disable-dev-shm-usage", "--no-first-run", "--hide-scrollbars",
         "--disable-background-networking", "--disable-component-update", "--disable-extensions", "--remote-debugging-pipe")
FIRST_FREE = 16
SECONDS = 60


class Browser:
    """A running browser with one tab, to be used in a `with`."""

    def __enter__(self):
        path = next(filter(None, map(shutil.which, NAMES)), None)
        if path is None:
            raise Skipped("chromium")
        self.home = tempfile.mkdtemp(prefix="chromium-")
        read, self.asks = os.pipe()
        self.answers, written = os.pipe()
        # copies above the numbers that the browser gets, so that none is overwritten before it is copied
        ours = [os.open(os.devnull, os.O_RDWR), read, written]
        silent, heard, said = (fcntl.fcntl(file, fcntl.F_DUPFD_CLOEXEC, FIRST_FREE) for file in ours)
        places = enumerate((silent, silent, silent, heard, said))
        actions = [(os.POSIX_SPAWN_DUP2, file, number) for number, file in places]
        words = [path, *FLAGS, f"--user-data-dir={self.home}", "about:blank"]
        self.process = os.posix_spawn(path, words, {**os.environ, "HOME": self.home}, file_actions=actions, setpgroup=0)
        for file in (*ours, silent, heard, said):
            os.close(file)
        self.last, self.rest, self.events, self.session = 0, b"", [], None
        tab = self.ask("Target.createTarget", url="about:blank")["targetId"]
        self.session = self.ask("Target.attachToTarget", targetId=tab, flatten=True)["sessionId"]
        for domain in ("Page", "Log", "Runtime", "Network"):
            self.ask(f"{domain}.enable")
        return self

    def __exit__(self, *_):
        os.killpg(self.process, signal.SIGKILL)
        os.waitpid(self.process, 0)
        os.close(self.asks)
        os.close(self.answers)
        shutil.rmtree(self.home, ignore_errors=True)

    def message(self, until):
        """Waits for the browser's next message."""
        while b"\0" not in self.rest:
            waiting = select.poll()
            waiting.register(self.answers, select.POLLIN)
            expect(waiting.poll(1000 * max(0, until - time.monotonic())), "chromium doesn't answer")
            more = os.read(self.answers, 1 << 20)
            expect(more, "chromium ended")
            self.rest += more
        text, _, self.rest = self.rest.partition(b"\0")
        return json.loads(text)

    def ask(self, method, **parameters):
        """Calls a method of the tab, and gives its result; events that come before it are kept."""
        self.last += 1
        call = {"id": self.last, "method": method, "params": parameters}
        if self.session:
            call["sessionId"] = self.session
        text = json.dumps(call).encode() + b"\0"
        while text:
            text = text[os.write(self.asks, text):]
        until = time.monotonic() + SECONDS
        while True:
            message = self.message(until)
            if message.get("id") == self.last:
                expect("result" in message, method, message)
                return message["result"]
            self.events.append(message)

    def event(self, method):
        """Waits for an event."""
        until = time.monotonic() + SECONDS
        while not any(event.get("method") == method for event in self.events):
            self.events.append(self.message(until))

    def show(self, path, width, scheme):
        """Loads a file at a width in pixels and in a colour scheme, and gives what happened meanwhile."""
        self.ask("Emulation.setDeviceMetricsOverride", width=width, height=900, deviceScaleFactor=1, mobile=False)
        self.ask("Emulation.setEmulatedMedia", features=[{"name": "prefers-color-scheme", "value": scheme}])
        self.events.clear()
        self.ask("Page.navigate", url=f"file://{path}")
        self.event("Page.loadEventFired")
        return list(self.events)

    def value(self, expression):
        """The value of an expression in the page."""
        result = self.ask("Runtime.evaluate", expression=expression, returnByValue=True)
        expect("exceptionDetails" not in result, "an expression fails", result)
        return result["result"].get("value")

    def picture(self, path):
        """Stores a picture of the whole page."""
        size = self.ask("Page.getLayoutMetrics")["cssContentSize"]
        shot = self.ask("Page.captureScreenshot", captureBeyondViewport=True, clip={**size, "scale": 1})
        with open(path, "wb") as file:
            file.write(base64.b64decode(shot["data"]))
