"""A browser without a screen, driven over its DevTools protocol by a pipe.

Chromium is Debian's package. Where it lacks, `tests/console.py --tools` installs it if it can.
"""
import base64
import contextlib
import itertools
import json
import os
import select
import shutil
import subprocess
import sys
import tempfile
import time

# Browsers that can show a page without a screen.
BROWSERS = ("chromium", "chromium-browser", "google-chrome", "google-chrome-stable")

# For how many seconds an answer of the browser is waited for.
PATIENCE = 120

# Starts the words behind two descriptors with these as 3 and 4: a browser reads the one and writes
# the other.
STARTED = """
import fcntl, os, sys
ends = [fcntl.fcntl(int(it), fcntl.F_DUPFD, 10) for it in sys.argv[1:3]]
os.dup2(ends[0], 3)
os.dup2(ends[1], 4)
os.execv(sys.argv[3], sys.argv[3:])
"""


def path_of_browser():
    """The browser of this machine; None where there is none."""
    return next(filter(None, map(shutil.which, BROWSERS)), None)


def look_for_browser():
    """The browser of this machine, after apt-get was asked for one where there is none."""
    if not path_of_browser() and shutil.which("apt-get") and os.geteuid() == 0:
        install = ["apt-get", "install", "-y", "--no-install-recommends", "chromium"]
        for call, seconds in ((["apt-get", "update"], 60), (install, 300)):
            with contextlib.suppress(OSError, subprocess.SubprocessError):
                subprocess.run(call, capture_output=True, timeout=seconds, check=True)
    return path_of_browser()


class Browser:
    """A browser with one page, which is closed at the end."""

    def __init__(self):
        self.room = tempfile.mkdtemp()
        given, self.writes = os.pipe()
        self.reads, taken = os.pipe()
        words = [path_of_browser(), "--headless=new", "--no-sandbox", "--disable-gpu",
                 "--no-first-run", "--disable-dev-shm-usage", "--remote-debugging-pipe",
                 "--hide-scrollbars", f"--user-data-dir={self.room}", "about:blank"]
        call = [sys.executable, "-c", STARTED, str(given), str(taken), *words]
        self.process = subprocess.Popen(call, pass_fds=(given, taken), stdin=subprocess.DEVNULL,
                                        stdout=subprocess.DEVNULL, stderr=subprocess.DEVNULL)
        os.close(given)
        os.close(taken)
        self.numbers, self.came, self.told = itertools.count(1), b"", []
        self.session = None
        target = self.asks("Target.createTarget", url="about:blank")["targetId"]
        found = self.asks("Target.attachToTarget", targetId=target, flatten=True)
        self.session = found["sessionId"]
        for domain in ("Page", "Runtime", "Log", "Network"):
            self.asks(f"{domain}.enable")

    def __enter__(self):
        return self

    def __exit__(self, *_):
        self.process.kill()
        self.process.wait()
        os.close(self.writes)
        os.close(self.reads)
        shutil.rmtree(self.room, ignore_errors=True)

    def asks(self, method, **given):
        """What the browser answers to a call of the protocol."""
        number = next(self.numbers)
        call = {"id": number, "method": method, "params": given}
        if self.session:
            call["sessionId"] = self.session
        os.write(self.writes, json.dumps(call).encode() + b"\0")
        stop = time.monotonic() + PATIENCE
        while True:
            message = self.next_message(stop)
            if message.get("id") == number:
                if "error" in message:
                    raise OSError(f"{method}: {message['error']}")
                return message["result"]
            self.told.append(message)

    def next_message(self, stop):
        """The next message that comes."""
        while b"\0" not in self.came:
            if not select.select([self.reads], [], [], max(0.0, stop - time.monotonic()))[0]:
                raise OSError("the browser doesn't answer")
            more = os.read(self.reads, 1 << 20)
            if not more:
                raise OSError("the browser has ended")
            self.came += more
        text, _, self.came = self.came.partition(b"\0")
        return json.loads(text)

    def shows(self, url):
        """Goes to an address."""
        self.asks("Page.navigate", url=url)

    def finds(self, script):
        """The value of an expression in the page."""
        found = self.asks("Runtime.evaluate", expression=script, returnByValue=True,
                          awaitPromise=True)
        if "exceptionDetails" in found:
            raise OSError(f"{script}: {found['exceptionDetails']}")
        return found["result"].get("value")

    def awaits(self, script, seconds=60):
        """Waits until an expression in the page is true; whether it is at last."""
        stop = time.monotonic() + seconds
        while True:
            with contextlib.suppress(OSError):
                if self.finds(script):
                    return True
            if time.monotonic() > stop:
                return False
            time.sleep(0.1)

    def has_size(self, width, height, scale=1, mobile=False):
        """Makes the window so wide and high."""
        self.asks("Emulation.setDeviceMetricsOverride", width=width, height=height,
                  deviceScaleFactor=scale, mobile=mobile)

    def is_dark(self, dark):
        """Prefers a dark form, or a light one."""
        value = "dark" if dark else "light"
        self.asks("Emulation.setEmulatedMedia",
                  features=[{"name": "prefers-color-scheme", "value": value}])

    def types(self, text):
        """Types a text where the focus is."""
        self.asks("Input.insertText", text=text)

    def presses(self, key, code=None, text=None):
        """Presses a key."""
        codes = {"Tab": 9, "Enter": 13, "Escape": 27, " ": 32}
        given = {"key": key, "code": code or key,
                 "windowsVirtualKeyCode": codes.get(key, ord(key[0].upper()))}
        if text:
            given["text"] = text
        self.asks("Input.dispatchKeyEvent", type="keyDown", **given)
        self.asks("Input.dispatchKeyEvent", type="keyUp", **given)

    def clicks(self, script):
        """Clicks at the middle of the element that an expression names."""
        place = self.finds(f"(() => {{ const it = {script}; it.scrollIntoView({{block: 'center'}});"
                           " const box = it.getBoundingClientRect();"
                           " return [box.x + box.width / 2, box.y + box.height / 2]; })()")
        for kind in ("mousePressed", "mouseReleased"):
            self.asks("Input.dispatchMouseEvent", type=kind, x=place[0], y=place[1], button="left",
                      clickCount=1)

    def draws(self, path, whole=False):
        """Keeps a picture of the page."""
        taken = self.asks("Page.captureScreenshot", format="png", captureBeyondViewport=whole)
        with open(path, "wb") as it:
            it.write(base64.b64decode(taken["data"]))

    def mistakes(self):
        """What the page's script did wrong, and what the browser refused to load or to run."""
        for it in self.told:
            if it.get("method") == "Runtime.exceptionThrown":
                yield it["params"]["exceptionDetails"]
            if it.get("method") == "Log.entryAdded" and it["params"]["entry"]["level"] == "error":
                yield it["params"]["entry"]["text"]

    def loaded(self):
        """The addresses that were asked for something."""
        for it in self.told:
            if it.get("method") == "Network.requestWillBeSent":
                yield it["params"]["request"]["url"]


# The least contrast of a text with what is behind it (Web Content Accessibility Guidelines, 1.4.3).
CONTRAST = 4.5

# What a reader of the screen is told of an element has to have a name, where it is one of these.
NAMED = {"button", "checkbox", "textbox", "searchbox", "progressbar", "image", "region", "link",
         "table", "heading"}

# Texts whose contrast with the color behind them is too small, as the page shows them.
FAINT = """(() => {
  const parts = (text) => text.match(/[\\d.]+/g).map(Number);
  const light = ([red, green, blue]) => [red, green, blue].map((it) => it / 255)
    .map((it) => it <= 0.04045 ? it / 12.92 : ((it + 0.055) / 1.055) ** 2.4)
    .reduce((sum, it, place) => sum + it * [0.2126, 0.7152, 0.0722][place], 0);
  const behind = (it) => {
    for (; it; it = it.parentElement) {
      const found = parts(getComputedStyle(it).backgroundColor);
      if (found.length < 4 || found[3] === 1) return found;
    }
    return [255, 255, 255];
  };
  const faint = [];
  for (const it of document.body.querySelectorAll("*")) {
    const own = [...it.childNodes].filter((node) => node.nodeType === 3).map((node) => node.data);
    if (!own.join("").trim() || !it.checkVisibility() || it.tagName === "SCRIPT") continue;
    const [one, other] = [light(parts(getComputedStyle(it).color)), light(behind(it))];
    const contrast = (Math.max(one, other) + 0.05) / (Math.min(one, other) + 0.05);
    if (contrast < %s) faint.push(own.join("").trim().slice(0, 30) + ": " + contrast.toFixed(2));
  }
  return faint;
})()""" % CONTRAST
