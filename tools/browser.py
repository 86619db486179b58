"""A headless Chromium, driven over its DevTools pipe with the standard library alone."""

import base64
import fcntl
import json
import os
import shutil
import subprocess
import tempfile
import threading

COMMANDS = ("chromium", "chromium-browser", "google-chrome")
FLAGS = ("--headless", "--no-sandbox", "--remote-debugging-pipe", "--disable-gpu", "--hide-scrollbars",
         "--disable-background-networking", "--no-first-run")
PATIENCE = 120  # seconds with a page, then the browser is ended
# The numbers by which a page knows the keys that are pressed here.
KEYS = {"Tab": 9, "Enter": 13, "Escape": 27, "End": 35, "Home": 36, "ArrowLeft": 37, "ArrowUp": 38,
        "ArrowRight": 39, "ArrowDown": 40, "/": 191}
# An element's picture, made elsewhere and given as base64, as rows of red, green and blue.
PIXELS = """(async coded => {
  const picture = await createImageBitmap(new Blob([Uint8Array.from(atob(coded), each => each.charCodeAt(0))]));
  const context = new OffscreenCanvas(picture.width, picture.height).getContext("2d");
  context.drawImage(picture, 0, 0);
  const { data } = context.getImageData(0, 0, picture.width, picture.height);
  return Array.from({ length: picture.height }, (_, y) => Array.from({ length: picture.width },
    (_, x) => [...data.slice(4 * (y * picture.width + x), 4 * (y * picture.width + x) + 3)]));
})"""


def installed():
    """The path of the first browser that is installed, or None."""
    return next(filter(None, map(shutil.which, COMMANDS)), None)


class Browser:
    """One page in one browser; a context manager. Everything the page asks for is in `requests`,
    everything it complains of in `complaints`."""

    def __init__(self, width=1200, height=800, dark=False):
        self.width, self.height, self.dark = width, height, dark
        self.number, self.session = 0, None
        self.requests, self.complaints, self.loaded = [], [], 0

    def __enter__(self):
        self.profile = tempfile.TemporaryDirectory(ignore_cleanup_errors=True)
        to_browser, self.out = os.pipe()
        back, from_browser = os.pipe()
        # Copies out of the way of 3 and 4, the numbers that Chromium reads and writes.
        reading, writing = (fcntl.fcntl(each, fcntl.F_DUPFD, 10) for each in (to_browser, from_browser))

        def move():
            os.dup2(reading, 3)
            os.dup2(writing, 4)

        self.process = subprocess.Popen(
            [installed(), *FLAGS, f"--user-data-dir={self.profile.name}", "about:blank"],
            preexec_fn=move, close_fds=False,
            stdin=subprocess.DEVNULL, stdout=subprocess.DEVNULL, stderr=subprocess.DEVNULL)
        for each in (to_browser, from_browser, reading, writing):
            os.close(each)
        self.watch()
        self.incoming = os.fdopen(back, "rb")
        page = next(each for each in self.ask("Target.getTargets")["targetInfos"] if each["type"] == "page")
        self.session = self.ask("Target.attachToTarget", targetId=page["targetId"], flatten=True)["sessionId"]
        for domain in ("Page", "Runtime", "Network", "Log"):
            self.ask(f"{domain}.enable")
        self.ask("Emulation.setDeviceMetricsOverride", width=self.width, height=self.height, deviceScaleFactor=1,
                 mobile=False)
        scheme = {"name": "prefers-color-scheme", "value": "dark" if self.dark else "light"}
        self.ask("Emulation.setEmulatedMedia", features=[scheme])
        return self

    def watch(self):
        """End a browser that does not answer."""
        self.watchdog = threading.Timer(PATIENCE, self.process.kill)
        self.watchdog.start()

    def __exit__(self, *_):
        self.watchdog.cancel()
        os.close(self.out)
        self.process.terminate()
        self.process.wait()
        self.incoming.close()
        self.profile.cleanup()

    def ask(self, method, **params):
        """Send one command and wait for its answer; events that come before it are kept."""
        self.number += 1
        message = {"id": self.number, "method": method, "params": params}
        if self.session:
            message["sessionId"] = self.session
        os.write(self.out, json.dumps(message).encode() + b"\0")
        while (answer := self.receive()).get("id") != self.number:
            pass
        if "error" in answer:
            raise RuntimeError(f"{method}: {answer['error']['message']}")
        return answer["result"]

    def receive(self):
        data = bytearray()
        while (byte := self.incoming.read(1)) != b"\0":
            if not byte:
                raise RuntimeError("the browser has ended")
            data += byte
        message = json.loads(data)
        method, params = message.get("method"), message.get("params", {})
        self.loaded += method == "Page.loadEventFired"
        if method == "Network.requestWillBeSent":
            self.requests.append(params["request"]["url"])
        if method in ("Runtime.exceptionThrown", "Log.entryAdded", "Runtime.consoleAPICalled"):
            self.complaints.append(params)
        return message

    def open(self, path):
        """Show a page, the mouse in its corner."""
        self.watchdog.cancel()
        self.watch()
        before = self.loaded
        self.move(0, 0)
        self.ask("Page.navigate", url=path.resolve().as_uri())
        while self.loaded == before:
            self.receive()

    def value(self, script):
        """What a script gives in the page; a promise's value is waited for."""
        answer = self.ask("Runtime.evaluate", expression=script, returnByValue=True, awaitPromise=True)
        if "exceptionDetails" in answer:
            raise RuntimeError(str(answer["exceptionDetails"]))
        return answer["result"].get("value")

    def box(self, selector):
        """Left, top, width and height of an element in the window, scrolled to it if need be; None without one."""
        return self.value(f"""(() => {{
          const found = document.querySelector({json.dumps(selector)});
          if (found === null) return null;
          found.scrollIntoViewIfNeeded();
          const box = found.getBoundingClientRect();
          return [box.x, box.y, box.width, box.height];
        }})()""")

    def move(self, x, y):
        self.ask("Input.dispatchMouseEvent", type="mouseMoved", x=x, y=y)

    def point(self, selector):
        """Move the mouse to the middle of an element; whether there is one."""
        if (box := self.box(selector)) is None:
            return False
        left, top, width, height = box
        self.at = left + width / 2, top + height / 3
        self.move(*self.at)
        return True

    def click(self, selector):
        """Point at an element and press the mouse there."""
        self.point(selector)
        for kind in ("mousePressed", "mouseReleased"):
            self.ask("Input.dispatchMouseEvent", type=kind, x=self.at[0], y=self.at[1], button="left", clickCount=1)

    def press(self, *keys):
        for key in keys:
            for kind in ("rawKeyDown", "keyUp"):
                self.ask("Input.dispatchKeyEvent", type=kind, key=key, code=key, windowsVirtualKeyCode=KEYS[key])

    def type(self, text):
        self.ask("Input.insertText", text=text)

    def screenshot(self, **part):
        return base64.b64decode(self.ask("Page.captureScreenshot", format="png", **part)["data"])

    def pixels(self, selector, below=0):
        """The rows of an element's picture, and some more below it, as the screen shows them."""
        left, top, width, height = self.box(selector)
        picture = self.screenshot(clip={"x": left, "y": top, "width": width, "height": height + below, "scale": 1})
        return self.value(f"{PIXELS}('{base64.b64encode(picture).decode()}')")
