"""A browser without a window, driven by the DevTools protocol over two pipes: Chromium, which CHROMIUM may name.

    with Browser() as browser:
        page = browser.open("run.html", width=1280, height=900)
        page.wait("document.documentElement.dataset.drawn")
        page.value("document.title")

A page notes what its console says as an error, and each request that it makes beside the one for itself.
"""
import base64
import itertools
import json
import os
import select
import shutil
import subprocess
import tempfile
import time
from pathlib import Path

SECONDS = 60


def found():
    """The path of the browser, or None."""
    return os.environ.get("CHROMIUM") or shutil.which("chromium") or shutil.which("google-chrome")


class Browser:
    def __enter__(self):
        self.folder = tempfile.TemporaryDirectory()
        asks, self.to = os.pipe()
        self.back, answers = os.pipe()
        words = [
            found(), "--headless", "--no-sandbox", "--disable-gpu", "--no-first-run", "--disable-dev-shm-usage", "--lang=en-US",
            "--force-device-scale-factor=1", "--hide-scrollbars", "--remote-debugging-pipe",
            f"--user-data-dir={self.folder.name}", "about:blank"]

        def put_pipes():  # the protocol is spoken on the descriptors 3 and 4
            high = [os.dup(asks), os.dup(answers)]
            for place, pipe in zip((3, 4), high):
                os.dup2(pipe, place)
                os.set_inheritable(place, True)  # which dup2 leaves as it is where the two are the same

        self.process = subprocess.Popen(
            words, stdin=subprocess.DEVNULL, stdout=subprocess.DEVNULL, stderr=subprocess.DEVNULL, preexec_fn=put_pipes,
            close_fds=False, env={**os.environ, "LANG": "en_US.UTF-8", "LANGUAGE": "en_US"})
        os.close(asks)
        os.close(answers)
        self.numbers = itertools.count(1)
        self.read = b""
        self.pages = {}
        return self

    def __exit__(self, *_):
        try:
            self.ask("Browser.close")
            self.process.wait(10)
        except (OSError, TimeoutError, subprocess.TimeoutExpired):
            self.process.kill()
            self.process.wait()
        os.close(self.to)
        os.close(self.back)
        shutil.rmtree(self.folder.name, ignore_errors=True)
        self.folder.cleanup()

    def ask(self, method, session=None, **words):
        """What the browser answers to a request."""
        number = next(self.numbers)
        message = {"id": number, "method": method, "params": words, **({"sessionId": session} if session else {})}
        text = json.dumps(message).encode() + b"\0"
        while text:
            text = text[os.write(self.to, text):]
        until = time.monotonic() + SECONDS
        while True:
            answer = self.next_message(until)
            if answer.get("id") == number:
                if "error" in answer:
                    raise AssertionError(f"{method}: {answer['error']}")
                return answer["result"]

    def next_message(self, until):
        """The next message, which a page notes where it is an event of it."""
        while b"\0" not in self.read:
            if not select.select([self.back], [], [], max(0, until - time.monotonic()))[0]:
                raise TimeoutError("the browser does not answer")
            more = os.read(self.back, 1 << 20)
            if not more:
                raise OSError("the browser has ended")
            self.read += more
        text, self.read = self.read.split(b"\0", 1)
        message = json.loads(text)
        page = self.pages.get(message.get("sessionId"))
        if page is not None and "method" in message:
            page.note(message["method"], message["params"])
        return message

    def open(self, path, width=1280, height=900, **look):
        """A page of a file, once it is loaded. `look` is as for `Page.look`."""
        target = self.ask("Target.createTarget", url="about:blank")["targetId"]
        session = self.ask("Target.attachToTarget", targetId=target, flatten=True)["sessionId"]
        page = self.pages[session] = Page(self, session, target)
        for part in ("Page", "Runtime", "Log", "Network"):
            page.ask(part + ".enable")
        page.look(width, height, **look)
        page.ask("Page.navigate", url=path if "://" in str(path) else Path(path).resolve().as_uri())
        page.wait("document.readyState === 'complete'")
        return page


class Page:
    def __init__(self, browser, session, target):
        self.browser, self.session, self.target = browser, session, target
        self.errors, self.requests = [], []

    def ask(self, method, **words):
        return self.browser.ask(method, self.session, **words)

    def note(self, event, words):
        if event == "Runtime.exceptionThrown":
            details = words["exceptionDetails"]
            self.errors.append(details.get("exception", {}).get("description") or details["text"])
        elif event == "Runtime.consoleAPICalled" and words["type"] in ("error", "warning", "assert"):
            self.errors.append(str([one.get("value") or one.get("description") for one in words["args"]]))
        elif event == "Log.entryAdded" and words["entry"]["level"] in ("error", "warning"):
            self.errors.append(words["entry"]["text"])
        elif event == "Network.requestWillBeSent":
            self.requests.append(words["request"]["url"])

    def look(self, width, height, dark=False, media="screen", sharp=1):
        """The size of the window, light or dark, on the screen or in print."""
        self.ask("Emulation.setDeviceMetricsOverride", width=width, height=height, deviceScaleFactor=sharp, mobile=False)
        scheme = {"name": "prefers-color-scheme", "value": "dark" if dark else "light"}
        self.ask("Emulation.setEmulatedMedia", media=media, features=[scheme])

    def value(self, script):
        """The value of an expression, awaited where it is a promise."""
        answer = self.ask("Runtime.evaluate", expression=script, awaitPromise=True, returnByValue=True)
        if "exceptionDetails" in answer:
            raise AssertionError(answer["exceptionDetails"]["exception"].get("description"))
        return answer["result"].get("value")

    def wait(self, script, seconds=SECONDS):
        """Waits until an expression holds."""
        until = time.monotonic() + seconds
        while not self.value(script):
            if time.monotonic() > until:
                raise TimeoutError(f"{script} does not come to hold; {self.errors}")
            time.sleep(0.02)

    def text(self, selector):
        return self.value(f"document.querySelector({json.dumps(selector)}).innerText")

    def click(self, selector, share=0.5, down=0.5):
        """Presses the mouse on a part of the page, at this share of its width and height."""
        box = self.value(
            f"(() => {{ const it = document.querySelector({json.dumps(selector)}); it.scrollIntoView({{block: 'center'}});"
            " const b = it.getBoundingClientRect(); return [b.x, b.y, b.width, b.height]; })()")
        where = {"x": box[0] + share * box[2], "y": box[1] + down * box[3]}
        self.ask("Input.dispatchMouseEvent", type="mouseMoved", **where)
        for kind in ("mousePressed", "mouseReleased"):
            self.ask("Input.dispatchMouseEvent", type=kind, button="left", clickCount=1, **where)

    def press(self, key):
        code = {"ArrowLeft": 37, "ArrowRight": 39}.get(key, ord(key[0].upper()))
        text = {"text": key} if len(key) == 1 else {}
        self.ask("Input.dispatchKeyEvent", type="keyDown", key=key, windowsVirtualKeyCode=code, **text)
        self.ask("Input.dispatchKeyEvent", type="keyUp", key=key, windowsVirtualKeyCode=code)

    def rows(self, identifier):
        """The rows of a table that is behind a picture, opened for that: the exact numbers, and texts."""
        return self.value(
            f"""(async () => {{
              const part = document.getElementById({json.dumps(identifier)});
              if (part.tagName === 'DETAILS') part.open = true;
              while (!part.querySelector('table')) await new Promise((resume) => setTimeout(resume, 10));
              return [...part.querySelectorAll('tbody tr')].map((row) =>
                [...row.cells].map((cell) => cell.querySelector('data')?.value ?? cell.textContent));
            }})()""")

    def picture(self, path, selector=None, whole=False):
        """Writes what is seen, all of the page, or one part of it into a .png."""
        words = {"captureBeyondViewport": True} if whole or selector else {}
        if selector:
            box = self.value(
                f"(() => {{ const b = document.querySelector({json.dumps(selector)}).getBoundingClientRect();"
                " return {x: b.x + scrollX, y: b.y + scrollY, width: b.width, height: b.height, scale: 1}; })()")
            words["clip"] = box
        elif whole:
            size = self.ask("Page.getLayoutMetrics")["cssContentSize"]
            words["clip"] = {"x": 0, "y": 0, "width": size["width"], "height": size["height"], "scale": 1}
        data = self.ask("Page.captureScreenshot", format="png", **words)["data"]
        with open(path, "wb") as file:
            file.write(base64.b64decode(data))

    def printed(self):
        """The page as it comes out of a printer, as bytes of a PDF."""
        return base64.b64decode(self.ask("Page.printToPDF", printBackground=True)["data"])

    def close(self):
        self.browser.ask("Target.closeTarget", targetId=self.target)
        del self.browser.pages[self.session]
