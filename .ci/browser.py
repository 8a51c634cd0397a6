"""A headless Chromium, driven over the pipe of its debugging protocol: opens a file, clicks, types, and asks the page what it says."""
import fcntl
import json
import os
import shutil
import subprocess
import tempfile
import time

NAMES = ("chromium", "chromium-browser", "google-chrome")
# Seconds for an answer of the browser, and for something of the page to come about.
ANSWER_LIMIT, PAGE_LIMIT = 60, 60


def found():
    """The path of a browser, or None."""
    return next(filter(None, map(shutil.which, NAMES)), None)


class Browser:
    """With `with`: a browser with one page, which goes with its folder at the end."""

    def __init__(self, path, width=1400, height=800):
        self.path, self.size = path, (width, height)
        self.asked, self.rest, self.session = 0, b"", None

    def __enter__(self):
        self.folder = tempfile.TemporaryDirectory(ignore_cleanup_errors=True)
        (from_us, self.to), (self.source, from_it) = os.pipe(), os.pipe()
        # the browser reads what it is asked from 3, and answers on 4
        reads, writes = fcntl.fcntl(from_us, fcntl.F_DUPFD, 10), fcntl.fcntl(from_it, fcntl.F_DUPFD, 10)
        width, height = self.size
        flags = ["--headless=new", "--no-sandbox", "--disable-gpu", "--disable-dev-shm-usage", "--no-first-run", "--remote-debugging-pipe"]
        flags += [f"--user-data-dir={self.folder.name}", f"--window-size={width},{height}", "--hide-scrollbars", "about:blank"]

        def pipes():
            os.dup2(reads, 3)
            os.dup2(writes, 4)

        out = subprocess.DEVNULL
        self.process = subprocess.Popen([self.path, *flags], stdin=out, stdout=out, stderr=out, close_fds=False, preexec_fn=pipes, start_new_session=True)
        for end in (from_us, from_it, reads, writes):
            os.close(end)
        os.set_blocking(self.source, False)
        target = self.ask("Target.createTarget", url="about:blank")["targetId"]
        self.session = self.ask("Target.attachToTarget", targetId=target, flatten=True)["sessionId"]
        self.ask("Emulation.setDeviceMetricsOverride", width=width, height=height, deviceScaleFactor=1, mobile=False)
        return self

    def __exit__(self, *failure):
        try:
            self.session = None
            self.ask("Browser.close")
            self.process.wait(10)
        except Exception:
            self.process.kill()
            self.process.wait()
        os.close(self.to)
        os.close(self.source)
        self.folder.cleanup()

    def ask(self, method, **parameters):
        """What the browser answers to a call of its protocol."""
        self.asked += 1
        call = {"id": self.asked, "method": method, "params": parameters}
        if self.session:
            call["sessionId"] = self.session
        os.write(self.to, json.dumps(call).encode() + b"\0")
        end = time.monotonic() + ANSWER_LIMIT
        while time.monotonic() < end:
            *whole, self.rest = self.rest.split(b"\0")
            for answer in map(json.loads, whole):
                if answer.get("id") == self.asked:
                    if "error" in answer:
                        raise RuntimeError(f"{method}: {answer['error']['message']}")
                    return answer["result"]
            try:
                more = os.read(self.source, 1 << 20)
                if not more:
                    raise RuntimeError("the browser has ended")
                self.rest += more
            except BlockingIOError:
                time.sleep(0.005)
        raise TimeoutError(f"{method}: no answer in {ANSWER_LIMIT} s")

    def open(self, path):
        self.ask("Page.enable")
        self.ask("DOM.enable")
        self.ask("Page.navigate", url=path.resolve().as_uri())
        self.wait("document.readyState === 'complete'")

    def value(self, expression):
        """The value of an expression of the page."""
        answer = self.ask("Runtime.evaluate", expression=expression, returnByValue=True, awaitPromise=True)
        if "exceptionDetails" in answer:
            raise RuntimeError(answer["exceptionDetails"].get("exception", {}).get("description", "the page fails"))
        return answer["result"].get("value")

    def wait(self, expression):
        """Waits until an expression of the page holds."""
        end = time.monotonic() + PAGE_LIMIT
        while not self.value(expression):
            if time.monotonic() > end:
                raise TimeoutError(f"{expression} does not come")
            time.sleep(0.02)

    def painted(self):
        """Waits until the page has drawn what it has to."""
        self.value("new Promise((done) => requestAnimationFrame(() => requestAnimationFrame(done)))")

    def text(self, selector):
        return self.value(f"document.querySelector({json.dumps(selector)}).textContent")

    def choose_file(self, selector, path):
        root = self.ask("DOM.getDocument")["root"]["nodeId"]
        node = self.ask("DOM.querySelector", nodeId=root, selector=selector)["nodeId"]
        self.ask("DOM.setFileInputFiles", nodeId=node, files=[str(path.resolve())])

    def drop_file(self, x, y, path):
        data = {"items": [], "files": [str(path.resolve())], "dragOperationsMask": 1}
        for kind in ("dragEnter", "dragOver", "drop"):
            self.ask("Input.dispatchDragEvent", type=kind, x=x, y=y, data=data)

    def mouse(self, kind, x, y, **given):
        self.ask("Input.dispatchMouseEvent", type=kind, x=x, y=y, **given)

    def click(self, x, y):
        self.mouse("mouseMoved", x, y)
        self.mouse("mousePressed", x, y, button="left", clickCount=1)
        self.mouse("mouseReleased", x, y, button="left", clickCount=1)

    def click_on(self, selector):
        box = f"document.querySelector({json.dumps(selector)}).getBoundingClientRect()"
        x, y = self.value(f"(() => {{ const it = {box}; return [it.x + it.width / 2, it.y + it.height / 2]; }})()")
        self.click(x, y)

    def key(self, key, **given):
        for kind in ("keyDown", "keyUp"):
            self.ask("Input.dispatchKeyEvent", type=kind, key=key, **given)

    def screenshot(self, path):
        import base64

        path.write_bytes(base64.b64decode(self.ask("Page.captureScreenshot", format="png")["data"]))
