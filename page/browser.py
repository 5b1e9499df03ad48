"""A headless Chromium, driven over a pair of pipes, with only Python's library."""
import base64
import contextlib
import json
import os
import select
import shutil
import subprocess
import tempfile
import time

NAMES = ("chromium", "chromium-headless-shell", "chromium-browser", "google-chrome")
# The descriptors at which Chromium reads commands and writes answers.
COMMANDS, ANSWERS = 3, 4
PATIENCE = 120


def program():
    """Returns the path of the first of these programs that is here, or None."""
    return next(filter(None, map(shutil.which, NAMES)), None)


def piped(commands, answers):
    """Puts the two ends of pipes to the descriptors that Chromium knows, in the process that it will be."""
    kept = [os.dup(it) for it in (commands, answers)]
    high = [os.dup2(it, 1000 + number) for number, it in enumerate(kept)]
    for end, number in zip(high, (COMMANDS, ANSWERS)):
        os.dup2(end, number)


class Browser:
    def __init__(self, path, width, height):
        self.folder = tempfile.TemporaryDirectory()
        words = [path, "--headless", "--no-sandbox", "--disable-gpu", "--remote-debugging-pipe", "--hide-scrollbars"]
        words += [f"--user-data-dir={self.folder.name}", f"--window-size={width},{height}", "about:blank"]
        commands, self.commands = os.pipe()
        self.answers, answers = os.pipe()
        quiet = {"stdin": subprocess.DEVNULL, "stdout": subprocess.DEVNULL, "stderr": subprocess.DEVNULL}
        self.process = subprocess.Popen(words, preexec_fn=lambda: piped(commands, answers), close_fds=False, **quiet)
        os.close(commands)
        os.close(answers)
        self.count, self.read, self.session = 0, b"", None
        self.attach()

    def attach(self):
        """Takes the first page for all later commands, and gives it the focus, as a window in front has it."""
        pages = [it for it in self.ask("Target.getTargets")["targetInfos"] if it["type"] == "page"]
        self.session = self.ask("Target.attachToTarget", targetId=pages[0]["targetId"], flatten=True)["sessionId"]
        self.ask("Page.enable")
        self.ask("Emulation.setFocusEmulationEnabled", enabled=True)

    def send(self, message):
        data = json.dumps(message).encode() + b"\0"
        while data:
            data = data[os.write(self.commands, data):]

    def message(self):
        """Returns the next answer or event."""
        while b"\0" not in self.read:
            if not select.select([self.answers], [], [], PATIENCE)[0]:
                raise TimeoutError("the browser doesn't answer")
            more = os.read(self.answers, 1 << 16)
            if not more:
                raise EOFError("the browser has ended")
            self.read += more
        one, _, self.read = self.read.partition(b"\0")
        return json.loads(one)

    def ask(self, method, **parameters):
        self.count += 1
        session = {"sessionId": self.session} if self.session else {}
        self.send({"id": self.count, "method": method, "params": parameters, **session})
        answer = self.message()
        while answer.get("id") != self.count:
            answer = self.message()
        if "error" in answer:
            raise RuntimeError(answer["error"])
        return answer["result"]

    def open(self, url, ready):
        """Opens a page and waits until the expression holds there."""
        self.ask("Page.navigate", url=url)
        until = time.monotonic() + PATIENCE
        while not self.value(ready):
            if time.monotonic() > until:
                raise TimeoutError(url)
            time.sleep(0.05)

    def value(self, expression):
        said = self.ask("Runtime.evaluate", expression=expression, awaitPromise=True, returnByValue=True)
        if "exceptionDetails" in said:
            raise RuntimeError(said["exceptionDetails"].get("exception", {}).get("description", said))
        return said["result"].get("value")

    def prefer(self, scheme):
        self.ask("Emulation.setEmulatedMedia", features=[{"name": "prefers-color-scheme", "value": scheme}])

    def press(self, key, code):
        for kind in ("rawKeyDown", "char", "keyUp"):
            text = {"text": "\r"} if kind == "char" and key == "Enter" else {}
            self.ask("Input.dispatchKeyEvent", type=kind, key=key, code=key, windowsVirtualKeyCode=code, **text)

    def tap(self, x, y):
        for kind in ("mousePressed", "mouseReleased"):
            self.ask("Input.dispatchMouseEvent", type=kind, x=x, y=y, button="left", clickCount=1)

    def picture(self, path):
        with open(path, "wb") as file:
            file.write(base64.b64decode(self.ask("Page.captureScreenshot", format="png")["data"]))

    def close(self):
        with contextlib.suppress(OSError, EOFError, RuntimeError):
            self.ask("Browser.close")
        os.close(self.commands)
        os.close(self.answers)
        self.process.wait(30)
        self.folder.cleanup()
