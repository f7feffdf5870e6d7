"""Headless Chromium, driven over the pipe of its DevTools protocol."""

import base64
import json
import shutil
import subprocess
import threading
import time

PATIENCE = 30  # seconds
WORDS = ["--headless=new", "--no-sandbox", "--disable-gpu", "--disable-dev-shm-usage", "--no-first-run",
         "--remote-debugging-pipe"]
# The keys that tests press: the name, the code, the number, and the text that they type.
KEYS = {"Tab": (9, ""), "Enter": (13, "\r"), " ": (32, " "), "ArrowDown": (40, ""), "ArrowUp": (38, ""),
        "ArrowLeft": (37, ""), "ArrowRight": (39, "")}


def installed():
    names = ("chromium", "chromium-browser", "google-chrome")
    return next(filter(None, map(shutil.which, names)), None)


def start(program, profile):
    """Starts Chromium, which reads from 3 and writes to 4: the two ends of its process's pipes."""
    command = ["sh", "-c", 'exec "$0" "$@" 3<&0 4>&1 < /dev/null > /dev/null', program, *WORDS, f"--user-data-dir={profile}", "about:blank"]
    return subprocess.Popen(command, stdin=subprocess.PIPE, stdout=subprocess.PIPE, stderr=subprocess.DEVNULL)


class Browser:
    """One tab. Each call raises EOFError or BrokenPipeError once Chromium has ended."""

    def __init__(self, program, profile):
        self.process = start(program, profile)
        # A browser that hangs is killed, so no call waits for it forever.
        self.watch = threading.Timer(40 * PATIENCE, self.process.kill)
        self.watch.daemon = True
        self.watch.start()
        self.number, self.session, self.events, self.rest = 0, None, [], bytearray()

    def open(self):
        target = self.ask("Target.createTarget", url="about:blank")["targetId"]
        self.session = self.ask("Target.attachToTarget", targetId=target, flatten=True)["sessionId"]
        for domain in ("Page", "Runtime", "Network", "Log"):
            self.ask(f"{domain}.enable")
        self.ask("Emulation.setFocusEmulationEnabled", enabled=True)

    def message(self):
        while (end := self.rest.find(b"\0")) < 0:
            part = self.process.stdout.read1(1 << 20)
            if not part:
                raise EOFError("Chromium has ended")
            self.rest += part
        said = json.loads(self.rest[:end])
        del self.rest[:end + 1]
        return said

    def ask(self, method, **parameters):
        self.number += 1
        message = {"id": self.number, "method": method, "params": parameters}
        if self.session:
            message["sessionId"] = self.session
        self.process.stdin.write(json.dumps(message).encode() + b"\0")
        self.process.stdin.flush()
        while (answer := self.message()).get("id") != self.number:
            self.events.append(answer)
        if "error" in answer:
            raise ValueError(f"{method}: {answer['error']}")
        return answer["result"]

    def events_of(self, method):
        return [it["params"] for it in self.events if it.get("method") == method]

    def value(self, expression):
        found = self.ask("Runtime.evaluate", expression=expression, returnByValue=True, awaitPromise=True)
        if "exceptionDetails" in found:
            raise ValueError(found["exceptionDetails"])
        return found["result"].get("value")

    def wait(self, expression, patience=PATIENCE):
        end = time.monotonic() + patience
        while time.monotonic() < end:
            if self.value(expression):
                return True
            time.sleep(0.01)
        return False

    def go(self, url):
        """Loads a page, even if the current one differs only in its fragment."""
        self.ask("Page.navigate", url="about:blank")
        self.ask("Page.navigate", url=url)
        self.wait(f"location.href.startsWith({json.dumps(url.split('#')[0])}) && document.readyState === 'complete'")

    def press(self, key):
        number, text = KEYS[key]
        for kind in ("keyDown" if text else "rawKeyDown", "keyUp"):
            self.ask("Input.dispatchKeyEvent", type=kind, key=key, code="Space" if key == " " else key,
                     windowsVirtualKeyCode=number, **({"text": text} if kind == "keyDown" else {}))

    def type(self, text):
        self.ask("Input.insertText", text=text)

    def focus(self, selector):
        """Moves the focus to an element, and selects its text."""
        self.value("(() => { const it = document.querySelector(%s); it.focus(); it.select?.(); })()" % json.dumps(selector))

    def click(self, selector):
        """Clicks with the mouse in the middle of an element."""
        x, y = self.value("(() => { const it = document.querySelector(%s); it.scrollIntoView({ block: 'nearest' }); "
                          "const at = it.getBoundingClientRect(); return [at.x + at.width / 2, at.y + at.height / 2]; })()"
                          % json.dumps(selector))
        for kind in ("mousePressed", "mouseReleased"):
            self.ask("Input.dispatchMouseEvent", type=kind, x=x, y=y, button="left", clickCount=1)

    def size(self, width, height):
        """Sets the size of the window, which is a telephone's if it is narrow."""
        self.ask("Emulation.setDeviceMetricsOverride", width=width, height=height, deviceScaleFactor=1, mobile=width < 600)

    def picture(self):
        return base64.b64decode(self.ask("Page.captureScreenshot", format="png")["data"])

    def close(self):
        self.watch.cancel()
        self.process.terminate()
        self.process.wait(PATIENCE)
