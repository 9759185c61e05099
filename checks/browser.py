"""A page in headless Chromium as a reader uses it: with keys, a pointer, a narrow window, dark or light. It speaks Chromium's own protocol over a pipe, so that nothing is added to the page, whose policy stays as it is."""
import base64
import json
import os
import subprocess
import tempfile
import time

import page

KEYS = {"a": 65, "b": 66, "Tab": 9, "Enter": 13, " ": 32, "End": 35, "Home": 36, "ArrowLeft": 37, "ArrowRight": 39}


class Browser:
    """Chromium with one page, of a file or at an address, which was open and drawn after so many seconds; further words may be its own options."""

    def __init__(self, file, width, height, scheme="light", words=()):
        self.home = tempfile.TemporaryDirectory(ignore_cleanup_errors=True)
        to_it, self.write = os.pipe()
        self.read, from_it = os.pipe()
        words = [page.chromium(), "--headless", "--no-sandbox", "--disable-gpu", "--disable-background-timer-throttling", "--disable-backgrounding-occluded-windows", "--disable-renderer-backgrounding", f"--user-data-dir={self.home.name}", "--remote-debugging-pipe", *words, "about:blank"]
        self.runs = subprocess.Popen(["sh", "-c", f'exec "$@" 3<&{to_it} 4>&{from_it}', "sh", *words], pass_fds=(to_it, from_it), stdout=subprocess.DEVNULL, stderr=subprocess.DEVNULL)
        os.close(to_it)
        os.close(from_it)
        self.rest, self.count, self.session, self.asked, self.told = b"", 0, None, [], []
        target = self.call("Target.createTarget", url="about:blank")["targetId"]
        self.session = self.call("Target.attachToTarget", targetId=target, flatten=True)["sessionId"]
        for domain in ("Page", "Network", "Runtime", "Log"):
            self.call(f"{domain}.enable")
        self.call("Emulation.setDeviceMetricsOverride", width=width, height=height, deviceScaleFactor=1, mobile=False)
        self.call("Emulation.setEmulatedMedia", features=[{"name": "prefers-color-scheme", "value": scheme}])
        begun = time.time()
        self.call("Page.navigate", url=file if "://" in file else f"file://{file}")
        while not self.value("document.readyState == 'complete' && location.protocol != 'about:'"):
            pass
        self.seconds = time.time() - begun

    def __enter__(self):
        return self

    def __exit__(self, *_):
        os.close(self.write)
        os.close(self.read)
        self.runs.terminate()
        self.runs.wait(30)
        self.home.cleanup()

    def next(self):
        while b"\0" not in self.rest:
            piece = os.read(self.read, 65536)
            if not piece:
                raise EOFError("Chromium has ended")
            self.rest += piece
        line, self.rest = self.rest.split(b"\0", 1)
        return json.loads(line)

    def call(self, method, **words):
        """What a method of the protocol gives. What the page asks the network for, and what is told of its scripts, is kept."""
        self.count += 1
        order = {"id": self.count, "method": method, "params": words} | ({"sessionId": self.session} if self.session else {})
        os.write(self.write, json.dumps(order).encode() + b"\0")
        while True:
            came = self.next()
            if came.get("method") == "Network.requestWillBeSent":
                self.asked.append(came["params"]["request"]["url"])
            elif came.get("method") in ("Runtime.exceptionThrown", "Log.entryAdded"):
                self.told.append(json.dumps(came["params"])[:500])
            if came.get("id") == self.count:
                if "error" in came:
                    raise ValueError(f"{method}: {came['error']}")
                return came["result"]

    def value(self, expression):
        """What an expression of the page's document has. It is asked by the protocol, apart from the page's own script."""
        return self.call("Runtime.evaluate", expression=expression, returnByValue=True)["result"].get("value")

    def key(self, name, shift=False):
        text = {" ": " ", "Enter": "\r"}.get(name)
        words = {"key": name, "code": "Space" if name == " " else name, "windowsVirtualKeyCode": KEYS[name], "modifiers": 8 if shift else 0}
        self.call("Input.dispatchKeyEvent", type="keyDown" if text else "rawKeyDown", **words, **({"text": text} if text else {}))
        self.call("Input.dispatchKeyEvent", type="keyUp", **words)

    def drag(self, from_x, to_x, y):
        """Presses the pointer at a place, moves it to another and lets it go."""
        words = {"y": y, "button": "left", "clickCount": 1}
        self.call("Input.dispatchMouseEvent", type="mousePressed", x=from_x, **words)
        for i in range(1, 6):
            self.call("Input.dispatchMouseEvent", type="mouseMoved", x=from_x + (to_x - from_x) * i / 5, buttons=1, **words)
        self.call("Input.dispatchMouseEvent", type="mouseReleased", x=to_x, **words)

    def click(self, selector):
        x, y = self.middle(selector)
        self.drag(x, x, y)

    def middle(self, selector):
        return self.value(f"(() => {{ const it = document.querySelector({json.dumps(selector)}); it.scrollIntoView({{ block: 'nearest' }}); const at = it.getBoundingClientRect(); return [at.x + at.width / 2, at.y + at.height / 2]; }})()")

    def lights(self, board=0):
        signs = self.value(f"[...document.querySelectorAll('.lights')[{board}].children].map((it) => it.classList.contains('on') ? '#' : '.').join('')")
        return "/".join(signs[i:i + 5] for i in range(0, 25, 5))

    def picture(self, file):
        with open(file, "wb") as out:
            out.write(base64.b64decode(self.call("Page.captureScreenshot", format="png")["data"]))
