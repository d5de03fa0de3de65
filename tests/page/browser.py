"""A headless Chromium, spoken to by pipe."""
import base64
import fcntl
import json
import os
import shutil
import subprocess
import tempfile

NAMES = ["chromium", "chromium-browser", "google-chrome"]


class Browser:
    def __init__(self, width=1280, height=900, dark=False):
        command = next(filter(None, map(shutil.which, NAMES)), None)
        if command is None:
            raise SystemExit("no Chromium: install Debian's package chromium")
        self.folder = tempfile.TemporaryDirectory()
        ends = [*os.pipe(), *os.pipe()]
        theirs_in, self.out, self.into, theirs_out = (fcntl.fcntl(end, fcntl.F_DUPFD_CLOEXEC, 10) for end in ends)
        for end in ends:
            os.close(end)
        os.dup2(theirs_in, 3)
        os.dup2(theirs_out, 4)
        words = ["--headless=new", "--remote-debugging-pipe", "--disable-gpu", "--hide-scrollbars", "--no-first-run", f"--user-data-dir={self.folder.name}"]
        words += ["--no-sandbox"] if os.geteuid() == 0 else []
        self.process = subprocess.Popen([command, *words], pass_fds=(3, 4), stdout=subprocess.DEVNULL, stderr=subprocess.DEVNULL)
        for end in (3, 4, theirs_in, theirs_out):
            os.close(end)
        self.count, self.left, self.events, self.session = 0, b"", [], None
        target = self.ask("Target.createTarget", url="about:blank")["targetId"]
        self.session = self.ask("Target.attachToTarget", targetId=target, flatten=True)["sessionId"]
        for domain in ("Page", "Runtime", "Log", "Network"):
            self.ask(domain + ".enable")
        self.size(width, height)
        self.ask("Emulation.setEmulatedMedia", features=[{"name": "prefers-color-scheme", "value": "dark" if dark else "light"}])

    def size(self, width, height):
        self.ask("Emulation.setDeviceMetricsOverride", width=width, height=height, deviceScaleFactor=1, mobile=False)

    def read(self):
        while b"\0" not in self.left:
            some = os.read(self.into, 1 << 16)
            if not some:
                raise SystemExit("Chromium ended")
            self.left += some
        message, self.left = self.left.split(b"\0", 1)
        return json.loads(message)

    def ask(self, method, **params):
        self.count += 1
        message = {"id": self.count, "method": method, "params": params}
        if self.session:
            message["sessionId"] = self.session
        os.write(self.out, json.dumps(message).encode() + b"\0")
        while True:
            got = self.read()
            if got.get("id") == self.count:
                if "error" in got:
                    raise SystemExit(f"{method}: {got['error']}")
                return got["result"]
            self.events.append(got)

    def open(self, path):
        self.ask("Page.navigate", url=path.resolve().as_uri())
        while not any(e.get("method") == "Page.loadEventFired" for e in self.events):
            self.events.append(self.read())

    def value(self, expression):
        """What an expression is in the page."""
        got = self.ask("Runtime.evaluate", expression=expression, returnByValue=True)
        if "exceptionDetails" in got:
            raise SystemExit(f"{expression}: {got['exceptionDetails']}")
        return got["result"].get("value")

    def faults(self):
        """What the console says, exceptions, and requests other than for the page itself."""
        told = ("Runtime.consoleAPICalled", "Runtime.exceptionThrown", "Log.entryAdded")
        asked = [e for e in self.events if e.get("method") == "Network.requestWillBeSent"]
        return [json.dumps(e["params"])[:400] for e in self.events if e.get("method") in told] + [e["params"]["request"]["url"] for e in asked[1:]]

    def picture(self, path, whole=False):
        shot = self.ask("Page.captureScreenshot", format="png", captureBeyondViewport=whole)
        with open(path, "wb") as file:
            file.write(base64.b64decode(shot["data"]))

    def close(self):
        self.ask("Browser.close")
        self.process.wait()
        self.folder.cleanup()
