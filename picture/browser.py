"""Headless Chromium, driven over two pipes: pages are opened, keys pressed and expressions evaluated."""
import base64
import json
import os
import subprocess
import tempfile

FLAGS = [
    "--headless=new",
    "--no-sandbox",
    "--no-first-run",
    "--disable-gpu",
    "--disable-extensions",
    "--disable-background-networking",
    "--hide-scrollbars",
    "--remote-debugging-pipe",
]


class Browser:
    """One browser with one page of a size; to be used in a `with`."""

    def __init__(self, program="chromium", width=1400, height=900):
        self.folder = tempfile.TemporaryDirectory(ignore_cleanup_errors=True)
        told, self.out = os.pipe()
        self.heard, tells = os.pipe()
        words = [program, *FLAGS, f"--user-data-dir={self.folder.name}", f"--window-size={width},{height}"]
        # Chromium hears on its file 3 and tells on its file 4.
        shell = f'exec "$@" 3<&{told} 4>&{tells}'
        self.process = subprocess.Popen(
            ["sh", "-c", shell, "sh", *words], pass_fds=(told, tells), stderr=subprocess.DEVNULL
        )
        os.close(told)
        os.close(tells)
        self.rest, self.number, self.session, self.faults = b"", 0, None, []
        target = self.call("Target.createTarget", url="about:blank")["targetId"]
        attached = self.call("Target.attachToTarget", targetId=target, flatten=True)
        self.session = attached["sessionId"]
        size = {"width": width, "height": height, "deviceScaleFactor": 1, "mobile": False}
        self.call("Emulation.setDeviceMetricsOverride", **size)
        self.call("Page.enable")
        self.call("Runtime.enable")
        self.call("Log.enable")

    def __enter__(self):
        return self

    def __exit__(self, *_):
        self.process.terminate()
        self.process.wait()
        self.folder.cleanup()

    def next_message(self):
        while b"\0" not in self.rest:
            more = os.read(self.heard, 1 << 20)
            if not more:
                raise RuntimeError("the browser is gone")
            self.rest += more
        message, self.rest = self.rest.split(b"\0", 1)
        return json.loads(message)

    def note(self, message):
        """Keeps what went wrong in the page."""
        told = message.get("params", {})
        if message.get("method") == "Runtime.exceptionThrown":
            details = told["exceptionDetails"]
            self.faults.append(details.get("exception", {}).get("description", details["text"]))
        if message.get("method") == "Log.entryAdded" and told["entry"]["level"] == "error":
            self.faults.append(told["entry"]["text"])

    def call(self, method, **parameters):
        """Calls a method of the page, or of the browser where there is none yet."""
        of_page = {"sessionId": self.session} if self.session else {}
        return self.ask({"method": method, "params": parameters, **of_page})

    def ask(self, message):
        self.number += 1
        message["id"] = self.number
        os.write(self.out, json.dumps(message).encode() + b"\0")
        while True:
            answer = self.next_message()
            if answer.get("id") == self.number:
                if "error" in answer:
                    raise RuntimeError(f"{message['method']}: {answer['error']['message']}")
                return answer["result"]
            self.note(answer)

    def open(self, url):
        """Opens a page, and returns when it has drawn what it shows first."""
        self.call("Page.navigate", url="about:blank")
        self.call("Page.navigate", url=url)
        is_ready = "document.readyState === 'complete'"
        self.evaluate(f"new Promise(done => {is_ready} ? done() : onload = done)")

    def evaluate(self, expression):
        told = {"expression": expression, "awaitPromise": True, "returnByValue": True}
        answer = self.call("Runtime.evaluate", **told)
        if "exceptionDetails" in answer:
            raise RuntimeError(answer["exceptionDetails"]["exception"]["description"])
        return answer["result"].get("value")

    def press(self, key, code=0):
        """Presses and releases a key, as `ArrowRight` with its code 39."""
        for kind in ("rawKeyDown", "keyUp"):
            told = {"type": kind, "key": key, "code": key, "windowsVirtualKeyCode": code}
            self.call("Input.dispatchKeyEvent", **told)

    def processor_seconds(self):
        """How long pages have kept processors at work, which other programs beside them change little."""
        processes = self.ask({"method": "SystemInfo.getProcessInfo"})["processInfo"]
        return sum(process["cpuTime"] for process in processes if process["type"] == "renderer")

    def screenshot(self, file):
        with open(file, "wb") as it:
            it.write(base64.b64decode(self.call("Page.captureScreenshot", format="png")["data"]))
