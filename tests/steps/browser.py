"""Chromium without a window, driven through a pipe by its debugging protocol."""
import json
import os
import shutil
import subprocess
import tempfile

SECONDS = 60  # that the browser may take to start


def program():
    """Returns the path of Chromium, or None where it is not installed."""
    return shutil.which("chromium") or shutil.which("chromium-browser")


class Browser:
    """A browser with one page. It keeps the errors of the page's console."""

    def __init__(self):
        self.folder = tempfile.TemporaryDirectory()
        read_in, self.commands = os.pipe()
        self.answers, write_out = os.pipe()
        self.process = subprocess.Popen(
            ["sh", "-c", f'exec "$@" 3<&{read_in} 4>&{write_out}', "sh", program(), "--headless", "--no-sandbox",
             "--disable-gpu", "--remote-debugging-pipe", f"--user-data-dir={self.folder.name}", "--window-size=1280,800"],
            pass_fds=[read_in, write_out], stdout=subprocess.DEVNULL, stderr=subprocess.DEVNULL)
        os.close(read_in)
        os.close(write_out)
        self.rest, self.number, self.session = b"", 0, None
        self.events, self.errors = [], []
        page = self.call("Target.createTarget", url="about:blank")["targetId"]
        self.session = self.call("Target.attachToTarget", targetId=page, flatten=True)["sessionId"]
        for domain in ["Page", "Runtime", "Log"]:
            self.call(domain + ".enable")

    def message(self):
        """Returns the next message of the browser."""
        while b"\0" not in self.rest:
            piece = os.read(self.answers, 1 << 20)
            if not piece:
                raise EOFError("the browser has ended")
            self.rest += piece
        line, self.rest = self.rest.split(b"\0", 1)
        return json.loads(line)

    def handle(self, message):
        """Keeps an event, and the error that it reports."""
        name, about = message.get("method"), message.get("params", {})
        self.events.append(name)
        if name == "Runtime.exceptionThrown":
            self.errors.append(about["exceptionDetails"]["text"])
        if name == "Runtime.consoleAPICalled" and about["type"] in ("error", "assert"):
            self.errors.append(str(about["args"]))
        if name == "Log.entryAdded" and about["entry"]["level"] == "error":
            self.errors.append(about["entry"]["text"])

    def call(self, method, **parameters):
        """Sends a command, and returns its result."""
        self.number += 1
        command = {"id": self.number, "method": method, "params": parameters}
        if self.session:
            command["sessionId"] = self.session
        os.write(self.commands, json.dumps(command).encode() + b"\0")
        while True:
            message = self.message()
            if message.get("id") == self.number:
                if "error" in message:
                    raise RuntimeError(f"{method}: {message['error']}")
                return message["result"]
            self.handle(message)

    def load(self, address):
        """Loads a page, and waits until all of it is there."""
        self.events, self.errors = [], []
        self.call("Page.navigate", url="about:blank")
        while "Page.loadEventFired" not in self.events:
            self.handle(self.message())
        self.events = []
        self.call("Page.navigate", url=address)
        while "Page.loadEventFired" not in self.events:
            self.handle(self.message())

    def value(self, expression):
        """Returns the value of an expression of the page's script."""
        result = self.call("Runtime.evaluate", expression=expression, returnByValue=True, awaitPromise=True)
        if "exceptionDetails" in result:
            raise RuntimeError(f"{expression}: {result['exceptionDetails']}")
        return result["result"].get("value")

    def press(self, key):
        """Presses a key."""
        for kind in ["keyDown", "keyUp"]:
            self.call("Input.dispatchKeyEvent", type=kind, key=key, code=key,
                      windowsVirtualKeyCode={"ArrowLeft": 37, "ArrowRight": 39}[key])
        self.settle()

    def click(self, selector):
        """Clicks the middle of an element."""
        at = self.value(f"""(() => {{
            const it = document.querySelector({json.dumps(selector)});
            it.scrollIntoView({{ block: 'nearest' }});
            const box = it.getBoundingClientRect();
            return [box.x + box.width / 2, box.y + box.height / 2];
        }})()""")
        for kind in ["mousePressed", "mouseReleased"]:
            self.call("Input.dispatchMouseEvent", type=kind, x=at[0], y=at[1], button="left", clickCount=1)
        self.settle()

    def settle(self):
        """Waits until the page has answered what happened."""
        self.value("new Promise((done) => setTimeout(() => requestAnimationFrame(() => done(1)), 20))")

    def close(self):
        """Ends the browser."""
        self.session = None
        try:
            self.call("Browser.close")
        except (EOFError, OSError):
            pass
        self.process.wait(SECONDS)
        os.close(self.commands)
        os.close(self.answers)
        self.folder.cleanup()
