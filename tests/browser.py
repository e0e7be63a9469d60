"""Debian's chromium, headless, driven over a pipe by its debugging protocol
(https://chromedevtools.github.io/devtools-protocol): what the tests of the page share."""
import atexit
import base64
import contextlib
import fcntl
import functools
import json
import os
import select
import shutil
import subprocess
import tempfile
import time

from program import PATIENCE

WORDS = ["--headless=new", "--remote-debugging-pipe", "--no-first-run", "--disable-gpu", "--no-proxy-server",
         "--disable-background-networking", "--disable-component-update", "--disable-sync", "--hide-scrollbars",
         "--window-size=1200,900"]  # fmt: skip


class Failed(AssertionError):
    """The browser refused a command, or a script in the page failed."""


class Browser:
    """A running chromium with a folder of its own. Commands and answers are JSON, with a byte 0 behind each."""

    def __init__(self):
        self.room = tempfile.mkdtemp()
        asking, self.commands = os.pipe()
        self.answers, telling = os.pipe()
        # The browser reads descriptor 3 and writes 4: both first to numbers that neither of them has.
        ends = [fcntl.fcntl(it, fcntl.F_DUPFD, 10) for it in (asking, telling)]

        def as_it_wants():
            os.dup2(ends[0], 3)
            os.dup2(ends[1], 4)

        words = [*WORDS, f"--user-data-dir={self.room}", *["--no-sandbox"] * (os.geteuid() == 0), "about:blank"]
        self.process = subprocess.Popen(
            ["chromium", *words], preexec_fn=as_it_wants, pass_fds=(3, 4), stdin=subprocess.DEVNULL,
            stdout=subprocess.DEVNULL, stderr=subprocess.DEVNULL)  # fmt: skip
        for it in (asking, telling, *ends):
            os.close(it)
        self.number, self.waiting, self.events, self.tabs = 0, b"", [], []

    def message(self, end):
        """The next message, up to a moment; None where none comes."""
        while b"\0" not in self.waiting:
            if not select.select([self.answers], [], [], max(end - time.monotonic(), 0))[0]:
                return None
            part = os.read(self.answers, 65_536)
            if not part:
                raise Failed("the browser has ended")
            self.waiting += part
        message, _, self.waiting = self.waiting.partition(b"\0")
        return json.loads(message)

    def call(self, method, session=None, **fields):
        """Gives a command, and answers its result; events that come meanwhile are kept."""
        self.number += 1
        asked = {"id": self.number, "method": method, "params": fields}
        if session:
            asked["sessionId"] = session
        data = json.dumps(asked).encode() + b"\0"
        while data:
            data = data[os.write(self.commands, data) :]
        end = time.monotonic() + PATIENCE
        while message := self.message(end):
            if message.get("id") == self.number:
                if "error" in message:
                    raise Failed(f"{method}: {message['error']}")
                return message["result"]
            if "method" in message:
                self.events.append(message)
        raise Failed(f"{method}: no answer")

    def end(self):
        with contextlib.suppress(Exception):
            self.call("Browser.close")
        with contextlib.suppress(subprocess.TimeoutExpired):
            self.process.wait(5)
        self.process.kill()
        self.process.wait()
        shutil.rmtree(self.room, ignore_errors=True)


@functools.cache
def browser():
    """The browser of all tests, until the script ends."""
    made = Browser()
    atexit.register(made.end)
    return made


class Tab:
    """A tab with nothing kept of others: what it shows, what it asked for and what went wrong in it. A tab that was left
    is taken again, as a window takes the browser half a second of processor time."""

    def __init__(self, width=1200, height=900):
        self.browser = browser()
        self.context, self.session = self.browser.tabs.pop() if self.browser.tabs else self.opened()
        self.resize(width, height)

    def opened(self):
        """A new window, with nothing kept: its context, and the session by which it's driven."""
        context = self.browser.call("Target.createBrowserContext")["browserContextId"]
        place = {"url": "about:blank", "browserContextId": context}
        target = self.browser.call("Target.createTarget", **place)["targetId"]
        session = self.browser.call("Target.attachToTarget", targetId=target, flatten=True)["sessionId"]
        for domain in ("Page", "Runtime", "Log", "Network", "DOM"):
            self.browser.call(f"{domain}.enable", session)
        return context, session

    def call(self, method, **fields):
        return self.browser.call(method, self.session, **fields)

    def resize(self, width, height):
        self.call("Emulation.setDeviceMetricsOverride", width=width, height=height, deviceScaleFactor=1, mobile=False)

    def headed(self, heading):
        """Waits until this heading is shown."""
        self.until(f"document.querySelector('h1')?.textContent === {json.dumps(heading)}")

    def value(self, expression):
        """What an expression gives in the page; a promise is waited for."""
        told = self.call("Runtime.evaluate", expression=expression, returnByValue=True, awaitPromise=True)
        if "exceptionDetails" in told:
            raise Failed(f"{expression}: {told['exceptionDetails']}")
        return told["result"].get("value")

    def until(self, expression):
        """Waits until an expression holds in the page, and answers what it gives; the longer it waits, the less often it
        asks, as each time takes the browser a millisecond or two."""
        begun = time.monotonic()
        while (waited := time.monotonic() - begun) < PATIENCE:
            if given := self.value(expression):
                return given
            time.sleep(min(max(waited / 10, 0.02), 0.25))
        raise Failed(f"{expression}: still {given!r}; shown is {self.value('document.body.innerText')!r}")

    def go(self, url, heading):
        """Opens another address, and waits until this heading is shown."""
        self.value("document.querySelector('h1')?.remove()")
        self.call("Page.navigate", url=url)
        self.headed(heading)

    def click(self, text, within="body", tag="button, a, summary"):
        """Clicks, with a mouse, on the first control within an element that has this text."""
        found = (f"[...document.querySelector({json.dumps(within)}).querySelectorAll({json.dumps(tag)})]"
                 f".find(it => it.textContent === {json.dumps(text)})")  # fmt: skip
        self.until(f"Boolean({found})")
        self.press(found)

    def press(self, found):
        """Clicks into the middle of the element that an expression finds, once it stands still: what comes may move it."""
        place, before = self.middle(found), None
        while place != before:
            time.sleep(0.03)
            place, before = self.middle(found), place
        for kind in ("mousePressed", "mouseReleased"):
            self.call("Input.dispatchMouseEvent", type=kind, button="left", clickCount=1, **place)

    def middle(self, found):
        box = self.value(f"(it => {{ it.scrollIntoView({{block: 'center'}}); const box = it.getBoundingClientRect();"
                         f"return [box.x + box.width / 2, box.y + box.height / 2]; }})({found})")  # fmt: skip
        return {"x": box[0], "y": box[1]}

    def key(self, name, code=0):
        for kind in ("keyDown", "keyUp"):
            text = {"text": "\r"} if name == "Enter" and kind == "keyDown" else {}
            self.call("Input.dispatchKeyEvent", type=kind, key=name, code=name, windowsVirtualKeyCode=code, **text)

    def fill(self, found, text):
        """Writes into a field as a hand would, in the place of what stands in it."""
        self.press(found)
        self.value(f"{found}.select?.()")
        self.call("Input.insertText", text=text)

    def put(self, found, value):
        """Gives a field a value, for choices and times, which a hand doesn't write."""
        self.value(f"(it => {{ it.value = {json.dumps(value)};"
                   f"for (const kind of ['input', 'change']) it.dispatchEvent(new Event(kind, {{bubbles: true}}));"
                   f"}})({found})")  # fmt: skip

    def drop(self, found, *files):
        """Drops files on an element."""
        place = self.middle(found)
        data = {"items": [], "files": files, "dragOperationsMask": 1}
        for kind in ("dragEnter", "dragOver", "drop"):
            self.call("Input.dispatchDragEvent", type=kind, data=data, **place)

    def rows(self, caption):
        """The cells of the table with this caption, row by row, as texts."""
        return self.until(
            "[...document.querySelectorAll('table')]"
            f".filter(it => it.caption.textContent === {json.dumps(caption)})"
            ".map(it => [...it.tBodies[0].rows].map(row => [...row.cells].map(cell => cell.textContent)))[0]"
        )

    def texts(self, selector):
        return self.value(f"[...document.querySelectorAll({json.dumps(selector)})].map(it => it.textContent)")

    def told(self, kind):
        """The events of a kind, of this tab."""
        return [it["params"] for it in self.browser.events
                if it["method"] == kind and it.get("sessionId") == self.session]  # fmt: skip

    def faults(self):
        """What went wrong: exceptions, errors that the page tells, and those of the browser's log, as texts."""
        told = [str(it["exceptionDetails"]) for it in self.told("Runtime.exceptionThrown")]
        told += [str(it["args"]) for it in self.told("Runtime.consoleAPICalled") if it["type"] in ("error", "warning")]
        entries = [it["entry"] for it in self.told("Log.entryAdded")]
        return told + [f"{it['text']} {it.get('url')}" for it in entries if it["level"] in ("error", "warning")]

    def asked(self):
        """The addresses of all requests."""
        return [it["request"]["url"] for it in self.told("Network.requestWillBeSent")]

    def picture(self, path, width, height, scale):
        """Keeps a picture of what is shown from the top on, made smaller."""
        clip = {"x": 0, "y": 0, "width": width, "height": height, "scale": scale}
        told = self.call("Page.captureScreenshot", format="png", clip=clip, captureBeyondViewport=True)
        with open(path, "wb") as file:
            file.write(base64.b64decode(told["data"]))

    def printed(self):
        """The PDF that it prints, by the page's own size."""
        return base64.b64decode(self.call("Page.printToPDF", preferCSSPageSize=True)["data"])

    def close(self):
        self.browser.call("Target.disposeBrowserContext", browserContextId=self.context)

    def leave(self):
        """Leaves it to the next one: without what it kept of its server, what it was told to be and what came of it."""
        place = {"origin": self.value("location.origin"), "storageTypes": "all"}
        self.call("Input.dispatchMouseEvent", type="mouseMoved", x=0, y=0)
        self.call("Page.navigate", url="about:blank")
        self.until("location.href === 'about:blank' && document.readyState === 'complete'")
        self.call("Emulation.setEmulatedMedia", media="")
        self.call("Storage.clearDataForOrigin", **place)
        self.call("Network.clearBrowserCache")
        self.browser.events = [it for it in self.browser.events if it.get("sessionId") != self.session]
        self.browser.tabs.append((self.context, self.session))

    def __enter__(self):
        return self

    def __exit__(self, kind, *_):
        if kind:
            self.close()
        else:
            self.leave()
