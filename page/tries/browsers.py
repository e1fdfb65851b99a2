"""Headless browsers for ./try-page, by their own protocols and Python's library alone: Chromium by the one of its developer tools over
two pipes, Firefox by Marionette over a socket.
"""
import base64
import fcntl
import json
import os
import select
import shutil
import socket
import subprocess
import time
from pathlib import Path

KEYS = {"Tab": 9, "Enter": 13, " ": 32, "ArrowDown": 40, "ArrowUp": 38, "Home": 36, "End": 35}
TEXTS = {"Enter": "\r", " ": " "}
SECONDS = 300


class Failed(Exception):
    """What a browser said in place of an answer."""


class Chromium:
    """A headless Chromium with one page."""

    @staticmethod
    def found():
        return shutil.which("chromium") or shutil.which("chromium-browser")

    def __init__(self, folder, graphics=("--disable-gpu",)):
        flags = ["--headless=new", "--no-sandbox", "--no-first-run", "--remote-debugging-pipe", f"--user-data-dir={folder}", *graphics]
        given, taken = os.pipe(), os.pipe()
        # above those that the browser is given as 3 and 4
        ends = [fcntl.fcntl(it, fcntl.F_DUPFD_CLOEXEC, 10) for it in (given[0], taken[1])]
        self.process = subprocess.Popen([self.found(), *flags], stdout=subprocess.DEVNULL, stderr=subprocess.DEVNULL, pass_fds=(3, 4),
                                        preexec_fn=lambda: (os.dup2(ends[0], 3), os.dup2(ends[1], 4)))
        for it in (given[0], taken[1], *ends):
            os.close(it)
        self.to, self.of = os.fdopen(given[1], "wb"), taken[0]
        self.number, self.rest, self.session, self.events = 0, b"", None, []
        target = self.call("Target.createTarget", url="about:blank")["targetId"]
        self.session = self.call("Target.attachToTarget", targetId=target, flatten=True)["sessionId"]
        for domain in ("Page", "Runtime", "DOM", "Accessibility", "Network"):
            self.call(f"{domain}.enable")

    def receive(self):
        while b"\0" not in self.rest:
            if not select.select([self.of], [], [], SECONDS)[0]:
                raise Failed(f"Chromium gave no answer in {SECONDS} seconds")
            more = os.read(self.of, 1 << 20)
            if not more:
                raise Failed("Chromium ended")
            self.rest += more
        message, self.rest = self.rest.split(b"\0", 1)
        return json.loads(message)

    def call(self, method, **parameters):
        self.number += 1
        session = {"sessionId": self.session} if self.session else {}
        self.to.write(json.dumps({"id": self.number, "method": method, "params": parameters, **session}).encode() + b"\0")
        self.to.flush()
        while True:
            message = self.receive()
            if message.get("id") == self.number:
                if "error" in message:
                    raise Failed(f"{method}: {message['error'].get('message')}")
                return message["result"]
            self.events.append(message)

    def await_event(self, name):
        while not any(it.get("method") == name for it in self.events):
            self.events.append(self.receive())
        self.events.clear()

    def open(self, url):
        # a page that differs only after its # is not loaded again
        self.events.clear()
        self.call("Page.navigate", url="about:blank")
        self.await_event("Page.loadEventFired")
        self.call("Page.navigate", url=url)
        self.await_event("Page.loadEventFired")

    def run(self, script, *words):
        """What the body of an asynchronous function returns, of its arguments."""
        text = f"(async (...words) => {{ {script} }})(...{json.dumps(words)})"
        found = self.call("Runtime.evaluate", expression=text, awaitPromise=True, returnByValue=True)
        if "exceptionDetails" in found:
            raise Failed(found["exceptionDetails"].get("exception", {}).get("description") or found["exceptionDetails"]["text"])
        return found["result"].get("value")

    def size(self, width, height):
        self.call("Emulation.setDeviceMetricsOverride", width=width, height=height, deviceScaleFactor=1, mobile=False)

    def media(self, **features):
        self.call("Emulation.setEmulatedMedia", features=[{"name": name.replace("_", "-"), "value": it} for name, it in features.items()])

    def key(self, name, **more):
        code = {"windowsVirtualKeyCode": KEYS.get(name, 0), "key": name, "code": name}
        text = TEXTS.get(name, name if len(name) == 1 else "")
        self.call("Input.dispatchKeyEvent", type="keyDown" if text else "rawKeyDown", **({"text": text} if text else {}), **code, **more)
        self.call("Input.dispatchKeyEvent", type="keyUp", **code, **more)

    def click(self, x, y):
        for kind in ("mousePressed", "mouseReleased"):
            self.call("Input.dispatchMouseEvent", type=kind, x=x, y=y, button="left", clickCount=1)

    def choose(self, selector, file):
        """Chooses a file in the field that the selector names."""
        root = self.call("DOM.getDocument")["root"]["nodeId"]
        node = self.call("DOM.querySelector", nodeId=root, selector=selector)["nodeId"]
        self.call("DOM.setFileInputFiles", nodeId=node, files=[str(file)])

    def drop(self, file, x, y):
        for kind in ("dragEnter", "dragOver", "drop"):
            self.call("Input.dispatchDragEvent", type=kind, x=x, y=y, data={"items": [], "files": [str(file)], "dragOperationsMask": 1})

    def names(self):
        """Of each thing that takes the focus, its role and its name as aids read it."""
        nodes = self.call("Accessibility.getFullAXTree")["nodes"]
        of = lambda node, key: (node.get(key) or {}).get("value", "")
        takes = lambda node: any(it["name"] == "focusable" and it["value"]["value"] for it in node.get("properties", []))
        return [(of(it, "role"), of(it, "name")) for it in nodes if not it.get("ignored") and takes(it) and of(it, "role") != "RootWebArea"]

    def picture(self, file):
        file.write_bytes(base64.b64decode(self.call("Page.captureScreenshot", format="png")["data"]))

    def stop(self):
        self.process.terminate()
        self.process.wait()
        self.to.close()
        os.close(self.of)


class Firefox:
    """A headless Firefox with one page."""

    SETTINGS = {
        "browser.shell.checkDefaultBrowser": False, "datareporting.policy.dataSubmissionEnabled": False, "app.update.enabled": False,
        "browser.startup.homepage": "about:blank", "toolkit.telemetry.enabled": False, "network.captive-portal-service.enabled": False,
        "network.connectivity-service.enabled": False, "security.fileuri.strict_origin_policy": True,
    }

    @staticmethod
    def found():
        return shutil.which("firefox-esr") or shutil.which("firefox")

    def __init__(self, folder, settings=()):
        with socket.socket() as free:
            free.bind(("127.0.0.1", 0))
            port = free.getsockname()[1]
        Path(folder).mkdir(parents=True, exist_ok=True)
        settings = {**self.SETTINGS, "marionette.port": port, **dict(settings)}
        lines = [f"user_pref({json.dumps(name)}, {json.dumps(it)});\n" for name, it in settings.items()]
        (Path(folder) / "user.js").write_text("".join(lines))
        environment = dict(os.environ, HOME=str(folder), MOZ_CRASHREPORTER_DISABLE="1", MOZ_DISABLE_CONTENT_SANDBOX="1")
        words = [self.found(), "--headless", "--no-remote", "--profile", folder, "--marionette"]
        self.process = subprocess.Popen(words, stdout=subprocess.DEVNULL, stderr=subprocess.DEVNULL, env=environment)
        self.socket, self.rest, self.number = self.connected(port), b"", 0
        self.receive()
        self.call("WebDriver:NewSession", capabilities={"alwaysMatch": {"acceptInsecureCerts": True}})
        self.call("WebDriver:SetTimeouts", script=SECONDS * 1000, pageLoad=SECONDS * 1000)

    @staticmethod
    def connected(port):
        end = time.monotonic() + 120
        while True:
            try:
                return socket.create_connection(("127.0.0.1", port), timeout=SECONDS)
            except OSError as why:
                if time.monotonic() > end:
                    raise Failed("Firefox did not begin in two minutes") from why
                time.sleep(0.3)

    def receive(self):
        while b":" not in self.rest or len(self.rest.split(b":", 1)[1]) < int(self.rest.split(b":", 1)[0]):
            try:
                more = self.socket.recv(1 << 20)
            except TimeoutError as why:
                raise Failed(f"Firefox gave no answer in {SECONDS} seconds") from why
            if not more:
                raise Failed("Firefox ended")
            self.rest += more
        length, rest = self.rest.split(b":", 1)
        self.rest = rest[int(length):]
        return json.loads(rest[: int(length)])

    def call(self, method, **parameters):
        self.number += 1
        message = json.dumps([0, self.number, method, parameters]).encode()
        self.socket.sendall(b"%d:%s" % (len(message), message))
        while True:
            _, number, error, answer = self.receive()
            if number == self.number:
                if error:
                    raise Failed(f"{method}: {error.get('message')}")
                return answer.get("value") if isinstance(answer, dict) else answer

    def open(self, url):
        self.call("WebDriver:Navigate", url="about:blank")
        self.call("WebDriver:Navigate", url=url)

    def run(self, script, *words):
        text = ("const done = arguments[arguments.length - 1];"
                f"(async (...words) => {{ {script} }})(...Array.from(arguments).slice(0, -1))"
                ".then((it) => done({ it }), (error) => done({ error: String(error) }));")
        found = self.call("WebDriver:ExecuteAsyncScript", script=text, args=words, sandbox=None)
        if "error" in found:
            raise Failed(found["error"])
        return found.get("it")

    def picture(self, file):
        file.write_bytes(base64.b64decode(self.call("WebDriver:TakeScreenshot", full=False, hash=False)))

    def stop(self):
        self.process.terminate()
        self.process.wait()
