"""Headless Chromium and Firefox for tools/trials/try-viewer, each as its Debian package gives it, with no driver.

A browser has `open`, `value` of an expression in the page, `screenshot`, `point`, `wheel`, `key`, `drag` and `close`; `errors`
has what the page threw and what the browser logged as an error, where the browser tells it."""
import base64
import json
import os
import shutil
import signal
import socket
import subprocess
import tempfile
import time

SECONDS = 60


class Chromium:
    """Chromium, driven by its debugging pipe: messages of JSON, each ended by a byte 0."""

    name = "Chromium"
    # The numbers of keys, as pages are told them.
    KEYS = {"ArrowRight": 39, "ArrowDown": 40, "+": 187, "-": 189, "Home": 36, "PageDown": 34, "PageUp": 33, "n": 78, "p": 80,
            "1": 49}

    def __init__(self, width, height):
        self.profile = tempfile.mkdtemp()
        self.errors, self.held, self.next = [], b"", 1
        to_read, self.to = os.pipe()
        self.answers, from_write = os.pipe()
        words = ["chromium", "--headless=new", "--disable-gpu", "--remote-debugging-pipe", "--no-first-run",
                 "--force-color-profile=srgb", f"--user-data-dir={self.profile}", "about:blank"]
        if os.geteuid() == 0:
            words.insert(1, "--no-sandbox")
        # The pipe's ends are 3 and 4 there.
        command = ["bash", "-c", f'exec "$@" 3<&{to_read} 4>&{from_write}', "-", *words]
        self.child = subprocess.Popen(command, pass_fds=(to_read, from_write), stdout=subprocess.DEVNULL,
                                      stderr=subprocess.DEVNULL, start_new_session=True)
        os.close(to_read)
        os.close(from_write)
        target = self.call("Target.createTarget", url="about:blank")["targetId"]
        self.session = self.call("Target.attachToTarget", targetId=target, flatten=True)["sessionId"]
        for domain in ("Runtime", "Log", "Page"):
            self.call(f"{domain}.enable")
        self.call("Emulation.setDeviceMetricsOverride", width=width, height=height, deviceScaleFactor=1, mobile=False)
        self.call("Emulation.setTouchEmulationEnabled", enabled=True, maxTouchPoints=2)
        self.call("Emulation.setFocusEmulationEnabled", enabled=True)

    def message(self):
        while b"\0" not in self.held:
            piece = os.read(self.answers, 1 << 20)
            if not piece:
                raise SystemExit("browsers: Chromium ended")
            self.held += piece
        one, _, self.held = self.held.partition(b"\0")
        return json.loads(one)

    def call(self, method, **parameters):
        number, self.next = self.next, self.next + 1
        asked = {"id": number, "method": method, "params": parameters}
        if getattr(self, "session", None):
            asked["sessionId"] = self.session
        os.write(self.to, json.dumps(asked).encode() + b"\0")
        while True:
            told = self.message()
            if told.get("id") == number:
                if "error" in told:
                    raise SystemExit(f"browsers: {method}: {told['error']}")
                return told["result"]
            if told.get("method") == "Runtime.exceptionThrown":
                self.errors.append(json.dumps(told["params"])[:400])
            if told.get("method") == "Log.entryAdded" and told["params"]["entry"]["level"] == "error":
                self.errors.append(told["params"]["entry"]["text"] + " " + told["params"]["entry"].get("url", ""))

    def open(self, url):
        self.call("Page.navigate", url=url)

    def value(self, expression):
        told = self.call("Runtime.evaluate", expression=expression, awaitPromise=True, returnByValue=True)
        if "exceptionDetails" in told:
            raise SystemExit(f"browsers: {expression[:100]}: {json.dumps(told['exceptionDetails'])[:400]}")
        return told["result"].get("value")

    def screenshot(self, path):
        with open(path, "wb") as file:
            file.write(base64.b64decode(self.call("Page.captureScreenshot", format="png")["data"]))

    def point(self, x, y):
        self.call("Input.dispatchMouseEvent", type="mouseMoved", x=x, y=y)

    def wheel(self, x, y, delta):
        self.point(x, y)
        self.call("Input.dispatchMouseEvent", type="mouseWheel", x=x, y=y, deltaX=0, deltaY=delta)

    def key(self, name):
        for kind in ("rawKeyDown", "keyUp"):
            self.call("Input.dispatchKeyEvent", type=kind, key=name, windowsVirtualKeyCode=self.KEYS[name])

    def touches(self, kind, points):
        told = [{"x": x, "y": y, "id": at} for at, (x, y) in enumerate(points)]
        self.call("Input.dispatchTouchEvent", type=kind, touchPoints=told)

    def drag(self, *paths):
        """Fingers that go along paths, each a list of places as long as the others."""
        steps = list(zip(*paths))
        self.touches("touchStart", steps[0])
        for points in steps[1:]:
            self.touches("touchMove", points)
            time.sleep(0.05)
        self.touches("touchEnd", [])

    def close(self):
        os.close(self.to)
        end(self.child)
        os.close(self.answers)
        shutil.rmtree(self.profile, ignore_errors=True)


class Firefox:
    """Firefox, driven by Marionette: messages of JSON on a socket, each with its length in front."""

    name = "Firefox"
    KEYS = {"ArrowRight": "\ue014", "ArrowDown": "\ue015", "Home": "\ue011", "PageDown": "\ue00f", "PageUp": "\ue00e",
            **{key: key for key in "+-np1"}}

    def __init__(self, width, height):
        self.profile = tempfile.mkdtemp()
        self.errors, self.next = [], 1
        with socket.socket() as one:
            one.bind(("127.0.0.1", 0))
            port = one.getsockname()[1]
        with open(os.path.join(self.profile, "user.js"), "w") as file:
            file.write(f'user_pref("marionette.port", {port});\n')
        command = ["firefox-esr", "--headless", "--marionette", "--no-remote", "--profile", self.profile]
        self.child = subprocess.Popen(command, stdout=subprocess.DEVNULL, stderr=subprocess.DEVNULL,
                                      start_new_session=True, env={**os.environ, "HOME": self.profile,
                                      "MOZ_HEADLESS_WIDTH": "4000", "MOZ_HEADLESS_HEIGHT": "3000"})
        self.stream = self.connect(port)
        self.message()
        self.call("WebDriver:NewSession", capabilities={})
        self.call("WebDriver:SetTimeouts", script=1000 * SECONDS)
        # What the window has around the page isn't known before.
        self.call("WebDriver:SetWindowRect", width=width, height=height)
        inner = self.value("[innerWidth, innerHeight]")
        self.call("WebDriver:SetWindowRect", width=2 * width - inner[0], height=2 * height - inner[1])

    def connect(self, port):
        for _ in range(10 * SECONDS):
            try:
                return socket.create_connection(("127.0.0.1", port)).makefile("rwb")
            except OSError:
                time.sleep(0.1)
        raise SystemExit("browsers: Firefox can't be reached")

    def message(self):
        size = b""
        while (one := self.stream.read(1)) != b":":
            if not one:
                raise SystemExit("browsers: Firefox ended")
            size += one
        return json.loads(self.stream.read(int(size)))

    def call(self, name, **parameters):
        text = json.dumps([0, self.next, name, parameters]).encode()
        self.next += 1
        self.stream.write(b"%d:%s" % (len(text), text))
        self.stream.flush()
        _, _, error, result = self.message()
        if error:
            raise SystemExit(f"browsers: {name}: {str(error)[:600]}")
        return result

    def open(self, url):
        self.call("WebDriver:Navigate", url=url)

    def value(self, expression):
        script = ("const done = arguments[0]; (async () => (%s))().then((value) => done({ value }), "
                  "(error) => done({ error: String(error) }));" % expression)
        told = self.call("WebDriver:ExecuteAsyncScript", script=script, args=[])["value"]
        if "error" in told:
            raise SystemExit(f"browsers: {expression[:100]}: {told['error']}")
        return told.get("value")

    def screenshot(self, path):
        with open(path, "wb") as file:
            file.write(base64.b64decode(self.call("WebDriver:TakeScreenshot", full=False)["value"]))

    def act(self, *sources):
        self.call("WebDriver:PerformActions", actions=[{"id": f"source {at}", **it} for at, it in enumerate(sources)])
        self.call("WebDriver:ReleaseActions")

    def point(self, x, y):
        move = {"type": "pointerMove", "x": x, "y": y, "duration": 0, "origin": "viewport"}
        self.act({"type": "pointer", "parameters": {"pointerType": "mouse"}, "actions": [move]})

    def wheel(self, x, y, delta):
        scroll = {"type": "scroll", "x": x, "y": y, "deltaX": 0, "deltaY": delta, "origin": "viewport", "duration": 0}
        self.act({"type": "wheel", "actions": [scroll]})

    def key(self, name):
        key = self.KEYS[name]
        self.act({"type": "key", "actions": [{"type": "keyDown", "value": key}, {"type": "keyUp", "value": key}]})

    def drag(self, *paths):
        """Fingers that go along paths, each a list of places as long as the others."""
        def finger(path):
            steps = [{"type": "pointerMove", "x": x, "y": y, "duration": 50, "origin": "viewport"} for x, y in path]
            actions = [steps[0], {"type": "pointerDown", "button": 0}, *steps[1:], {"type": "pointerUp", "button": 0}]
            return {"type": "pointer", "parameters": {"pointerType": "touch"}, "actions": actions}
        self.act(*map(finger, paths))

    def close(self):
        self.stream.close()
        end(self.child)
        shutil.rmtree(self.profile, ignore_errors=True)


def end(child):
    """Ends a browser with its processes, which are a session of their own."""
    os.killpg(child.pid, signal.SIGTERM)
    try:
        child.wait(10)
    except subprocess.TimeoutExpired:
        os.killpg(child.pid, signal.SIGKILL)
        child.wait()


BROWSERS = {"chromium": Chromium, "firefox": Firefox}
