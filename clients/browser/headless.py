"""Chromium without a window, which plays scripts in the page of this folder. It is driven by its DevTools protocol, with the standard library alone."""
import base64, http.server, json, os, shutil, signal, socket, struct, subprocess, tempfile, threading, time, urllib.parse

HERE = os.path.dirname(os.path.realpath(__file__))
ROOT = os.path.dirname(os.path.dirname(HERE))
NAMES = ("chromium", "chromium-browser", "google-chrome", "google-chrome-stable")
QUOTA = 33_554_432  # bytes of an origin, as `opfs try` has it


class Odd(Exception):
    """Why there is no transcript."""


def program():
    """The path of a Chromium on this machine; None where there is none."""
    return next(filter(None, map(shutil.which, NAMES)), None)


def has_grant(script):
    """Whether an agent of the script may keep its storage; of a script that is refused it does not matter."""
    try:
        return any(it.get("grants") for it in json.loads(script)["agents"])
    except (AttributeError, KeyError, TypeError, ValueError, RecursionError):
        return False


class Socket:
    """The client's side of a WebSocket that carries texts."""

    def __init__(self, url):
        at = urllib.parse.urlsplit(url)
        self.link = socket.create_connection((at.hostname, at.port))
        key = base64.b64encode(os.urandom(16)).decode()
        head = f"GET {at.path} HTTP/1.1\r\nHost: {at.netloc}\r\nUpgrade: websocket\r\nConnection: Upgrade\r\n"
        self.link.sendall(f"{head}Sec-WebSocket-Key: {key}\r\nSec-WebSocket-Version: 13\r\n\r\n".encode())
        self.file = self.link.makefile("rb")
        if b" 101 " not in self.file.readline():
            raise Odd("chromium takes no WebSocket")
        while self.file.readline().strip():
            pass

    def send(self, data, kind=1):
        mask, size = os.urandom(4), len(data)
        if size < 126:
            head = struct.pack("!BB", 128 | kind, 128 | size)
        elif size < 65_536:
            head = struct.pack("!BBH", 128 | kind, 254, size)
        else:
            head = struct.pack("!BBQ", 128 | kind, 255, size)
        masks = (mask * (size // 4 + 1))[:size]
        hidden = (int.from_bytes(data, "big") ^ int.from_bytes(masks, "big")).to_bytes(size, "big")
        self.link.sendall(head + mask + hidden)

    def take(self, size):
        data = self.file.read(size)
        if len(data) < size:
            raise Odd("chromium has gone")
        return data

    def receive(self):
        """The next text, put together from its frames."""
        text = b""
        while True:
            first, size = self.take(2)
            if size >= 126:
                size = int.from_bytes(self.take(2 if size == 126 else 8), "big")
            data, kind = self.take(size), first & 15
            if kind == 9:
                self.send(data, 10)
            elif kind == 8:
                raise Odd("chromium has gone")
            elif kind < 3:
                text += data
                if first & 128:
                    return text


class Handler(http.server.SimpleHTTPRequestHandler):
    """The page and the examples, and nothing else of the repository."""

    def translate_path(self, path):
        path = urllib.parse.urlsplit(path).path
        is_open = path.startswith(("/clients/browser/", "/examples/")) and ".." not in path
        return super().translate_path(path if is_open else "/none")

    def log_message(self, *_):
        pass


class Headless:
    """A Chromium with a profile of its own, which is gone at the end. Each script gets an origin of its own."""

    def __init__(self, limit=60):
        self.limit, self.calls, self.plays, self.heard = limit, 0, 0, lambda event: None

    def __enter__(self):
        if not program():
            raise Odd("there is no chromium on this machine")
        self.profile = tempfile.mkdtemp(prefix="opfs-browser-")
        self.server = http.server.ThreadingHTTPServer(("127.0.0.1", 0), lambda *it: Handler(*it, directory=ROOT))
        threading.Thread(target=self.server.serve_forever, daemon=True).start()
        words = ["--headless", "--remote-debugging-port=0", f"--user-data-dir={self.profile}", "--no-first-run", "--disable-gpu", "--disable-dev-shm-usage"]
        words += ["--no-sandbox"] * (os.geteuid() == 0)
        self.job = subprocess.Popen([program(), *words, "about:blank"], stdin=subprocess.DEVNULL, stdout=subprocess.DEVNULL, stderr=subprocess.DEVNULL, start_new_session=True)
        try:
            self.socket = Socket(self.address())
            self.version = self.call("Browser.getVersion")["product"].partition("/")[2]
        except BaseException:
            self.__exit__()
            raise
        return self

    def __exit__(self, *_):
        self.server.shutdown()
        try:
            self.send("Browser.close")
            self.job.wait(10)
        except (AttributeError, OSError, subprocess.TimeoutExpired):
            self.end()
        shutil.rmtree(self.profile, ignore_errors=True)

    def end(self):
        """Ends a Chromium that does not close by itself, with its own processes."""
        try:
            os.killpg(self.job.pid, signal.SIGKILL)
        except ProcessLookupError:
            pass
        self.job.wait()

    def address(self):
        """Where Chromium listens, which it writes into its profile."""
        path, until = f"{self.profile}/DevToolsActivePort", time.monotonic() + 60
        while time.monotonic() < until and self.job.poll() is None:
            try:
                with open(path, encoding="utf-8") as file:
                    port, at = file.read().split("\n")[:2]
                return f"ws://127.0.0.1:{port}{at}"
            except (OSError, ValueError):
                time.sleep(0.05)
        raise Odd("chromium did not start")

    def send(self, method, session=None, **params):
        """Begins a call, and gives its number."""
        self.calls += 1
        words = {"id": self.calls, "method": method, "params": params, **({"sessionId": session} if session else {})}
        self.socket.send(json.dumps(words).encode())
        return self.calls

    def call(self, method, session=None, **params):
        """A call of the protocol; events that come meanwhile are heard."""
        number, until = self.send(method, session, **params), time.monotonic() + self.limit
        while True:
            self.socket.link.settimeout(max(until - time.monotonic(), 0.001))
            try:
                told = json.loads(self.socket.receive())
            except TimeoutError:
                raise Odd(f"no answer in {self.limit} seconds") from None
            if told.get("id") != number:
                self.heard(told)
            elif "error" in told:
                raise Odd(f"{method}: {told['error']['message']}")
            else:
                return told["result"]

    def open_page(self, quota=QUOTA, is_granted=False):
        """A page of an origin that nothing is stored for, and its session."""
        self.plays += 1
        origin = f"http://s{self.plays}.localhost:{self.server.server_port}"
        self.target = self.call("Target.createTarget", url="about:blank")["targetId"]
        session = self.call("Target.attachToTarget", targetId=self.target, flatten=True)["sessionId"]
        for domain in ("Page", "Runtime"):
            self.call(f"{domain}.enable", session)
        self.call("Runtime.addBinding", session, name="lineTold")
        self.call("Storage.overrideQuotaForOrigin", session, origin=origin, quotaSize=quota)
        if is_granted:
            self.call("Browser.grantPermissions", origin=origin, permissions=["durableStorage"])
        self.call("Page.navigate", session, url=f"{origin}/clients/browser/index.html")
        self.evaluate(session, "new Promise((done) => { const look = () => globalThis.playScript ? done() : setTimeout(look, 20); look(); })")
        return session

    def evaluate(self, session, text):
        told = self.call("Runtime.evaluate", session, expression=text, awaitPromise=True, returnByValue=True)
        if "exceptionDetails" in told:
            raise Odd(f"the page failed: {told['exceptionDetails'].get('exception', {}).get('description', told)}")
        return told["result"].get("value")

    def play(self, script, printed="", tell=lambda line: None, turns=False, quota=QUOTA, picture=None):
        """Plays a script: what the page gives of it, after each line was told as it came."""
        session = self.open_page(quota, has_grant(script))
        self.heard = lambda event: event.get("method") == "Runtime.bindingCalled" and tell(event["params"]["payload"])
        words = ", ".join(map(json.dumps, (script, printed, {"takesTurns": turns})))
        result = self.evaluate(session, f"playScript({words})")
        if picture:
            self.picture(session, picture)
        self.call("Target.closeTarget", targetId=self.target)
        return result

    def picture(self, session, path):
        self.call("Emulation.setDeviceMetricsOverride", session, width=1000, height=600, deviceScaleFactor=1, mobile=False)
        size = self.call("Page.getLayoutMetrics", session)["cssContentSize"]
        part = {"x": 0, "y": 0, "width": size["width"], "height": size["height"], "scale": 1}
        data = self.call("Page.captureScreenshot", session, format="png", clip=part, captureBeyondViewport=True)["data"]
        with open(path, "wb") as file:
            file.write(base64.b64decode(data))
