"""A headless Chromium that is asked through pipes, by the DevTools protocol, for the cases that look at pages as a browser
shows them."""
import atexit, json, os, select, shutil, signal, subprocess, sys, tempfile, time


def with_chromium():
    """Chromium as Debian packs it, `None` where it isn't installed."""
    return shutil.which("chromium")


class Browser:
    """A browser with one page, which has so many seconds for each answer."""

    def __init__(self, program, seconds=120):
        self.seconds, self.at, self.waiting, self.events = seconds, 0, b"", []
        read_end, self.requests = os.pipe()
        self.answers, write_end = os.pipe()
        self.folder = tempfile.mkdtemp()
        # The browser reads at its descriptor 3 and writes at 4.
        command = 'exec 3<&"$1" 4>&"$2"; shift 2; exec "$@"'
        words = [program, "--headless", "--no-sandbox", "--disable-gpu", "--disable-dev-shm-usage", "--no-first-run", "--hide-scrollbars",
                 "--disable-background-networking", "--disable-component-update", f"--user-data-dir={self.folder}",
                 "--remote-debugging-pipe", "about:blank"]
        self.process = subprocess.Popen(
            ["bash", "-c", command, "bash", str(read_end), str(write_end), *words], stdin=subprocess.DEVNULL, stdout=subprocess.DEVNULL,
            stderr=subprocess.DEVNULL, pass_fds=(read_end, write_end), start_new_session=True)
        os.close(read_end)
        os.close(write_end)
        atexit.register(self.end)
        target = self.ask("Target.createTarget", url="about:blank")["targetId"]
        self.session = self.ask("Target.attachToTarget", targetId=target, flatten=True)["sessionId"]
        for domain in ("Page", "Runtime", "Log", "Network"):
            self.tell(f"{domain}.enable")

    def end(self):
        if self.process.poll() is None:
            os.killpg(self.process.pid, signal.SIGKILL)
            self.process.wait()
        shutil.rmtree(self.folder, ignore_errors=True)

    def next(self):
        """The next message of the browser."""
        until = time.monotonic() + self.seconds
        while b"\0" not in self.waiting:
            ready, _, _ = select.select([self.answers], [], [], max(0, until - time.monotonic()))
            more = os.read(self.answers, 1 << 20) if ready else b""
            if not more:
                sys.exit("the browser gives no answer")
            self.waiting += more
        message, _, self.waiting = self.waiting.partition(b"\0")
        return json.loads(message)

    def ask(self, method, session=None, **values):
        """The answer to a request; what the browser reports in between is kept."""
        self.at += 1
        request = {"id": self.at, "method": method, "params": values} | ({"sessionId": session} if session else {})
        os.write(self.requests, json.dumps(request).encode() + b"\0")
        while (message := self.next()).get("id") != self.at:
            self.events.append(message)
        if "error" in message:
            sys.exit(f"{method}: {message['error']}")
        return message["result"]

    def tell(self, method, **values):
        """The same of the page."""
        return self.ask(method, session=self.session, **values)

    def load(self, address, width, height=900):
        """Shows the page at the address in a window of this size."""
        self.tell("Emulation.setDeviceMetricsOverride", width=width, height=height, deviceScaleFactor=1, mobile=False)
        self.events = []
        found = self.tell("Page.navigate", url=address)
        if "errorText" in found:
            sys.exit(f"{address}: {found['errorText']}")
        while not any(it.get("method") == "Page.loadEventFired" for it in self.events):
            self.events.append(self.next())

    def value(self, expression):
        """What the expression is on the page."""
        found = self.tell("Runtime.evaluate", expression=expression, returnByValue=True)
        if "exceptionDetails" in found:
            sys.exit(f"{expression}: {found['exceptionDetails']}")
        return found["result"].get("value")

    def complaints(self):
        """What the browser has reported of the page since it was loaded: entries of its console and its log, errors of scripts, and
        requests but the one of the page."""
        found = []
        for it in self.events:
            method, values = it.get("method"), it.get("params", {})
            if method == "Log.entryAdded":
                found.append(values["entry"]["text"])
            elif method in ("Runtime.consoleAPICalled", "Runtime.exceptionThrown"):
                found.append(str(values))
            elif method == "Network.requestWillBeSent" and values["request"]["url"] != values["documentURL"]:
                found.append(f"a request of {values['request']['url']}")
        return found

    def picture(self, path):
        """Writes what is shown into a file."""
        import base64
        with open(path, "wb") as file:
            file.write(base64.b64decode(self.tell("Page.captureScreenshot", format="png")["data"]))
