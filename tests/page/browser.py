"""Chromium without a window, driven by the DevTools protocol over a pipe, with the standard library alone."""
import base64
import json
import os
import select
import shutil
import subprocess
import sys
import tempfile
import time

PROGRAM = "chromium"


def wanted(who):
    """Installs Chromium from Debian's packages where that is allowed. Where it is not, the tests in it are left out with a word; in CI they fail."""
    said = b""
    if shutil.which(PROGRAM) is None and os.getuid() == 0 and shutil.which("apt-get"):
        environment = dict(os.environ, DEBIAN_FRONTEND="noninteractive")
        patient = ["apt-get", "-o", "DPkg::Lock::Timeout=300", "-o", "Acquire::Retries=3"]
        for words in (["update"], ["install", "-y", "--no-install-recommends", PROGRAM]):
            said = subprocess.run(patient + words, env=environment, stdout=subprocess.PIPE, stderr=subprocess.STDOUT).stdout
    if shutil.which(PROGRAM) is None:
        text = f"{who}: the tests in a browser need the package {PROGRAM}"
        if os.environ.get("CI"):
            sys.exit(f"{text}: {said.decode()[-500:]}")
        print(f"{text}; left out")
        sys.exit()


class Browser:
    def __init__(self, width=1100, height=900):
        self.folder = tempfile.mkdtemp()
        to_browser, self.to = os.pipe()
        self.come, from_browser = os.pipe()
        command = [PROGRAM, "--headless=new", "--no-sandbox", "--disable-gpu", "--disable-dev-shm-usage", "--remote-debugging-pipe", "--no-first-run", "--disable-extensions",
                   "--disable-background-networking", "--disable-component-update", "--disable-sync", "--hide-scrollbars",
                   f"--user-data-dir={self.folder}", f"--window-size={width},{height}", "about:blank"]

        def places():
            # the protocol's pipes are descriptors 3 and 4
            low = [os.dup2(to_browser, 100), os.dup2(from_browser, 101)]
            os.dup2(low[0], 3)
            os.dup2(low[1], 4)

        self.program = subprocess.Popen(command, stdin=subprocess.DEVNULL, stdout=subprocess.DEVNULL, stderr=subprocess.DEVNULL, close_fds=False,
                                        preexec_fn=places)
        os.close(to_browser)
        os.close(from_browser)
        self.buffer, self.number, self.events, self.session = b"", 0, [], None

    def close(self):
        self.program.kill()
        self.program.wait()
        shutil.rmtree(self.folder, ignore_errors=True)

    def message(self, until):
        while b"\0" not in self.buffer:
            ready, _, _ = select.select([self.come], [], [], max(0, until - time.monotonic()))
            part = os.read(self.come, 1 << 20) if ready else b""
            if not part:
                raise TimeoutError("the browser does not answer")
            self.buffer += part
        one, self.buffer = self.buffer.split(b"\0", 1)
        return json.loads(one)

    def call(self, method, patience=60, **words):
        self.number += 1
        number = self.number
        asked = {"id": number, "method": method, "params": words}
        if self.session:
            asked["sessionId"] = self.session
        view = memoryview(json.dumps(asked).encode() + b"\0")
        while view:
            view = view[os.write(self.to, view):]
        until = time.monotonic() + patience
        while True:
            answer = self.message(until)
            if answer.get("id") == number:
                if "error" in answer:
                    raise RuntimeError(f"{method}: {answer['error']}")
                return answer["result"]
            self.events.append(answer)

    def open(self, url, patience=60):
        """A new page, loaded; what it does from now on is in `events`."""
        self.session = None
        target = self.call("Target.createTarget", url="about:blank")["targetId"]
        self.session = self.call("Target.attachToTarget", targetId=target, flatten=True)["sessionId"]
        for part in ("Page", "Runtime", "Network", "Log", "Audits"):
            self.call(f"{part}.enable")
        self.events.clear()
        self.call("Page.navigate", url=url, patience=patience)
        until = time.monotonic() + patience
        while not any(event.get("method") == "Page.loadEventFired" for event in self.events):
            self.events.append(self.message(until))

    def value(self, expression, patience=60):
        result = self.call("Runtime.evaluate", patience, expression=expression, returnByValue=True, awaitPromise=True)
        if "exceptionDetails" in result:
            raise RuntimeError(f"{expression}: {result['exceptionDetails']}")
        return result["result"].get("value")

    def table(self, name):
        """The rows of a table, each a list of what its cells sort by."""
        return self.value(f"[...document.querySelectorAll('#{name}_table tbody tr')].map((row) => [...row.cells].map((cell) => cell.dataset.value))")

    def text(self, name):
        """The rows of a table as they are read."""
        return self.value(f"[...document.querySelectorAll('#{name}_table tbody tr')].map((row) => [...row.cells].map((cell) => cell.textContent))")

    def harm(self, allowed):
        """What a page did that it must not: exceptions, dialogs, other addresses."""
        bad = []
        for event in self.events:
            method, words = event.get("method"), event.get("params", {})
            if method in ("Runtime.exceptionThrown", "Page.javascriptDialogOpening"):
                bad.append(json.dumps(words)[:300])
            if method == "Network.requestWillBeSent" and not words["request"]["url"].startswith(allowed):
                bad.append(words["request"]["url"][:300])
        return bad

    def picture(self, path, clip=None):
        words = {"format": "png"}
        if clip:
            words.update(captureBeyondViewport=True, clip=dict(clip, scale=clip.get("scale", 1)))
        with open(path, "wb") as file:
            file.write(base64.b64decode(self.call("Page.captureScreenshot", **words)["data"]))
