"""Drives a chromium that has no window, by its DevTools protocol over two pipes: opens a page, presses keys, asks what
is there, and notes what went wrong and what was requested."""
import json
import os
import subprocess
import sys
import tempfile

WORDS = "--headless=new --no-sandbox --disable-gpu --hide-scrollbars --no-first-run --remote-debugging-pipe".split()
# Chromium reads commands from the first of these and answers on the second.
COMMANDS, ANSWERS = 3, 4
# Puts the pipes of which it is given the numbers there, and becomes the program that follows.
STARTER = f"""import os, sys
for given, wanted in zip(sys.argv[1:3], ({COMMANDS}, {ANSWERS})):
    os.dup2(int(given), wanted)
os.execv(sys.argv[3], sys.argv[3:])"""
KEY_CODES = {"Enter": 13, "Escape": 27}
# Of each text that is in sight the contrast with what is behind it: the least, and where it is.
CONTRAST = """(() => {
  const parts = c => (c.match(/[\\d.]+/g) || []).map(Number);
  const over = (a, b) => a.slice(0, 3).map((x, i) => x * (a[3] ?? 1) + b[i] * (1 - (a[3] ?? 1)));
  const linear = x => x <= .04045 ? x / 12.92 : ((x + .055) / 1.055) ** 2.4;
  const light = c => c.reduce((sum, x, i) => sum + linear(x / 255) * [.2126, .7152, .0722][i], 0);
  const colour = (e, what) => parts(getComputedStyle(e)[what]);
  const behind = e => e ? over(colour(e, 'backgroundColor'), behind(e.parentElement)) : [255, 255, 255];
  let least = [99, ''];
  for (const e of document.querySelectorAll('body *')) {
    const text = [...e.childNodes].filter(n => n.nodeType === 3).map(n => n.data).join('').trim();
    const isSeen = e.checkVisibility({visibilityProperty: true}) && !e.closest('script, style, option, .vh, .skip');
    if (!text || !isSeen) continue;
    const ground = behind(e), both = [light(over(colour(e, 'color'), ground)), light(ground)];
    const found = (Math.max(...both) + .05) / (Math.min(...both) + .05);
    if (found < least[0]) least = [found, `${e.tagName} ${e.className} ${text.slice(0, 40)}`];
  }
  return least })()"""


class Browser:
    """A page in a chromium. `told` are the events of which it tells."""

    def __init__(self, program):
        self.profile = tempfile.TemporaryDirectory(prefix="ctxvet-browser-", ignore_cleanup_errors=True)
        ours, theirs = os.pipe(), os.pipe()
        command = [sys.executable, "-c", STARTER, str(ours[0]), str(theirs[1]), program, *WORDS]
        command.append(f"--user-data-dir={self.profile.name}")
        how = {"stdout": subprocess.DEVNULL, "stderr": subprocess.DEVNULL, "pass_fds": (ours[0], theirs[1])}
        self.process = subprocess.Popen(command, **how)
        os.close(ours[0])
        os.close(theirs[1])
        self.commands, self.answers = ours[1], theirs[0]
        self.number, self.rest, self.told, self.session = 0, b"", [], None
        target = self.call("Target.createTarget", url="about:blank")["targetId"]
        self.session = self.call("Target.attachToTarget", targetId=target, flatten=True)["sessionId"]
        for domain in ("Page", "Runtime", "Log", "Network"):
            self.call(f"{domain}.enable")
        # Times are those of the page's own thread, so that other work on the machine counts nothing.
        self.call("Performance.enable", timeDomain="threadTicks")

    def __enter__(self):
        return self

    def __exit__(self, *_):
        self.process.terminate()
        self.process.wait()
        os.close(self.commands)
        os.close(self.answers)
        self.profile.cleanup()

    def call(self, method, **words):
        """The answer to a command; what is told meanwhile is noted."""
        self.number += 1
        command = {"id": self.number, "method": method, "params": words}
        if self.session:
            command["sessionId"] = self.session
        os.write(self.commands, json.dumps(command).encode() + b"\0")
        while (answer := self.read()).get("id") != self.number:
            self.told.append(answer)
        return answer["result"]

    def read(self):
        while b"\0" not in self.rest:
            piece = os.read(self.answers, 1 << 20)
            if not piece:
                raise EOFError("chromium ended")
            self.rest += piece
        message, _, self.rest = self.rest.partition(b"\0")
        return json.loads(message)

    def load(self, path, mode="light"):
        """Opens a file: seconds of the processor until it is drawn."""
        self.call("Emulation.setEmulatedMedia", features=[{"name": "prefers-color-scheme", "value": mode}])
        self.call("Page.navigate", url="about:blank")
        before = self.spent()
        self.call("Page.navigate", url=f"file://{path}")
        while self.value("location.href + document.readyState") != f"file://{path}complete":
            pass
        self.value("new Promise(done => requestAnimationFrame(() => requestAnimationFrame(done)))")
        return self.spent() - before

    def spent(self):
        found = {one["name"]: one["value"] for one in self.call("Performance.getMetrics")["metrics"]}
        return found["TaskDuration"]

    def value(self, expression):
        found = self.call("Runtime.evaluate", expression=expression, returnByValue=True, awaitPromise=True)
        return found["result"].get("value", found.get("exceptionDetails"))

    def press(self, *keys):
        for key in keys:
            code = {"key": key, "windowsVirtualKeyCode": KEY_CODES.get(key, ord(key[0].upper()))}
            text = {"text": key if len(key) == 1 else "\r"} if key != "Escape" else {}
            self.call("Input.dispatchKeyEvent", type="keyDown", **code, **text)
            self.call("Input.dispatchKeyEvent", type="keyUp", **code)

    def write(self, text):
        self.call("Input.insertText", text=text)

    def wrong(self):
        """What was told on the console, and which addresses beside files were requested."""
        kinds = ("Runtime.exceptionThrown", "Runtime.consoleAPICalled", "Log.entryAdded")
        found = [json.dumps(one["params"])[:300] for one in self.told if one.get("method") in kinds]
        requests = [one["params"] for one in self.told if one.get("method") == "Network.requestWillBeSent"]
        sent = [one["request"]["url"] for one in requests]
        return found + [one for one in sent if not one.startswith(("file:", "data:", "about:"))]
