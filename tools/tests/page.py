#!/usr/bin/env python3
"""Tries the gateway's page in headless Chromium, beside a server that gives it a status as a gateway does: what it
shows at 400 and at 1600 pixels, dark and light, by keyboard, and while the gateway does not answer. If PICTURES names a
folder, a picture of each is left there."""
import base64
import contextlib
import http.server
import importlib.machinery
import importlib.util
import json
import os
import shutil
import subprocess
import sys
import tempfile
import threading
import time

from trying import TOOLS, TOP, expect, expect_equal, try_cases

from serving import LOOPBACK, PATIENCE, wait_for

CHROMIUM = os.environ.get("CHROMIUM", "chromium")
PICTURES = os.environ.get("PICTURES")
PAGE = os.path.join(TOP, "crates", "share_web", "page", "page.html")

# The names of tenants, bytes a second, tickets, and whether they are held. acme sends three quarters, though it has half
# of the tickets of those that are not held, and its amount is one that a script's number is not exact for.
TENANTS = (("acme", 750000, 500, False, 18446744073709551615), ("beta-corp_2", 250000, 250, False, 1280),
           ("gamma", 0, 250, False, 0), ("delta", 0, 1000, True, 77))
SHOWN = [["acme", "75.0 %", "50.0 %", "6.0 Mbit/s", "3 of 256", "18 446 744 073 709 551 615", "no", "2", "4"],
         ["beta-corp_2", "25.0 %", "25.0 %", "2.0 Mbit/s", "3 of 256", "1 280", "no", "2", "4"],
         ["gamma", "0.0 %", "25.0 %", "0 bit/s", "3 of 256", "0", "no", "2", "4"],
         ["delta", "0.0 %", "0.0 %", "0 bit/s", "3 of 256", "77", "held", "2", "4"]]

HEADER = "book,kind,opened,closed,why,tariffs,events,packets,bytes,units,amount,sha256"
ROW = "%d,lengths,2026-01-31T23:%02d:59Z,2026-02-01T00:00:00Z,%s,1/0/1 48/16/2,131,%d,9100,9100,1280," + "0" * 64
BOOKS = "\n".join([HEADER, ROW % (40, 1, "full", 1234567), ROW % (41, 2, "rotate", 0), ""])
BOOKS_SHOWN = [["41", "2026-01-31 23:02:59 UTC", "2026-02-01 00:00:00 UTC", "rotate", "0", "9 100", "1 280"],
               ["40", "2026-01-31 23:01:59 UTC", "2026-02-01 00:00:00 UTC", "full", "1 234 567", "9 100", "1 280"]]

# The rows of a table, without the bars.
ROWS = "[...(document.getElementById(%r)?.rows ?? [])].map((row) => [...row.cells].map((cell) => cell.textContent))"

# The least contrast of a text and what is behind it, over all elements that have text of their own.
CONTRAST = """(() => {
  const parts = (color) => color.match(/[\\d.]+/g).map(Number);
  const light = (color) => parts(color).slice(0, 3).map((part) => part / 255)
    .map((part) => part <= 0.04045 ? part / 12.92 : ((part + 0.055) / 1.055) ** 2.4)
    .reduce((sum, part, place) => sum + part * [0.2126, 0.7152, 0.0722][place], 0);
  const behind = (node) => {
    for (; node; node = node.parentElement) {
      const color = getComputedStyle(node).backgroundColor;
      if ((parts(color)[3] ?? 1) > 0) return color;
    }
    return "rgb(255, 255, 255)";
  };
  const contrasts = [...document.body.querySelectorAll("*")]
    .filter((node) => [...node.childNodes].some((child) => child.nodeType === 3 && child.data.trim())
      && !["SCRIPT", "NOSCRIPT"].includes(node.tagName) && node.checkVisibility())
    .map((node) => [light(getComputedStyle(node).color), light(behind(node))].sort((a, b) => b - a))
    .map(([bright, dark]) => (bright + 0.05) / (dark + 0.05));
  return Math.min(...contrasts);
})()"""


def web_page():
    """The tool that writes the page's source, as a module."""
    loader = importlib.machinery.SourceFileLoader("web_page", os.path.join(TOOLS, "web_page"))
    module = importlib.util.module_from_spec(importlib.util.spec_from_loader("web_page", loader))
    loader.exec_module(module)
    return module


class Gateway:
    """Answers as a gateway does whose tenants send at their rates. It does not answer while it is silent."""

    def __init__(self, run):
        with open(PAGE, encoding="ascii") as file:
            self.page = file.read()
        self.fields = "".join(web_page().fields_of(self.page)).split("\r\n")[:-1]
        self.start = time.monotonic()
        self.is_silent, self.state, self.book = False, "up", 42
        self.server = http.server.ThreadingHTTPServer((LOOPBACK, 0), self.handler())
        run.stack.callback(self.server.server_close)
        run.stack.callback(self.server.shutdown)
        threading.Thread(target=self.server.serve_forever, daemon=True).start()
        self.url = "http://%s:%d/" % self.server.server_address[:2]

    def handler(self):
        gateway = self

        class Handler(http.server.BaseHTTPRequestHandler):
            def do_GET(self):
                gateway.answer(self)

            def log_message(self, *_):
                pass
        return Handler

    def answer(self, handler):
        texts = {"/": ("text/html; charset=utf-8", lambda: self.page), "/status.json": ("application/json", self.status),
                 "/books.csv": ("text/csv; charset=utf-8", lambda: BOOKS)}
        if self.is_silent:
            handler.send_error(503)
            return
        kind, text = texts[handler.path]
        body = text().encode()
        handler.send_response(200)
        for field in self.fields:
            handler.send_header(*field.split(": ", 1))
        handler.send_header("Content-Type", kind)
        handler.send_header("Content-Length", str(len(body)))
        handler.end_headers()
        handler.wfile.write(body)

    def status(self):
        passed = time.monotonic() - self.start
        tenants = [{"name": name, "flow": flow, "held": held, "tickets": tickets, "grants": [], "waiting": 3, "limit": 256,
                    "taken_packets": 0, "taken_bytes": 0, "sent_packets": 0, "sent_bytes": int(rate * passed),
                    "amount": amount, "connections": 2, "dropped": 4, "lost": 0}
                   for flow, (name, rate, tickets, held, amount) in enumerate(TENANTS, 1)]
        return json.dumps({
            "version": "0.1.0", "proved": "rattle", "book": self.book, "events": 131, "left": 16777085,
            "opened": "2026-02-01T00:00:00Z", "rate": 2500000, "disk": {"waiting": 0, "fault": None},
            "uplink": {"state": self.state, "address": "192.0.2.7:7003", "sent": 0, "outbox": 65536, "lost": 17},
            "tenants": tenants, "downlink": None})


class Browser:
    """Headless Chromium, which is steered over a pipe."""

    def __init__(self, run):
        expect(shutil.which(CHROMIUM), "Debian's package chromium is not there")
        # The browser's children may write to its folder for a moment after its end.
        folder = run.stack.enter_context(tempfile.TemporaryDirectory(ignore_cleanup_errors=True))
        (to_read, self.sink), (self.source, to_write) = os.pipe(), os.pipe()

        def pipes():
            os.dup2(to_read, 3)
            os.dup2(to_write, 4)
        # Descriptors above 4 stand for the pipes until the child has them at 3 and 4.
        self.process = subprocess.Popen(
            [CHROMIUM, "--headless=new", "--no-sandbox", "--disable-gpu", "--disable-dev-shm-usage", "--no-first-run",
             "--disable-background-networking", "--hide-scrollbars", "--user-data-dir=" + folder,
             "--remote-debugging-pipe", "about:blank"],
            close_fds=False, preexec_fn=pipes, stdout=subprocess.DEVNULL, stderr=subprocess.DEVNULL)
        run.stack.callback(self.close)
        for end in (to_read, to_write):
            os.close(end)
        self.rest, self.number, self.faults = b"", 0, []
        targets = self.call("Target.getTargets")["targetInfos"]
        target = next(each["targetId"] for each in targets if each["type"] == "page")
        self.session = self.call("Target.attachToTarget", targetId=target, flatten=True)["sessionId"]
        for domain in ("Page", "Runtime", "Log"):
            self.ask(domain + ".enable")

    def close(self):
        with contextlib.suppress(OSError):
            os.close(self.sink)
        self.process.terminate()
        self.process.wait()
        os.close(self.source)

    def message(self):
        """The next message."""
        while b"\0" not in self.rest:
            piece = os.read(self.source, 1 << 16)
            expect(piece, "the browser has ended")
            self.rest += piece
        message, self.rest = self.rest.split(b"\0", 1)
        return json.loads(message)

    def call(self, method, session=None, **given):
        """The answer to a call. Faults that the page reports meanwhile are kept."""
        self.number += 1
        call = {"id": self.number, "method": method, "params": given, **({"sessionId": session} if session else {})}
        os.write(self.sink, json.dumps(call).encode() + b"\0")
        while True:
            message = self.message()
            if message.get("id") == self.number:
                expect("error" not in message, "%s: %s" % (method, message.get("error")))
                return message["result"]
            if message.get("method") in ("Log.entryAdded", "Runtime.exceptionThrown", "Runtime.consoleAPICalled"):
                self.faults.append(message["params"])

    def ask(self, method, **given):
        return self.call(method, self.session, **given)

    def value(self, expression):
        """The value of an expression in the page."""
        answer = self.ask("Runtime.evaluate", expression=expression, returnByValue=True)
        expect("exceptionDetails" not in answer, "%s: %s" % (expression, answer.get("exceptionDetails")))
        return answer["result"].get("value")

    def show(self, url, width, scheme):
        self.ask("Emulation.setDeviceMetricsOverride", width=width, height=900, deviceScaleFactor=1, mobile=False)
        self.ask("Emulation.setEmulatedMedia", features=[{"name": "prefers-color-scheme", "value": scheme}])
        self.ask("Page.navigate", url="about:blank")
        self.ask("Page.navigate", url=url)

    def key(self, name):
        for kind in ("keyDown", "keyUp"):
            self.ask("Input.dispatchKeyEvent", type=kind, key=name, code=name,
                     windowsVirtualKeyCode={"Tab": 9, "Enter": 13}[name], text="\r" if name == "Enter" else "")

    def picture(self, name):
        """Leaves a picture of the whole page, if pictures are wanted."""
        if PICTURES:
            data = self.ask("Page.captureScreenshot", captureBeyondViewport=True)["data"]
            with open(os.path.join(PICTURES, name + ".png"), "wb") as sink:
                sink.write(base64.b64decode(data))


def spaced(rows):
    """Rows with plain spaces in place of narrow ones."""
    return [[text.replace("\u202f", " ") for text in row] for row in rows]


def text_of(browser, name):
    return browser.value("document.getElementById(%r).textContent" % name).replace("\u202f", " ")


def shown(browser, name):
    return spaced(browser.value(ROWS % name))


def near(rows):
    """Rows whose first share may be a tenth of a percent off, as a second is never quite one."""
    return [[row[0], "%.0f" % float(row[1].split()[0]) if "%" in row[1] else row[1], *row[2:3], *row[4:]] for row in rows]


def wait_until_measured(browser):
    """Waits until the page has rates over some seconds."""
    wait_for(lambda: near(shown(browser, "rows")) == near(SHOWN), "shares: %s" % shown(browser, "rows"))


def views(run):
    """The page shows what the status has, at each width and in both schemes, and no more than fits beside each other."""
    gateway, browser = Gateway(run), Browser(run)
    for width in (400, 1600):
        for scheme in ("light", "dark"):
            row = "%d pixels, %s" % (width, scheme)
            browser.show(gateway.url, width, scheme)
            wait_until_measured(browser)
            wait_for(lambda: shown(browser, "books") == BOOKS_SHOWN, "the last books: %s" % shown(browser, "books"))
            expect_equal(browser.value("document.scrollingElement.scrollWidth"), width, row + ": its width")
            expect_equal(text_of(browser, "uplink"), "The uplink is up: 192.0.2.7:7003", row)
            expect_equal(text_of(browser, "left"), "16 777 085", row + ": events left")
            expect_equal(text_of(browser, "limit"), "20.0 Mbit/s", row + ": the limit")
            contrast = browser.value(CONTRAST)
            expect(contrast >= 4.5, "%s: contrast %.2f" % (row, contrast))
            browser.picture("%d-%s" % (width, scheme))
    expect_equal(browser.faults, [], "faults of the page")


def keyboard(run):
    """Each control is reached by the keyboard, and can be seen when it is. The page can be paused."""
    gateway, browser = Gateway(run), Browser(run)
    browser.show(gateway.url, 400, "light")
    wait_until_measured(browser)
    reached = []
    for _ in range(4):
        browser.key("Tab")
        reached.append(browser.value("document.activeElement.textContent"))
        outline = browser.value("getComputedStyle(document.activeElement).outlineStyle")
        expect_equal(outline, "solid", "the outline of " + reached[-1])
        if len(reached) == 1:
            browser.picture("focus")
            browser.key("Enter")
    expect_equal(reached, ["Pause", "Status as JSON", "Metrics", "Last books as CSV"], "what Tab reaches")
    expect_equal(browser.value("document.getElementById('pause').ariaPressed"), "true", "whether it is paused")
    gateway.state = "dialling"
    time.sleep(2.5)
    expect_equal(text_of(browser, "uplink"), "The uplink is up: 192.0.2.7:7003", "the uplink while it is paused")
    browser.value("document.getElementById('pause').click()")
    wait_for(lambda: text_of(browser, "uplink") == "The uplink is dialled: 192.0.2.7:7003", "the uplink")
    browser.picture("dialling")


def semantics(run):
    """Tables have headers of columns and rows at each width, and states are announced."""
    gateway, browser = Gateway(run), Browser(run)
    for width in (400, 1600):
        browser.show(gateway.url, width, "light")
        wait_until_measured(browser)
        nodes = browser.ask("Accessibility.getFullAXTree")["nodes"]
        roles = [node["role"]["value"] for node in nodes if not node.get("ignored")]
        counts = {role: roles.count(role) for role in ("table", "columnheader", "rowheader", "status", "button", "heading")}
        wanted = {"table": 2, "columnheader": 16, "rowheader": 6, "status": 1, "button": 1, "heading": 4}
        expect_equal(counts, wanted, "roles at %d pixels" % width)
        live = browser.value("document.getElementById('uplink').ariaLive")
        expect_equal(live, "polite", "how the uplink's state is announced")


def silence(run):
    """While the gateway does not answer, the page says so. It goes on when the gateway does."""
    gateway, browser = Gateway(run), Browser(run)
    browser.show(gateway.url, 1600, "dark")
    wait_until_measured(browser)
    gateway.is_silent = True
    wait_for(lambda: text_of(browser, "fault") == "The gateway does not answer (answer 503). The numbers are old.",
             "a fault")
    browser.picture("silence")
    gateway.is_silent = False
    wait_for(lambda: browser.value("document.getElementById('fault').hidden"), "the end of the fault")


def source(_run):
    """The page that is served is the page here."""
    done = subprocess.run([os.path.join(TOOLS, "web_page"), "--check"], capture_output=True, timeout=PATIENCE, check=False)
    expect_equal((done.returncode, done.stderr), (0, b""), "the check of the source")


try_cases(source, views, keyboard, semantics, silence)
