#!/usr/bin/env python3
"""Plays browsers and scrapes of metrics with a gateway that has a web listener: every answer and every refusal, heads in
pieces, too many connections, slow clients and floods. The variable GATEWAY names the program (bin/stridelink-gateway
without it). Arguments name the cases to play; without any, all are played. `answers` asks curl and Prometheus' promtool
too, if they are there."""
import contextlib
import json
import os
import re
import shutil
import socket
import subprocess
import sys
import time

from gatewaying import COLUMNS, GATEWAY, Play, free_port
from serving import LOOPBACK, PATIENCE, TOP, Failure, expect, expect_equal, shortened, try_cases, wait_for

LIMIT, LIMIT_OF_ALL = 120, 600

# The limits of the rules: bytes of a head, fields of it, connections at a time, seconds of a connection.
MOST_BYTES = 8192
MOST_FIELDS = 64
MOST_CLIENTS = 32
SECONDS = 10

POLICY = re.compile(r"default-src 'none'; connect-src 'self'; img-src data:; base-uri 'none'; form-action 'none'; "
                    r"frame-ancestors 'none'; style-src 'sha256-[A-Za-z0-9+/]{43}='; script-src 'sha256-[A-Za-z0-9+/]{43}='")

REASONS = {400: "Bad Request", 404: "Not Found", 405: "Method Not Allowed", 414: "URI Too Long",
           421: "Misdirected Request", 431: "Request Header Fields Too Large", 505: "HTTP Version Not Supported"}

# The content at each target: the type of its body.
TYPES = {"/": "text/html; charset=utf-8", "/status.json": "application/json", "/books.csv": "text/csv; charset=utf-8",
         "/metrics": "text/plain; version=0.0.4; charset=utf-8"}
OPEN_METRICS = "application/openmetrics-text; version=1.0.0; charset=utf-8"


class Web:
    """The web listener of a gateway."""

    def __init__(self, run, tenants=None, **sections):
        self.run, self.port = run, free_port()
        self.host = f"{LOOPBACK}:{self.port}"
        self.far = run.far_end(keeps=False)
        self.gateway = run.prepared(self.far, tenants or {"acme": 300, "b-2_x": 100}, **sections)
        self.gateway.sections["web"] = [f'listen = "{self.host}"']
        self.gateway.write()
        self.gateway.start()

    def connect(self):
        return self.run.keep(socket.create_connection((LOOPBACK, self.port), PATIENCE))

    def head(self, target="/", method="GET", version="1.1", fields=(), host=None):
        """The bytes of a head."""
        lines = [f"{method} {target} HTTP/{version}", f"Host: {host or self.host}", *fields, "", ""]
        return "\r\n".join(lines).encode()

    def ask(self, head):
        """The answer to a head, on a connection of its own."""
        connection = self.connect()
        connection.sendall(head)
        return read_answer(connection)

    def get(self, target, **how):
        return self.ask(self.head(target, **how))


class Answer:
    """An answer: its code and reason, its fields by name, and its body."""

    def __init__(self, data):
        head, end, self.body = data.partition(b"\r\n\r\n")
        expect(end, f"no answer: {shortened(data)}")
        first, *lines = head.decode().split("\r\n")
        self.version, code, self.reason = first.split(" ", 2)
        self.code = int(code)
        self.fields = dict(line.split(": ", 1) for line in lines)
        expect_equal(len(self.fields), len(lines), f"fields that are given once: {lines}")

    def expect_is(self, code, kind, has_body=True):
        """Wants this code and this type, and the fields that all answers have."""
        expect_equal((self.version, self.code, self.reason), ("HTTP/1.1", code, REASONS.get(code, "OK")), "the first line")
        wanted = {"Connection": "close", "Cache-Control": "no-store", "X-Content-Type-Options": "nosniff",
                  "Referrer-Policy": "no-referrer", "Cross-Origin-Resource-Policy": "same-origin", "Content-Type": kind}
        found = {name: self.fields.get(name) for name in wanted}
        expect_equal(found, wanted, "the fields")
        policy = self.fields["Content-Security-Policy"]
        expect(POLICY.fullmatch(policy), f"the policy: {policy}")
        length = int(self.fields["Content-Length"])
        expect_equal(len(self.body), length if has_body else 0, f"the body, whose length is given as {length}")
        return length


def read_answer(connection):
    """The answer on a connection, which has to end after it."""
    data = b""
    while piece := connection.recv(1 << 16):
        data += piece
    return Answer(data)


def expect_refused(answer, code, has_body=True):
    length = answer.expect_is(code, "text/plain", has_body)
    reason = f"{code} {REASONS[code]}".encode()
    expect_equal((length, answer.body), (len(reason), reason if has_body else b""), "the body of a refusal")
    expect_equal(answer.fields.get("Allow"), "GET, HEAD" if code == 405 else None, "the methods that are allowed")


def metrics_of(text):
    """The value of each sample, by its name with its labels."""
    samples = [line.rsplit(" ", 1) for line in text.splitlines() if not line.startswith("#")]
    expect_equal(len(dict(samples)), len(samples), "samples that are given once")
    return {name: int(value) for name, value in samples}


def expect_metrics(samples, status):
    """Wants that the metrics are the numbers of a status."""
    wanted = {"stridelink_book": status["book"], "stridelink_book_events": status["events"],
              "stridelink_events_left": status["left"], "stridelink_uplink_up": int(status["uplink"]["state"] == "up"),
              "stridelink_uplink_sent_bytes_total": status["uplink"]["sent"],
              "stridelink_uplink_waiting_bytes": status["uplink"]["outbox"],
              "stridelink_uplink_lost_bytes_total": status["uplink"]["lost"],
              "stridelink_disk_waiting_bytes": status["disk"]["waiting"],
              "stridelink_disk_fails": int(status["disk"]["fault"] is not None)}
    names = {"tickets": "tickets", "held": "held", "waiting_packets": "waiting", "buffer_packets": "limit",
             "taken_packets_total": "taken_packets", "taken_bytes_total": "taken_bytes",
             "sent_packets_total": "sent_packets", "sent_bytes_total": "sent_bytes", "book_amount": "amount",
             "connections": "connections", "dropped_packets_total": "dropped", "lost_packets_total": "lost"}
    for tenant in status["tenants"]:
        for metric, member in names.items():
            wanted[f'stridelink_tenant_{metric}{{tenant="{tenant["name"]}"}}'] = int(tenant[member])
    expect_equal(samples, wanted, "the metrics")


def answers(run):
    """The page, the status, the metrics in both forms and the last books are those of the gateway, and HEAD has none of
    their bodies. Nothing changes by them."""
    web = Web(run)
    web.gateway.send("acme", range(30))
    web.gateway.send("b-2_x", range(10))
    web.far.wait_for(40)
    wait_for(lambda: web.gateway.status()["disk"]["waiting"] == 0, "books that are written")
    status = web.gateway.status()
    for target, kind in TYPES.items():
        answer, head = web.get(target), web.get(target, method="HEAD")
        expect_equal(answer.expect_is(200, kind), head.expect_is(200, kind, False), f"lengths of {target}")
    expect_equal(json.loads(web.get("/status.json").body), status, "the status")
    with open(os.path.join(TOP, "crates", "share_web", "page", "page.html"), "rb") as page:
        expect_equal(web.get("/").body, page.read(), "the page")
    expect_metrics(metrics_of(web.get("/metrics").body.decode()), status)
    form = web.get("/metrics", fields=["Accept: application/openmetrics-text;version=1.0.0,text/plain;q=0.5"])
    form.expect_is(200, OPEN_METRICS)
    expect(form.body.endswith(b"\n# EOF\n"), "OpenMetrics has no last line")
    expect_metrics(metrics_of(form.body.decode()), status)
    expect_tools(web)
    expect_equal(web.gateway.status(), status, "the status after all")
    web.gateway.end()


def expect_tools(web):
    """curl gets the page over HTTP/1.0 and HTTP/1.1, and promtool finds no fault in the metrics."""
    page = web.get("/").body
    if shutil.which("curl"):
        for version in ("--http1.0", "--http1.1"):
            done = subprocess.run(["curl", "-sS", "--fail", version, f"http://{web.host}/"], capture_output=True,
                                  timeout=PATIENCE, check=False)
            expect_equal((done.returncode, done.stdout == page, done.stderr), (0, True, b""), f"curl {version}")
    if promtool := shutil.which(os.environ.get("PROMTOOL", "promtool")):
        done = subprocess.run([promtool, "check", "metrics"], input=web.get("/metrics").body, capture_output=True,
                              timeout=PATIENCE, check=False)
        expect_equal((done.returncode, done.stdout + done.stderr), (0, b""), "promtool")
    else:
        print("answers: promtool is not there")


def last_books(run):
    """The rows of the last books are the last ones of books.csv, and none is cut."""
    web = Web(run)
    expect_equal(web.get("/books.csv").body.decode(), COLUMNS + "\n", "the rows without a book")
    for number in range(2, 42):
        web.gateway.control.expect("rotate", f"book {number}")
        if number in (2, 41):
            wait_for(lambda number=number: web.gateway.closed_books() == number - 1, "books that are closed")
            header, *rows = web.get("/books.csv").body.decode().splitlines()
            expect_equal(header, COLUMNS, "the names of the columns")
            with open(os.path.join(web.gateway.view, "books.csv"), encoding="utf-8") as file:
                wanted = file.read().splitlines()[1:]
            expect(len(rows) >= min(5, len(wanted)), f"{len(rows)} rows of {len(wanted)}")
            expect_equal(rows, wanted[-len(rows):], "the last rows")
    web.gateway.end()


def refusals(run):
    """Each refusal has its code, in the order host, method, target. A refusal of a HEAD has no body."""
    web = Web(run)
    ask, head = web.ask, web.head
    for code, data in (
            (400, b"nonsense\r\n\r\n"), (400, b"\r\n\r\n"), (400, b"GET /\r\n\r\n"), (400, b"GET / HTTP/1.1\r\n\r\n"),
            (400, head(fields=[f"Host: {web.host}"])), (400, head(fields=["no field"])), (400, head(fields=[" folded"])),
            (404, head("/nothing")), (404, head("/metrics?x")), (404, head("//")), (404, head("/../etc/passwd")),
            (405, head(method="POST")), (405, head(method="PUT")), (405, head("*", "OPTIONS")),
            (405, head("/nothing", "DELETE")), (405, head(method="TRACE")), (405, head("127.0.0.1:9", "CONNECT")),
            (414, b"GET /" + b"a" * MOST_BYTES), (414, b"a" * MOST_BYTES),
            (421, head(host="elsewhere.example")), (421, head(host=f"localhost:{web.port}")), (421, head(host=LOOPBACK)),
            (421, head(method="POST", host="elsewhere.example")), (421, head("/nothing", host="elsewhere.example")),
            (431, head(fields=["a: b"] * MOST_FIELDS)), (431, head(fields=["a: " + "b" * MOST_BYTES])),
            (505, head(version="2.0")), (505, head(version="0.9")), (505, b"PRI * HTTP/2.0\r\n\r\nSM\r\n\r\n")):
        try:
            expect_refused(ask(data), code)
        except Failure as fault:
            raise Failure(f"{shortened(data)}: {fault}") from None
    expect_refused(ask(head("/nothing", "HEAD")), 404, has_body=False)
    expect_refused(ask(head(method="HEAD", host="elsewhere.example")), 421, has_body=False)
    ask(head(fields=["a: b"] * (MOST_FIELDS - 1))).expect_is(200, TYPES["/"])
    web.gateway.end()


def pieces(run):
    """A head that comes byte by byte, or in one piece with more after it, asks for the same. One connection asks once."""
    web = Web(run)
    connection = web.connect()
    connection.setsockopt(socket.IPPROTO_TCP, socket.TCP_NODELAY, 1)
    for byte in web.head("/status.json"):
        connection.sendall(bytes([byte]))
        time.sleep(0.001)
    read_answer(connection).expect_is(200, TYPES["/status.json"])
    web.ask(web.head("/status.json") * 3).expect_is(200, TYPES["/status.json"])
    web.ask(b"\r\n" + web.head("/")).expect_is(200, TYPES["/"])
    connection = web.connect()
    connection.sendall(web.head("/"))
    connection.shutdown(socket.SHUT_WR)
    read_answer(connection).expect_is(200, TYPES["/"])
    web.gateway.end()


def bodies(run):
    """A request that goes on with a body of any size is answered, and its answer is not lost."""
    web = Web(run)
    for size in (1, 100, 100_000, 3_000_000):
        connection = web.connect()
        connection.sendall(web.head(method="POST", fields=[f"Content-Length: {size}"]))
        with contextlib.suppress(BrokenPipeError, ConnectionResetError):
            connection.sendall(b"x" * size)
        expect_refused(read_answer(connection), 405)
    web.gateway.end()


def too_many(run):
    """At most 32 connections are served at a time. One more waits, and is answered when another one ends."""
    web = Web(run)
    held = [web.connect() for _ in range(MOST_CLIENTS)]
    for connection in held:
        connection.sendall(web.head("/")[:20])
    time.sleep(0.5)
    late = web.connect()
    late.sendall(web.head("/"))
    late.settimeout(1)
    try:
        raise Failure(f"one more is answered: {late.recv(100)}")
    except TimeoutError:
        late.settimeout(PATIENCE)
    expect_equal(web.gateway.status()["uplink"]["state"], "up", "the uplink meanwhile")
    for connection in held[1:]:
        connection.sendall(web.head("/")[20:])
        read_answer(connection).expect_is(200, TYPES["/"])
        connection.close()
    read_answer(late).expect_is(200, TYPES["/"])
    web.gateway.end()


def slow(run):
    """A client that gives no whole head, or does not take its answer, is ended after ten seconds, and no other one is."""
    web = Web(run)
    silent, slower, greedy = web.connect(), web.connect(), socket.socket()
    run.keep(greedy)
    greedy.setsockopt(socket.SOL_SOCKET, socket.SO_RCVBUF, 4096)
    greedy.connect((LOOPBACK, web.port))
    greedy.sendall(web.head("/"))
    start = time.monotonic()
    for byte in web.head("/")[:-1]:
        if time.monotonic() - start > SECONDS - 2:
            break
        slower.sendall(bytes([byte]))
        time.sleep(0.2)
    web.get("/").expect_is(200, TYPES["/"])
    for name, connection in (("silent", silent), ("slower", slower)):
        expect_equal(ended(connection), b"", f"what a {name} client is given")
        seconds = time.monotonic() - start
        expect(SECONDS - 1.5 <= seconds <= SECONDS + 10, f"a {name} client is ended after {seconds:.1f} s")
    time.sleep(max(0, SECONDS + 1 - (time.monotonic() - start)))
    expect(len(ended(greedy)) < len(web.get("/").body) + 4096, "what a greedy client is given")
    web.get("/").expect_is(200, TYPES["/"])
    web.gateway.end()


def ended(connection):
    """The bytes of a connection until its end, which may be a reset."""
    data = b""
    with contextlib.suppress(ConnectionResetError):
        while piece := connection.recv(1 << 16):
            data += piece
    return data


def floods(run):
    """Clients that send without an end, or connect and go, harm neither packets nor control lines."""
    web = Web(run)
    stop = time.monotonic() + 5

    def flood():
        with contextlib.suppress(OSError), web.connect() as connection:
            connection.sendall(web.head("/"))
            while time.monotonic() < stop:
                connection.sendall(b"x" * 65536)

    def come_and_go():
        while time.monotonic() < stop:
            with contextlib.suppress(OSError), socket.create_connection((LOOPBACK, web.port), PATIENCE) as connection:
                connection.sendall(web.head("/")[:30])

    beside = [run.thread(work) for work in [flood] * 8 + [come_and_go] * 4]
    web.gateway.send("acme", range(2000))
    seconds = []
    while time.monotonic() < stop:
        seconds.append(seconds_taken(web.gateway.status))
        time.sleep(0.05)
    web.far.wait_for(2000)
    expect(sorted(seconds)[len(seconds) // 2] < 1, f"control lines wait for {max(seconds):.2f} s at most")
    for each in beside:
        each.finish()
    wait_for(lambda: answers_page(web), "a page after floods")
    expect_equal(web.gateway.messages("refused"), [], "messages of connections that were refused")
    web.gateway.end()


def seconds_taken(work):
    start = time.monotonic()
    work()
    return time.monotonic() - start


def answers_page(web):
    return web.get("/").code == 200


def restart_needed(run):
    """`reload` refuses another web listener, and none."""
    web = Web(run)
    for lines in ([f'listen = "{LOOPBACK}:{free_port()}"'], None):
        sections = dict(web.gateway.sections)
        if lines is None:
            del web.gateway.sections["web"]
        else:
            web.gateway.sections["web"] = lines
        web.gateway.write()
        web.gateway.control.expect("reload", f"no {web.gateway.file}: [web] needs a restart")
        web.gateway.sections = sections
    web.gateway.write()
    web.gateway.control.expect("reload", "book 2")
    web.get("/").expect_is(200, TYPES["/"])
    web.gateway.end()


def in_use(run):
    """A gateway whose web address is taken does not begin, and says which it is."""
    with socket.create_server((LOOPBACK, 0)) as taken:
        port = taken.getsockname()[1]
        gateway = run.prepared(run.far_end(), {"acme": 1})
        gateway.sections["web"] = [f'listen = "{LOOPBACK}:{port}"']
        gateway.write()
        done = subprocess.run([GATEWAY, "gateway", gateway.file], capture_output=True, text=True, timeout=PATIENCE,
                              check=False, stdin=subprocess.DEVNULL)
        expect_equal(done.returncode, 1, "the status")
        expect(f"cannot listen on {LOOPBACK}:{port}: " in done.stderr, f"what it says: {done.stderr}")


CASES = (answers, last_books, refusals, pieces, bodies, too_many, slow, floods, restart_needed, in_use)


if __name__ == "__main__":
    if not os.path.exists(GATEWAY):
        sys.exit(f"web.py: there is no {GATEWAY}; GATEWAY names the program")
    try_cases(CASES, LIMIT, LIMIT_OF_ALL, Play)
