#!/usr/bin/env python3
"""Measures the shares of a gateway's tenants, and what control lines wait for, beside hostile clients of each kind, and
beside all kinds at once. A hostile client is one whose tenant does not pay for what it does: half records, single
bytes, connections beyond the limit, resets, malformed records, control lines without an end, and web requests without
an end. The shares of four floods have to stay within 0.01 of their tickets in every window of five seconds, and the
memory of the gateway stays bounded. The variable GATEWAY names the program (bin/stridelink-gateway without it).
Arguments name the cases to play; without any, all are played."""
import contextlib
import os
import socket
import sys
import threading
import time

import measured
from gateway import floods
from gatewaying import GATEWAY, MOST_CONNECTIONS, Play, Tenant, connect, free_port, packet, records
from measured import START, WINDOW, check_windows, judged_alone
from serving import LOOPBACK, PATIENCE, expect, record, reset, try_cases, wait_for

LIMIT, LIMIT_OF_ALL = 120, 600

# The tenants that flood, and what each has; the tenant of hostile clients has nothing to pay with.
FLOODED = {"a": 400, "b": 300, "c": 200, "d": 100}
HOSTILE = "h"

# How the uplink is bounded, so that what is measured does not depend on the processor that is left.
RATE = "20 Mbit/s"

# How many hostile clients of a kind work side by side.
CLIENTS = 4

# The longest wait of a control line at the median, in seconds, and how many bytes of memory the gateway may hold.
MOST_WAIT = 0.1
MOST_MEMORY = 32_000_000


class Hostile:
    """A gateway with four floods, a tenant of hostile clients, and a web listener."""

    def __init__(self, run):
        self.run, self.stop = run, threading.Event()
        self.far, self.web = run.keep(measured.FarEnd()), free_port()
        tenants = {**FLOODED, HOSTILE: Tenant([1], ["held = true", "packets = 8"])}
        self.gateway = run.prepared(self.far.address, tenants, uplink_lines=[f'rate = "{RATE}"'])
        self.gateway.sections["web"] = [f'listen = "{LOOPBACK}:{self.web}"']
        self.gateway.write()
        self.gateway.start(["--quiet"])
        self.address = self.gateway.tenants[HOSTILE].ports[0]
        self.done = {}

    def again(self, what):
        """Does something until the end of the case, whatever becomes of its connection; how often is counted."""
        while not self.stop.is_set():
            with contextlib.suppress(OSError):
                what(self)
            self.done[what.__name__] = self.done.get(what.__name__, 0) + 1

    def begin(self, kinds):
        floods(self.run, self.gateway, names=FLOODED)
        self.far.wait(1)
        self.workers = [self.run.thread(self.again, kind) for kind in kinds for _ in range(CLIENTS)]

    def end(self):
        self.stop.set()
        for worker in self.workers:
            worker.finish()

    def let_go(self):
        """Lets the hostile tenant send what it left: a connection with an unread packet stays until then."""
        self.gateway.control.expect_all(["hold " + name for name in FLOODED] + ["resume " + HOSTILE], "ok")


# ---- Kinds of hostile clients


def half_records(hostile):
    """Half a record, and then nothing for a while."""
    with connect(hostile.address) as connection:
        connection.sendall(record(HOSTILE, packet(0, 9000))[:4500])
        hostile.stop.wait(0.5)


def single_bytes(hostile):
    """Records a byte at a time."""
    with connect(hostile.address) as connection:
        for byte in records(HOSTILE, range(3), 30):
            connection.sendall(bytes([byte]))
            hostile.stop.wait(0.001)


def too_many(hostile):
    """Connections beyond the limit of a listener."""
    with contextlib.ExitStack() as stack:
        for _ in range(MOST_CONNECTIONS + 1):
            stack.enter_context(connect(hostile.address))


def resets(hostile):
    """Connections that are reset within a record."""
    connection = connect(hostile.address)
    with contextlib.suppress(OSError):
        connection.sendall(records(HOSTILE, range(20)) + b"\1")
    reset(connection)


def malformed_records(hostile):
    """Malformed records, each on a connection that the gateway ends."""
    with connect(hostile.address) as connection:
        connection.sendall(b"\xff" * 65536)


def control_lines(hostile):
    """Control lines without an end, wrong ones and dear ones, whose replies are not read."""
    with connect(hostile.gateway.address) as connection:
        connection.settimeout(0.2)
        while not hostile.stop.is_set():
            connection.sendall(b"status\nreport\nnonsense\nhold nobody\n" * 64)


def web_requests(hostile):
    """Requests without an end, and some whose answers are not read."""
    with socket.create_connection((LOOPBACK, hostile.web), PATIENCE) as connection:
        connection.settimeout(0.2)
        connection.sendall(f"GET / HTTP/1.1\r\nHost: {LOOPBACK}:{hostile.web}\r\n".encode())
        while not hostile.stop.is_set():
            connection.sendall(b"x: " + b"y" * 4096)


KINDS = (half_records, single_bytes, too_many, resets, malformed_records, control_lines, web_requests)


# ---- Cases


def shares_beside(run, *kinds):
    """The shares and the control lines of a gateway beside these kinds of hostile clients."""
    hostile = Hostile(run)
    hostile.begin(kinds)
    began, waits = hostile.far.seconds(), []
    while hostile.far.seconds() < began + START + WINDOW + 0.5:
        waits.append(seconds_of(hostile.gateway.new_control))
        time.sleep(0.1)
    samples = list(hostile.far.samples)
    memory = hostile.gateway.resident()
    hostile.end()
    wanted = {flow: count / sum(FLOODED.values()) for flow, count in enumerate(FLOODED.values(), 1)}
    names = " ".join(kind.__name__ for kind in kinds)
    worst = check_windows(samples, wanted, names, began + START)
    wait = sorted(waits)[len(waits) // 2]
    print(f"{names}: worst error {worst:.4f}, a control line in {wait * 1000:.1f} ms, {memory / 1e6:.1f} MB, "
          f"{sum(hostile.done.values())} times")
    expect(wait <= MOST_WAIT, f"{names}: control lines wait for {wait:.3f} s at the median")
    expect(memory <= MOST_MEMORY, f"{names}: the gateway holds {memory} bytes")
    for kind in kinds:
        expect(hostile.done.get(kind.__name__), f"{kind.__name__} was not done")
    hostile.let_go()
    wait_for(lambda: hostile.gateway.tenant(HOSTILE)["connections"] == 0, "the end of hostile connections")


def seconds_of(new_control):
    """How long a control connection takes to be answered, from its beginning on."""
    start = time.monotonic()
    control = new_control()
    control.ask("hold nobody")
    control.close()
    return time.monotonic() - start


def case_of(*kinds):
    """A case of some kinds, called as the only one or `all_at_once`."""
    @judged_alone
    def case(run):
        shares_beside(run, *kinds)

    case.__name__ = kinds[0].__name__ if len(kinds) == 1 else "all_at_once"
    return case


CASES = (*map(case_of, KINDS), case_of(*KINDS))


if __name__ == "__main__":
    if not os.path.exists(GATEWAY):
        sys.exit(f"hostile_gateway.py: there is no {GATEWAY}; GATEWAY names the program")
    try_cases(CASES, LIMIT, LIMIT_OF_ALL, Play)
