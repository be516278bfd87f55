#!/usr/bin/env python3
"""Shows a gateway in a terminal: a far end, a gateway, and four tenants with 4:3:2:1 tickets, for fifteen seconds.

A table has each tenant's share of the uplink in the last second beside its tickets' share. Meanwhile one tenant pauses
and comes back, and the grant of another one is amended. Then the bill of the books stands beside what the far end
counted; both have to be the same. The program is that of the variable GATEWAY or bin/stridelink-gateway. If there is
none, `rt try` builds it, with nothing proved, in a minute or two. The demo ends by itself, and leaves nothing.
"""
import os
import socket
import sys
import threading
import time

sys.dont_write_bytecode = True
sys.path.insert(0, os.path.join(os.path.dirname(os.path.abspath(__file__)), "..", "tests"))

from bill import COLUMNS, bill_of, read_book, values_of  # noqa: E402
from gatewaying import GATEWAY, TOP, WORDS, Play, Tenant, packet  # noqa: E402
from serving import PROGRAM, Failure, expect, limit_time, record  # noqa: E402

SECONDS = 15
WINDOW = 1.0
STEP = 0.25

# The uplink's rate is one that also a program follows that is not optimised. Packets are few on their way, so that a
# pause is seen at once.
RATE = "4 Mbit/s"
SIZE = 700
LIMIT = 16
SENT_AHEAD = 4096

AMOUNTS = {"acme": 400, "bolt": 300, "cora": 200, "dune": 100}

# The events of the demo, and their times.
PAUSES, RETURNS, AMENDED = 4.5, 8.0, 11.0
PAUSING, CHANGING, NEW_AMOUNT = "bolt", "dune", 600

# How long the program may take to be built and to begin, in seconds.
BUILDING = 600
BAR = 24


class Tenants:
    """The tenants: each sends packets as fast as they are taken, unless it pauses."""

    def __init__(self, run, gateway):
        self.amounts = dict(AMOUNTS)
        self.sending = {name: threading.Event() for name in AMOUNTS}
        self.is_over = False
        self.threads = [run.thread(self.send, gateway, name) for name in AMOUNTS]
        for event in self.sending.values():
            event.set()

    def send(self, gateway, name):
        data = record(name, packet(0, SIZE))
        with gateway.connect(name) as connection:
            connection.setsockopt(socket.SOL_SOCKET, socket.SO_SNDBUF, SENT_AHEAD)
            connection.settimeout(None)
            while not self.is_over:
                self.sending[name].wait()
                connection.sendall(data)
            connection.shutdown(socket.SHUT_WR)
            connection.recv(1)

    def finish(self):
        self.is_over = True
        for event in self.sending.values():
            event.set()
        for thread in self.threads:
            thread.finish()

    def share(self, name):
        """The share of a tenant's tickets among those that send."""
        amounts = {name: amount for name, amount in self.amounts.items() if self.sending[name].is_set()}
        return amounts.get(name, 0) / sum(amounts.values())


class Table:
    """The display: on a terminal one table that changes, otherwise one a second."""

    def __init__(self):
        self.is_terminal = sys.stdout.isatty()
        self.shown = 0
        self.samples = []

    def show(self, seconds, tenants, far, event):
        self.samples.append((seconds, dict(far.bytes)))
        while len(self.samples) > 2 and self.samples[1][0] <= seconds - WINDOW:
            self.samples.pop(0)
        if not self.is_terminal and seconds < self.shown + 1:
            return
        first, last = self.samples[0][1], self.samples[-1][1]
        came = {name: last.get(flow, 0) - first.get(flow, 0) for flow, name in enumerate(AMOUNTS, 1)}
        lines = [f"{seconds:5.1f} s   {event:<44}", "tenant  tickets  tickets' share  share at the far end"]
        for name, size in came.items():
            share = size / max(1, sum(came.values()))
            bar = "#" * round(share * BAR)
            lines.append(f"{name:<7} {tenants.amounts[name]:7}  {tenants.share(name):14.3f}  {share:20.3f}  "
                         f"{bar:<{BAR}}")
        if self.is_terminal and self.shown:
            print(f"\033[{len(lines)}A", end="")
        print("\n".join(lines), flush=True)
        self.shown = seconds


def play(gateway, tenants, far):
    """Shows the table for as long as the demo lasts."""
    table, start, event = Table(), time.monotonic(), "four tenants send as fast as they can"
    events = [(PAUSES, f"{PAUSING} pauses", tenants.sending[PAUSING].clear),
              (RETURNS, f"{PAUSING} comes back", tenants.sending[PAUSING].set),
              (AMENDED, f"the grant of {CHANGING} is amended to {NEW_AMOUNT}", lambda: amend(gateway, tenants))]
    while time.monotonic() < start + SECONDS:
        seconds = time.monotonic() - start
        while events and events[0][0] <= seconds:
            _, event, change = events.pop(0)
            change()
        table.show(seconds, tenants, far, event)
        time.sleep(STEP)


def amend(gateway, tenants):
    gateway.control.expect(f"amend {CHANGING} 1 {NEW_AMOUNT}", "ok")
    tenants.amounts[CHANGING] = NEW_AMOUNT


def bill(gateway):
    """The bill of the books: by bin/stridelink if it is there, and otherwise by the plain model of bill.py."""
    if os.path.exists(PROGRAM):
        return gateway.bill()
    books = []
    for name in gateway.books():
        with open(os.path.join(gateway.folder, name), "rb") as text:
            books.append(read_book(text.read())[0])
    return {name: values_of(tally) for name, tally in bill_of(books).items()}


def print_row(name, billed, came):
    parts = [" ".join(f"{value:>12}" for value in values) for values in (billed, came)]
    print(f"{name:<7}  " + "   ".join(parts))


def print_bill(found, far):
    """Prints the bill beside what came, and wants that both are the same."""
    print(f"\n{'':<7}  {'the bill of the books':^51}   {'the far end counted':^25}")
    print_row("tenant", COLUMNS, COLUMNS[:2])
    for flow, name in enumerate(AMOUNTS, 1):
        came = (far.counts[flow], far.bytes[flow])
        print_row(name, found[name], came)
        expect(found[name][:2] == came, f"the bill of {name} is not what came")
    print("They are the same.")


def command(file):
    """The program that runs the gateway, and its folder."""
    if os.path.exists(GATEWAY):
        return [GATEWAY, *WORDS, file], TOP
    print("building the gateway, with nothing proved: a minute or two", flush=True)
    return ["rt", "try", "--", *WORDS, file], os.path.join(TOP, "crates", "gateway")


def show(run):
    far = run.far_end(keeps=False)
    place = run.folder()
    gateway = run.prepared(far, {name: Tenant([amount], [f"packets = {LIMIT}"], [f"unix:{place}/{name}"])
                                 for name, amount in AMOUNTS.items()}, place, uplink_lines=[f'rate = "{RATE}"'])
    words, folder = command(gateway.file)
    with open(os.path.join(place, "output"), "wb") as output:
        gateway.launch(words, BUILDING, cwd=folder, stdout=output)
    print(f"a gateway with an uplink of {RATE}, and four tenants that send packets of {SIZE} bytes\n", flush=True)
    tenants = Tenants(run, gateway)
    play(gateway, tenants, far)
    tenants.finish()
    gateway.control.expect("end", "ok")
    gateway.wait()
    far.wait_until_over()
    print_bill(bill(gateway), far)


def main():
    limit_time()
    try:
        with Play() as run:
            show(run)
    except (Failure, FileNotFoundError) as fault:
        sys.exit(f"demo.py: {fault}")
    except KeyboardInterrupt:
        sys.exit(130)


if __name__ == "__main__":
    main()
