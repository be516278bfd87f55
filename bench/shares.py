#!/usr/bin/env python3
"""Measures at the far end of the uplink what share of it each tenant gets, in a table of loads, at default settings.

`shares.py loads`, `shaped`, `changes`, `lone` and `spent` are the parts; without a word all are run. The program is
bin/stridelink, or that of the variable STRIDELINK. Each row says by how much a share was off at most, in the windows of
tests/measured.py, and which shares that window had. A share that is off by more than 0.01 ends the program with
status 1, once all rows are printed.

*loads.* Four tenants with 400:300:200:100 tickets flood the server. The rate of the far end, the limit of the flows, the
connections, the lengths and the tariffs vary; SECONDS is how long each load lasts (8).
*shaped.* The far end stands in a network namespace, behind a link that `tc` shapes. It needs permission to make one.
*changes.* Flows of a currency go and come, a flow is held and resumed, a ticket is amended; each beside busy loops too.
*lone.* Packets come one by one at random pauses, in LINKS servers at once (12) for MINUTES minutes (5): the product is
how long a link was waited for. Each packet is wanted within half a minute: a wake-up that is lost lasts for ever.
*spent.* RUNS servers (100) spend their lives while clients wait to send. Each has to end within a second and five times
what a plain program takes that writes as much.
"""
import contextlib
import itertools
import os
import random
import statistics
import subprocess
import sys
import threading
import time

sys.dont_write_bytecode = True
TOP = os.path.dirname(os.path.dirname(os.path.abspath(__file__)))
sys.path.insert(0, os.path.join(TOP, "tests"))
from measured import (MOST_ERROR, Load, check_changes, check_currency, flooded, worst_window)  # noqa: E402
from serve import spent_life_blocked  # noqa: E402
from serving import Failure, Run, Task, expect, record  # noqa: E402

SECONDS = float(os.environ.get("SECONDS", "8"))
LINKS = int(os.environ.get("LINKS", "12"))
MINUTES = float(os.environ.get("MINUTES", "5"))
RUNS = int(os.environ.get("RUNS", "100"))

RATES = (("0.3 MB/s", 3e5), ("2.5 MB/s", 2.5e6), ("25 MB/s", 2.5e7), ("loopback", 0))
LIMITS = (1, 8, 64, 1024)
CONNECTIONS = (("four connections", ("a", "b", "c", "d")), ("two connections", ("ac", "bd")),
               ("one connection", ("abcd",)), ("eight connections", ("a", "b", "c", "d") * 2))
KINDS = (("equal", ("700",) * 4, (1, 1, 1, 1)), ("unequal", ("64,1400", "700", "64", "1490"), (1, 1, 1, 1)),
         ("four tariffs", ("700",) * 4, (1, 2, 3, 4)),
         ("four tariffs, unequal", ("64,1400", "700,9000", "300", "1490,8"), (1, 2, 3, 4)))
SHAPED = (2, 20, 200)

# How many bytes a shaped link lets through at once, and the addresses of its two ends.
BURST = 16384
NEAR, FAR = "10.213.77.1", "10.213.77.2"

# A lone packet comes after at most that many seconds, and its frame is wanted within that many.
PAUSE = 0.02
PROMPT = 30.0
PAYLOAD = 64
FRAME = 17 + PAYLOAD

FAILED = []


def row(name, error, shares=None, more=""):
    """Prints a row, and remembers a share that is off too much."""
    text = " ".join("%.4f" % share for share in shares.values()) if shares else ""
    print("| %-58s | %.4f | %s | %s |" % (name, error, text, more), flush=True)
    if error > MOST_ERROR:
        FAILED.append(name)


def measure(load, **where):
    """A row of a load."""
    with Run() as run:
        floods = flooded(run, load, **where)
        used, start = floods.server.processor_seconds(), time.perf_counter()
        floods.begin()
        floods.far.wait(load.seconds)
        share = (floods.server.processor_seconds() - used) / (time.perf_counter() - start)
        row(load.name, *worst_window(list(floods.far.samples), load.wanted()), "%.0f %% of a core" % (100 * share))


def in_pairs(loads, is_slow, measure):
    """Measures loads two at a time if their far ends are slow, since these leave the machine idle."""
    slow = [load for load in loads if is_slow(load)]
    for pair in itertools.zip_longest(slow[::2], slow[1::2]):
        tasks = [Task(measure, (load,)) for load in pair if load]
        for task in tasks:
            task.start()
        for task in tasks:
            task.finish(600)
    for load in loads:
        if load not in slow:
            measure(load)


def measure_loads():
    loads = []
    for (speed, rate), limit, (how, connections) in itertools.product(RATES, LIMITS, CONNECTIONS):
        name = "%s, a limit of %d, %s" % (speed, limit, how)
        loads.append(Load(name, rate, limit=limit, connections=connections, seconds=SECONDS))
    for (speed, rate), (kind, lengths, tariffs) in itertools.product(RATES, KINDS[1:]):
        loads.append(Load("%s, %s" % (speed, kind), rate, lengths=lengths, tariffs=tariffs, seconds=SECONDS))
    for speed, rate in RATES:
        loads.append(Load("%s, beside three busy loops" % speed, rate, busy=3, seconds=SECONDS))
    in_pairs(loads, lambda load: 0 < load.rate < 1e7, measure)


@contextlib.contextmanager
def shaped(megabits):
    """A network namespace behind a link of that many megabits a second: the words that start a program in it."""
    name, near, far = "stridelink%d" % os.getpid(), "sln%d" % os.getpid(), "slf%d" % os.getpid()
    inside = ("ip", "netns", "exec", name)

    def do(*words):
        subprocess.run(words, check=True, stderr=subprocess.DEVNULL)

    do("ip", "netns", "add", name)
    try:
        do("ip", "link", "add", near, "type", "veth", "peer", "name", far, "netns", name)
        do("ip", "address", "add", NEAR + "/30", "dev", near)
        do("ip", "link", "set", near, "up")
        do(*inside, "ip", "address", "add", FAR + "/30", "dev", far)
        do(*inside, "ip", "link", "set", far, "up")
        do("tc", "qdisc", "add", "dev", near, "root", "tbf", "rate", "%dmbit" % megabits, "burst", str(BURST),
           "latency", "100ms")
        yield inside
    finally:
        for words in (("ip", "link", "del", near), ("ip", "netns", "del", name)):
            subprocess.run(words, check=False, stderr=subprocess.DEVNULL)


def may_shape():
    """Whether namespaces and shaped links can be made."""
    try:
        with shaped(SHAPED[0]):
            return True
    except (OSError, subprocess.CalledProcessError):
        return False


def measure_shaped():
    if not may_shape():
        print("skipped: no leave to make a network namespace with a shaped link")
        return
    for megabits, (kind, lengths, tariffs) in itertools.product(SHAPED, KINDS):
        with shaped(megabits) as prefix:
            load = Load("tc %d Mbit/s, %s" % (megabits, kind), lengths=lengths, tariffs=tariffs, seconds=SECONDS)
            measure(load, listen=FAR + ":0", prefix=prefix)


def measure_changes():
    for check in (check_currency, check_changes):
        for rate in (2.5e7, 0):
            with Run() as run:
                row("%s, %s" % (check.__name__, "25 MB/s" if rate else "loopback"), check(run, rate))


class Lone(threading.Thread):
    """Sends packets one by one to a server, and waits for the frame of each."""

    def __init__(self, number, until):
        super().__init__(daemon=True)
        self.draw = random.Random(number)
        self.until = until
        self.seconds = []
        self.fault = None

    def run(self):
        try:
            with Run() as run:
                self.send(run)
        except Exception as fault:
            self.fault = fault

    def send(self, run):
        peer = run.peer()
        server = run.server(peer, life=1 << 24, audit=os.devnull)
        control = server.control()
        control.fund()
        connection = server.ingress()
        while time.monotonic() < self.until:
            count = self.draw.choice((1, 1, 1, 3))
            time.sleep(self.draw.uniform(0, PAUSE))
            wanted, start = len(peer.got) + count * FRAME, time.perf_counter()
            connection.sendall(record("a", b"x" * PAYLOAD) * count)
            while len(peer.got) < wanted:
                expect(time.perf_counter() - start < PROMPT, "a packet that comes alone is not sent")
                time.sleep(0.0001)
            self.seconds.append(time.perf_counter() - start)
            del peer.got[:]


def measure_lone():
    until = time.monotonic() + 60 * MINUTES
    links = [Lone(number, until) for number in range(LINKS)]
    for link in links:
        link.start()
    for link in links:
        link.join()
        if link.fault:
            raise link.fault
    seconds = [one for link in links for one in link.seconds]
    print("lone packets: %d in %.1f minutes of links, %.0f us at the median" % (
        len(seconds), LINKS * MINUTES, 1e6 * statistics.median(seconds)))


def measure_spent():
    for number in range(RUNS):
        with Run() as run:
            spent_life_blocked(run)
        print("\rspent lives: %d" % (number + 1), end="", flush=True)
    print(" ended in time")


def main():
    parts = {"loads": measure_loads, "shaped": measure_shaped, "changes": measure_changes, "lone": measure_lone,
             "spent": measure_spent}
    words = sys.argv[1:] or list(parts)
    if not set(words) <= set(parts):
        sys.exit("the words are " + ", ".join(parts))
    for word in words:
        try:
            parts[word]()
        except (Failure, OSError) as fault:
            sys.exit("%s: %s" % (word, fault))
    if FAILED:
        sys.exit("shares are off: " + "; ".join(FAILED))


if __name__ == "__main__":
    main()
