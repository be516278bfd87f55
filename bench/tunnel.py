#!/usr/bin/env python3
"""Measures a tunnel between two hosts: what shares of a link four tenants get, and how long an idle one waits.

`tunnel.py gateway`, `htb` and `pump` are the subjects; without a word they are the gateway and htb. A gateway runs on
each host, and its tenants have TUN devices. `htb` is no tunnel, but the same shares as classes of `tc htb` at the near
end of the link. `pump` is a plain program in the place of the gateway (bench/pump), with shares by deficit round robin.
`fifo` is that program without shares. The environment names the gateway as for tests/gateway.py, and SECONDS is how
long shares are measured (20). LINKS are the rates of the links in Mbit/s (20 200); each has 10 ms each way.

Four tenants with 400:300:200:100 tickets send by iperf3 from one host to the other. The cases:

- *equal*: a stream each;
- *eight streams*: the tenant with the fewest tickets has eight;
- *flood*: that tenant sends datagrams at one and a half times the rate of the link;
- *away*: a tenant ends its stream and comes back. Shares are measured three times: before, while it is away, and from a
  second after its first packet.

A row has by how much a share was off at most, of the bytes of IP out of the far devices and of what iperf3 received,
which part of the link was used, and how much longer an echo of a fifth, idle tenant took than over the empty link, at
the median and at the 95th percentile. Shares have to be within 0.002 and 0.01, 0.93 of the link has to be used, and an
echo may take 12 ms longer if the uplink has a rate. A bound that does not hold ends the program with status 1, once all
rows are printed. Rows of htb and of fifo are not judged. A machine without network namespaces or TUN devices is
skipped. All that is made ends with the program, however it ends.

The host of a virtual machine may take its processors for tenths of a second, and then gateways, link and loads stand
still. What waits meanwhile drains by the twentieth of the link that a rate leaves, so a pause of 10 ms is felt for 200.
The last cell has the part of the processors' time that was taken. A case in which a bound does not hold is measured
again if that was more than 0.01, and at most TIMES times (3).
`chrt --rr 20` in front has all programs of the bench run ahead of the others of a busy machine.
"""
import os
import sys
import time
from dataclasses import dataclass, field

from bench import print_row
from tunneling import (BUSY, IDLE, TICKETS, WIRE, Counters, Failure, Flood, Pings, Stolen, Uplink, Wire, alone, build,
                       expect, hosts_with, part_of, start_classes, start_gateways, start_pumps, wait_for)

SECONDS = float(os.environ.get("SECONDS", "20"))
LINKS = [float(rate) for rate in os.environ.get("LINKS", "20 200").split()]
TIMES = int(os.environ.get("TIMES", "3"))
UPLINKS = (Uplink("TCP", False), Uplink("TCP, rate of 92 %", False, 0.92), Uplink("UDP, rate of 95 %", True, 0.95))
CLASSES = Uplink("htb, 95 %", False, 0.95)

# The bounds: of the errors of shares, of the part of the link that is used, and of the wait of an idle tenant in ms.
MOST_IP, MOST_GOODPUT, LEAST_USED, MOST_WAIT = 0.002, 0.01, 0.93, 12

# The part of the processors' time that the host of this machine may take if a bound that does not hold is to count.
MOST_STOLEN = 0.01

# How long streams take to grow, what is left of one that ends is on its way, and one that is back has to get its share.
WARM, DRAINED, BACK = 3, 1, 1
ECHOES = 30
FLOOD = 1.5
LEAVER = "b"
LAST = "d"

# The subjects whose bounds are judged.
JUDGED = ("gateway", "pump")

HEADINGS = ("subject", "link", "uplink", "case", "error of IP", "error of goodput", "of the link", "wait, ms, median",
            "95 of 100", "stolen")

FAILED = []


@dataclass
class Case:
    name: str
    streams: dict = field(default_factory=dict)
    datagrams: str = ""
    leaver: str = ""


CASES = (Case("equal"), Case("eight streams", {LAST: 8}), Case("flood", datagrams=LAST), Case("away", leaver=LEAVER))


class Measured:
    """A tunnel under a case: its floods, and what is measured."""

    def __init__(self, hosts, stack, case):
        self.hosts = hosts
        self.case = case
        self.counters = Counters(stack, hosts.far)
        self.empty = part_of(self.empty_times(), 0.5)
        self.floods = {tenant: self.flood(tenant) for tenant in BUSY}
        self.pings = Pings(hosts, IDLE, 0.1)
        self.phases = []
        self.firsts = {}

    def empty_times(self):
        """The milliseconds of echoes over the empty link."""
        empty = Pings(self.hosts, IDLE, 0.05)
        wait_for(lambda: empty.count() >= ECHOES, "echoes over the empty link")
        empty.stop()
        return empty.times()

    def flood(self, tenant):
        datagrams = FLOOD * 8 * self.hosts.wire.bytes() if tenant == self.case.datagrams else None
        return Flood(self.hosts, tenant, self.case.streams.get(tenant, 1), datagrams)

    def phase(self, seconds, away=""):
        """Waits, and remembers when, and who sends."""
        start = time.monotonic()
        time.sleep(seconds)
        self.phases.append((start, time.monotonic(), [tenant for tenant in BUSY if tenant != away]))

    def run(self):
        time.sleep(WARM)
        if not self.case.leaver:
            self.phase(SECONDS)
        else:
            self.leave(self.case.leaver)
        for flood in self.floods.values():
            flood.client.expect_runs()
            wait_for(lambda one=flood: one.counted_until() >= self.phases[-1][1], "what iperf3 counts")

    def leave(self, tenant):
        self.phase(SECONDS)
        first = self.floods[tenant]
        wait_for(lambda: first.counted_until() >= self.phases[-1][1], "what iperf3 counts")
        first.stop()
        time.sleep(DRAINED)
        self.phase(SECONDS, tenant)
        before = self.arrived(tenant)
        self.floods[tenant] = self.flood(tenant)
        # The connection of iperf3 that carries no data has some hundred bytes.
        while self.arrived(tenant) < before + 5000:
            self.floods[tenant].client.expect_runs()
            time.sleep(0.01)
        time.sleep(BACK)
        self.phase(SECONDS)
        self.firsts = {tenant: first}

    def has_devices(self):
        """Whether tenants have devices of their own."""
        return IDLE in self.counters.samples[-1][1]

    def arrived(self, tenant):
        """How many bytes came to a tenant's device. Without one they are those of its stream."""
        samples = self.floods[tenant].samples()
        return self.counters.samples[-1][1].get(tenant, samples[-1][1] if samples else 0)

    def error(self, came):
        """By how much a share of what came was off at most, in all phases. `came` is of a phase: bytes by tenant."""
        worst = 0.0
        for number, (start, end, tenants) in enumerate(self.phases):
            found = came(number, start, end)
            tickets, total = sum(TICKETS[tenant] for tenant in tenants), sum(found[tenant] for tenant in tenants)
            expect(total > 0, "nothing comes")
            worst = max([worst, *(abs(found[tenant] / total - TICKETS[tenant] / tickets) for tenant in tenants)])
        return worst

    def error_of_devices(self):
        return self.error(lambda number, start, end: self.counters.came(start, end)[1])

    def error_of_goodput(self):
        def came(number, start, end):
            floods = {**self.floods, **(self.firsts if number == 0 else {})}
            tenants = self.phases[number][2]
            return {tenant: floods[tenant].came(start, end) for tenant in tenants}

        return self.error(came)

    def used(self):
        """The least part of the link that was used in a phase."""
        parts = []
        for start, end, _ in self.phases:
            seconds, came = self.counters.came(start, end)
            parts.append(came[WIRE] / seconds / self.hosts.wire.bytes())
        return min(parts)

    def waits(self):
        """How much longer echoes took than over the empty link, at the median and of 95 in 100."""
        times = self.pings.times(self.phases[0][0], self.phases[-1][1])
        return [part_of(times, part) - self.empty for part in (0.5, 0.95)]


def start_subject(subject, hosts, stack, uplink, programs):
    if subject == "htb":
        start_classes(hosts, uplink.part)
    elif subject == "gateway":
        list(start_gateways(stack, hosts, uplink))
    else:
        list(start_pumps(stack, hosts, uplink, programs["pump"], subject == "pump"))


def bounded(text, holds, bound):
    """The text of a value: with its bound if it does not hold."""
    return text if holds else f"{text} (bound {bound:g})"


def row(measured, uplink, is_judged):
    """The cells of a row that are measured. Without a tunnel there are no devices of tenants."""
    goodput, used, (median, late) = measured.error_of_goodput(), measured.used(), measured.waits()
    error = measured.error_of_devices() if measured.has_devices() else 0.0
    texts = [f"{error:.4f}" if measured.has_devices() else "-", f"{goodput:.4f}", f"{used:.3f}", f"{median:.1f}",
             f"{late:.1f}"]
    if not is_judged:
        return texts
    return [bounded(texts[0], error <= MOST_IP, MOST_IP), bounded(texts[1], goodput <= MOST_GOODPUT, MOST_GOODPUT),
            bounded(texts[2], used >= LEAST_USED, LEAST_USED), texts[3],
            bounded(texts[4], not uplink.part or late <= MOST_WAIT, MOST_WAIT)]


def measured_cells(subject, wire, uplink, case, programs):
    """The cells of a row that are measured, or why there are none."""
    try:
        with hosts_with(wire, programs["link"]) as (hosts, stack):
            start_subject(subject, hosts, stack, uplink, programs)
            measured = Measured(hosts, stack, case)
            measured.run()
            return row(measured, uplink, subject in JUDGED)
    except (Failure, OSError) as fault:
        return [f"{fault} (bound)"]


def measure(subject, wire, uplink, case, programs):
    """Prints the row of a case, and another one if a bound does not hold while too much of the time was stolen."""
    name = [subject, f"{wire.megabits:g} Mbit/s", uplink.name, case.name]
    for _ in range(TIMES):
        stolen = Stolen()
        cells = measured_cells(subject, wire, uplink, case, programs)
        part = stolen.part()
        print_row([*name, *cells, f"{part:.4f}"])
        is_missed = any("(bound" in cell for cell in cells)
        if not is_missed or part <= MOST_STOLEN:
            break
    if is_missed:
        FAILED.append(", ".join(name))


def main():
    subjects = sys.argv[1:] or ["gateway", "htb"]
    if not set(subjects) <= {"gateway", "htb", "pump", "fifo"}:
        sys.exit("the words are gateway, htb, pump, fifo")
    alone()
    programs = {name: build(name) for name in ("link", "pump")}
    print_row(HEADINGS)
    print_row(["---"] * len(HEADINGS))
    for rate in LINKS:
        for subject in subjects:
            for uplink in [CLASSES] if subject == "htb" else UPLINKS:
                for case in CASES:
                    measure(subject, Wire(rate), uplink, case, programs)
    if FAILED:
        sys.exit("bounds that do not hold: " + "; ".join(FAILED))


if __name__ == "__main__":
    main()
