#!/usr/bin/env python3
"""Measures a tunnel through two gateways beside one through two plain programs (bench/pump), over an unshaped link.

The plain program has the same reads and writes and no shares. In each of ROUNDS rounds (5) both take turns, and what is
printed are medians; machines are noisy, so the ratios of one run are what to read, which are medians of the rounds'
ratios. Four tenants with TUN devices send by iperf3 from one host to the other for SECONDS seconds (3). The megabits a
second are of IP out of the far devices. The processor time is that of both gateways. A row has the aim beside what was
measured, and one that misses its aim ends no run. The environment names the gateway as for tests/gateway.py, and
`tunnel_speed.py pump` measures the plain program alone. A machine without network namespaces or TUN devices is skipped.
"""
import os
import sys
import time

from bench import median, print_row
from gateway_speed import aimed
from tunneling import (BUSY, Counters, Flood, Uplink, Wire, alone, build, expect, hosts_with, processor_seconds,
                       start_gateways, start_pumps)

ROUNDS = int(os.environ.get("ROUNDS", "5"))
SECONDS = float(os.environ.get("SECONDS", "3"))
WARM = 1.5
UPLINKS = (Uplink("TCP", False), Uplink("UDP", True, 1))

# As fast as the machine. The rate of an uplink over UDP, which needs one, is that of this link.
UNSHAPED = Wire(10000, 1, False)

# The aims: the throughput and the processor time a byte beside the plain program.
LEAST_THROUGHPUT, MOST_TIME = 0.9, 1.2


def measure(subject, uplink, program):
    """Bytes of IP a second, and the processor seconds of both gateways for each."""
    with hosts_with(UNSHAPED) as (hosts, stack):
        start = start_gateways(stack, hosts, uplink) if subject == "gateway" else start_pumps(
            stack, hosts, uplink, program, False)
        processes = list(start)
        counters = Counters(stack, hosts.far)
        floods = [Flood(hosts, tenant) for tenant in BUSY]
        time.sleep(WARM)
        used, begin = sum(map(processor_seconds, processes)), time.monotonic()
        time.sleep(SECONDS)
        spent, end = sum(map(processor_seconds, processes)) - used, time.monotonic()
        time.sleep(0.1)
        for flood in floods:
            flood.client.expect_runs()
        seconds, came = counters.came(begin, end)
        total = sum(came[tenant] for tenant in BUSY)
        expect(total > 0, "no packet comes")
        return total / seconds, spent / total * seconds / (end - begin)


def print_subject(uplink, subject, found):
    """A row: what was measured of a subject, beside the plain program."""
    rates, times = zip(*found[subject])
    beside = [median(ours[part] / plain[part] for ours, plain in zip(found[subject], found["pump"])) for part in (0, 1)]
    texts = [f"{each:.2f}" for each in beside]
    if subject == "gateway":
        texts = [aimed(beside[0], texts[0], LEAST_THROUGHPUT, True), aimed(beside[1], texts[1], MOST_TIME)]
    print_row((uplink.name, subject, f"{median(rates) * 8e-6:.0f}", f"{1e9 * median(times):.2f}", *texts))


def main():
    subjects = sys.argv[1:] or ["gateway", "pump"]
    if not {"pump"} <= set(subjects) <= {"gateway", "pump"}:
        sys.exit("the words are pump, or gateway and pump")
    alone()
    program = build("pump")
    print_row(("uplink", "program", "Mbit/s of IP", "processor s a GB", "throughput beside plain", "time beside plain"))
    print_row(["---"] * 6)
    for uplink in UPLINKS:
        found = {subject: [] for subject in subjects}
        for _ in range(ROUNDS):
            for subject in subjects:
                found[subject].append(measure(subject, uplink, program))
        for subject in subjects:
            print_subject(uplink, subject, found)


if __name__ == "__main__":
    main()
