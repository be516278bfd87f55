#!/usr/bin/env python3
"""Measures a link behind its lock beside a bare recorder, with its threads beside a plain mutex and queue, and idle.

A packet of 700 bytes that is queued, admitted and sent by the lock, on one thread, stands beside one that comes to a
recorder and is sent: instructions of each by callgrind, whatever else the machine does, and processor time. Two workers
that queue records while the link's worker admits and sends them stand beside the same over the mutex, the bounded
channel and the threads of Rust's standard library (bench/plain). A time is the median of ROUNDS rounds, each the
difference of a run of many packets and one of few; what is measured together takes turns, and a ratio is the median of
the rounds' ratios. At last a link to which nothing comes: the processor time of a second. Nothing is written but a
folder in the system's temporary folder, which is removed.
"""
import os
import tempfile
import time

from bench import ROUNDS, build_crate, build_plain, instructions, median, run

USED = ("share_base", "share_model", "share_ledger", "share_stride", "share_tariff", "share_flows", "share_frame",
        "share_core", "share_report", "share_text", "share_script", "share_journal", "share_ingress", "share_locked")
SOURCES = ("main", "made", "packets", "beside", "idle", "tariffs")
PACKETS = (10_000, 110_000)
COUNTED = (1_000, 11_000)
PATTERN = 90
WORKERS = 2
PATTERNS = (100, 1_100)
SECONDS = (1, 11)


def timed(command):
    """Seconds of processor time and by the clock of one run."""
    start = time.perf_counter()
    spent = run(command, os.devnull, os.devnull)
    return spent.seconds, time.perf_counter() - start


def each(command, few, many, packets):
    """Seconds of a packet: of processor time and by the clock."""
    less, more = (timed([*command, str(rounds)]) for rounds in (few, many))
    return [(more[part] - less[part]) / (many - few) / packets for part in (0, 1)]


def counted(program, kind, folder):
    """Instructions of a packet."""
    few, many = COUNTED
    less, more = (instructions([program, kind, "700", str(rounds)], os.devnull, folder) for rounds in (few, many))
    return (more - less) / (many - few)


def measure_packets(program, folder):
    """A packet by the lock and one by a recorder."""
    held, bare = (counted(program, kind, folder) for kind in ("held", "bare"))
    print("a packet of 700 bytes by the lock: %.0f instructions, by a recorder: %.0f, ratio %.2f"
          % (held, bare, held / bare))
    pairs = [[each([program, kind, "700"], *PACKETS, 1)[0] for kind in ("held", "bare")] for _ in range(ROUNDS)]
    print("a packet of 700 bytes by the lock: %.0f ns of processor time, by a recorder: %.0f ns, ratio %.2f"
          % (*(1e9 * median(pair[part] for pair in pairs) for part in (0, 1)),
             median(held / bare for held, bare in pairs)))


def measure_threads(program, plain, size):
    """Two workers beside the link's, by ours and by plain Rust."""
    pairs = [[each([name, "beside", str(size)], *PATTERNS, PATTERN * WORKERS) for name in (program, plain)]
             for _ in range(ROUNDS)]
    for part, what in enumerate(("of processor time", "by the clock")):
        ours, theirs = (median(pair[name][part] for pair in pairs) for name in (0, 1))
        print("an arrival of %d bytes from two workers: %.0f ns %s, plain: %.0f ns, ratio %.2f"
              % (size, 1e9 * ours, what, 1e9 * theirs, median(pair[0][part] / pair[1][part] for pair in pairs)))


def main():
    with tempfile.TemporaryDirectory() as folder:
        program = build_crate(folder, "locked", SOURCES, USED, ["anyhow"], ["bare", "700", "1"])
        plain = build_plain(folder)
        measure_packets(program, folder)
        for size in (64, 700):
            measure_threads(program, plain, size)
        spent, _ = each([program, "idle", "0"], *SECONDS, 1)
        print("a link to which nothing comes: %.2f %% of a processor" % (100 * spent))


if __name__ == "__main__":
    main()
