#!/usr/bin/env python3
"""Measures the ingress side: records from memory, the queue on one thread beside the ported one, and three threads.

`ingress.py` prints medians of ROUNDS runs, each the difference of a run of many rounds and one of few: the processor
time, user and system, of a record, and for the threads the time by the clock beside it. Offers and pushes take turns in
one run, and their ratio is the median of the rounds' ratios. Nothing is written but a folder in the system's temporary
folder, which is removed.
"""
import os
import tempfile
import time

from bench import ROUNDS, build_crate, median, run

USED = ("share_base", "share_model", "share_ingress")
SOURCES = ("main", "records", "queues", "threads")
RECORDS = 1000
PATTERN = 90
WORKERS = 2
NANOSECONDS = 1e9


def timed(program, kind, size, rounds):
    """Seconds of processor time and by the clock of one run."""
    start = time.perf_counter()
    spent = run([program, kind, str(size), str(rounds)], os.devnull, os.devnull)
    return spent.seconds, time.perf_counter() - start


def per_record(program, kind, size, few, many, records):
    """Nanoseconds of a record: by processor time and by the clock."""
    less, more = (timed(program, kind, size, rounds) for rounds in (few, many))
    return [(more[part] - less[part]) / (many - few) / records * NANOSECONDS for part in (0, 1)]


def main():
    with tempfile.TemporaryDirectory() as folder:
        program = build_crate(folder, "ingress", SOURCES, USED, ["crossbeam_queue", "anyhow"], ["next", "1", "1"])
        for size in (1, 700, 1490, 9000):
            found = [per_record(program, "next", size, 10, 1010, RECORDS) for _ in range(ROUNDS)]
            print("next, a payload of %d bytes: %.0f ns" % (size, median(spent for spent, _ in found)))
        pairs = [[per_record(program, kind, 0, 1000, 1001000, 1)[0] for kind in ("offer", "push")]
                 for _ in range(ROUNDS)]
        print("an offer and a take: %.0f ns, a push and a pop: %.0f ns, ratio %.2f"
              % (*(median(pair[part] for pair in pairs) for part in (0, 1)), median(ours / own for ours, own in pairs)))
        found = [per_record(program, "workers", 700, 100, 5100, PATTERN * WORKERS) for _ in range(ROUNDS)]
        print("two workers and one intake, 700 bytes: %.0f ns of processor time a record, %.0f ns by the clock"
              % tuple(median(times[part] for times in found) for part in (0, 1)))


if __name__ == "__main__":
    main()
