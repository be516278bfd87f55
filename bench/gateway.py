#!/usr/bin/env python3
"""Measures the core of a gateway: a book beside the engine alone, records beside a copy, and bills of long texts.

`gateway.py` prints processor time, user and system, of a packet that is taken and sent, and its instructions (by
valgrind); the time of a byte of records and of a byte that is copied; and the time and the memory of `stridelink bill`
for a text of 2^24 events, and its memory for one that fills all buffers. A time is the median of ROUNDS rounds in which
the programs take turns, each the difference of a run of many rounds and one of few. Nothing is written but a folder in
the system's temporary folder, which is removed.
"""
import os
import re
import subprocess
import tempfile
import time

from bench import PROGRAM, ROUNDS, build_crate, median, run

USED = ("share_base", "share_model", "share_ledger", "share_stride", "share_tariff", "share_flows", "share_frame",
        "share_core", "share_report", "share_text", "share_script", "share_journal", "share_ingress", "share_gateway", "share_book")
SOURCES = ("main", "books", "streams")
FEW, MANY = 10_000, 210_000
COUNTED = 20_000
STREAMS = 2_000
RECORDS = 1000
NANOSECONDS = 1e9
EVENTS = 1 << 24
TENANTS, LIMIT = 64, 1024


def seconds(program, kind, size, rounds):
    """Processor seconds of one run."""
    return run([program, kind, str(size), str(rounds)], os.devnull, os.devnull).seconds


def instructions(program, kind, size, rounds, folder):
    """Instructions of one run."""
    found = os.path.join(folder, "callgrind.out")
    subprocess.run(["valgrind", "--tool=callgrind", "--callgrind-out-file=" + found, program, kind, str(size),
                    str(rounds)], check=True, stdout=subprocess.DEVNULL, stderr=subprocess.DEVNULL)
    with open(found, encoding="utf-8") as source:
        return int(re.search(r"^(?:summary|totals): (\d+)", source.read(), re.MULTILINE)[1])


def per_round(program, kind, size, few, many):
    return (seconds(program, kind, size, many) - seconds(program, kind, size, few)) / (many - few)


def print_books(program, folder):
    for size in (64, 700):
        pairs = [[per_round(program, kind, size, FEW, MANY) for kind in ("book", "link")] for _ in range(ROUNDS)]
        counts = [(instructions(program, kind, size, 2 * COUNTED, folder)
                   - instructions(program, kind, size, COUNTED, folder)) / COUNTED for kind in ("book", "link")]
        print("a packet of %d bytes: book %.0f ns, engine %.0f ns, ratio %.2f; instructions %.0f and %.0f, ratio %.2f"
              % (size, *(median(pair[part] for pair in pairs) * NANOSECONDS for part in (0, 1)),
                 median(ours / bare for ours, bare in pairs), *counts, counts[0] / counts[1]))


def print_records(program):
    for size in (64, 1000):
        pairs = [[per_round(program, kind, size, 1, 1 + STREAMS) / (RECORDS * (size + 4)) for kind in ("records", "copy")]
                 for _ in range(ROUNDS)]
        print("records of %d bytes: %.3f ns a byte, a copy %.3f ns, ratio %.2f"
              % (size, *(median(pair[part] for pair in pairs) * NANOSECONDS for part in (0, 1)),
                 median(ours / copied for ours, copied in pairs)))


def write_text(path, size):
    """A text of lengths of 2^24 events: one tenant, whose packets of `size` bytes are each sent at once."""
    with open(path, "w", encoding="ascii") as sink:
        sink.write("lengths 2\nopen a 4 1\nmktkt 100 base\nfund 1 flow a\n")
        pair = "send a %d\nturn %d\n" % (size, size + 17)
        for _ in range((EVENTS - 4) // 2 // 1024):
            sink.write(pair * 1024)


def write_full_text(path):
    """A text of lengths of 64 tenants whose buffers are all filled with the longest packets, and are then emptied."""
    with open(path, "w", encoding="ascii") as sink:
        sink.write("lengths 2\n")
        for number in range(1, TENANTS + 1):
            sink.write("open t%d %d 1\nmktkt 100 base\nfund %d flow t%d\n" % (number, LIMIT, number, number))
        for number in range(1, TENANTS + 1):
            sink.write("send t%d 9000\n" % number * LIMIT)
        sink.write("turn 9017\n" * (TENANTS * LIMIT))


def peak_memory(command):
    """The most memory of a program in bytes, looked at each 20 ms while it runs. What the system reports of a child
    that has ended counts the memory of its parent."""
    child, most = subprocess.Popen(command, stdout=subprocess.DEVNULL), 0
    while child.poll() is None:
        try:
            with open("/proc/%d/status" % child.pid, encoding="ascii") as source:
                found = re.search(r"^VmHWM:\s+(\d+) kB", source.read(), re.MULTILINE)
        except OSError:
            break
        most = max(most, int(found[1]) * 1024 if found else 0)
        time.sleep(0.02)
    return most


def print_bills(folder):
    path = os.path.join(folder, "book.lengths")
    for size in (64, 9000):
        write_text(path, size)
        spent = run([PROGRAM, "bill", path], os.devnull, os.devnull).seconds
        print("a bill of 2^24 events, packets of %d bytes: %.1f s, %.1f MB"
              % (size, spent, peak_memory([PROGRAM, "bill", path]) / 1e6))
    write_full_text(path)
    print("a bill of %d buffers that are filled with %d packets of 9000 bytes: %.1f MB"
          % (TENANTS, LIMIT, peak_memory([PROGRAM, "bill", path]) / 1e6))


def main():
    with tempfile.TemporaryDirectory() as folder:
        program = build_crate(folder, "gateway", SOURCES, USED, ["anyhow"], ["book", "64", "1"])
        print_books(program, folder)
        print_records(program)
        print_bills(folder)


if __name__ == "__main__":
    main()
