#!/usr/bin/env python3
"""The far end of an uplink: accepts one connection, and counts the units of each flow whose frames arrive.

It prints the address that it listens on. Then it prints a line of JSON every twentieth of a second, and one at the end:
the seconds since the first byte, for each flow its number and its units so far, of the longest pause between two reads
since the line before the time by the system's clock and the seconds, and the time of the first byte by that clock. With
--rate it reads that many bytes a second. It ends with the connection. Bytes that are no frame of version 2 end it with
status 1.
"""
import argparse
import json
import socket
import struct
import sys
import time

HEADER = struct.Struct(">BBBIQH")
MARK = (0x4C, 2)

# The program's tariffs, from 1: cell and overhead.
TARIFFS = ((1, 0), (48, 16), (1024, 0), (2048, 1024))

# How many bytes a read takes at most, and how many seconds pass between two lines.
MOST = 1 << 18
INTERVAL = 0.05

# A far end with a rate reads what came free in one pause, and at most what came free in that many seconds.
PAUSE = 0.004
SAVED = 0.05


def units_of(tariff, length):
    """The units of a frame."""
    cell, overhead = TARIFFS[tariff - 1]
    return overhead + cell * -(-length // cell)


class Counts:
    """The units of each flow, of frames that come in pieces."""

    def __init__(self):
        self.units = {}
        self.rest = b""
        self.known = {}

    def feed(self, data):
        data = self.rest + data
        at, end, units, known = 0, len(data), self.units, self.known
        while end - at >= HEADER.size:
            *mark, tariff, flow, _, payload = HEADER.unpack_from(data, at)
            if tuple(mark) != MARK:
                sys.exit("no frame of version 2")
            length = HEADER.size + payload
            if end - at < length:
                break
            key = (tariff, length)
            if key not in known:
                known[key] = units_of(tariff, length)
            units[flow] = units.get(flow, 0) + known[key]
            at += length
        self.rest = data[at:]


class Allowance:
    """How many bytes may be read, at a rate."""

    def __init__(self, rate):
        self.rate = rate
        self.left = 0.0
        self.seen = time.perf_counter()

    def take(self):
        """How many bytes may be read now, once there are some."""
        while True:
            instant = time.perf_counter()
            self.left = min(self.left + (instant - self.seen) * self.rate, self.rate * SAVED)
            self.seen = instant
            if self.left >= self.rate * PAUSE:
                return int(min(self.left, MOST))
            time.sleep(PAUSE)

    def used(self, count):
        self.left -= count


def count_all(connection, rate):
    """Reads to the end, and prints the counts."""
    counts, allowance = Counts(), Allowance(rate) if rate else None
    start = last = read = None
    pause = (0.0, 0.0)
    while True:
        data = connection.recv(allowance.take() if allowance else MOST)
        instant = time.monotonic()
        start = start or instant
        if read and instant - read > pause[1]:
            pause = (read, instant - read)
        read = instant
        if data:
            counts.feed(data)
            if allowance:
                allowance.used(len(data))
        if not data or instant - (last or start) >= INTERVAL:
            last = instant
            print(json.dumps([instant - start, counts.units, pause, start]), flush=True)
            pause = (0.0, 0.0)
        if not data:
            return


def main():
    parser = argparse.ArgumentParser()
    parser.add_argument("--listen", default="127.0.0.1:0", help="an address and a port")
    parser.add_argument("--rate", type=float, default=0, help="bytes a second; as fast as they come if it is not given")
    words = parser.parse_args()
    host, port = words.listen.rsplit(":", 1)
    with socket.create_server((host, int(port))) as listener:
        print("%s:%d" % listener.getsockname(), flush=True)
        connection = listener.accept()[0]
    with connection:
        count_all(connection, words.rate)


if __name__ == "__main__":
    main()
