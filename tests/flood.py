#!/usr/bin/env python3
"""A tenant that sends records as fast as they are taken.

usage: flood.py ADDRESS FLOW:LENGTH[,LENGTH..] ..

It connects and prints a line. At each line `go SECONDS` on standard input it begins to send, once the system's clock
has that many seconds, so that floods can begin together. At each line `stop` it pauses, and at the end of standard input
it ends. The flows take turns, a record each, and so do the lengths of a flow's payloads.
"""
import itertools
import os
import socket
import struct
import sys
import threading
import time

# About how many bytes go out in one call.
CHUNK = 1 << 16


def record(flow, length):
    return bytes([len(flow)]) + flow.encode() + struct.pack(">H", length) + b"x" * length


def chunk_of(words):
    """Records of these flows and lengths, in turn."""
    flows = []
    for word in words:
        flow, lengths = word.split(":")
        flows.append((flow, [int(length) for length in lengths.split(",")]))
    rounds = max(len(lengths) for _, lengths in flows)
    once = [record(flow, lengths[number % len(lengths)]) for number in range(rounds) for flow, lengths in flows]
    whole = b"".join(once)
    return whole * max(1, CHUNK // len(whole))


def follow(going):
    """Obeys the lines of standard input, and ends the program with them."""
    for line in sys.stdin:
        word, *seconds = line.split()
        if word == "go":
            while time.monotonic() < float(seconds[0]):
                pass
            going.set()
        else:
            going.clear()
    os._exit(0)


def main():
    host, port = sys.argv[1].rsplit(":", 1)
    chunk = chunk_of(sys.argv[2:])
    going = threading.Event()
    with socket.create_connection((host, int(port))) as connection:
        threading.Thread(target=follow, args=(going,), daemon=True).start()
        print("connected", flush=True)
        try:
            for _ in itertools.count():
                going.wait()
                connection.sendall(chunk)
        except OSError:
            pass


if __name__ == "__main__":
    main()
