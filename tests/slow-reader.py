#!/usr/bin/env python3
"""Stops and continues the built program while nobody reads its output. If the output is a socket with a limit of
time, the system interrupts the write that waits: no answer may be lost by that. Ends by itself within a minute."""

import os
import signal
import socket
import struct
import subprocess
import sys
import tempfile
import time

LINES = 200000
ROUNDS = 5
PROGRAM = os.path.join(os.path.dirname(os.path.abspath(__file__)), "..", "bin", "stridelink")


def comes_to(link, state):
    """Waits until the program is in a state (S asleep, T stopped) and stays in it for a while, or has ended."""
    seen = 0
    while seen < 5 and link.poll() is None:
        with open(f"/proc/{link.pid}/stat") as stat:
            seen = seen + 1 if stat.read().rsplit(")", 1)[1].split()[0] == state else 0
        time.sleep(0.02)
    return seen == 5


def main():
    signal.alarm(60)
    ours, theirs = socket.socketpair()
    theirs.setsockopt(socket.SOL_SOCKET, socket.SO_SNDTIMEO, struct.pack("ll", 50, 0))
    with tempfile.TemporaryFile() as script:
        script.write(b"torn\n" * LINES)
        script.seek(0)
        link = subprocess.Popen([PROGRAM, "run"], stdin=script, stdout=theirs, stderr=subprocess.PIPE)
    theirs.close()
    rounds = 0
    while rounds < ROUNDS and comes_to(link, "S"):
        link.send_signal(signal.SIGSTOP)
        if comes_to(link, "T"):
            rounds += 1
        link.send_signal(signal.SIGCONT)
    heard = b"".join(iter(lambda: ours.recv(65536), b""))
    said = link.stderr.read()
    status = link.wait()
    if heard != b"idle\n" * LINES + b"out -\n" or said or status != 0 or rounds < ROUNDS:
        told = f"stopped {rounds} times, heard {len(heard)} bytes, status {status}, {said!r}"
        print(f"slow reader: {told}", file=sys.stderr)
        return 1
    return 0


sys.exit(main())
