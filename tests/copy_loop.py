#!/usr/bin/env python3
"""A plain program that copies frames to a far end at a rate: it shows what the machine itself does to a rate, and which
pauses it makes.

usage: copy_loop.py ADDRESS RATE FOLDER

It works as a gateway does. One thread makes frames of flow 1 with payloads of 700 bytes while the rate, in bytes a
second, allows it and an outbox has room; it saves up at most 20 ms of the rate. Another one appends two lines for each
frame to a file of the folder, and the frame is sent after that. At each line of standard input it begins a new file,
and takes over as many packets as wait in four full buffers, with a line for each. A third one syncs the file each
second, and renames it once it is over. The program ends with the connection.
"""
import contextlib
import os
import queue
import select
import socket
import struct
import sys
import threading
import time

PAUSE = 0.001
SAVED = 0.02
SYNC_SECONDS = 1
LENGTH = 700
FRAME = struct.pack(">BBBIQH", 0x4C, 2, 1, 1, 1, LENGTH) + b"x" * LENGTH
LINES = b"send a 700\nturn 717\n"

# How many frames were made and not sent at most, and how many packets wait.
MOST_FRAMES = 79
WAITING = 4 * 256


class Books:
    """The files of a folder, one after the other. A write wakes the loop."""

    def __init__(self, folder):
        self.folder = folder
        self.number = 0
        self.written = 0
        self.is_asked = False
        self.waiting = [bytes(LENGTH)] * WAITING
        self.made, self.over = queue.SimpleQueue(), queue.SimpleQueue()
        self.awake, self.wake = os.pipe()
        self.file = self.begin()
        for work in (self.read, self.write, self.keep):
            threading.Thread(target=work, daemon=True).start()

    def path(self, number, kind="open"):
        return os.path.join(self.folder, f"{number:06}.{kind}")

    def begin(self):
        """The next file."""
        self.number += 1
        return os.open(self.path(self.number), os.O_WRONLY | os.O_CREAT | os.O_EXCL, 0o600)

    def read(self):
        for _ in sys.stdin:
            self.is_asked = True

    def follow(self):
        """Has the next file begun, and takes over the packets that wait."""
        self.is_asked = False
        self.waiting = [bytes(bytearray(packet)) for packet in self.waiting]
        self.made.put((b"".join(b"send a %d\n" % len(packet) for packet in self.waiting), None))

    def write(self):
        """Writes the lines of frames that were made. Text without a count of frames begins the next file."""
        while True:
            text, count = self.made.get()
            if count is None:
                before, self.file = (self.number, self.file), self.begin()
                self.over.put(before)
            os.write(self.file, text)
            self.written += count or 0
            os.write(self.wake, b"x")

    def keep(self):
        """Syncs files, and renames those that are over."""
        folder = os.open(self.folder, os.O_RDONLY)
        while True:
            try:
                number, file = self.over.get(timeout=SYNC_SECONDS)
            except queue.Empty:
                os.fdatasync(self.file)
                continue
            os.fsync(file)
            os.close(file)
            os.rename(self.path(number), self.path(number, "lengths"))
            os.fsync(folder)


def copy(connection, rate, books):
    """Copies frames until the connection ends."""
    left, seen = SAVED * rate, time.monotonic()
    made = sent = 0
    while True:
        if select.select([books.awake], [], [], PAUSE)[0]:
            os.read(books.awake, 4096)
        if books.is_asked:
            books.follow()
        now = time.monotonic()
        left, seen = min(left + (now - seen) * rate, SAVED * rate), now
        count = min(max(0, -int(-left // len(FRAME))), MOST_FRAMES - (made - sent))
        if count:
            books.made.put((LINES * count, count))
            made, left = made + count, left - count * len(FRAME)
        ready = books.written - sent
        connection.sendall(FRAME * ready)
        sent += ready


def main():
    host, port = sys.argv[1].rsplit(":", 1)
    books = Books(sys.argv[3])
    with socket.create_connection((host, int(port))) as connection, contextlib.suppress(OSError):
        connection.setsockopt(socket.IPPROTO_TCP, socket.TCP_NODELAY, 1)
        print("connected", flush=True)
        copy(connection, float(sys.argv[2]), books)


if __name__ == "__main__":
    main()
