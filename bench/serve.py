#!/usr/bin/env python3
"""Measures the server of bin/stridelink-link beside that of the plain Rust program (bench/plain), over loopback.

`serve.py speed`, with two connections, `serve.py eight`, with eight, `serve.py replies` and `serve.py memory` are the
parts; without a word all are run. In each of ROUNDS rounds (7 unless set) the programs take turns, and what is printed
are medians; machines are noisy, so the ratios of one run are what to read, which are medians of the rounds' ratios.
Processor time is that of the server's threads while the load lasts, without its start and its audit. PACKETS is how
many packets a run of these two has (60000), of 64 bytes three times as many; MEMORY_PACKETS those of `memory`
(1000000). If bin/stridelink-link has no `serve`, the plain program is measured alone. The only folder that is written is
in the system's temporary folder, and is removed.
"""
import multiprocessing
import os
import resource
import socket
import statistics
import subprocess
import sys
import tempfile
import threading
import time
from dataclasses import dataclass

from bench import MEBIBYTE, LINK, TOP, build_plain, median, print_row

sys.dont_write_bytecode = True
sys.path.insert(0, os.path.join(TOP, "tests"))
from serving import HEADER, LOOPBACK, SERVED, Server, connected, record  # noqa: E402

ROUNDS = int(os.environ.get("ROUNDS", "7"))
PACKETS = int(os.environ.get("PACKETS", "60000"))
MEMORY_PACKETS = int(os.environ.get("MEMORY_PACKETS", "1000000"))
SIZES = (700, 64)
SIZES_OF_EIGHT = (1490, 700, 64)
FLOWS = "abcdefgh"

# A client sends that many records at once. Of all that were sent in a paced load, that many frames at most are not yet
# there: fewer than a buffer holds, so none is refused.
STEP = 64
WINDOW = 896
LIMIT = 1024

ASKED = 2000
LIFE = 1 << 23
QUIET = 0.2
MICROSECONDS = 1e6


@dataclass
class Speed:
    """Frames that came, the seconds until the last came, and the processor seconds that they took."""
    frames: int
    seconds: float
    processor: float

    def rate(self):
        return self.frames / self.seconds

    def cost(self):
        return self.processor / self.frames * MICROSECONDS


class Link:
    """A server with some funded flows of LIMIT packets, a control connection, an ingress connection for each flow, and
    the uplink's peer."""

    def __init__(self, program, size, flows=FLOWS[:2], life=LIFE):
        self.size = HEADER[SERVED] + size
        self.folder = tempfile.TemporaryDirectory()
        self.listener = listen()
        self.server = Server(self.folder.name, "%s:%d" % self.listener.getsockname(), workers=len(flows), life=life,
                             audit="/dev/null", program=program).listens()
        self.peer = self.listener.accept()[0]
        self.control = connected((LOOPBACK, int(self.server.ports["control"])))
        for number, name in enumerate(flows, 1):
            for line in ("open %s %d 1" % (name, LIMIT), "mktkt 1 base", "fund %d flow %s" % (number, name)):
                self.ask(line)
        self.clients = [self.server.ingress() for _ in flows]
        self.steps = [record(name, b"x" * size) * STEP for name in flows]

    def ask(self, line):
        """Asks one line, and waits for its reply."""
        self.control.sendall(line.encode() + b"\n")
        reply = self.control.recv(4096)
        if not reply.endswith(b"\n"):
            sys.exit("the reply to '%s' is no line" % line)

    def pace(self, count):
        """Sends at least that many packets, and no more at once than the flows hold: how many frames came."""
        buffer = bytearray(1 << 20)
        sent, got, end = 0, 0, -(-count // STEP) * STEP
        while got < end * self.size:
            while sent < end and sent + STEP - got // self.size <= WINDOW:
                turn = sent // STEP % len(self.clients)
                self.clients[turn].sendall(self.steps[turn])
                sent += STEP
            got += self.peer.recv_into(buffer)
        return end

    def flood(self, count):
        """Sends that many packets as fast as they are taken: how many frames came, and when the last did."""
        threads = [threading.Thread(target=self.send, args=(client, step, count // len(self.clients) // STEP),
                                    daemon=True)
                   for client, step in zip(self.clients, self.steps)]
        for thread in threads:
            thread.start()
        buffer = bytearray(1 << 20)
        self.peer.settimeout(QUIET)
        got, last = 0, time.perf_counter()
        while True:
            try:
                got += self.peer.recv_into(buffer)
                last = time.perf_counter()
            except TimeoutError:
                if not any(thread.is_alive() for thread in threads):
                    return got // self.size, last

    def send(self, client, step, times):
        for _ in range(times):
            client.sendall(step)

    def close(self):
        """Ends all connections and waits for the server, which has to end well."""
        for client in (*self.clients, self.control):
            client.close()
        self.peer.settimeout(None)
        while self.peer.recv(1 << 20):
            pass
        self.peer.close()
        self.listener.close()
        status = self.server.wait(600)
        told = self.server.text("stderr").splitlines()[-1:]
        self.folder.cleanup()
        if status != 0:
            sys.exit("a server ends with status %d: %s" % (status, told))

    def peak(self):
        """The most memory that the server has held, in bytes."""
        with open("/proc/%d/status" % self.server.process.pid) as source:
            return next(int(line.split()[1]) * 1024 for line in source if line.startswith("VmHWM"))


def listen():
    listener = socket.socket()
    listener.bind((LOOPBACK, 0))
    listener.listen(1)
    return listener


def paced(program, size, count, flows):
    """A run of a load of which nothing is refused."""
    link = Link(program, size, flows)
    used, start = link.server.processor_seconds(), time.perf_counter()
    frames = link.pace(count)
    speed = Speed(frames, time.perf_counter() - start, link.server.processor_seconds() - used)
    link.close()
    return speed


def flooded(program, size, count, flows):
    """A run of a flood on each connection, most of which is refused."""
    link = Link(program, size, flows)
    used, start = link.server.processor_seconds(), time.perf_counter()
    frames, last = link.flood(count)
    speed = Speed(frames, last - start, link.server.processor_seconds() - used)
    link.close()
    return speed


def bare(program, size, count):
    """The same frames from a loop that does nothing but write them."""
    with listen() as listener:
        before = resource.getrusage(resource.RUSAGE_CHILDREN)
        start = time.perf_counter()
        child = subprocess.Popen([program, "%s:%d" % listener.getsockname(), str(count), str(HEADER[SERVED] + size)])
        peer = listener.accept()[0]
        buffer = bytearray(1 << 20)
        while peer.recv_into(buffer):
            pass
        seconds = time.perf_counter() - start
        peer.close()
        child.wait()
        after = resource.getrusage(resource.RUSAGE_CHILDREN)
    return Speed(count, seconds, after.ru_utime + after.ru_stime - before.ru_utime - before.ru_stime)


HEADINGS = ("load", "program", "frames/s", "MB/s", "us a frame", "frames beside bare", "frames beside plain",
            "time beside plain", "packets a frame")


def measure_speed(programs, folder):
    """Prints frames and bytes a second, and processor time a frame, with two connections."""
    measure_load(programs, folder, SIZES, FLOWS[:2])


def measure_eight(programs, folder):
    """The same with eight connections, each for a flow of its own."""
    measure_load(programs, folder, SIZES_OF_EIGHT, FLOWS)


def measure_load(programs, folder, sizes, flows):
    limit = build_bare(folder)
    print_row(HEADINGS)
    print_row(["---"] * len(HEADINGS))
    for name, load in (("paced", paced), ("floods", flooded)):
        for size in sizes:
            count = 3 * PACKETS if size == min(sizes) else PACKETS
            found = {program: [] for program in [*programs, "bare"]}
            for _ in range(ROUNDS):
                for program, path in programs.items():
                    found[program].append(load(path, size, count, flows))
                found["bare"].append(bare(limit, size, count))
            for program, rounds in found.items():
                print_row(speed_row("%s of %d bytes" % (name, size), program, size, count, rounds, found))


def speed_row(load, program, size, count, rounds, found):
    """What is printed of one program under one load."""
    def beside(other, ratio):
        return "%.2f" % median(map(ratio, rounds, found[other])) if program not in (other, "bare") else ""

    rate = median(speed.rate() for speed in rounds)
    frames = median(speed.frames for speed in rounds)
    return (load, program, "%.0f" % rate, "%.1f" % (rate * (HEADER[SERVED] + size) / 1e6),
            "%.2f" % median(speed.cost() for speed in rounds),
            beside("bare", lambda ours, theirs: ours.rate() / theirs.rate()),
            beside("plain", lambda ours, theirs: ours.rate() / theirs.rate()),
            beside("plain", lambda ours, theirs: ours.cost() / theirs.cost()),
            "%.1f" % (count / frames) if program != "bare" else "")


def build_bare(folder):
    """Builds the loop that does nothing but write."""
    program = os.path.join(folder, "bare")
    source = os.path.join(TOP, "bench", "bare.rs")
    subprocess.run(["rustc", "--edition", "2024", "-O", "-o", program, source], check=True)
    return program


def asked(link):
    """The microseconds from each of ASKED lines to its reply: the median, and what 99 of 100 keep below."""
    times = []
    for _ in range(ASKED):
        start = time.perf_counter()
        link.ask("unfund 4096")
        times.append((time.perf_counter() - start) * MICROSECONDS)
    return statistics.median(times), statistics.quantiles(times, n=100)[98]


def idle_replies(program):
    link = Link(program, 700)
    found = asked(link)
    link.close()
    return found


def loaded_replies(program, is_paced):
    """Replies while another process sends packets and reads frames without an end."""
    link = Link(program, 700)
    loading = multiprocessing.get_context("fork").Process(
        target=link.pace if is_paced else link.flood, args=(1 << 40,), daemon=True)
    loading.start()
    time.sleep(0.1)
    found = asked(link)
    loading.terminate()
    loading.join()
    link.close()
    return found


REPLIES = {
    "idle": idle_replies,
    "paced packets of 700 bytes": lambda program: loaded_replies(program, True),
    "floods of 700 bytes": lambda program: loaded_replies(program, False),
}


def measure_replies(programs, _):
    """Prints the time from a control line to its reply."""
    print_row(("link", "program", "us to a reply, median", "99 of 100", "median beside plain"))
    print_row(["---"] * 5)
    for load, replies in REPLIES.items():
        found = {program: [] for program in programs}
        for _ in range(ROUNDS):
            for program, path in programs.items():
                found[program].append(replies(path))
        for program, rounds in found.items():
            ratio = median(ours / theirs for (ours, _), (theirs, _) in zip(rounds, found["plain"]))
            print_row((load, program, *("%.1f" % median(times[part] for times in rounds) for part in (0, 1)),
                       "" if program == "plain" else "%.2f" % ratio))


def measure_memory(programs, _):
    """Prints the peak of memory over many packets, of each of which the audit keeps a copy."""
    print_row(("packets", "payload", "program", "peak, MiB", "bytes a packet"))
    print_row(["---"] * 5)
    for size in SIZES:
        for program, path in programs.items():
            link = Link(path, size)
            before = link.peak()
            frames = link.pace(MEMORY_PACKETS)
            peak = link.peak()
            link.close()
            print_row((str(frames), str(size), program, "%.1f" % (peak / MEBIBYTE),
                       "%.0f" % ((peak - before) / frames)))


def has_serve(program):
    """Whether a program is there and knows `serve`."""
    if not os.path.exists(program):
        return False
    done = subprocess.run([program, "serve", "--help"], stdout=subprocess.DEVNULL, stderr=subprocess.DEVNULL)
    return done.returncode == 0


def main():
    parts = {"speed": measure_speed, "eight": measure_eight, "replies": measure_replies, "memory": measure_memory}
    words = sys.argv[1:] or list(parts)
    if not set(words) <= set(parts):
        sys.exit("the words are " + ", ".join(parts))
    with tempfile.TemporaryDirectory() as folder:
        programs = {"stridelink": LINK} if has_serve(LINK) else {}
        if not programs:
            print("bin/stridelink-link has no serve: the plain program is measured alone", file=sys.stderr)
        programs["plain"] = build_plain(folder)
        for word in words:
            parts[word](programs, folder)


if __name__ == "__main__":
    main()
