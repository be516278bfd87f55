"""The load of a gateway's benches, by a program of its own: floods of tenants, a far end that counts, and clients that
measure. build_load makes it; gateway_load/main.rs has its words."""
import json
import os
import subprocess
import sys
import threading
import time
from dataclasses import dataclass

from bench import TOP

sys.dont_write_bytecode = True
sys.path.insert(0, os.path.join(TOP, "tests"))
from gatewaying import processor_seconds  # noqa: E402
from serving import PATIENCE, Failure, expect, expect_equal, wait_for  # noqa: E402


def build_load(folder):
    """Builds the program of the load; its path."""
    program = os.path.join(folder, "gateway_load")
    source = os.path.join(TOP, "bench", "gateway_load", "main.rs")
    subprocess.run(["rustc", "--edition", "2024", "-O", "-o", program, source], check=True)
    return program


@dataclass
class Count:
    """What came of a flow: whole frames, their bytes and units, how many packets are missing between others of their
    connection, and how many came twice or too late."""
    frames: int
    bytes: int
    units: int
    missing: int
    again: int


@dataclass
class Times:
    """Microseconds: at the median, what 99 of 100 keep below, and the longest."""
    median: float
    late: float
    longest: float


class Program:
    """A program of the load, its lines on standard input, and the first line that it prints."""

    def __init__(self, words, prefix=()):
        self.process = subprocess.Popen([*prefix, *words], stdin=subprocess.PIPE, stdout=subprocess.PIPE, text=True,
                                        bufsize=1)
        self.first = self.process.stdout.readline().strip()
        if not self.first:
            self.close()
            raise Failure(f"no load: {' '.join(words)}")

    def say(self, line):
        self.process.stdin.write(line + "\n")

    def times(self):
        """The times that it prints."""
        text = self.process.stdout.readline()
        expect(text, "a client that measures fails")
        return Times(*json.loads(text))

    def close(self):
        self.process.kill()
        self.process.wait()
        for pipe in (self.process.stdin, self.process.stdout):
            pipe.close()


class Far(Program):
    """A far end. A sample is the seconds since the first byte, and the units by flow."""

    def __init__(self, program, *words, prefix=()):
        super().__init__([program, "far", *map(str, words)], prefix)
        self.address = self.first
        self.samples = []
        self.pauses = []
        self.counts = {}
        self.connections = 0
        self.over = 0
        self.thread = threading.Thread(target=self.read, daemon=True)
        self.thread.start()

    def read(self):
        for line in self.process.stdout:
            seconds, flows, pause, self.connections, over = json.loads(line)
            self.counts = {int(flow): Count(*count) for flow, count in flows.items()}
            self.over = over
            self.samples.append((seconds, {flow: count.units for flow, count in self.counts.items()}))
            self.pauses.append((seconds, pause))

    def seconds(self):
        """How many seconds it has counted."""
        return self.samples[-1][0] if self.samples else 0.0

    def wait(self, seconds):
        """Waits until it has counted for that many seconds."""
        wait_for(lambda: self.process.poll() is not None or self.seconds() >= seconds, "frames at the far end",
                 4 * seconds + PATIENCE)
        expect(self.process.poll() is None, "the far end ends")

    def wait_until_over(self):
        """Waits until each connection that came is read to its end, which the gateway has ended."""
        wait_for(lambda: 0 < self.connections == self.over, "the end of a connection of the uplink")

    def total(self, part="frames"):
        """How much came of all flows: frames, bytes, missing or again."""
        return sum(getattr(count, part) for count in self.counts.values())

    def expect_in_order(self):
        """Wants that each packet came once, and in the order of its connection."""
        expect_equal((self.total("missing"), self.total("again")), (0, 0), "packets missing, and packets again")

    def close(self):
        self.process.kill()
        self.thread.join()
        super().close()


class Floods(Program):
    """Tenants that flood: for each its address, its name, its lengths, and how many connections it has."""

    def __init__(self, program, tenants, seed=None):
        words = ["/".join(map(str, tenant)) for tenant in tenants]
        super().__init__([program, "floods", *(["--random", str(seed)] if seed else []), *words])

    def finish(self):
        """Ends all connections, once the gateway has taken all: packets and bytes of each tenant."""
        self.say("finish")
        text = self.process.stdout.readline()
        expect(text, "a flood fails")
        return json.loads(text)


class Asks(Program):
    """A control client that asks one line again and again."""

    def __init__(self, program, address, count, line):
        super().__init__([program, "asks", address, str(count), line])

    def run(self):
        """The times from each line to its reply."""
        self.say("go")
        return self.times()


class Pings(Program):
    """A tenant that sends one packet after another, and the far end that they come to."""

    def __init__(self, program, name, length, count):
        super().__init__([program, "pings", name, str(length), str(count)])
        self.address = self.first

    def run(self, address):
        """The times of packets that are sent to a tenant's port."""
        self.say(address)
        return self.times()


def rate_of(far, seconds, *processes):
    """Frames a second at a far end over that many seconds, and the processor seconds of programs for each frame."""
    first, used, start = far.total(), sum(map(processor_seconds, processes)), time.monotonic()
    time.sleep(seconds)
    last, spent, end = far.total(), sum(map(processor_seconds, processes)), time.monotonic()
    expect(last > first, "no frame comes")
    return (last - first) / (end - start), (spent - used) / (last - first)
