#!/usr/bin/env python3
"""Soaks the server of bin/stridelink-link: a long load with all of its connections, and one client beside a hostile one.

`soak.py load` and `soak.py hostile` are the parts; without a word both are run. The program is that of `--program`, or
of the variable PROGRAM, or bin/stridelink-link. Nothing is written but folders in the system's temporary folder, which are
removed: of a million packets about 4 GB. The server, and then the replay of its audit, hold up to 3 GB of memory in
either part. If nothing moves for a minute, the program ends and prints what it waited for.

*load.* PACKETS packets (1000000 unless set) come through eight ingress connections for eight flows. Their lengths are
drawn: one in eight from 1 to 9000 bytes, the others from 1 to 1490. All the while eight clerks open a flow each, fund
it, let other tickets fund it, and close it again, and the peer of the uplink stops reading at times. What is drawn
comes from SEED (the time unless set), which is printed; no seed decides when each comes. The life is computed so: a
packet is one event, and so is the write of its frame; a write that takes a part is one more, of which one for every
four packets are allowed; and the clerks, who keep behind the packets, make one command for each packet at most, and a
few to begin with. That is 3.25 events a packet and 4096, so the longest life has room for five million packets. It is
wanted

- that the server ends with status 0, and has counted the packets and commands that were sent;
- that its audit, run as a script, has an answer for each event, gives the report of the server, and ends with the bytes
  that the peer got;
- that the server's peak of memory keeps below a bound. It is the sum of what the server holds before the first packet,
  an entry of the journal for each event, the audit copy of each payload that is no part of its entry, a receipt of each
  command (twice, since their list grows by doubling), the payloads that may wait in full buffers and a full queue, half
  a MiB for the buffers and the stack of each of sixteen connections; and an eighth more, since copies that are dropped
  leave holes. What an entry, a copy and a receipt take is measured before, on smaller runs: it is what the peak grows
  by with twice as many of them.

Nothing is said of shares: each flow's tickets change many times a second, flows are closed, and buffers run empty, so
no two flows keep their tickets while both have packets for long enough to be compared.

*hostile.* A client sends packets, no more at once than its flow holds, and asks one control line after another, each
when the one before is answered. Beside it another does nothing, or as fast as it can one of these: it sends records for
a flow that does not exist, or for one whose buffer is full; it asks for reports, and reads them; it asks for lines that
are refused. Each lasts FLOOD_SECONDS (4 unless set), or less if four million are sent sooner. What is printed are
medians of ROUNDS rounds (3 unless set), in which they take turns: the first client's frames a second, its time to a
reply, what was taken of the other one in a second, how many events of the life that used up, and how long the longest
life would last by that. No promise of fairness is checked: this measures and prints.
"""
import argparse
import contextlib
import multiprocessing
import os
import random
import re
import select
import socket
import statistics
import struct
import subprocess
import sys
import tempfile
import threading
import time
from dataclasses import dataclass

import bench
from bench import MEBIBYTE, TOP, median, print_row

sys.dont_write_bytecode = True
sys.path.insert(0, os.path.join(TOP, "tests"))
from serving import (HEADER, LONGEST_PAYLOAD, LOOPBACK, SERVED, Failure, Server, Task, expect,  # noqa: E402
                     expect_equal, limit_time, record, total, wait_for)

PROGRAM = os.environ.get("PROGRAM", bench.LINK)
PACKETS = int(os.environ.get("PACKETS", "1000000"))
SEED = int(os.environ.get("SEED", time.time_ns() % 1000000007))
SECONDS = float(os.environ.get("FLOOD_SECONDS", "4"))
ROUNDS = int(os.environ.get("ROUNDS", "3"))

# That many seconds may pass without anything that moves. Bytes that a flood left in the system's buffers, which may
# be tens of MB, take at most that many.
STALL = 60
LEFT = 600

# Limits of the server, and what it adds to a payload for the header. A payload of IN_PLACE bytes or fewer is held in
# its entry.
LONGEST_LIFE = 1 << 24
FLOWS = "abcdefgh"
MOST_PAYLOAD = LONGEST_PAYLOAD[SERVED]
MOST_WAITING = 1024
PLACES = 256
TARIFFS = 4
ADDED = HEADER[SERVED]
IN_PLACE = 16

# The part of the packets that are drawn from all lengths. The others have at most that many bytes.
LONG = 1 / 8
MOST_USUAL = 1490

# A client sends that many records at once. A clerk has that many tickets, closes its flow once in that many steps, and
# may make that many commands before the packets come.
STEP = 64
TICKETS = 4
MOST_AMOUNT = 1000
CLOSING = 16
AHEAD = 256

# An ingress client rests after one in four of these, for that many seconds at most, so that buffers fill and run empty.
RESTING = 1 / 4
REST = 0.05

# The peer reads that many bytes between two pauses, in the mean, and a pause has that many seconds. Few bytes wait on
# the way to it, so that the pauses hold the link up.
BETWEEN_PAUSES = 2 * MEBIBYTE
PAUSE = (0.02, 0.08)
RECEIVING = 1 << 16

# How many packets or commands show what one takes, the margin of the bound, and the room for a connection's buffers.
PROBE = 20000
MARGIN = 1 / 8
ROOM = MEBIBYTE // 2

# The paced client's packets, how many of them may be on their way, and how much a flood may send.
PACED = 700
WINDOW = 896
MOST_FLOOD = 1 << 22
FLOOD_STEP = 512
REFUSED_LINE = b"unfund 4096\n"

MICROSECONDS = 1e6
FORK = multiprocessing.get_context("fork")

COUNTS = re.compile(r"^(\d+) commands, (\d+) arrivals, (\d+) turns$", re.MULTILINE)


class Watch:
    """Raises a failure if nothing has moved for too long."""

    def __init__(self, what):
        self.what = what
        self.seen = None
        self.since = time.monotonic()

    def look(self, seen):
        if seen != self.seen:
            self.seen, self.since = seen, time.monotonic()
        expect(time.monotonic() - self.since < STALL, "nothing moves any more: " + self.what)


def listen():
    """A listener for an uplink whose peer lets few bytes wait on the way."""
    listener = socket.socket()
    listener.setsockopt(socket.SOL_SOCKET, socket.SO_RCVBUF, RECEIVING)
    listener.bind((LOOPBACK, 0))
    listener.listen(1)
    listener.settimeout(STALL)
    return listener


def patient(connection):
    """The connection, each call on which may take a minute."""
    connection.settimeout(STALL)
    return connection


def finish(connection):
    """Says that nothing more is sent, on a connection that may have ended."""
    with contextlib.suppress(OSError):
        connection.shutdown(socket.SHUT_WR)


def peak(server):
    """The most memory that a server has held, in bytes; none if it has ended."""
    return told_by_system(server, "status", "VmHWM:") * 1024


def told_by_system(server, name, key):
    """A number that the system keeps for a process."""
    with contextlib.suppress(OSError):
        with open("/proc/%d/%s" % (server.process.pid, name)) as source:
            return next((int(line.split()[1]) for line in source if line.startswith(key)), 0)
    return 0


def wait_for_end(server, moved=lambda: None, look=lambda: None):
    """Waits until a server has ended, which has to be well. It moves while it writes its audit, or while something else
    does."""
    watch = Watch("a server that has to end")
    while server.process.poll() is None:
        look()
        watch.look((moved(), told_by_system(server, "io", "wchar:")))
        time.sleep(0.02)
    expect_equal(server.process.returncode, 0, "status (told: %s)" % server.text("stderr")[-500:])


class Started:
    """A server with that many connections of either kind, and the peer of its uplink. All of it ends with the stack."""

    def __init__(self, stack, program, ends, life, audit=None):
        self.folder = stack.enter_context(tempfile.TemporaryDirectory())
        listener = stack.enter_context(listen())
        self.server = Server(self.folder, "%s:%d" % listener.getsockname(), workers=ends, clerks=ends, life=life,
                             audit=audit, program=program)
        stack.callback(self.server.close)
        self.server.listens()
        self.peer = patient(stack.enter_context(listener.accept()[0]))
        self.controls = [self.server.control() for _ in range(ends)]
        self.clients = [patient(stack.enter_context(self.server.ingress())) for _ in range(ends)]
        for control in self.controls:
            patient(control.socket)
            stack.callback(control.vanish)
        wait_for(lambda: "ingress %d: connected" % ends in self.server.text("stderr"), "connections", STALL)

    def close(self):
        """Ends all connections of clients, and says that the peer sends nothing."""
        for connection in (*self.clients, *(control.socket for control in self.controls), self.peer):
            finish(connection)


# The parts that are kept.

@dataclass
class Kept:
    """How many bytes an entry of the journal takes, beside it a copy of a payload, payload not counted, and a
    receipt."""
    entry: float
    copy: float
    receipt: float

    def bound(self, before, events, copies, copied, commands):
        """The most that a server may hold that made that many events, of which that many packets were copied, with that
        many bytes together, and that many were commands."""
        waiting = len(FLOWS) * MOST_WAITING + 2 * (PLACES + len(FLOWS))
        held = (before + 2 * len(FLOWS) * ROOM + events * self.entry + copied + copies * self.copy
                + 2 * commands * self.receipt + waiting * (ADDED + MOST_PAYLOAD + self.copy))
        return held * (1 + MARGIN)


class Probe:
    """A server that is given much of one kind, once and once more, and the memory that one of it takes."""

    def __init__(self, stack, program):
        self.started = Started(stack, program, 1, 8 * PROBE, os.devnull)
        self.control = self.started.controls[0]
        self.control.fund()
        self.rounds = 0

    def growth(self, give):
        """The bytes for each of PROBE by which the peak grows in the second round."""
        peaks = []
        for _ in range(2):
            give()
            self.rounds += 1
            self.started.clients[0].sendall(record("a", b"x"))
            wait_for(lambda: total("accepted", self.rounds) in self.control.ask("report")[0], "a packet", STALL)
            peaks.append(peak(self.started.server))
        return (peaks[1] - peaks[0]) / PROBE

    def end(self):
        self.started.close()
        wait_for_end(self.started.server)

    def send(self, lengths):
        """Sends packets of these lengths, which are refused."""
        for at in range(0, len(lengths), STEP):
            self.started.clients[0].sendall(b"".join(record("none", bytes(n)) for n in lengths[at:at + STEP]))

    def ask(self):
        """Asks lines that are refused, some at once."""
        for _ in range(0, PROBE, STEP):
            self.control.send(REFUSED_LINE * STEP)
            for _ in range(STEP):
                self.control.reply()


def drawn_length(draw):
    """How many bytes a packet has."""
    return 1 + int(draw.random() * (MOST_PAYLOAD if draw.random() < LONG else MOST_USUAL))


def measure_kept(program):
    """The bytes of an entry, a copy and a receipt."""
    draw = random.Random("%d probe" % SEED)
    lengths = [max(IN_PLACE + 1, drawn_length(draw)) for _ in range(PROBE)]
    found = []
    for give in (lambda probe: probe.send([1] * PROBE), lambda probe: probe.send(lengths), Probe.ask):
        with contextlib.ExitStack() as stack:
            probe = Probe(stack, program)
            found.append(probe.growth(lambda: give(probe)))
            probe.end()
    entry, copied, asked = found
    return Kept(entry, max(0, copied - entry - sum(lengths) / PROBE - ADDED), max(0, asked - entry))


# A long load.

class SlowPeer(threading.Thread):
    """Reads the uplink to its end into a file, and stops at times."""

    def __init__(self, connection, path):
        super().__init__(daemon=True)
        self.connection = connection
        self.path = path
        self.draw = random.Random("%d peer" % SEED)
        self.got = 0
        self.last = 0
        self.fault = None

    def run(self):
        try:
            with open(self.path, "wb") as sink:
                self.read(sink)
        except Exception as fault:
            self.fault = fault

    def read(self, sink):
        finish(self.connection)
        buffer = memoryview(bytearray(1 << 18))
        pause = 0
        while True:
            count = self.connection.recv_into(buffer)
            if count == 0:
                return
            sink.write(buffer[:count])
            self.got += count
            self.last = time.perf_counter()
            if self.got > pause:
                time.sleep(self.draw.uniform(*PAUSE))
                pause = self.got + self.draw.expovariate(1 / BETWEEN_PAUSES)


class Clerk(threading.Thread):
    """Asks one line after another for a flow of its own until it is stopped, and never gets far ahead of the
    packets."""

    def __init__(self, control, name, packets):
        super().__init__(daemon=True)
        self.control = control
        self.name = name
        self.packets = packets
        self.draw = random.Random("%d clerk %s" % (SEED, name))
        self.ending = threading.Event()
        self.asked = 0
        self.closed = 0
        self.is_open = False
        self.funding = None
        self.fault = None
        self.tickets = [self.made() for _ in range(TICKETS)]
        self.step()
        self.step()

    def run(self):
        try:
            while not self.ending.is_set():
                if self.asked < AHEAD + sum(self.packets) // len(FLOWS):
                    self.step()
                else:
                    time.sleep(0.001)
            finish(self.control.socket)
        except Exception as fault:
            self.fault = fault

    def ask(self, line, *wanted):
        """The reply to a line, which has to begin with one of some words."""
        reply, = self.control.ask(line)
        expect(reply is not None and reply.startswith(wanted), "the reply to '%s' is %s" % (line, reply))
        self.asked += 1
        return reply

    def made(self):
        """A new ticket."""
        return int(self.ask("mktkt %d base" % self.draw.randint(1, MOST_AMOUNT), "ticket ").split()[1])

    def step(self):
        """Opens the flow, funds it by another ticket than the last, unfunds it, or closes it."""
        if not self.is_open:
            self.ask("open %s %d %d" % (self.name, self.draw.randint(1, MOST_WAITING), self.draw.randint(1, TARIFFS)),
                     "flow ")
            self.is_open = True
        elif self.funding is None:
            self.funding = self.tickets.pop(0)
            self.ask("fund %d flow %s" % (self.funding, self.name), "ok")
        elif self.draw.randrange(CLOSING):
            self.ask("unfund %d" % self.funding, "ok")
            self.release()
        elif self.ask("close " + self.name, "closed ", "no 18 Sending").startswith("closed "):
            self.is_open = False
            self.closed += 1
            self.release()

    def release(self):
        """Puts the ticket that funded the flow after the others, or a new one in its place."""
        if self.draw.randrange(TICKETS):
            self.tickets.append(self.funding)
        else:
            self.ask("rmtkt %d" % self.funding, "ok")
            self.tickets.append(self.made())
        self.funding = None


def send_packets(connection, number, count, sent, copies, copied):
    """Sends that many packets of drawn lengths for drawn flows, and returns how many it sent, and how many have a copy
    outside their entries, with how many bytes together."""
    draw = random.Random("%d ingress %d" % (SEED, number))
    noise = draw.randbytes(1 << 16)
    names = [bytes([len(name)]) + name.encode() for name in FLOWS]
    while sent[number] < count:
        some = min(STEP, count - sent[number])
        lengths = [drawn_length(draw) for _ in range(some)]
        parts = []
        for length in lengths:
            at = int(draw.random() * (len(noise) - MOST_PAYLOAD))
            parts += (names[int(draw.random() * len(names))], struct.pack(">H", length), noise[at:at + length])
        connection.sendall(b"".join(parts))
        outside = [ADDED + length for length in lengths if length > IN_PLACE]
        copies[number] += len(outside)
        copied[number] += sum(outside)
        sent[number] += some
        if draw.random() < RESTING:
            time.sleep(draw.uniform(0, REST))
    finish(connection)


class Load:
    """A server under the long load, with all that plays on it."""

    def __init__(self, stack, program):
        self.life = min(LONGEST_LIFE, PACKETS * 13 // 4 + 4096)
        self.started = Started(stack, program, len(FLOWS), self.life)
        self.server = self.started.server
        self.sent, self.copies, self.copied = (FORK.Array("Q", len(FLOWS), lock=False) for _ in range(3))
        self.clerks = [Clerk(control, name, self.sent) for control, name in zip(self.started.controls, FLOWS)]
        self.before = self.peak = peak(self.server)
        self.senders = [FORK.Process(target=send_packets, daemon=True, args=(
                            client, number, PACKETS * (number + 1) // len(FLOWS) - PACKETS * number // len(FLOWS),
                            self.sent, self.copies, self.copied))
                        for number, client in enumerate(self.started.clients)]
        self.peer = SlowPeer(self.started.peer, self.server.path("bytes"))
        self.seconds = 0
        stack.callback(self.stop)

    def run(self):
        """Plays the load until the server has ended."""
        start = time.perf_counter()
        for player in (*self.senders, self.peer, *self.clerks):
            player.start()
        wait_for_end(self.server, self.moved, self.look)
        for player in (*self.senders, self.peer, *self.clerks):
            player.join(STALL)
            expect(not player.is_alive(), "a client does not end")
        self.look()
        self.seconds = self.peer.last - start

    def stop(self):
        """Ends those ingress clients that are at work."""
        for sender in self.senders:
            if sender.is_alive():
                sender.terminate()

    def moved(self):
        return sum(self.sent), self.peer.got, sum(clerk.asked for clerk in self.clerks)

    def look(self):
        """Checks all that plays, and lets the clerks end after the last packet."""
        self.peak = max(self.peak, peak(self.server))
        for player in (self.peer, *self.clerks):
            expect(player.fault is None, "a client fails: %r" % player.fault)
        codes = [sender.exitcode for sender in self.senders]
        expect(not any(codes), "an ingress client fails")
        if None not in codes:
            for clerk in self.clerks:
                clerk.ending.set()

    def counts(self):
        """How many commands, arrivals and turns the server prints, which have to be those of the clients."""
        commands, arrivals, turns = map(int, COUNTS.findall(self.server.text("stderr"))[-1])
        expect_equal(arrivals, PACKETS, "arrivals")
        expect_equal(commands, sum(clerk.asked for clerk in self.clerks), "commands")
        return commands, arrivals, turns


class Replayed:
    """The output of `stridelink run` for an audit and a report after it, which is read in pieces."""

    def __init__(self, stack, program, life, audit):
        with open(audit, "ab") as sink:
            sink.write(b"report\n")
        self.process = subprocess.Popen([program, "run", "--life", str(life), audit], stdout=subprocess.PIPE)
        stack.callback(self.process.wait)
        stack.callback(self.process.kill)
        stack.callback(self.process.stdout.close)

    def read(self):
        """Some bytes; none at the end."""
        output = self.process.stdout.fileno()
        expect(select.select([output], [], [], STALL)[0], "nothing moves any more: the audit's replay")
        return os.read(output, 1 << 20)

    def answers(self, report):
        """Reads up to the last line: how many answers there are before the report, which has to be this one, and the
        first digits of the last line."""
        count, rest, mark = 0, b"\n", b"\nout "
        while mark not in rest:
            piece = self.read()
            expect(piece, "the audit's replay ends without its bytes")
            split = max(0, len(rest) - len(report) - len(mark))
            count += rest.count(b"\n", 0, split)
            rest = rest[split:] + piece
        text, digits = rest.split(mark)
        expect((text + b"\n").endswith(report.encode()), "the audit's replay gives another report")
        return count + text.count(b"\n") - report.count("\n"), digits

    def compare(self, digits, source):
        """Reads the last line to its end, and compares its bytes with those of a file."""
        at = 0
        while not digits.endswith(b"\n"):
            whole = len(digits) & ~1
            expect(bytes.fromhex(digits[:whole].decode()) == source.read(whole // 2),
                   "the audit gives other bytes than the peer got, from byte %d on or later" % at)
            at += whole // 2
            piece = self.read()
            expect(piece, "the audit's replay ends in its last line")
            digits = digits[whole:] + piece
        last = b"" if digits == b"-\n" else bytes.fromhex(digits.decode())
        expect(last == source.read(len(last) + 1), "the audit gives other bytes than the peer got at their end")
        expect_equal(self.process.wait(STALL), 0, "status of the audit's replay")


def check_replay(program, load, events):
    """Wants that the audit gives the report and the bytes that the peer got: the totals of the report."""
    report = load.server.text("stdout")
    with contextlib.ExitStack() as stack:
        replayed = Replayed(stack, program, load.life, load.server.audit_path)
        count, digits = replayed.answers(report)
        expect_equal(count, events, "answers to the audit")
        replayed.compare(digits, stack.enter_context(open(load.peer.path, "rb")))
    totals = {key: int(value) for key, value in (line.split() for line in report.splitlines()[:11])}
    expect_equal(totals["bytes"], load.peer.got, "bytes written")
    expect_equal(totals["accepted"], sum(totals[key] for key in ("written", "torn", "waiting", "dropped")), "packets")
    return totals


def measure_load(program):
    """Prints what was seen of a long load."""
    expect(1 <= PACKETS <= 5000000, "PACKETS is 1 to 5000000")
    print("SEED=%d" % SEED, flush=True)
    kept = measure_kept(program)
    with contextlib.ExitStack() as stack:
        load = Load(stack, program)
        load.run()
        counts = load.counts()
        totals = check_replay(program, load, sum(counts))
        copies, copied = sum(load.copies), sum(load.copied)
    bound = kept.bound(load.before, sum(counts), copies, copied, counts[0])
    headings = ("packets", "frames", "commands", "flows closed", "seconds", "peak, MiB", "bound, MiB",
                "bytes an event", "an entry", "beside a copy", "a receipt")
    print_row(headings)
    print_row(["---"] * len(headings))
    print_row((str(counts[1]), str(totals["written"]), str(counts[0]), str(sum(clerk.closed for clerk in load.clerks)),
               "%.1f" % load.seconds, "%.1f" % (load.peak / MEBIBYTE), "%.1f" % (bound / MEBIBYTE),
               "%.0f" % ((load.peak - load.before) / sum(counts)), "%.0f" % kept.entry, "%.0f" % kept.copy,
               "%.0f" % kept.receipt))
    expect(load.peak <= bound, "the server holds %d bytes, more than %d" % (load.peak, bound))


# A hostile client.

@dataclass
class Flood:
    """The bytes of a hostile client, how many records or lines that is, on which kind of connection, and whether each
    is an event."""
    block: bytes
    count: int
    kind: str
    is_event: bool


FLOODS = {
    "none": Flood(b"", 0, "ingress", True),
    "records for no flow": Flood(record("none", b"x") * FLOOD_STEP, FLOOD_STEP, "ingress", True),
    "records for a full buffer": Flood(record("b", b"x") * FLOOD_STEP, FLOOD_STEP, "ingress", True),
    "reports": Flood(b"report\n" * FLOOD_STEP, FLOOD_STEP, "control", False),
    "refused lines": Flood(REFUSED_LINE * FLOOD_STEP, FLOOD_STEP, "control", True),
}


@dataclass
class Beside:
    """What a client saw beside a flood: its frames a second and its microseconds to a reply, and of the flood what it
    sent and the events that this made, both in a second."""
    frames: float
    reply: float
    late: float
    sent: float
    events: float


def pace(connection, peer, ending, results):
    """Sends packets, and no more at once than the flow holds, until it is to end, and then reads the uplink to its end.
    Reports how many frames came in how many seconds."""
    step = record("a", b"x" * PACED) * STEP
    buffer = bytearray(1 << 20)
    sent, got, start = 0, 0, time.perf_counter()
    while not ending.is_set():
        while sent + STEP - got // (ADDED + PACED) <= WINDOW:
            connection.sendall(step)
            sent += STEP
        got += peer.recv_into(buffer)
    results.send((got // (ADDED + PACED), time.perf_counter() - start))
    finish(connection)
    while peer.recv_into(buffer):
        pass


def flood_with(connection, flood, results):
    """Sends as fast as it can for as long as a flood lasts, and reads what is answered to the end. Tells how much was
    sent, and in how many seconds all of it was taken."""
    connection.settimeout(None)
    reader = Task(read_away, (connection,))
    reader.start()
    sent, start = 0, time.perf_counter()
    while time.perf_counter() - start < SECONDS and sent < MOST_FLOOD:
        if flood.count:
            connection.sendall(flood.block)
            sent += flood.count
        else:
            time.sleep(0.01)
    finish(connection)
    reader.finish(LEFT)
    results.send((sent, time.perf_counter() - start))


def read_away(connection):
    buffer = bytearray(1 << 18)
    while connection.recv_into(buffer):
        pass


def start_beside(stack, work, *words):
    """Starts a process that reports something at its end; returns where it reports it."""
    ours, theirs = FORK.Pipe(duplex=False)
    process = FORK.Process(target=work, args=(*words, theirs), daemon=True)
    process.start()
    theirs.close()
    stack.callback(process.join, STALL)
    stack.callback(process.terminate)
    return ours


def told(results, what):
    """The report of a process at its end."""
    try:
        expect(results.poll(STALL), "nothing moves any more: " + what)
        return results.recv()
    except EOFError:
        raise Failure("what fails is " + what) from None


def asked_until(control, results):
    """Sends one line after another until a process has reported what it did: the microseconds to each reply."""
    times, until = [], time.monotonic() + SECONDS + LEFT
    while not results.poll():
        expect(time.monotonic() < until, "nothing moves any more: a flood")
        start = time.perf_counter()
        control.sendall(REFUSED_LINE)
        reply = control.recv(4096)
        times.append((time.perf_counter() - start) * MICROSECONDS)
        expect_equal(reply, b"no 6 NoTicket\n", "the reply")
    return times


def beside(program, flood):
    """A client beside a flood."""
    with contextlib.ExitStack() as stack:
        started = Started(stack, program, 2, LONGEST_LIFE, os.devnull)
        own = started.controls[0]
        own.fund()
        own.ask_wanted(["open b 1 1"], ["flow 2"])
        ending = FORK.Event()
        pacing = start_beside(stack, pace, started.clients[0], started.peer, ending)
        hostile = started.controls[1].socket if flood.kind == "control" else started.clients[1]
        flooding = start_beside(stack, flood_with, hostile, flood)
        times = asked_until(own.socket, flooding)
        ending.set()
        frames, seconds = told(pacing, "a paced client")
        sent, lasted = told(flooding, "a flood")
        started.close()
        wait_for_end(started.server)
        events = flood_events(started.server.text("stderr"))
    expect_equal(events, sent if flood.is_event else 0, "events of a flood")
    return Beside(frames / seconds, statistics.median(times), statistics.quantiles(times, n=100)[98], sent / lasted,
                  events / lasted)


def flood_events(text):
    """How many events the second connection of either kind has made, as a server prints."""
    found = re.findall(r"^(?:control|ingress) 2: ended, .*, (\d+) (?:commands|packets)$", text, re.MULTILINE)
    expect_equal(len(found), 2, "how many connections have ended")
    return sum(map(int, found))


def measure_hostile(program):
    """Prints what a client gets beside each flood."""
    expect(0 < SECONDS <= STALL / 2, "FLOOD_SECONDS is at most %d" % (STALL // 2))
    found = {name: [] for name in FLOODS}
    for _ in range(ROUNDS):
        for name, flood in FLOODS.items():
            found[name].append(beside(program, flood))
    headings = ("flood beside it", "frames/s", "of none's", "us to a reply, median", "99 of 100", "flood: a second",
                "events a second", "seconds of a life of 2^24")
    print_row(headings)
    print_row(["---"] * len(headings))
    for name, rounds in found.items():
        def middle(key):
            return median(getattr(one, key) for one in rounds)

        ratio = median(ours.frames / none.frames for ours, none in zip(rounds, found["none"]))
        events = middle("events")
        print_row((name, "%.0f" % middle("frames"), "%.2f" % ratio, "%.1f" % middle("reply"), "%.1f" % middle("late"),
                   "%.0f" % middle("sent"), "%.0f" % events, "%.0f" % (LONGEST_LIFE / events) if events else ""))


def main():
    parts = {"load": measure_load, "hostile": measure_hostile}
    parser = argparse.ArgumentParser(description="Soaks the server of bin/stridelink-link.")
    parser.add_argument("parts", nargs="*", metavar="PART", help="load or hostile; without a word both are run")
    parser.add_argument("--program", default=PROGRAM, help="the program, bin/stridelink-link unless set")
    words = parser.parse_args()
    if not set(words.parts) <= set(parts):
        sys.exit("the words are " + ", ".join(parts))
    limit_time()
    for part in words.parts or parts:
        try:
            parts[part](os.path.abspath(words.program))
        except (Failure, OSError) as fault:
            sys.exit("%s: %s" % (part, fault))


if __name__ == "__main__":
    main()
