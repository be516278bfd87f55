"""Shares as they are measured at the far end of the uplink.

Tenants flood a server, each by a program of its own (flood.py), and another program at the far end counts what each of
them gets (far_end.py). A share is that of the units that arrived in a window of WINDOW seconds. Windows are looked at
from START seconds after the first byte on; none waits until buffers are full. What the system takes at once before it
waits for a slow far end is read there for seconds. So the flows are held until each has a packet: all of them are
offered from the first byte on.
"""
import functools
import json
import os
import resource
import subprocess
import sys
import threading
import time
from dataclasses import dataclass, field

from serving import PATIENCE, TOP, Failure, expect, wait_for

TESTS = os.path.join(TOP, "tests")

START = 1.0
WINDOW = 5.0

# By how much a share in a window may differ from that of the tickets.
MOST_ERROR = 0.01

# How often shares are measured at most, and how many processors other programs and the host may take meanwhile.
TIMES = 3
MOST_TAKEN = 0.1

# How long a flood that stops may still be in buffers on its way, and a command in buffers after the link.
DRAINED = 2.5

# After how many seconds floods begin together, and after how many without a packet they are over.
TOGETHER = 0.05
QUIET = 0.5

FLOWS = "abcdefgh"
LONGEST_LIFE = 1 << 24


@dataclass
class Load:
    """Floods, by connection the flows that it carries, and the rate at which the far end reads, in bytes a second."""
    name: str
    rate: float = 0
    tickets: tuple = (400, 300, 200, 100)
    limit: int = 64
    lengths: tuple = ("700", "700", "700", "700")
    tariffs: tuple = (1, 1, 1, 1)
    connections: tuple = ("a", "b", "c", "d")
    busy: int = 0
    seconds: float = START + WINDOW + 1

    def wanted(self):
        """The share of each flow, by its number."""
        return {number: tickets / sum(self.tickets) for number, tickets in enumerate(self.tickets, 1)}

    def lines(self):
        """The control lines that open and fund the flows."""
        for number, (flow, tickets, tariff) in enumerate(zip(FLOWS, self.tickets, self.tariffs), 1):
            yield "open %s %d %d" % (flow, self.limit, tariff), "flow %d" % number
            yield "mktkt %d base" % tickets, "ticket %d" % number
            yield "fund %d flow %s" % (number, flow), "ok"


@dataclass
class Program:
    """A program that prints lines and is ended with its case."""
    process: subprocess.Popen
    first: str = ""

    def close(self):
        self.process.kill()
        self.process.wait()
        for pipe in filter(None, (self.process.stdin, self.process.stdout)):
            pipe.close()


def started(words, prefix=()):
    """Starts one of the programs beside this module, and waits for its first line."""
    process = subprocess.Popen([*prefix, sys.executable, *words], stdin=subprocess.PIPE, stdout=subprocess.PIPE,
                               text=True, bufsize=1)
    program = Program(process, process.stdout.readline().strip())
    if not program.first:
        program.close()
        raise Failure("%s does not start" % os.path.basename(words[0]))
    return program


class FarEnd:
    """The far end. Each sample is the seconds since the first byte, and the units by flow. A pause is its time by the
    system's clock and its seconds: that of a sample is the longest one since the sample before. The first byte came at
    the time `first` by that clock."""

    def __init__(self, rate=0, listen="127.0.0.1:0", prefix=()):
        words = [os.path.join(TESTS, "far_end.py"), "--listen", listen, "--rate", str(rate)]
        self.program = started(words, prefix)
        self.address = self.program.first
        self.samples = []
        self.pauses = []
        self.first = 0.0
        self.thread = threading.Thread(target=self.read, daemon=True)
        self.thread.start()

    def read(self):
        for line in self.program.process.stdout:
            seconds, units, pause, self.first = json.loads(line)
            self.pauses.append(pause)
            self.samples.append((seconds, {int(flow): count for flow, count in units.items()}))

    def longest_pause(self, start, end):
        """The longest pause whose middle lies between two times of the system's clock, in seconds."""
        pauses = list(self.pauses)
        return max((seconds for began, seconds in pauses if start <= began + seconds / 2 < end), default=0.0)

    def seconds(self):
        """How many seconds it has counted."""
        return self.samples[-1][0] if self.samples else 0.0

    def wait(self, seconds):
        """Waits until it has counted for that many seconds."""
        wait_for(lambda: self.seconds() >= seconds, "frames at the far end", 4 * seconds + PATIENCE)

    def wait_until(self, instant):
        """Waits until it has counted all that came before a time of the system's clock. Pauses that began before it are
        over then."""
        wait_for(lambda: self.samples and self.first + self.seconds() >= instant, "frames at the far end")

    def close(self):
        self.program.process.kill()
        self.thread.join()
        self.program.close()


class Flood:
    """A tenant's connection with the flows that it carries."""

    def __init__(self, address, words):
        self.program = started([os.path.join(TESTS, "flood.py"), address, *words])

    def say(self, line):
        self.program.process.stdin.write(line + "\n")

    def close(self):
        self.program.close()


@dataclass
class Floods:
    """A server under a load, with its control connection, its floods and the far end."""
    load: Load
    server: object
    control: object
    far: FarEnd
    floods: list = field(default_factory=list)

    def begin(self):
        """Lets all floods begin."""
        flows = FLOWS[:len(self.load.tickets)]
        self.control.ask_wanted(["hold " + flow for flow in flows], ["ok"] * len(flows))
        self.go()
        wait_for(lambda: all(self.waiting()), "a packet of each flow")
        self.control.ask_wanted(["resume " + flow for flow in flows], ["ok"] * len(flows))

    def waiting(self):
        """How many packets each flow has."""
        lines = self.control.ask("report")[0].splitlines()
        return [int(line.split()[4]) for line in lines if line.startswith("flow ")]

    def is_over(self):
        """Whether nothing comes for a while, and no packet waits."""
        first = self.control.ask("report")[0]
        time.sleep(QUIET)
        return self.control.ask("report")[0] == first and not any(self.waiting())

    def go(self, flows=FLOWS):
        """Lets the floods that carry one of these flows begin, all at the same time."""
        self.say("go %f" % (time.monotonic() + TOGETHER), flows)

    def say(self, line, flows=FLOWS):
        for connection, flood in self.floods:
            if set(connection) & set(flows):
                flood.say(line)


def flooded(run, load, listen="127.0.0.1:0", prefix=(), lines=None, **words):
    """Starts a server under a load. With lines of its own the flows are opened and funded by them."""
    far = FarEnd(load.rate, listen, prefix)
    run.stack.callback(far.close)
    server = run.start(far.address, workers=len(load.connections), life=LONGEST_LIFE, audit=os.devnull,
                       **words).listens()
    control = server.control()
    for line, reply in lines or load.lines():
        control.ask_wanted([line], [reply])
    floods = Floods(load, server, control, far)
    address = "127.0.0.1:%s" % server.ports["ingress"]
    for connection in load.connections:
        words = ["%s:%s" % (flow, load.lengths[FLOWS.index(flow)]) for flow in connection]
        flood = Flood(address, words)
        run.stack.callback(flood.close)
        floods.floods.append((connection, flood))
    for _ in range(load.busy):
        busy = subprocess.Popen([sys.executable, "-c", "while True: pass"])
        run.stack.callback(busy.wait)
        run.stack.callback(busy.kill)
    return floods


def shares_between(first, last, flows):
    """The shares of flows in what arrived between two samples; none if nothing did."""
    got = {flow: last[1].get(flow, 0) - first[1].get(flow, 0) for flow in flows}
    whole = sum(got.values())
    return {flow: units / whole for flow, units in got.items()} if whole else None


def worst_window(samples, wanted, start=START, end=None, window=WINDOW):
    """The greatest error of a share in a window between two times, and the shares of that window."""
    worst, shares, at = -1.0, {}, 0
    for first in samples:
        while at < len(samples) and samples[at][0] < first[0] + window:
            at += 1
        if first[0] < start:
            continue
        if at == len(samples) or (end is not None and samples[at][0] > end):
            break
        found = shares_between(first, samples[at], wanted)
        error = max(abs(found[flow] - share) for flow, share in wanted.items()) if found else 1.0
        if error > worst:
            worst, shares = error, found
    expect(worst >= 0, "no window of %.1f seconds from %.1f on: %d samples" % (window, start, len(samples)))
    return worst, shares


def check_windows(samples, wanted, what, start=START, end=None):
    """Wants that each share in each window is within MOST_ERROR of what it is to be; the greatest error."""
    worst, shares = worst_window(samples, wanted, start, end)
    text = " ".join("%.4f" % shares[flow] for flow in sorted(wanted)) if shares else "nothing"
    expect(worst <= MOST_ERROR, "%s: a share is off by %.4f in a window of %.0f s: %s" % (what, worst, WINDOW, text))
    return worst


def check_load(run, load, **where):
    """Measures a load, and wants that its shares are its tickets'; the greatest error."""
    floods = flooded(run, load, **where)
    floods.begin()
    floods.far.wait(load.seconds)
    return check_windows(list(floods.far.samples), load.wanted(), load.name)


def seconds_of_others():
    """The processor time that other programs and the host of a virtual machine have taken, with an unknown beginning.
    Programs of this one count once they have ended."""
    with open("/proc/stat", encoding="ascii") as source:
        user, nice, system, _, _, _, _, stolen = map(int, source.readline().split()[1:9])
    own = [resource.getrusage(who) for who in (resource.RUSAGE_SELF, resource.RUSAGE_CHILDREN)]
    used = sum(each.ru_utime + each.ru_stime for each in own)
    return (user + nice + system + stolen) / os.sysconf("SC_CLK_TCK") - used


def judged_alone(check):
    """A case that measures shares. If it fails and others took processors, its own programs may have stood still: it is
    played again, at most TIMES times in all, each time with the tools of a run of its own."""
    @functools.wraps(check)
    def case(run):
        for left in reversed(range(TIMES)):
            start, before = time.monotonic(), seconds_of_others()
            try:
                with type(run)() as own:
                    return check(own)
            except Failure:
                taken = (seconds_of_others() - before) / (time.monotonic() - start)
                if not left or taken <= MOST_TAKEN:
                    raise
    return case


# Tickets that change while all flows are flooded.

def at(floods, seconds, *asked):
    """Waits until that many seconds after the first byte, and asks lines."""
    floods.far.wait(seconds)
    for line, reply in asked:
        floods.control.ask_wanted([line], [reply])


COMING_AND_GOING = (
    ("mkcur x", "ok"), ("mktkt 400 base", "ticket 1"), ("fund 1 cur x", "ok"),
    ("open a 64 1", "flow 1"), ("mktkt 1 x", "ticket 2"), ("fund 2 flow a", "ok"),
    ("open b 64 1", "flow 2"), ("mktkt 1 x", "ticket 3"), ("fund 3 flow b", "ok"),
    ("open c 64 1", "flow 3"), ("mktkt 300 base", "ticket 4"), ("fund 4 flow c", "ok"),
    ("open d 64 1", "flow 4"), ("mktkt 300 base", "ticket 5"), ("fund 5 flow d", "ok"))
ALL_THERE = {1: 0.2, 2: 0.2, 3: 0.3, 4: 0.3}
ONE_AWAY = {1: 0.4, 3: 0.3, 4: 0.3}

# How long all stays as it is: a window fits in also if the far end, on a busy machine, counts nothing for a second.
PHASE = WINDOW + DRAINED + 2


def check_currency(run, rate=2.5e7):
    """Two flows share a currency's 400, and one of them stops for a while: the other has all 400 meanwhile."""
    lengths = ("700" if rate else "4000",) * 4
    load = Load("a currency whose flow goes and comes", rate, lengths=lengths)
    floods = flooded(run, load, lines=COMING_AND_GOING)
    floods.begin()
    floods.far.wait(START + PHASE)
    floods.say("stop", "b")
    floods.far.wait(START + 2 * PHASE)
    floods.go("b")
    floods.far.wait(START + 3 * PHASE)
    samples = list(floods.far.samples)
    return max(check_windows(samples, ALL_THERE, load.name + ": all there", START, START + PHASE),
               check_windows(samples, ONE_AWAY, load.name + ": one away", START + PHASE + DRAINED, START + 2 * PHASE),
               check_windows(samples, ALL_THERE, load.name + ": all there again", START + 2 * PHASE + DRAINED))


def check_changes(run, rate=2.5e7):
    """A flow is held and resumed, and a ticket is amended, while all are flooded. Before a far end that is as fast as
    loopback the packets are long, so that the life lasts."""
    lengths = ("700" if rate else "4000",) * 4
    load = Load("a flow that is held, a ticket that is amended", rate, lengths=lengths)
    floods = flooded(run, load)
    floods.begin()
    at(floods, START + PHASE, ("hold b", "ok"))
    at(floods, START + 2 * PHASE, ("resume b", "ok"))
    at(floods, START + 3 * PHASE, ("amend 1 1400", "ok"))
    floods.far.wait(START + 4 * PHASE)
    samples = list(floods.far.samples)
    held = {1: 4 / 7, 3: 2 / 7, 4: 1 / 7}
    amended = {1: 0.7, 2: 0.15, 3: 0.1, 4: 0.05}
    phases = (("before", load.wanted(), 0), ("held", held, 1), ("resumed", load.wanted(), 2), ("amended", amended, 3))
    return max(check_windows(samples, wanted, "%s: %s" % (load.name, phase), START + number * PHASE
                             + (DRAINED if number else 0), START + (number + 1) * PHASE)
               for phase, wanted, number in phases)
