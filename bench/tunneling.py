"""Tunnels between two hosts for the benches: network namespaces with a link between them, the devices of tenants, what
carries their packets, and loads. `alone` makes namespaces in which all of it ends with the program, however it ends."""
import contextlib
import ctypes
import os
import re
import shutil
import signal
import subprocess
import sys
import threading
import time
from dataclasses import dataclass

from bench import TOP

sys.dont_write_bytecode = True
sys.path.insert(0, os.path.join(TOP, "tests"))
from gatewaying import Gateway, Tenant, processor_seconds  # noqa: E402
from serving import PATIENCE, Failure, expect, wait_for  # noqa: E402

PROGRAMS = ("unshare", "nsenter", "ip", "tc", "iperf3", "ping", "rustc")
UNSHARE = ("unshare", "--map-root-user", "--net", "--mount", "--pid", "--fork", "--kill-child", "--mount-proc")
MAY = "ip tuntap add probe mode tun && mount -t tmpfs none /run && ip netns add probe"
INSIDE = "STRIDELINK_TUNNEL"
PR_SET_PDEATHSIG = 1
FOLDER = "/run/tunnel"
TUN = os.path.join(TOP, "tools", "tun")

# The tenants with their tickets. The last one is idle but for its pings.
TICKETS = {"a": 400, "b": 300, "c": 200, "d": 100, "e": 100}
BUSY = "abcd"
IDLE = "e"

# The hosts have these addresses on the link, and 10.1.N.1 and 10.1.N.2 as tenant N.
LINK = {"near": "10.9.0.1", "far": "10.9.0.2"}
NETWORK = "10.9.0.0/24"
PORT = 7003

# The congestion control of TCP, whatever that of the machine is. BBR nearly stops for 200 ms of each 10 s, to measure
# the shortest round trip.
CONGESTION = "cubic"

# A device counts bytes without a sender's headers of the link, which TUN devices do not have.
WIRE = "wire"
WIRE_QUEUE = 1000
MTU = 1400

# Bytes that a device of the plain program gives in its turn for each ticket: at least a packet.
QUANTUM = MTU // min(TICKETS.values())

# Seconds between two looks at the counters of a host.
SAMPLED = 0.02


def why_not():
    """Why no tunnel can be made here; None if one can."""
    missing = [program for program in PROGRAMS if not shutil.which(program)]
    if missing:
        return "no " + ", ".join(missing)
    done = subprocess.run([*UNSHARE, "sh", "-c", MAY], capture_output=True, check=False, timeout=PATIENCE)
    return "no network namespace with a TUN device" if done.returncode else None


def die_with_parent():
    """Lets the kernel kill this process when the one that began it has ended."""
    ctypes.CDLL(None).prctl(PR_SET_PDEATHSIG, signal.SIGKILL)


def alone():
    """Goes on in namespaces of its own, or ends if there are none. The first process of a namespace of processes takes
    all others with it, and it ends when this one does, by whatever signal."""
    if INSIDE not in os.environ:
        why = why_not()
        if why:
            print(f"{os.path.basename(sys.argv[0])} is skipped: {why}")
            sys.exit(0)
        for number in (signal.SIGTERM, signal.SIGHUP, signal.SIGINT):
            signal.signal(number, lambda *_: sys.exit("ended by a signal"))
        words, settings = [*UNSHARE, sys.executable, *sys.argv], {**os.environ, INSIDE: ""}
        with subprocess.Popen(words, env=settings, preexec_fn=die_with_parent) as inside:
            try:
                sys.exit(inside.wait())
            finally:
                inside.kill()
    do("mount", "-t", "tmpfs", "none", "/run")
    do("ip", "link", "set", "dev", "lo", "up")
    os.mkdir(FOLDER)


def do(*words):
    """Runs a command that has to end well."""
    done = subprocess.run(words, stdin=subprocess.DEVNULL, stdout=subprocess.DEVNULL, stderr=subprocess.PIPE,
                          check=False)
    expect(done.returncode == 0, f"{' '.join(words)}: {done.stderr.decode().strip()}")


def build(name):
    """Builds a program of a folder beside this module; its path."""
    program = os.path.join(FOLDER, name)
    source = os.path.join(TOP, "bench", name, "main.rs")
    subprocess.run(["rustc", "--edition", "2024", "-O", "-o", program, source], check=True)
    return program


def address(side, tenant):
    """The address of a tenant on a host."""
    return f"10.1.{list(TICKETS).index(tenant) + 1}.{1 if side == 'near' else 2}"


class Program:
    """A program with the lines that it prints, each with the time at which it came."""

    def __init__(self, words):
        self.words = words
        self.process = subprocess.Popen(words, stdin=subprocess.DEVNULL, stdout=subprocess.PIPE,
                                        stderr=subprocess.STDOUT, text=True, bufsize=1)
        self.lines = []
        self.thread = threading.Thread(target=self.read, daemon=True)
        self.thread.start()

    def read(self):
        for line in self.process.stdout:
            self.lines.append((time.monotonic(), line.rstrip("\n")))

    def said(self):
        return " / ".join(line for _, line in list(self.lines)[-3:])

    def expect_runs(self):
        expect(self.process.poll() is None, f"{' '.join(self.words)} ends: {self.said()}")

    def close(self):
        self.process.kill()
        self.process.wait()
        self.thread.join()
        self.process.stdout.close()


class Host:
    """A network namespace. A process that sleeps in it shows its counters."""

    def __init__(self, stack, name):
        self.stack = stack
        self.name = name
        do("ip", "netns", "add", name)
        stack.callback(do, "ip", "netns", "delete", name)
        self.prefix = ("nsenter", f"--net=/run/netns/{name}", "--")
        self.do("ip", "link", "set", "dev", "lo", "up")
        self.sleeper = self.start("sleep", "infinity")

    def do(self, *words):
        do(*self.prefix, *words)

    def start(self, *words):
        """Starts a program that ends with the bench."""
        program = Program([*self.prefix, *words])
        self.stack.callback(program.close)
        return program

    def add(self, device, text):
        self.do("ip", "address", "add", text, "dev", device)

    def received(self):
        """How many bytes each device has received, the packets that were written to a TUN device."""
        with open(f"/proc/{self.sleeper.process.pid}/net/dev", encoding="ascii") as file:
            rows = [line.replace(":", " ").split() for line in list(file)[2:]]
        return {row[0]: int(row[1]) for row in rows}


@dataclass
class Wire:
    """A link: megabits a second each way, and milliseconds. One that is not shaped is as fast as the machine."""
    megabits: float
    delay: int = 10
    is_shaped: bool = True

    def bytes(self):
        """Bytes a second."""
        return int(self.megabits * 125000)

    def queue(self):
        """The bytes that wait before the link at most: those of 50 ms, and at least 20 packets."""
        return max(30000, self.bytes() // 20)

    def buffer(self):
        """A send buffer: the rate times the round trip, and at least 64 KiB."""
        return max(65536, 2 * self.bytes() * self.delay // 1000)


@dataclass
class Uplink:
    """How frames go: over TCP or UDP, at a part of the link's rate if one is given."""
    name: str
    is_udp: bool
    part: float = None

    def spelled(self, side):
        return ("udp:" if self.is_udp else "") + f"{LINK[side]}:{PORT}"


class Hosts:
    """Two hosts and the link between them."""

    def __init__(self, stack, wire, program=None):
        self.wire = wire
        self.near, self.far = (Host(stack, name) for name in LINK)
        names = [f"{host.name}-{WIRE}" for host in self.both()]
        if wire.is_shaped:
            self.start_link(stack, names, program)
        else:
            do("ip", "link", "add", names[0], "type", "veth", "peer", "name", names[1])
        for host, name in zip(self.both(), names):
            do("ip", "link", "set", "dev", name, "netns", host.name, "name", WIRE)
            host.add(WIRE, LINK[host.name] + "/24")
            host.do("ip", "link", "set", "dev", WIRE, "txqueuelen", str(WIRE_QUEUE), "up")
            host.do("ip", "route", "replace", NETWORK, "dev", WIRE, "src", LINK[host.name], "congctl", CONGESTION)

    def start_link(self, stack, names, program):
        """Starts the program of the link between two devices."""
        words = (self.wire.bytes(), self.wire.delay, self.wire.queue(), 3, 4)
        link = Program([TUN, "--mtu", "1500", *names, "--", program, *map(str, words)])
        stack.callback(link.close)
        for name in names:
            wait_for(lambda device=name: is_up(device), "the devices of the link")

    def both(self):
        return self.near, self.far


def is_up(device, prefix=()):
    done = subprocess.run([*prefix, "ip", "-o", "link", "show", "up", "dev", device], capture_output=True, check=False)
    return bool(done.stdout)


def tunnelled(host, words):
    """The words that start a program with the devices of tenants on a host."""
    return [*host.prefix, TUN, "--mtu", str(MTU), *TICKETS, "--", *words]


def add_tenants(host, has_ended):
    """Gives the devices of tenants their addresses, once they are there."""
    for tenant in TICKETS:
        def is_there(name=tenant):
            expect(not has_ended(), f"no devices on the {host.name} host")
            return is_up(name, host.prefix)

        wait_for(is_there, "the device of a tenant")
        host.add(tenant, address(host.name, tenant) + "/24")


def start_pumps(stack, hosts, uplink, program, has_shares=True):
    """Starts a plain program on each host."""
    words = ["--buffer", str(hosts.wire.buffer())]
    if uplink.is_udp:
        words.append("--udp")
    if uplink.part:
        words += ["--rate", str(uplink.part * hosts.wire.bytes())]
    if has_shares:
        words += ["--quanta", ",".join(str(QUANTUM * tickets) for tickets in TICKETS.values())]
    words += map(str, range(3, 3 + len(TICKETS)))
    for host, other in zip(hosts.both(), reversed(hosts.both())):
        listens = ["--listen", f"{LINK[host.name]}:{PORT}", "--connect", f"{LINK[other.name]}:{PORT}"]
        pump = Program(tunnelled(host, [program, *listens, *words]))
        stack.callback(pump.close)
        add_tenants(host, lambda each=pump: each.process.poll() is not None)
        yield pump.process


def start_gateways(stack, hosts, uplink):
    """Starts a gateway on each host."""
    tenants = {name: Tenant([amount], ports=[f"fd:{number}"])
               for number, (name, amount) in enumerate(TICKETS.items(), 3)}
    lines = [f"buffer = {hosts.wire.buffer()}"]
    if uplink.part:
        lines.append(f'rate = "{int(uplink.part * hosts.wire.bytes())} B/s"')
    for host, other in zip(hosts.both(), reversed(hosts.both())):
        place = os.path.join(FOLDER, f"{host.name}-{time.monotonic_ns()}")
        os.mkdir(place)
        gateway = Gateway(place, uplink.spelled(other.name), tenants, uplink_lines=lines,
                          control=f"unix:{place}/control")
        gateway.sections["downlink"] = [f'listen = "{uplink.spelled(host.name)}"']
        gateway.write()
        stack.callback(shutil.rmtree, place, ignore_errors=True)
        stack.callback(gateway.close)
        gateway.start(prefix=tunnelled(host, []))
        add_tenants(host, lambda each=gateway: each.process.poll() is not None)
        yield gateway.process


def start_classes(hosts, part):
    """No tunnel: classes of `tc htb` at the near end of the link, with a part of its rate."""
    whole = hosts.wire.bytes() * part
    for host in hosts.both():
        for tenant in TICKETS:
            host.add(WIRE, address(host.name, tenant) + "/24")
    tc = ("tc", "class", "add", "dev", WIRE, "parent")
    hosts.near.do("tc", "qdisc", "replace", "dev", WIRE, "root", "handle", "1:", "htb")
    hosts.near.do(*tc, "1:", "classid", "1:1", "htb", "rate", f"{whole:.0f}bps", "ceil", f"{whole:.0f}bps")
    for number, (tenant, amount) in enumerate(TICKETS.items(), 11):
        own = whole * amount / sum(TICKETS.values())
        hosts.near.do(*tc, "1:1", "classid", f"1:{number}", "htb", "rate", f"{own:.0f}bps", "ceil", f"{whole:.0f}bps")
        hosts.near.do("tc", "qdisc", "add", "dev", WIRE, "parent", f"1:{number}", "pfifo", "limit", "100")
        hosts.near.do("tc", "filter", "add", "dev", WIRE, "parent", "1:", "protocol", "ip", "prio", "1", "u32", "match",
                      "ip", "dst", address("far", tenant) + "/32", "flowid", f"1:{number}")


# ---- Loads


# A line of a server of iperf3: of one stream, or of all, its seconds, and its kilobits a second.
INTERVAL = re.compile(r"\[ *(\d+|SUM)\] +([\d.]+)-([\d.]+) +sec +\S+ \w*Bytes +([\d.]+) Kbits/sec(?!.*receiver)")
REPLY = re.compile(r"icmp_seq=(\d+) .*time=([\d.]+) ms")


class Flood:
    """A tenant that sends as much as it can from the near host to the far one, by iperf3: streams of TCP, or datagrams
    at a rate in bits a second."""

    def __init__(self, hosts, tenant, streams=1, datagrams=None):
        self.streams = streams
        self.server = hosts.far.start("iperf3", "-s", "-1", "-B", address("far", tenant), "-i", "0.25", "-f", "k",
                                      "--forceflush")
        wait_for(lambda: any("listening" in line for _, line in list(self.server.lines)), "iperf3")
        how = ("-u", "-b", str(int(datagrams))) if datagrams else ("-P", str(streams), "-C", CONGESTION)
        self.client = hosts.near.start("iperf3", "-c", address("far", tenant), "-B", address("near", tenant), "-t",
                                       "3600", *how)

    def stop(self):
        self.client.process.kill()
        self.server.process.kill()

    def counted_until(self):
        """The time until which bytes are counted."""
        samples = self.samples()
        return samples[-1][0] if samples else 0.0

    def samples(self):
        """The bytes that came until each time."""
        total, found = 0, []
        for at, line in list(self.server.lines):
            match = INTERVAL.search(line)
            if match and (match[1] == "SUM") == (self.streams > 1):
                total += 125 * float(match[4]) * (float(match[3]) - float(match[2]))
                found.append((at, total))
        return found

    def came(self, start, end):
        """The bytes that came between two times."""
        return between(self.samples(), end) - between(self.samples(), start)


def between(samples, at):
    """The value at a time, on the straight line between two samples."""
    expect(samples and samples[-1][0] >= at, "iperf3 says nothing")
    before = samples[0]
    for after in samples:
        if after[0] >= at:
            break
        before = after
    if after[0] <= before[0]:
        return before[1]
    return before[1] + (after[1] - before[1]) * (at - before[0]) / (after[0] - before[0])


class Pings:
    """Echoes of a tenant. One that does not come back took for ever."""

    def __init__(self, hosts, tenant, interval):
        self.interval = interval
        self.program = hosts.near.start("ping", "-n", "-i", str(interval), address("far", tenant))

    def count(self):
        """How many echoes came."""
        return sum(1 for _, line in list(self.program.lines) if REPLY.search(line))

    def times(self, start=0.0, end=float("inf")):
        """The milliseconds of echoes that came between two times, in ascending order."""
        found = {}
        for at, line in list(self.program.lines):
            match = REPLY.search(line)
            if match and start <= at < end:
                found[int(match[1])] = float(match[2])
        expect(found, f"no echo: {self.program.said()}")
        lost = max(found) - min(found) + 1 - len(found)
        return sorted(found.values()) + [float("inf")] * lost

    def stop(self):
        self.program.process.kill()


def part_of(times, part):
    """The time that this part of the times keeps below."""
    return times[min(len(times) - 1, int(part * len(times)))]


class Counters(threading.Thread):
    """The bytes that the devices of a host have received, again and again."""

    def __init__(self, stack, host):
        super().__init__(daemon=True)
        self.host = host
        self.samples = []
        self.over = threading.Event()
        stack.callback(self.close)
        self.start()

    def run(self):
        while not self.over.wait(SAMPLED):
            self.samples.append((time.monotonic(), self.host.received()))

    def close(self):
        self.over.set()
        self.join()

    def came(self, start, end):
        """How long the samples next to two times are apart, and the bytes of each device between them."""
        samples = list(self.samples)
        first = next(sample for sample in samples if sample[0] >= start)
        last = next((sample for sample in samples if sample[0] >= end), samples[-1])
        return last[0] - first[0], {device: count - first[1].get(device, 0) for device, count in last[1].items()}


class Stolen:
    """The time of this machine's processors that its host has given to others, if it is a virtual machine."""

    def __init__(self):
        self.start = self.read()

    def read(self):
        """The stolen time until now, and all time, in a unit of the system's."""
        with open("/proc/stat", encoding="ascii") as file:
            times = list(map(int, file.readline().split()[1:9]))
        return times[-1], sum(times)

    def part(self):
        """The part that was stolen since the start."""
        stolen, every = (now - before for now, before in zip(self.read(), self.start))
        return stolen / max(1, every)


@contextlib.contextmanager
def hosts_with(wire, link=None):
    """Two hosts with a link between them, and what ends with them."""
    with contextlib.ExitStack() as stack:
        yield Hosts(stack, wire, link), stack


__all__ = ["BUSY", "Counters", "Failure", "Flood", "IDLE", "Pings", "Stolen", "TICKETS", "Uplink", "WIRE", "Wire",
           "alone", "build", "expect", "hosts_with", "part_of", "processor_seconds", "start_classes", "start_gateways",
           "start_pumps", "wait_for"]
