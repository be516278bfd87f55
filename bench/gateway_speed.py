#!/usr/bin/env python3
"""Measures a gateway beside the plain Rust program (bench/plain) and beside `stridelink serve`, over loopback.

`gateway_speed.py speed`, `replies`, `lone` and `idle` are the parts; without a word all are run. In each of ROUNDS
rounds (5) the programs take turns, and what is printed are medians; machines are noisy, so the ratios of one run are
what to read, which are medians of the rounds' ratios. Processor time is that of all threads of the program. The
environment names the gateway as for tests/gateway.py. The load and the far end are a program of their own
(gateway_load). Each row has the aim beside what was measured, if there is one. A row that misses its aim ends no run.

*speed.* Four tenants flood for SECONDS seconds (1.5): frames a second at the far end, and processor time a frame. The
gateway writes its books meanwhile. The cores that a program keeps busy show whether it or the load is what waits.
*replies.* How long a control line takes, idle and while four tenants flood.
*lone.* How long one packet takes through an idle program.
*idle.* What a gateway uses that has connections and nothing to do, and the memory that it holds when all its buffers
are full of the longest packets.
"""
import os
import sys
import tempfile
import time

from bench import MEBIBYTE, TOP, build_plain, median, print_row
from gateway_loading import Asks, Far, Floods, Pings, build_load, rate_of

sys.path.insert(0, os.path.join(TOP, "tests"))
from gatewaying import Play, processor_seconds, resident  # noqa: E402
from serving import LINK, LOOPBACK, Server  # noqa: E402

ROUNDS = int(os.environ.get("ROUNDS", "5"))
SECONDS = float(os.environ.get("SECONDS", "1.5"))
SIZES = (64, 700)
AMOUNTS = {"a": 400, "b": 300, "c": 200, "d": 100}
LIMIT = 256
LIFE = 1 << 24
WARM = 0.4
ASKED = 2000
PACKETS = 1000
IDLE = 5
IDLE_CONNECTIONS = 16

# The aims: frames a second and processor time a frame beside the plain program, microseconds to a reply at the median
# and of 99 in 100, microseconds for a lone packet, the part of a core when idle, and MiB of memory.
AIMS = {"frames": 1.0, "time": 0.8, "median": 1000, "late": 10000, "lone": 60, "idle": 0.0005,
        "memory": 32e6 / MEBIBYTE}


class Measured:
    """A gateway, or a server, with four tenants and a far end: its process, where its tenants send, and what asks it a
    line again and again, if that is wanted."""

    def __init__(self, run, load, path, uplink, is_asked=False):
        names = list(AMOUNTS)
        if path is None:
            gateway = run.gateway(uplink, AMOUNTS)
            self.process = gateway.process
            self.ports = {name: gateway.tenants[name].ports[0] for name in names}
            address, line = gateway.address, "amend a 1 400"
        else:
            # A server begins when all of its connections are there.
            server = Server(run.folder(), uplink, workers=len(names), clerks=1 + is_asked, life=LIFE, audit=os.devnull,
                            program=path).listens()
            run.stack.callback(server.close)
            fund(run.keep(server.control().socket))
            self.process = server.process
            self.ports = dict.fromkeys(names, f"{LOOPBACK}:{server.ports['ingress']}")
            address, line = f"{LOOPBACK}:{server.ports['control']}", "amend 1 400"
        self.asks = run.keep(Asks(load, address, ASKED, line)) if is_asked else None

    def flood(self, run, load, size):
        """Lets all tenants flood."""
        floods = run.keep(Floods(load, [(self.ports[name], name, size, 1) for name in AMOUNTS]))
        floods.say("go")
        return floods


def fund(control):
    """Opens the flows of a server, by its control connection."""
    for number, (name, amount) in enumerate(AMOUNTS.items(), 1):
        for line in (f"open {name} {LIMIT} 1", f"mktkt {amount} base", f"fund {number} flow {name}"):
            control.sendall(line.encode() + b"\n")
            control.recv(4096)


def rounds_of(programs, measure):
    """What is measured in each round, by program."""
    found = {name: [] for name in programs}
    for _ in range(ROUNDS):
        for name, path in programs.items():
            with Play() as run:
                found[name].append(measure(run, path))
    return found


def beside(found, name, part):
    """The median ratio of a part of what was measured of a program to that of the plain one."""
    return median(ours[part] / plain[part] for ours, plain in zip(found[name], found["plain"]))


def aimed(value, text, aim, is_least=False):
    """A value and its aim."""
    met = value >= aim if is_least else value <= aim
    return f"{text} (aim {aim:g}{'' if met else ', missed'})"


def measure_speed(programs, load):
    print_row(("floods", "program", "frames/s", "us a frame", "cores", "frames beside plain", "time beside plain"))
    print_row(["---"] * 7)
    for size in SIZES:
        def speed(run, path, size=size):
            far = run.keep(Far(load))
            measured = Measured(run, load, path, far.address)
            measured.flood(run, load, size)
            far.wait(WARM)
            return rate_of(far, SECONDS, measured.process)

        found = rounds_of(programs, speed)
        for name in programs:
            frames, spent = (beside(found, name, part) for part in (0, 1))
            is_gateway = name == "gateway"
            print_row((f"{size} bytes", name, f"{median(rate for rate, _ in found[name]):.0f}",
                       f"{1e6 * median(spent for _, spent in found[name]):.2f}",
                       f"{median(rate * spent for rate, spent in found[name]):.2f}",
                       aimed(frames, f"{frames:.2f}", AIMS["frames"], True) if is_gateway else f"{frames:.2f}",
                       aimed(spent, f"{spent:.2f}", AIMS["time"]) if is_gateway else f"{spent:.2f}"))


def measure_replies(programs, load):
    print_row(("link", "program", "us to a reply, median", "99 of 100", "longest"))
    print_row(["---"] * 5)
    for what, size in (("idle", None), *((f"floods of {size} bytes", size) for size in SIZES)):
        def replies(run, path, size=size):
            far = run.keep(Far(load))
            measured = Measured(run, load, path, far.address, True)
            if size:
                measured.flood(run, load, size)
                far.wait(WARM)
            return measured.asks.run()

        found = rounds_of(programs, replies)
        for name in programs:
            times = [median(getattr(one, part) for one in found[name]) for part in ("median", "late", "longest")]
            texts = [f"{each:.1f}" for each in times]
            if name == "gateway":
                texts[:2] = [aimed(times[0], texts[0], AIMS["median"]), aimed(times[1], texts[1], AIMS["late"])]
            print_row((what, name, *texts))


def measure_lone(programs, load):
    print_row(("a lone packet of", "program", "us, median", "99 of 100", "longest"))
    print_row(["---"] * 5)
    for size in SIZES:
        def lone(run, path, size=size):
            pings = run.keep(Pings(load, "a", size, PACKETS))
            measured = Measured(run, load, path, pings.address)
            return pings.run(measured.ports["a"])

        found = rounds_of(programs, lone)
        for name in programs:
            times = [median(getattr(one, part) for one in found[name]) for part in ("median", "late", "longest")]
            texts = [f"{each:.1f}" for each in times]
            if name == "gateway":
                texts[0] = aimed(times[0], texts[0], AIMS["lone"])
            print_row((f"{size} bytes", name, *texts))


def measure_idle(_, load):
    with Play() as run:
        far = run.far_end()
        gateway = run.gateway(far, AMOUNTS)
        for number in range(IDLE_CONNECTIONS):
            run.keep(gateway.connect("abcd"[number % 4]))
        gateway.send("a", range(10))
        far.wait_for(10)
        time.sleep(3)
        before = processor_seconds(gateway.process)
        time.sleep(IDLE)
        used = (processor_seconds(gateway.process) - before) / IDLE
        print("idle: " + aimed(used, f"{100 * used:.3f} percent of a core", AIMS["idle"]))
    for size in (700, 9000):
        with Play() as run:
            far = run.keep(Far(load))
            measured = Measured(run, load, None, far.address)
            start = resident(measured.process)
            far.say("rest")
            measured.flood(run, load, size)
            time.sleep(2)
            full = resident(measured.process)
            far.say("go")
            far.wait(2)
            flowing = resident(measured.process)
            start, full, flowing = (each / MEBIBYTE for each in (start, full, flowing))
            print(f"memory, packets of {size} bytes: {start:.1f} MiB at the start, {full:.1f} MiB with full buffers, "
                  + aimed(max(full, flowing), f"{flowing:.1f} MiB in a flood", AIMS["memory"]))


def main():
    parts = {"speed": measure_speed, "replies": measure_replies, "lone": measure_lone, "idle": measure_idle}
    words = sys.argv[1:] or list(parts)
    if not set(words) <= set(parts):
        sys.exit("the words are " + ", ".join(parts))
    with tempfile.TemporaryDirectory() as folder:
        # A gateway has no path here: its program and its words are the environment's.
        programs = {"gateway": None, "serve": LINK, "plain": build_plain(folder)}
        load = build_load(folder)
        for word in words:
            parts[word](programs, load)


if __name__ == "__main__":
    main()
