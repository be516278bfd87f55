#!/usr/bin/env python3
"""Measures at the far end of a gateway's uplink what share of it each tenant gets, in a table of loads.

`gateway_shares.py loads`, `shaped` and `changes` are the parts; without a word all are run. The environment names the
gateway as for tests/gateway.py. Tenants flood the gateway by a program of their own (gateway_load), and another one
counts units at the far end; all sockets have the system's settings. A share is that of the units that came in a window
of five seconds, and each window is looked at. A row has by how much a share was off at most, which shares that window
had, and for how long no frame came at most if the far end has no rate. A share that is off by more than 0.01, and a
packet that is missing or comes out of order, end the program with status 1, once all rows are printed.

*loads.* Four tenants with 400:300:200:100 tickets flood a gateway. The far end's rate or the gateway's, the lengths and
the tariffs vary. Then a tenant with one connection floods beside one with eight. SECONDS is how long a load lasts (8).
*shaped.* The far end stands in a network namespace, behind a link that `tc` shapes. It needs permission to make one.
*changes.* Books are rotated, the file is read anew, tenants are held and resumed, grants are amended, and a currency's
tenants go and come.
"""
import itertools
import os
import sys
import tempfile
import time
from dataclasses import dataclass, replace

from bench import TOP
from gateway_loading import Far, Floods, build_load

sys.path.insert(0, os.path.join(TOP, "tests"))
from gatewaying import Play, Tenant  # noqa: E402
from measured import DRAINED, START, WINDOW, worst_window  # noqa: E402
from serving import Failure, expect, wait_for  # noqa: E402
from shares import FAILED, FAR, KINDS, SHAPED, in_pairs, may_shape, row, shaped  # noqa: E402

SECONDS = float(os.environ.get("SECONDS", "8"))

# The far end's rate in bytes a second, or the gateway's as its file spells it.
UPLINKS = (("far end 0.3 MB/s", 3e5, None), ("far end 2.5 MB/s", 2.5e6, None), ("rate 20 Mbit/s", 0, "20 Mbit/s"),
           ("loopback", 0, None))

# How long what is on its way may come, of packets that are scheduled: at most some MB are in the system's buffers.
ON_ITS_WAY = 0.5

# Seconds between two rotations or reloads.
OFTEN = 0.25


@dataclass
class Load:
    """Floods: the amounts of their grants, the lengths, tariffs and connections."""
    name: str
    rate: float = 0
    gateway_rate: str = None
    amounts: tuple = (400, 300, 200, 100)
    lengths: tuple = ("700",) * 4
    tariffs: tuple = (1,) * 4
    connections: tuple = (1,) * 4

    def wanted(self):
        """The share of each flow."""
        return {flow: amount / sum(self.amounts) for flow, amount in enumerate(self.amounts, 1)}

    def tenants(self, of=()):
        """The tenants, held: all of them compete from the first byte on. Some have their grant of a currency."""
        return {name: Tenant([(amount, "gold" if name in of else "base")], ["held = true", f"tariff = {tariff}"])
                for name, amount, tariff in zip("abcd", self.amounts, self.tariffs)}


class Flooded:
    """A gateway under a load."""

    def __init__(self, run, program, load, listen=None, prefix=(), tenants=None, currencies=None):
        where = ["--listen", listen] if listen else []
        self.far = run.keep(Far(program, "--numbered", "--rate", load.rate, *where, prefix=prefix))
        lines = [f'rate = "{load.gateway_rate}"'] if load.gateway_rate else []
        self.gateway = run.gateway(self.far.address, tenants or load.tenants(), uplink_lines=lines,
                                   currencies=currencies)
        names = list(self.gateway.tenants)
        self.floods = run.keep(Floods(program, [(self.gateway.tenants[name].ports[0], name, lengths, connections)
                               for name, lengths, connections in zip(names, load.lengths, load.connections)]))
        self.floods.say("go")
        wait_for(lambda: all(self.waiting()), "a packet of each tenant")
        self.gateway.control.expect_all(["resume " + name for name in names], "ok")

    def waiting(self):
        """How many packets each tenant has."""
        return [int(line.split()[4]) for line in self.gateway.control.report() if line.startswith("flow ")]

    def worst(self, wanted, start=START, end=None):
        """The greatest error of a share in a window between two times, and the shares of that window."""
        self.far.expect_in_order()
        return worst_window(list(self.far.samples), wanted, start, end)


def steady(program, load, doing=None, **where):
    """A row of a load whose shares stay. Something is done to the gateway meanwhile, if it is given."""
    try:
        with Play() as run:
            flooded = Flooded(run, program, load, **where)
            used, start = flooded.gateway.processor_seconds(), time.monotonic()
            end = START + max(SECONDS, WINDOW + 0.5)
            turn = 0
            while flooded.far.seconds() < end:
                if doing:
                    doing(flooded.gateway, turn)
                    turn += 1
                time.sleep(OFTEN)
                expect(time.monotonic() < start + 4 * end + 20, "the far end counts nothing")
            part = (flooded.gateway.processor_seconds() - used) / (time.monotonic() - start)
            frames = flooded.far.total() / flooded.far.seconds()
            pause = max(pause for seconds, pause in flooded.far.pauses if seconds >= START)
            text = "" if load.rate else f", no frame for {1000 * pause:.1f} ms at most"
            row(load.name, *flooded.worst(load.wanted()), f"{frames:.0f} frames/s, {100 * part:.0f} % of a core{text}")
    except Failure as fault:
        failed(load.name, fault)


def failed(name, fault):
    """Prints a load that fails otherwise than by its shares."""
    FAILED.append(name)
    print(f"| {name:<58} | {fault} |", flush=True)


def measure_loads(program):
    loads = [Load(f"{uplink}, {kind}", rate, gateway_rate, lengths=lengths, tariffs=tariffs)
             for (uplink, rate, gateway_rate), (kind, lengths, tariffs) in itertools.product(UPLINKS, KINDS)]
    loads += [Load(f"{uplink}, one connection against eight", rate, gateway_rate, (300, 100), connections=(1, 8))
              for uplink, rate, gateway_rate in UPLINKS[1:]]
    in_pairs(loads, lambda load: load.gateway_rate or 0 < load.rate < 1e7, lambda load: steady(program, load))


def measure_shaped(program):
    if not may_shape():
        print("skipped: no leave to make a network namespace with a shaped link")
        return
    for megabits, (kind, lengths, tariffs) in itertools.product(SHAPED, KINDS):
        with shaped(megabits) as prefix:
            steady(program, Load(f"tc {megabits} Mbit/s, {kind}", lengths=lengths, tariffs=tariffs),
                   listen=FAR + ":0", prefix=prefix)


# ---- Changes


def rotate(gateway, turn):
    gateway.control.expect("rotate", f"book {turn + 2}")


def read_anew(gateway, turn):
    """The file is read anew, with one tenant more or less."""
    if turn % 2:
        gateway.tenants.pop("guest")
    else:
        for name in gateway.tenants:
            gateway.tenants[name].lines = [line for line in gateway.tenants[name].lines if line != "held = true"]
        gateway.tenants["guest"] = Tenant([7])
    gateway.write()
    gateway.control.expect("reload", f"book {turn + 2}")


def in_phases(program, load, phases, **where):
    """A row for each phase of a load. A phase is its name, what begins it, how long what was scheduled before is on its
    way, and the shares that are wanted then."""
    try:
        with Play() as run:
            flooded = Flooded(run, program, load, **where)
            for name, begin, drained, wanted in phases:
                start = flooded.far.seconds()
                begin(flooded)
                end = max(start, START) + drained + WINDOW + 1
                flooded.far.wait(end)
                row(f"{load.name}: {name}", *flooded.worst(wanted, max(start, START) + drained, end))
    except Failure as fault:
        failed(load.name, fault)


def lines(*asked):
    """What begins a phase: control lines."""
    return lambda flooded: flooded.gateway.control.expect_all(list(asked), "ok")


def said(line):
    """What begins a phase: a line to the floods."""
    return lambda flooded: flooded.floods.say(line)


def measure_holds(program, load):
    drained = DRAINED if load.rate else ON_ITS_WAY
    in_phases(program, load, (
        ("before", lines(), 0, load.wanted()),
        ("a tenant held", lines("hold b"), drained, {1: 4 / 7, 3: 2 / 7, 4: 1 / 7, 2: 0}),
        ("resumed", lines("resume b"), drained, load.wanted()),
        ("amended", lines("amend a 1 1400"), drained, {1: 0.7, 2: 0.15, 3: 0.1, 4: 0.05}),
        ("all at once", lines("amend a 1 100", "amend d 1 400", "hold c"), drained,
         {1: 1 / 8, 2: 3 / 8, 3: 0, 4: 4 / 8})))


def measure_currency(program, load):
    """Two tenants share a currency's 400. One stops for a while: the other one has all 400 meanwhile."""
    load = replace(load, amounts=(1, 1, 300, 300))
    there, away = {1: 0.2, 2: 0.2, 3: 0.3, 4: 0.3}, {1: 0.4, 2: 0, 3: 0.3, 4: 0.3}
    in_phases(program, load, (
        ("all there", lines(), 0, there), ("one away", said("stop b"), 2 * DRAINED, away),
        ("back", said("go b"), DRAINED if load.rate else ON_ITS_WAY, there)),
        tenants=load.tenants("ab"), currencies={"gold": [(400, "base")]})


def measure_changes(program):
    """Packets are longer as fast as loopback takes them, so that books stay small."""
    paced, fast = Load("rate 20 Mbit/s", gateway_rate="20 Mbit/s"), Load("loopback", lengths=("4000",) * 4)
    fixed = Load("far end 25 MB/s", rate=2.5e7)
    for load in (paced, fast, fixed):
        steady(program, replace(load, name=f"{load.name}, rotations"), rotate)
        steady(program, replace(load, name=f"{load.name}, reloads"), read_anew)
        measure_holds(program, replace(load, name=f"{load.name}, holds"))
    for load in (fast, fixed):
        measure_currency(program, replace(load, name=f"{load.name}, a currency"))


def main():
    parts = {"loads": measure_loads, "shaped": measure_shaped, "changes": measure_changes}
    words = sys.argv[1:] or list(parts)
    if not set(words) <= set(parts):
        sys.exit("the words are " + ", ".join(parts))
    with tempfile.TemporaryDirectory() as folder:
        program = build_load(folder)
        for word in words:
            parts[word](program)
    if FAILED:
        sys.exit("shares are off, or packets: " + "; ".join(FAILED))


if __name__ == "__main__":
    main()
