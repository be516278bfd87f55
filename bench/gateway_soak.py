#!/usr/bin/env python3
"""Soaks a gateway: MINUTES minutes (10) of drawn traffic, with rotations, reloads, holds, amends and redials.

Six tenants, two of them of a currency, send packets of drawn lengths by two connections each, which pause, end and
begin again. The program of the load sends and counts (gateway_load). Books have lives of 131072 events. Meanwhile, by
chance, a book is rotated, the file is read anew with other grants and with or without a guest, a tenant is held or
resumed, a grant is amended, the far end reads nothing or slowly for a while, or ends its connection. At the end all
tenants finish. What is drawn comes from SEED (the time unless set), which is printed. It is wanted

- that the bill over all books has, for each tenant, exactly the packets and bytes that it sent;
- that no packet comes to the far end twice or out of order, and that what is missing there of the bill is at most what
  the lines about lost uplinks say: nothing if there were none;
- that each book is closed, and has the digest, the events and the numbers of its row;
- that the gateway answers all the while, and that its resident memory in the last minute is at most 1.1 of that after
  the first.

If nothing moves for a minute, the program ends. Texts take about 20 bytes a packet in the system's temporary folder,
and are removed. The environment names the gateway as for tests/gateway.py.
"""
import os
import random
import statistics
import sys
import tempfile
import time

from bench import MEBIBYTE, TOP, print_row
from gateway_loading import Far, Floods, build_load

sys.path.insert(0, os.path.join(TOP, "tests"))
from gatewaying import Play, Tenant  # noqa: E402
from serving import HEADER, SERVED, Failure, expect, expect_equal, limit_time, wait_for  # noqa: E402

MINUTES = float(os.environ.get("MINUTES", "10"))
SEED = int(os.environ.get("SEED", time.time_ns() % 1000000007))
NAMES = "abcdef"
LIFE = 131072
MOST_MEMORY = 1.1
STALL = 60

# Seconds between two things that are done, at most.
OFTEN = 0.4

# How often each thing is done, beside others.
WEIGHTS = {"rotate": 4, "reload": 4, "hold": 8, "amend": 8, "rest": 2, "slow": 2, "drop": 1, "nothing": 10}


class Soak:
    """A gateway under drawn traffic."""

    def __init__(self, run, program):
        self.draw = random.Random(SEED)
        self.far = run.keep(Far(program, "--numbered"))
        self.gateway = run.gateway(self.far.address, {
            "a": Tenant([(200, "gold"), 50]), "b": Tenant([(100, "gold")]), "c": Tenant([300], ["packets = 1024"]),
            "d": Tenant([100], ["tariff = 2"]), "e": Tenant([70], ["tariff = 3", "packets = 2"]), "f": 1},
            currencies={"gold": [(300, "base")]}, books_lines=[f"events = {LIFE}"])
        self.floods = run.keep(Floods(program, [(self.gateway.tenants[name].ports[0], name, 8, 2) for name in NAMES],
                                      SEED))
        self.held = set()
        self.counts = dict.fromkeys(WEIGHTS, 0)
        self.memory = []
        self.replies = {False: [], True: []}

    def do(self, what):
        """Does a thing."""
        self.counts[what] += 1
        getattr(self, what)()

    def ask(self, line, wanted):
        start = time.monotonic()
        reply = self.gateway.control.ask(line)
        self.replies[wanted == "book "].append(time.monotonic() - start)
        expect(reply.startswith(wanted), f"the reply to {line} is {reply}, wanted {wanted}")

    def nothing(self):
        self.ask("status", "{")

    def rotate(self):
        self.ask("rotate", "book ")

    def reload(self):
        """The file is read anew, with other amounts, and with or without a guest."""
        for name in NAMES:
            self.gateway.tenants[name].grants = [(self.draw.randint(1, 1000), of)
                                                 for _, of in self.gateway.tenants[name].grants]
        if self.gateway.tenants.pop("guest", None) is None:
            self.gateway.tenants["guest"] = Tenant([self.draw.randint(1, 1000)])
        self.gateway.write()
        self.ask("reload", "book ")

    def hold(self):
        name = self.draw.choice(NAMES)
        self.ask(("resume " if name in self.held else "hold ") + name, "ok")
        self.held ^= {name}

    def amend(self):
        self.ask(f"amend {self.draw.choice(NAMES)} 1 {self.draw.randint(1, 1000)}", "ok")

    def rest(self):
        self.far.say("rest")
        time.sleep(self.draw.uniform(0.1, 1))
        self.nothing()
        self.far.say("go")

    def slow(self):
        self.far.say(f"rate {self.draw.choice((300_000, 2_500_000, 25_000_000))}")
        time.sleep(self.draw.uniform(0.5, 2))
        self.nothing()
        self.far.say("rate 0")

    def drop(self):
        before = self.far.connections
        self.far.say("drop")
        wait_for(lambda: self.far.connections > before, "a redial", STALL)

    def play(self):
        """Does one thing after another until the time is over."""
        self.floods.say("go")
        start, moved, seen = time.monotonic(), time.monotonic(), -1
        while time.monotonic() < start + 60 * MINUTES:
            self.do(self.draw.choices(list(WEIGHTS), list(WEIGHTS.values()))[0])
            time.sleep(self.draw.uniform(0, OFTEN))
            self.memory.append((time.monotonic() - start, self.gateway.resident()))
            if self.far.total() != seen or len(self.held) == len(NAMES):
                moved, seen = time.monotonic(), self.far.total()
            expect(time.monotonic() < moved + STALL, "nothing comes any more")
        return time.monotonic() - start

    def finish(self):
        """Lets all tenants finish, and ends the gateway: what each tenant sent."""
        for name in sorted(self.held):
            self.ask(f"resume {name}", "ok")
        sent = self.floods.finish()
        self.gateway.control.expect("end", "ok")
        self.gateway.wait(0, STALL)
        self.far.wait_until_over()
        return {name: tuple(count) for name, count in sent.items()}

    def check(self, sent):
        """Compares what was sent, billed and counted: how many bytes are missing at the far end."""
        bill = {name: row for name, row in self.gateway.bill().items() if name in NAMES}
        for name, (packets, size) in sent.items():
            expect_equal(bill[name][:2], (packets, size + packets * HEADER[SERVED]), f"the bill of {name}")
        expect_equal(self.far.total("again"), 0, "packets that came again, or too late")
        missing = sum(row[1] for row in bill.values()) - self.far.total("bytes")
        losses = self.gateway.messages("lost")
        most = sum(max(message.numbers()) for message in losses)
        expect(0 <= missing <= most, f"{missing} bytes are missing after {len(losses)} losses of at most {most}")
        self.gateway.check_bill(*self.gateway.check_texts())
        return missing, most

    def growth(self):
        """The median of the memory in ten seconds after the first minute, and the most of the last minute."""
        last = self.memory[-1][0]
        first = min(60, last / 3)
        early = [size for seconds, size in self.memory if first <= seconds <= first + 10]
        late = [size for seconds, size in self.memory if seconds >= last - min(60, last / 3)]
        return statistics.median(early), max(late)


def soak(program):
    with Play() as run:
        found = Soak(run, program)
        seconds = found.play()
        sent = found.finish()
        missing, most = found.check(sent)
        rows = found.gateway.rows()
        early, late = found.growth()
        lines = len(found.gateway.messages())
    packets = sum(count for count, _ in sent.values())
    print_row(("packets", "MB", "packets/s", "books", "bytes missing", "at most", "memory after a minute, MiB",
               "at the end, MiB", "lines of standard error"))
    print_row(["---"] * 9)
    print_row((str(packets), f"{sum(size for _, size in sent.values()) / 1e6:.0f}", f"{packets / seconds:.0f}",
               str(len(rows)), str(missing), str(most), f"{early / MEBIBYTE:.1f}", f"{late / MEBIBYTE:.1f}",
               str(lines)))
    for is_book, what in enumerate(("a line", "a line that begins a book")):
        times = [1000 * each for each in found.replies[is_book]]
        if times:
            print(f"the reply to {what}: {statistics.median(times):.2f} ms at the median, {max(times):.1f} ms at most")
    print(", ".join(f"{what} {count}" for what, count in found.counts.items()))
    expect(late <= MOST_MEMORY * early, f"memory grows from {early} to {late} bytes")


def main():
    limit_time()
    print(f"SEED={SEED}", flush=True)
    with tempfile.TemporaryDirectory() as folder:
        try:
            soak(build_load(folder))
        except Failure as fault:
            sys.exit(f"gateway_soak.py: {fault}")


if __name__ == "__main__":
    main()
