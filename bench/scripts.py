"""The scripts that are measured."""
from collections.abc import Callable
from dataclasses import dataclass, replace
from itertools import islice

LONGEST_LIFE = 1 << 24
FLOWS = 64
TURN = "turn 65535\n"


@dataclass
class Script:
    """A script: its beginning, and lines that are repeated that many times, or that are made of the number of the
    round, from 0, and are as many in each; and the life that it is run with."""
    name: str
    beginning: str
    lines: str | Callable[[int], str]
    count: int
    life: int = LONGEST_LIFE

    def round(self, number):
        """The lines of a round."""
        return self.lines if isinstance(self.lines, str) else self.lines(number)

    def pieces(self, times):
        """Its beginning and its rounds, with `times` as many lines."""
        yield self.beginning
        yield from (self.round(number) for number in range(self.count * times))

    def write(self, path, times):
        """Writes it piece by piece, with `times` as many lines: a process starts with its parent's peak of memory."""
        with open(path, "w") as sink:
            sink.writelines(self.pieces(times))

    def write_first(self, path, most):
        """Writes the first lines, at most that many, and returns how many they are."""
        lines = (line for piece in self.pieces(1) for line in piece.splitlines(keepends=True))
        count = 0
        with open(path, "w") as sink:
            for line in islice(lines, most):
                sink.write(line)
                count += 1
        return count

    def length(self, times):
        """How many lines there are."""
        return self.beginning.count("\n") + self.round(0).count("\n") * self.count * times


def opening(limit):
    """A flow with this limit of its buffer, and what funds it."""
    return "open a %d 1\nmktkt 10 base\nfund 1 flow a\n" % limit


def send(size, flow="a"):
    """A packet of that many bytes for a flow."""
    return "send %s %s\n" % (flow, "".join("%02x" % (i * 7 % 256) for i in range(size)))


def pairs(size, count):
    """Packets of that many bytes, each of which is written before the next one comes."""
    return Script("pairs of %d bytes" % size, opening(1000), send(size) + TURN, count)


def in_version_2(script):
    """A script with frames of version 2."""
    return replace(script, name=script.name + ", version 2", beginning="audit 2\n" + script.beginning)


class Funding:
    """Lines that make currencies, flows and tickets, with the number of the last ticket."""

    def __init__(self):
        self.lines = []
        self.tickets = 0

    def currency(self, name):
        self.lines.append("mkcur %s\n" % name)

    def flow(self, number):
        self.lines.append("open f%d 1000 1\n" % number)

    def ticket(self, amount, currency, holder):
        """A ticket that funds a holder, as `flow f1` or `cur c1`."""
        self.tickets += 1
        self.lines.append("mktkt %d %s\nfund %d %s\n" % (amount, currency, self.tickets, holder))

    def text(self):
        return "".join(self.lines)


def weight(flow):
    """How many packets a backlogged flow sends a round, and its share of the link."""
    return 1 + flow % 4


def turns_of(sends):
    """A turn after each of these lines."""
    return "".join(line + TURN for line in sends)


def backlog(size, flows):
    """Some flows with base tickets, and a backlog; and a round, which leaves the backlog as it is. A flow begins a
    stride of 1024 units from the pass of the link, so those of many tickets are served for many rounds first."""
    funding = Funding()
    for flow in range(flows):
        funding.flow(flow)
        funding.ticket(100 * weight(flow), "base", "flow f%d" % flow)
    sends = [send(size, "f%d" % flow) for turn in range(4) for flow in range(flows) if turn < weight(flow)]
    rounds = 4 + 1024 // (12 + size)
    return funding.text() + "".join(sends) * rounds, sends


def backlogged(name, size, count):
    """All flows always have packets that wait."""
    beginning, sends = backlog(size, FLOWS)
    return Script(name, beginning, turns_of(sends), count)


def toggling(name, count):
    """All flows but one always have packets that wait; that one has most of the tickets, and one packet at a time."""
    beginning, sends = backlog(1, FLOWS - 1)
    heavy = "open heavy 1000 1\nmktkt 1048576 base\nfund %d flow heavy\n" % FLOWS
    return Script(name, beginning + heavy, turns_of(line for each in sends for line in (send(1, "heavy"), each)), count)


def holds(name, count):
    """All flows have packets that wait; one of them is held in front of each other turn, and resumed in front of those
    between."""
    beginning, sends = backlog(1, FLOWS)
    changes = ("hold f0\n", "resume f0\n")
    return Script(name, beginning, turns_of(changes[number % 2] + each for number, each in enumerate(sends)), count)


def waking(name, funding, count, flows=FLOWS):
    """Each packet wakes a flow, and each turn rests one: the flows wake one after the other and are served then."""
    sends = "".join(send(1, "f%d" % flow) for flow in range(flows))
    return Script(name, funding.text(), sends + TURN * flows, count)


def layers():
    """16 currencies in four layers, each but those of the first backed by two of the layer before, and all flows
    funded by two of the last."""
    funding = Funding()
    for place in range(16):
        funding.currency("c%d" % place)
        for part in range(2):
            backing = "base" if place < 4 else "c%d" % (place // 4 * 4 - 4 + (place + part) % 4)
            funding.ticket(1000 + 100 * place + part, backing, "cur c%d" % place)
    for flow in range(FLOWS):
        funding.flow(flow)
        for part in range(2):
            funding.ticket(100 + flow, "c%d" % (12 + (flow + part) % 4), "flow f%d" % flow)
    return funding


def deep_graph():
    """Eight currencies, each backed by the one before through sixteen tickets, and all flows funded by fourteen tickets
    of the last: 1024 tickets, and more paths than can be walked."""
    return chain(range(8), 16, FLOWS, 14)


def chain(order, backing, flows, funding_tickets):
    """Currencies that are made in this order, each backed by the one before it, of number 0 by base, through that many
    tickets; and that many flows, each funded by that many tickets of the last."""
    funding = Funding()
    for depth in order:
        funding.currency("c%d" % depth)
    for depth in order:
        for _ in range(backing):
            funding.ticket(1000, "c%d" % (depth - 1) if depth else "base", "cur c%d" % depth)
    for flow in range(flows):
        funding.flow(flow)
        for _ in range(funding_tickets):
            funding.ticket(1000, "c%d" % (len(order) - 1), "flow f%d" % flow)
    return funding


# In which order the eight currencies of a chain are made: in the last, one alone is made after what it backs.
ORDERS = {
    "made in order": tuple(range(8)),
    "made in reverse": tuple(reversed(range(8))),
    "shuffled": (3, 0, 6, 1, 7, 4, 2, 5),
    "one late": (0, 1, 3, 4, 5, 6, 7, 2),
}

# Tickets of a chain of eight currencies: (of all, of each currency, flows, of each flow).
SIZES = ((16, 1, 8, 1), (128, 8, 8, 8), (1024, 16, 56, 16))


def wide_chain():
    """A chain with places for more tickets: 1023 tickets, of which the last seven fund nothing, and a flow x."""
    funding = chain(range(8), 15, 56, 16)
    funding.lines.append("mktkt 1 c7\n" * 7 + "open x 4 1\n")
    return funding.text(), funding.tickets + 1


def graphs():
    """Chains of each size in each order, in which flows wake and rest; and single commands among 1023 tickets."""
    found = [waking("%d tickets, %s" % (size, order), chain(made, backing, flows, each), count=40, flows=flows)
             for size, backing, flows, each in SIZES for order, made in ORDERS.items()]
    beginning, spare = wide_chain()
    found.append(Script("refused as a cycle", beginning, "fund %d cur c0\n" % spare, 2000))
    found.append(Script("a flow closed and opened", beginning, "close x\nopen x 4 1\n", 1000))
    found.append(Script("a ticket made and removed", beginning,
                        lambda number: "mktkt 1 c7\nrmtkt %d\n" % (spare + 7 + number), 1000))
    found.append(Script("a ticket funds a flow and its end", beginning,
                        "fund %d flow x\nunfund %d\n" % (spare, spare), 1000))
    return found


def commands(name, count):
    """Currencies and tickets that are made, fund, cease to fund and are removed, while all flows have a packet."""
    funding = layers()
    sends = "".join(send(1, "f%d" % flow) for flow in range(FLOWS))

    def round_of(number):
        first = funding.tickets + 1 + 48 * number
        tickets = range(first, first + 48)
        names = ["d%d" % place for place in range(4)]
        lines = ["mkcur %s" % currency for currency in names]
        lines += ["mktkt %d %s" % (10 + ticket % 7, (["base"] + names)[ticket % 3]) for ticket in tickets]
        lines += ["fund %d %s" % (ticket, "cur %s" % names[ticket % 3] if ticket < first + 12
                                  else "flow f%d" % (ticket * 5 % FLOWS)) for ticket in tickets]
        lines += ["unfund %d" % ticket for ticket in tickets]
        lines += ["rmtkt %d" % ticket for ticket in tickets]
        lines += ["rmcur %s" % currency for currency in names]
        return "".join(line + "\n" for line in lines)

    return Script(name, funding.text() + sends, round_of, count)


# A ticket of `layers`: it is denominated in the first currency, and backs the first of the second layer.
TICKET_BETWEEN = 9


def amends(name, count):
    """The amount of one ticket changes while all flows have a packet: shares follow in all layers of currencies, and
    so do the tickets of all flows."""
    sends = "".join(send(1, "f%d" % flow) for flow in range(FLOWS))
    lines = "".join("amend %d %d\n" % (TICKET_BETWEEN, 1000 + 37 * step) for step in range(20))
    return Script(name, layers().text() + sends, lines, count)


SCRIPTS = [
    pairs(700, 100_000),
    in_version_2(pairs(700, 100_000)),
    pairs(1490, 48_000),
    in_version_2(pairs(9000, 8_000)),
    pairs(2, 500_000),
    Script("a byte at a time", opening(1000), send(2) + "turn 1\n" * 14, 200_000),
    Script("backlog of 1000 packets", opening(1000), send(1000) * 1000 + TURN * 1000, 60),
    Script("full buffer", opening(1) + send(2), send(2), 1_000_000),
    Script("no such flow", opening(1), "send b 6869\n", 1_000_000),
    Script("idle turns", opening(1), TURN, 1_000_000),
    Script("no such line", opening(1), "frobnicate 1\n", 1_000_000),
    Script("ticket in use of 1024", opening(1) + "mktkt 1 base\n" * 1023, "fund 1 flow a\n", 1_000_000),
    Script("spent life", opening(1), TURN, 1_000_000, life=3),
    backlogged("64 backlogged, 1 byte", 1, 1500),
    backlogged("64 backlogged, 1000 bytes", 1000, 200),
    waking("churn of 16 currencies", layers(), 400),
    toggling("one toggles beside 63", 300),
    commands("commands only", 600),
    amends("amends", 2000),
    holds("holds", 300),
    waking("deep graph", deep_graph(), 100),
]
