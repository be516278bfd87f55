"""The traffic of each flow by the lines of an audit, computed by the rules of the tariffs and compared with what the
program answers: two ways to the same account."""
from collections import deque
from dataclasses import dataclass, field

from audits import HEADER, Fault, Replay
from folders import expect_standard


@dataclass(frozen=True)
class Tariff:
    """Bytes cost the overhead and whole cells, and no byte costs nothing. Each unit costs the price."""
    cell: int
    overhead: int
    price: int

    def units(self, count):
        return self.overhead + -(-count // self.cell) * self.cell if count else 0


# Those of the program.
TARIFFS = {1: Tariff(1, 0, 1), 2: Tariff(48, 16, 2), 3: Tariff(1024, 0, 1), 4: Tariff(2048, 1024, 3)}


@dataclass
class Flow:
    """A flow's bill. `account` is that of the program, and `tickets` are those with which the link chose the flow's
    last frame; a flow of which no frame was begun has 0. `waiting` has the lengths of the payloads that wait."""
    number: int
    name: str
    tariff: Tariff
    tickets: int = 0
    packets: int = 0
    bytes: int = 0
    units: int = 0
    account: int = 0
    state: str = "open"
    last_frame: int = 0
    waiting: deque = field(default_factory=deque)

    def row(self):
        return {"flow": self.number, "name": self.name, "tickets": self.tickets, "packets": self.packets,
                "bytes": self.bytes, "units": self.units, "price": self.tariff.price, "account": self.account,
                "state": self.state}


def tariff(line):
    """The tariff of a flow that a line opens."""
    found = TARIFFS.get(int(line.words[3]))
    if not found:
        raise Fault("line %d: the rules of tariff %s are not known" % (line.number, line.words[3]))
    return found


class Books:
    """The flows of an audit by their numbers, from its lines. In front of a payload a frame has `header` bytes. Of the
    frame in part, `part` bytes are out."""

    def __init__(self, version):
        self.header = HEADER[version]
        self.flows = {}
        self.part = 0

    def take(self, line):
        """Books what an answered line changed of a flow."""
        kind, *numbers = line.answer
        if kind == "flow":
            self.flows[int(numbers[0])] = Flow(int(numbers[0]), line.words[1], tariff(line))
        elif kind == "closed":
            flow = self.flows[int(numbers[0])]
            flow.account, flow.state = int(numbers[2]), "closed"
        elif kind == "packet":
            self.flows[int(numbers[0])].waiting.append(len(line.words[2]) // 2)
        elif kind == "wrote":
            flow = self.flows[int(numbers[0])]
            self.send(flow, line.number, int(numbers[2]))
            if numbers[3] == "whole":
                agree("the bytes of packet %s of flow %d" % (numbers[1], flow.number), self.part,
                      self.header + flow.waiting.popleft())
                flow.packets += 1
                self.charge(flow)
        elif kind == "torn":
            flow = self.flows[int(numbers[0])]
            self.send(flow, line.number, 0)
            self.charge(flow)

    def send(self, flow, number, count):
        """That many bytes of a flow's frame went out, by the line of this number."""
        if self.part == 0:
            flow.last_frame = number
        flow.bytes += count
        self.part += count

    def charge(self, flow):
        """A flow's frame is whole or torn, and is charged."""
        flow.units += flow.tariff.units(self.part)
        self.part = 0


def agree(what, told, computed):
    if told != computed:
        raise Fault("%s: %d by the program, and %d by the rules" % (what, told, computed))


def check(books, report):
    """Wants that the rules come to what the program prints: each account, and the sums."""
    flows = books.flows.values()
    for flow in flows:
        agree("the account of flow %d (%s)" % (flow.number, flow.name), flow.account, flow.units * flow.tariff.price)
    closed = [flow.account for flow in flows if flow.state == "closed"]
    agree("the accounts of closed flows", report.totals["past"], sum(closed))
    agree("the units charged", report.totals["clock"], sum(flow.units for flow in flows))
    agree("the bytes written", report.totals["bytes"], sum(flow.bytes for flow in flows))
    agree("the frames written", report.totals["written"], sum(flow.packets for flow in flows))


def bill(path):
    """The flows of an audit, in the order of their numbers."""
    expect_standard(path)
    with Replay(path) as replay:
        books = Books(replay.version)
        for line in replay.lines():
            books.take(line)
        for number, row in replay.report.flows.items():
            books.flows[number].account = row.account
        check(books, replay.report)
    add_tickets(path, books)
    return list(books.flows.values())


def add_tickets(path, books):
    """Finds the tickets of each flow at its last frame, by a second run with a report in front of the write that began
    the frame."""
    wanted = {flow.last_frame: flow for flow in books.flows.values() if flow.last_frame}
    if not wanted:
        return
    with Replay(path, wanted.keys()) as replay:
        for line in replay.lines():
            if line.report:
                flow = wanted[line.number]
                flow.tickets = line.report.flows[flow.number].tickets


def bill_of_books(paths):
    """The sums of the tenants of books by their names, each with its tickets in the last book in which it sent."""
    found = {}
    for path in paths:
        for flow in bill(path):
            if flow.name == "gap":
                continue
            whole = found.setdefault(flow.name, Flow(len(found) + 1, flow.name, flow.tariff))
            whole.tickets = flow.tickets or whole.tickets
            for column in ("packets", "bytes", "units", "account"):
                setattr(whole, column, getattr(whole, column) + getattr(flow, column))
    return list(found.values())
