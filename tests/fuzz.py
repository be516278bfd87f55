#!/usr/bin/env python3
"""Draws scripts, audits, control texts and ingress records from a seed, gives them to a built program, and compares
what it answers with plain models of the rules.

The program is bin/stridelink, or that of the environment variable STRIDELINK; it has to know `serve` and `run`. The
models are written from docs/SPECIFICATION.md and docs/man, with nothing kept that the rules compute from scratch: the
tickets of the flows come from the whole graph at each levelling. Reports are modelled too, and whole outputs are
compared, byte for byte. Before anything else the models are given worked examples, whose answers were found by hand.

    fuzz.py                 runs the seed that stands below, so it does the same each time
    fuzz.py --seed N        runs another seed
    fuzz.py --minutes N     draws seeds, prints each, and runs them for that long
    fuzz.py --self          runs the models alone, on the scripts of a seed: no program is needed
    fuzz.py --print FILE    prints what the models answer to a script

A run of a seed has SCRIPTS scripts, each with its audit and that audit with one byte changed, dropped or doubled, and
a server for each of TEXTS control texts, STREAMS streams of records and UPLINK_CASES uplinks. The first INTERRUPTED
uplinks are stopped and continued while a write waits: the system ends it then, short, or interrupted if it took none
of its bytes. The peers of the others reset their connection. Four in ten scripts begin with `audit 2`: their frames
and audits are of version 2, as those of servers are. At the end it prints how many of each were compared, and how
often each reply, refusal, reason and turn of the language was met. It ends with status 1 if one was met fewer than
LEAST times. At the first difference it ends with status 1: it prints the seed, the number of the case, how the input
is given to the program again, and the first line that differs, in both answers; and it writes three files to the
current folder, named after the seed and the case: the input, what was found and what was wanted.

What a seed draws changes with this file, so anyone who finds a fault keeps it as a test: as a script with its output in
tests/scripts/, or as a case of serve.py. Strict runs, several connections of a kind, and whatever the system takes away
are not drawn.
"""
import argparse
import contextlib
import ctypes
import os
import random
import re
import signal
import socket
import struct
import subprocess
import sys
import time
from collections import Counter, defaultdict, deque
from dataclasses import dataclass, field
from functools import cache
from itertools import zip_longest

sys.dont_write_bytecode = True

from serving import (LONGEST_PAYLOAD, PATIENCE, PROGRAM, SERVED, Failure, Run, ends_by_itself, frame, frames,
                     limit_time, record, reset, shortened, wait_for)

SEED = 1994
SCRIPTS = 2000
TEXTS = 20
STREAMS = 360
# Servers whose uplink is interrupted, in how many rounds, with that many packets that wait, and servers in all.
INTERRUPTED = 30
ROUNDS = 15
PACKETS = 60
UPLINK_CASES = INTERRUPTED + 100

# The number of the system call that duplicates a handle of another process.
PIDFD_GETFD = 438

# Seconds for a case.
LIMIT = 60

# ---- The model of a link

REFUSALS = ("NoMemory", "Spent", "Syntax", "Range", "NoCurrency", "NoTicket", "NoFlow", "NoTariff", "Taken", "Base",
            "InUse", "Funding", "Unfunded", "Crowded", "Cycle", "Deep", "TableFull", "Sending", "BufferFull", "Broken",
            "Held", "NotHeld")
MOST_TICKETS = 1024
MOST_CURRENCIES = 64
MOST_FLOWS = 64
MOST_FUNDING = 16
MOST_CHAINED = 8
MOST_AMOUNT = 1 << 20
LONGEST_LINE = 20480
LONGEST_TURN = 65535
DEFAULT_LIFE = 65536
STRIDE_ONE = 1 << 40
QUANTUM = 1024

# The cell, the overhead and the price of each tariff.
TARIFFS = {1: (1, 0, 1), 2: (48, 16, 2), 3: (1024, 0, 1), 4: (2048, 1024, 3)}

# The spellings of a line. Of words in capitals there are many.
SPELLINGS = [spelling.split(" ") for spelling in (
    "mkcur NAME", "rmcur NAME", "mktkt NUM NAME", "rmtkt NUM", "fund NUM cur NAME", "fund NUM flow NAME", "unfund NUM",
    "amend NUM NUM", "open NAME NUM NUM", "close NAME", "hold NAME", "resume NAME", "send NAME HEX", "turn NUM", "torn",
    "report", "audit 1", "audit 2")]
WORDS = {"NAME": re.compile("[a-z][a-z0-9_-]{0,15}"), "NUM": re.compile("0|[1-9][0-9]{0,19}"),
         "HEX": re.compile("([0-9a-f]{2})+")}
TURNS = ("turn NUM", "torn")
VERSIONS = {"audit 1": 1, "audit 2": 2}
VALUES = {"NAME": str, "NUM": int, "HEX": bytes.fromhex}


class Refusal(Exception):
    """A line is refused as this."""


def refuse(holds, name):
    if holds:
        raise Refusal(name)


def refused(name):
    return "no %d %s" % (REFUSALS.index(name) + 1, name)


def lines_of(text):
    """The lines of a text. The last bytes without a line feed are one."""
    lines = text.decode("latin-1").split("\n")
    return lines if lines[-1] else lines[:-1]


def value_of(word, wanted):
    """The meaning of a word if another is wanted; None if it does not fit."""
    if wanted not in WORDS:
        return word if word == wanted else None
    value = VALUES[wanted](word) if WORDS[wanted].fullmatch(word) else None
    return None if wanted == "NUM" and value is not None and value >= 1 << 64 else value


def why_misspelled(line):
    """The fault of a line that is not one of the language."""
    words = line.split(" ")
    fitting = [spelling for spelling in SPELLINGS if spelling[0] == words[0]]
    if len(line) > LONGEST_LINE:
        return "too long"
    if "" in words:
        return "a space too much" if line else "an empty line"
    if not fitting:
        return "no word of the language"
    if all(len(words) != len(spelling) for spelling in fitting):
        return "too few or too many words"
    spelling = min((it for it in fitting if len(it) == len(words)),
                   key=lambda it: sum(value_of(word, wanted) is None for word, wanted in zip(words, it)))
    wrong = [wanted for word, wanted in zip(words, spelling) if value_of(word, wanted) is None]
    return "no %s" % (wrong[0] if wrong[0] in WORDS else "word in its place") if wrong else "not the first line"


def words_of(line):
    """The spelling of a line, and the values of its words in capitals; None if it has none."""
    words = line.split(" ")
    for spelling in SPELLINGS:
        if len(line) <= LONGEST_LINE and words[0] == spelling[0] and len(words) == len(spelling):
            values = [value_of(word, wanted) for word, wanted in zip(words, spelling)]
            if None not in values:
                return " ".join(spelling), [value for value, wanted in zip(values, spelling) if wanted in WORDS]
    return None


@dataclass
class Ticket:
    """A ticket. Its holder is nobody, ("cur", a name) or ("flow", a number)."""
    number: int
    amount: int
    currency: str
    holder: tuple | None = None


@dataclass
class Flow:
    """An open flow, with its packets as (number, payload), and its client in the stride queue."""
    number: int
    name: str
    limit: int
    tariff: int
    packets: deque = field(default_factory=deque)
    accepted: int = 0
    account: int = 0
    tickets: int = 0
    stride: int = 0
    remain: int = 0
    place: int = 0
    competes: bool = False
    is_held: bool = False

    def is_active(self):
        return bool(self.packets) and not self.is_held


class Worths:
    """The active flows and currencies and their worths, from all tickets and the numbers of the active flows."""

    def __init__(self, tickets, active_flows):
        self.active_flows = active_flows
        self.denominated = defaultdict(list)
        self.funding = defaultdict(list)
        self.actives = {}
        self.values = {}
        for ticket in tickets:
            self.denominated[ticket.currency].append(ticket)
            self.funding[ticket.holder].append(ticket)

    def is_active(self, ticket):
        if ticket.holder is None:
            return False
        kind, key = ticket.holder
        return key in self.active_flows if kind == "flow" else bool(self.active_in(key))

    def active_in(self, currency):
        """The active tickets denominated in a currency."""
        if currency not in self.actives:
            self.actives[currency] = [ticket for ticket in self.denominated[currency] if self.is_active(ticket)]
        return self.actives[currency]

    def value(self, currency):
        if currency not in self.values:
            self.values[currency] = sum(self.worth(ticket) for ticket in self.funding[("cur", currency)])
        return self.values[currency]

    def worth(self, ticket):
        if not self.is_active(ticket):
            return 0
        if ticket.currency == "base":
            return ticket.amount
        active = sum(other.amount for other in self.active_in(ticket.currency))
        return self.value(ticket.currency) * ticket.amount // active

    def tickets(self, flow):
        """The tickets of a flow."""
        return min(MOST_AMOUNT, sum(self.worth(ticket) for ticket in self.funding[("flow", flow.number)]))


class Queue:
    """The stride queue over the open flows."""

    def __init__(self, flows):
        self.flows = flows
        self.place = 0
        self.last = 0
        self.clock = 0

    def competing(self):
        return [flow for flow in self.flows if flow.competes]

    def total(self):
        return sum(flow.tickets for flow in self.competing())

    def update(self):
        total = self.total()
        global_stride = STRIDE_ONE // total if total else 0
        self.place += global_stride * (self.clock - self.last) // QUANTUM
        self.last = self.clock

    def join(self, flow, tickets):
        self.update()
        stride = STRIDE_ONE // tickets
        flow.remain = flow.remain * stride // flow.stride if flow.stride else stride
        flow.tickets, flow.stride, flow.competes = tickets, stride, True
        flow.place = self.place + flow.remain

    def leave(self, flow):
        self.update()
        flow.remain = flow.place - self.place
        flow.competes = False

    def level(self, flow, tickets):
        """The one move after which a flow competes with these tickets."""
        if flow.competes and flow.tickets != tickets:
            self.leave(flow)
        if tickets and not flow.competes:
            self.join(flow, tickets)

    def charge(self, flow, units):
        share = flow.stride * units // QUANTUM
        if flow.competes:
            flow.place += share
        else:
            flow.remain += share
        self.clock += units

    def next(self):
        """The next flow; None if none competes."""
        return min(self.competing(), key=lambda flow: (flow.place, flow.number), default=None)


class Link:
    """A link with its writer, which accepts all that it is offered. The first line of a script may choose another
    version."""

    def __init__(self, life, version=1):
        self.life = life
        self.version = version
        self.lines = 0
        self.events = []
        self.currencies = []
        self.tickets = {}
        self.flows = []
        self.queue = Queue(self.flows)
        self.made_tickets = self.made_flows = 0
        self.accepted = self.written = self.dropped = self.past = 0
        self.out = bytearray()
        self.part = None
        self.sent = 0
        self.torn_flow = None
        self.is_broken = False
        self.met = Counter()

    def answer(self, line):
        """The answer to a line of a script, which is counted as met; None to a first line that chooses a version."""
        was_in_part, was_sent = bool(self.part), self.sent
        reply = self.answer_to(line)
        spelled = words_of(line)
        self.met.update(met_by(spelled and spelled[0], line, reply, was_in_part, was_sent))
        return reply

    def answer_to(self, line):
        self.lines += 1
        spelled = words_of(line)
        if spelled is None or (self.lines > 1 and spelled[0] in VERSIONS):
            return refused("Syntax")
        spelling, values = spelled
        if spelling in VERSIONS:
            self.version = VERSIONS[spelling]
            return None
        if spelling == "report":
            return self.report()
        try:
            self.check(spelling, values)
        except Refusal as refusal:
            return refused(str(refusal))
        try:
            reply = CALLS[spelling](self, *values)
            if spelling not in TURNS:
                self.level()
        except Refusal as refusal:
            reply = refused(str(refusal))
        if reply != "idle":
            self.events.append(("turn %s" % reply.split(" ")[3] if spelling == "turn NUM" else line, reply))
        return reply

    def answer_control(self, line):
        """The answer to a line of a control connection."""
        spelled = words_of(line)
        is_other = spelled is None or spelled[0].split(" ")[0] in ("send", "turn", "torn", "audit")
        return refused("Syntax") if is_other else self.answer(line)

    def check(self, spelling, values):
        """The refusals that make no event."""
        refuse(len(self.events) >= self.life, "Spent")
        refuse(spelling == "send NAME HEX" and len(values[1]) > LONGEST_PAYLOAD[self.version], "Range")
        refuse(spelling == "turn NUM" and not 1 <= values[0] <= LONGEST_TURN, "Range")
        refuse(spelling in TURNS and self.is_broken, "Broken")

    def level(self):
        worths = Worths(self.tickets.values(), {flow.number for flow in self.flows if flow.is_active()})
        for flow in self.flows:
            self.queue.level(flow, worths.tickets(flow) if worths.active_flows else 0)

    def flow_named(self, name):
        return next((flow for flow in self.flows if flow.name == name), None)

    def is_currency(self, name):
        return name == "base" or name in self.currencies

    def held_by(self, holder):
        return [ticket for ticket in self.tickets.values() if ticket.holder == holder]

    def make_currency(self, name):
        refuse(self.is_currency(name), "Taken")
        refuse(len(self.currencies) >= MOST_CURRENCIES, "TableFull")
        self.currencies.append(name)
        return "ok"

    def remove_currency(self, name):
        refuse(not self.is_currency(name), "NoCurrency")
        refuse(name == "base", "Base")
        is_used = any(name == ticket.currency or ticket.holder == ("cur", name) for ticket in self.tickets.values())
        refuse(is_used, "InUse")
        self.currencies.remove(name)
        return "ok"

    def make_ticket(self, amount, name):
        refuse(not 1 <= amount <= MOST_AMOUNT, "Range")
        refuse(not self.is_currency(name), "NoCurrency")
        refuse(len(self.tickets) >= MOST_TICKETS, "TableFull")
        self.made_tickets += 1
        self.tickets[self.made_tickets] = Ticket(self.made_tickets, amount, name)
        return "ticket %d" % self.made_tickets

    def remove_ticket(self, number):
        refuse(number not in self.tickets, "NoTicket")
        refuse(self.tickets[number].holder, "Funding")
        del self.tickets[number]
        return "ok"

    def backed_by(self):
        """The currencies that each currency backs."""
        backed = defaultdict(set)
        for ticket in self.tickets.values():
            if ticket.holder and ticket.holder[0] == "cur":
                backed[ticket.currency].add(ticket.holder[1])
        return backed

    def fund_currency(self, number, name):
        refuse(number not in self.tickets, "NoTicket")
        refuse(not self.is_currency(name), "NoCurrency")
        refuse(name == "base", "Base")
        ticket = self.tickets[number]
        refuse(ticket.holder, "Funding")
        refuse(len(self.held_by(("cur", name))) >= MOST_FUNDING, "Crowded")
        backed = self.backed_by()
        refuse(ticket.currency in reached(backed, name), "Cycle")
        backed[ticket.currency].add(name)
        refuse(longest_chain(backed, self.currencies) > MOST_CHAINED, "Deep")
        ticket.holder = ("cur", name)
        return "ok"

    def fund_flow(self, number, name):
        refuse(number not in self.tickets, "NoTicket")
        flow = self.flow_named(name)
        refuse(flow is None, "NoFlow")
        refuse(self.tickets[number].holder, "Funding")
        refuse(len(self.held_by(("flow", flow.number))) >= MOST_FUNDING, "Crowded")
        self.tickets[number].holder = ("flow", flow.number)
        return "ok"

    def unfund(self, number):
        refuse(number not in self.tickets, "NoTicket")
        refuse(self.tickets[number].holder is None, "Unfunded")
        self.tickets[number].holder = None
        return "ok"

    def amend(self, number, amount):
        refuse(not 1 <= amount <= MOST_AMOUNT, "Range")
        refuse(number not in self.tickets, "NoTicket")
        self.tickets[number].amount = amount
        return "ok"

    def open(self, name, limit, tariff):
        refuse(not 1 <= limit <= 1024, "Range")
        refuse(tariff not in TARIFFS, "NoTariff")
        refuse(self.flow_named(name), "Taken")
        refuse(len(self.flows) >= MOST_FLOWS, "TableFull")
        self.made_flows += 1
        self.flows.append(Flow(self.made_flows, name, limit, tariff))
        return "flow %d" % self.made_flows

    def close(self, name):
        flow = self.flow_named(name)
        refuse(flow is None, "NoFlow")
        refuse(flow is self.part, "Sending")
        dropped = self.waiting(flow)
        for ticket in self.held_by(("flow", flow.number)):
            ticket.holder = None
        if flow.competes:
            self.queue.leave(flow)
        self.flows.remove(flow)
        self.dropped += dropped
        self.past += flow.account
        return "closed %d %d %d" % (flow.number, dropped, flow.account)

    def hold(self, name):
        flow = self.flow_named(name)
        refuse(flow is None, "NoFlow")
        refuse(flow.is_held, "Held")
        flow.is_held = True
        return "ok"

    def resume(self, name):
        flow = self.flow_named(name)
        refuse(flow is None, "NoFlow")
        refuse(not flow.is_held, "NotHeld")
        flow.is_held = False
        return "ok"

    def waiting(self, flow):
        """How many packets of a flow wait, a torn one not counted."""
        return len(flow.packets) - (flow is self.torn_flow)

    def arrive(self, name, payload):
        flow = self.flow_named(name)
        refuse(flow is None, "NoFlow")
        refuse(len(flow.packets) >= flow.limit, "BufferFull")
        flow.accepted += 1
        self.accepted += 1
        flow.packets.append((flow.accepted, payload))
        return "packet %d %d" % (flow.number, flow.accepted)

    def charge(self, flow, count):
        """Charges a flow for bytes of a frame, and posts its account."""
        cell, overhead, price = TARIFFS[flow.tariff]
        units = overhead + cell * -(-count // cell) if count else 0
        self.queue.charge(flow, units)
        flow.account += price * units

    def turn(self, most):
        flow = self.part or self.queue.next()
        if flow is None:
            return "idle"
        number, payload = flow.packets[0]
        data = frame(flow.number, number, payload, flow.tariff, self.version)
        piece = data[self.sent:self.sent + most]
        self.out += piece
        self.sent += len(piece)
        self.part = flow
        if self.sent < len(data):
            return "wrote %d %d %d part" % (flow.number, number, len(piece))
        self.charge(flow, len(data))
        flow.packets.popleft()
        self.part, self.sent = None, 0
        self.written += 1
        self.level()
        return "wrote %d %d %d whole" % (flow.number, number, len(piece))

    def tear(self):
        flow = self.part or self.queue.next()
        if flow is None:
            return "idle"
        self.charge(flow, self.sent)
        self.is_broken, self.torn_flow, self.part = True, flow, None
        return "torn %d %d %d" % (flow.number, flow.packets[0][0], self.sent)

    def report(self):
        """The report, without its last line feed."""
        totals = {"clock": self.queue.clock, "accepted": self.accepted, "written": self.written,
                  "torn": int(self.is_broken), "waiting": sum(map(self.waiting, self.flows)), "dropped": self.dropped,
                  "bytes": len(self.out), "past": self.past, "tickets": self.queue.total(), "pass": self.queue.place,
                  "link": 2 if self.is_broken else 1 if self.part else 0}
        lines = ["%-8s%26d" % (key, value) for key, value in totals.items()]
        for flow in self.flows:
            lines.append("flow %8d %-16s %7d %4d %17d %-3s %26d" % (
                flow.number, flow.name, flow.tickets if flow.competes else 0, self.waiting(flow), flow.account,
                "hld" if flow.is_held else "in" if flow.competes else "out",
                flow.place if flow.competes else flow.remain))
        return "\n".join(lines + ["end"])

    def out_line(self):
        return "out %s\n" % (self.out.hex() or "-")

    def audit(self):
        return "".join(line + "\n" for line in ["audit %d" % self.version, *[line for line, _ in self.events]])


def reached(backed, start):
    """A currency, and those that it backs by chains."""
    found, todo = {start}, [start]
    while todo:
        more = backed[todo.pop()] - found
        found |= more
        todo += more
    return found


def longest_chain(backed, currencies):
    """How many of these currencies the longest chain has."""
    @cache
    def longest_from(start):
        return 1 + max(map(longest_from, backed.get(start, ())), default=0)

    return max(map(longest_from, currencies))


CALLS = {"mkcur NAME": Link.make_currency, "rmcur NAME": Link.remove_currency, "mktkt NUM NAME": Link.make_ticket,
         "rmtkt NUM": Link.remove_ticket, "fund NUM cur NAME": Link.fund_currency,
         "fund NUM flow NAME": Link.fund_flow, "unfund NUM": Link.unfund, "amend NUM NUM": Link.amend,
         "open NAME NUM NUM": Link.open, "close NAME": Link.close, "hold NAME": Link.hold, "resume NAME": Link.resume,
         "send NAME HEX": Link.arrive, "turn NUM": Link.turn, "torn": Link.tear}


# ---- What of the language is met

# The refusals of each line, but for NoMemory.
REFUSALS_OF = {
    "mkcur NAME": "Spent Taken TableFull", "rmcur NAME": "Spent NoCurrency Base InUse",
    "mktkt NUM NAME": "Spent Range NoCurrency TableFull", "rmtkt NUM": "Spent NoTicket Funding",
    "fund NUM cur NAME": "Spent NoTicket NoCurrency Base Funding Crowded Cycle Deep",
    "fund NUM flow NAME": "Spent NoTicket NoFlow Funding Crowded", "unfund NUM": "Spent NoTicket Unfunded",
    "amend NUM NUM": "Spent Range NoTicket", "open NAME NUM NUM": "Spent Range NoTariff Taken TableFull",
    "close NAME": "Spent NoFlow Sending", "hold NAME": "Spent NoFlow Held", "resume NAME": "Spent NoFlow NotHeld",
    "send NAME HEX": "Spent Range NoFlow BufferFull", "turn NUM": "Spent Range Broken", "torn": "Spent Broken"}
MISSPELLED = ("an empty line", "too long", "a space too much", "no word of the language", "too few or too many words",
              "no NAME", "no NUM", "no HEX", "no word in its place", "not the first line")
REPLIES_OF = {
    "mktkt NUM NAME": "ticket", "open NAME NUM NUM": "flow", "close NAME": "closed", "send NAME HEX": "packet",
    "turn NUM": "idle", "torn": "idle"}
WRITES = ("turn NUM: begun", "turn NUM: goes on", "turn NUM: finished", "turn NUM: at once",
          "torn: a frame not begun", "torn: a frame in part")
REPORTS = ("report", "report: a flow in", "report: a flow out", "report: a flow hld")
ENDS = ("End", "Cut", "BadRecord")
UPLINKS = ("uplink: a write cut short", "uplink: a write interrupted", "uplink: torn")

# How often each of these is met in a run of a seed, at least.
LEAST = 100


def all_met():
    """All that is met in a run of a seed."""
    found = [*VERSIONS, *REPORTS, *WRITES, *["Syntax: %s" % why for why in MISSPELLED]]
    for spelling, refusals in REFUSALS_OF.items():
        found += ["%s: %s" % (spelling, answer) for answer in (REPLIES_OF.get(spelling, "ok"), *refusals.split())]
    return found + ["records: %s" % why for why in ENDS] + list(UPLINKS)


def met_by(spelling, line, reply, was_in_part, was_sent):
    """The parts of the language that a line and its answer meet."""
    if spelling is None or reply == refused("Syntax"):
        return ["Syntax: %s" % why_misspelled(line)]
    if reply is None:
        return [spelling]
    word = reply.split(" ")[0]
    if word == "no":
        return ["%s: %s" % (spelling, reply.split(" ")[2])]
    if spelling == "report":
        return ["report", *["report: a flow %s" % state for state in ("in", "out", "hld") if " %s " % state in reply]]
    if spelling == "turn NUM" and word == "wrote":
        is_whole = reply.endswith(" whole")
        word = ("at once", "finished")[was_in_part] if is_whole else ("begun", "goes on")[was_in_part]
    if word == "torn":
        word = "a frame in part" if was_sent else "a frame not begun"
    return ["%s: %s" % (spelling, word)]


def printout(text, life):
    """The answers to a script, and the link that it leaves."""
    link = Link(life)
    replies = [link.answer(line) for line in lines_of(text)]
    return "".join(reply + "\n" for reply in replies if reply is not None) + link.out_line(), link


# The longest packets, one of each tariff; and the longest of version 1.
LONGEST_2 = """\
audit 2 => nothing
open a 1 1 => flow 1
open b 1 2 => flow 2
open c 1 3 => flow 3
open d 1 4 => flow 4
""" + "".join("mktkt 1 base => ticket %d\nfund %d flow %s => ok\nsend %s %s => packet %d 1\n"
              % (flow, flow, name, name, "00" * 9000, flow) for flow, name in enumerate("abcd", 1)) + """\
turn 65535 => wrote 1 1 9017 whole
turn 65535 => wrote 2 1 9017 whole
turn 65535 => wrote 3 1 9017 whole
turn 65535 => wrote 4 1 9017 whole
a owes 9017
b owes 18080
c owes 9216
d owes 33792
send a %s => no 4 Range""" % ("00" * 9001)
LONGEST_1 = """\
open a 1 1 => flow 1
mktkt 1 base => ticket 1
fund 1 flow a => ok
send a %s => no 4 Range
send a %s => packet 1 1
turn 65535 => wrote 1 1 1502 whole
a owes 1502""" % ("00" * 1491, "00" * 1490)

# Worked examples: lines with their answers, and what stands in between: at which passes or remains flows are, and at
# which pass the link, which tickets flows have, what they owe, and which bytes the link wrote.
WORKED = (LONGEST_2, LONGEST_1, """\
audit 2 => nothing
open a 4 1 => flow 1
mktkt 10 base => ticket 1
fund 1 flow a => ok
send a 6869 => packet 1 1
turn 65535 => wrote 1 1 19 whole
a owes 19
audit 2 => no 3 Syntax
audit 1 => no 3 Syntax
link wrote 4c020100000001000000000000000100026869""", """\
audit 1 => nothing
open a 4 2 => flow 1
mktkt 1 base => ticket 1
fund 1 flow a => ok
send a 6869 => packet 1 1
turn 7 => wrote 1 1 7 part
torn => torn 1 1 7
mkcur x => ok
audit 2 => no 3 Syntax
a owes 128
link wrote 4c010000000100""", """\
open a 4 3 => flow 1
mktkt 1 base => ticket 1
fund 1 flow a => ok
send a 61 => packet 1 1
send a 62 => packet 1 2
turn 5 => wrote 1 1 5 part
hold a => ok
turn 65535 => wrote 1 1 8 whole
a at 2199023255552
turn 65535 => idle
hold a => no 21 Held
resume a => ok
a at 2199023255552
turn 65535 => wrote 1 2 13 whole
resume a => no 22 NotHeld""", """\
mkcur x => ok
mktkt 1000 base => ticket 1
fund 1 cur x => ok
mktkt 1 x => ticket 2
mktkt 2 x => ticket 3
open a 4 1 => flow 1
open b 4 1 => flow 2
fund 2 flow a => ok
fund 3 flow b => ok
send a 61 => packet 1 1
send b 62 => packet 2 1
a has 333
b has 666
amend 3 4 => ok
a has 200
b has 800
a at 5497558138
b at 1374389534
turn 65535 => wrote 2 1 13 whole
link at 13958643
b at 1377879195
amend 9 0 => no 4 Range
amend 9 1 => no 6 NoTicket""")


def standing(link, name, word):
    """At which place a flow or the link is, which tickets it has, what it owes, or what it wrote."""
    where = link.queue if name == "link" else link.flow_named(name)
    if word == "wrote":
        return link.out.hex()
    if word == "owes":
        return where.account
    if word == "has":
        return where.tickets
    return where.remain if name != "link" and not where.competes else where.place


def check_models():
    """Gives the models the worked examples."""
    for example in WORKED:
        link = Link(DEFAULT_LIFE)
        for step in example.split("\n"):
            line, answers, wanted = step.partition(" => ")
            if answers:
                found = link.answer(line) or "nothing"
            else:
                name, word, wanted = line.split(" ")
                found = str(standing(link, name, word))
            if found != wanted:
                sys.exit("the models are wrong: '%s', and they have %s" % (shortened(step), shortened(found)))


# ---- The model of ingress records

def items_of(stream):
    """The items of a stream of records, as (name, payload), and how it ends."""
    items, at = [], 0
    while at < len(stream):
        size = stream[at]
        if not 1 <= size <= 16:
            return items, "BadRecord"
        name = stream[at + 1:at + 1 + size]
        if len(name) < size:
            return items, "Cut"
        if not WORDS["NAME"].fullmatch(name.decode("latin-1")):
            return items, "BadRecord"
        field_of_length = stream[at + 1 + size:at + 3 + size]
        length = int.from_bytes(field_of_length, "big")
        if len(field_of_length) < 2:
            return items, "Cut"
        if not 1 <= length <= LONGEST_PAYLOAD[SERVED]:
            return items, "BadRecord"
        payload = stream[at + 3 + size:at + 3 + size + length]
        if len(payload) < length:
            return items, "Cut"
        items.append((name.decode(), payload))
        at += 3 + size + length
    return items, "End"


# ---- What is drawn

AMOUNTS = (1, 1, 2, 3, 7, 10, 1000, 4097, MOST_AMOUNT - 1, MOST_AMOUNT)
NO_AMOUNTS = (0, MOST_AMOUNT + 1, (1 << 64) - 1)
SIZES = (1, 1, 1, 2, 2, 3, 16, 17, 36, 37, 84)
LARGE_SIZES = {1: (1012, 1013, 1489, 1490, 1491, 9000), 2: (1012, 1013, 1490, 1491, 8999, 9000, 9001)}
TURN_SIZES = (1, 2, 5, 11, 12, 13, 14, 16, 17, 18, 19, 100, LONGEST_TURN - 1, *[LONGEST_TURN] * 12)
NO_TURN_SIZES = (0, LONGEST_TURN + 1, (1 << 64) - 1, 1 << 64)
LIMITS = (1, 1, 2, 3, 5, 8, 16, 1023, 1024)
NO_LIMITS = (0, 1025, (1 << 64) - 1)
FIRST_LINES = (*["audit 1"] * 3, *["audit 2"] * 3, "audit 3", "audit 2 ", "audit  2", "Audit 2", "audit", "")
LINE_SIZES = (20478, 20479, 20480, 20481, 20482, 40961, 40962, 61443)
CURRENCY_NAMES = ("a", "b", "c0", "d-1", "e_2", "f", "g", "h", "i", "j", "abcdefghij012345")
FLOW_NAMES = ("a", "base", "b", "c0", "z9_-", "f", "abcdefghij012345")
NO_NAMES = ("abcdefghij0123456", "A", "9a", "-a", "a.b", "")

# How often each kind of line is drawn, in scripts of several kinds and on control connections.
KINDS = ("mkcur", "rmcur", "mktkt", "rmtkt", "fund_cur", "fund_flow", "unfund", "amend", "open", "close", "hold",
         "resume", "send", "turn", "held_in_part", "torn", "report", "odd", "doubtful")
MIXED = (3, 2, 4, 2, 6, 8, 6, 4, 4, 2, 4, 5, 20, 40, 3, 0.2, 1, 3, 3)
FUNDING = (8, 6, 10, 6, 18, 16, 12, 12, 5, 1.5, 3, 4, 10, 15, 1, 0.1, 1, 2, 3)
SENDING = (0.5, 0.5, 2, 1, 2, 6, 5, 3, 1, 0.6, 4, 6, 20, 60, 4, 0.1, 0.5, 1, 1)
CONTROL = (8, 5, 10, 4, 12, 12, 6, 8, 8, 3, 6, 6, 2, 1, 0, 1, 3, 12, 8)


class Drawer:
    """Draws the lines of a text. It gives each to a model, so that most lines are about what is there."""

    def __init__(self, chance, life, is_control=False):
        self.random = chance
        self.link = Link(life, SERVED) if is_control else Link(life)
        self.answer = self.link.answer_control if is_control else self.link.answer
        self.weights = CONTROL if is_control else chance.choice((MIXED, FUNDING, SENDING))
        self.doubt = 0.02
        self.lines = []
        self.replies = []

    def happens(self, share):
        return self.random.random() < share

    def pick(self, usual, unusual=()):
        """One of the usual values, or at times one of the unusual ones."""
        return self.random.choice(unusual if not usual or unusual and self.happens(self.doubt) else usual)

    def give(self, line):
        self.lines.append(line)
        self.replies.append(self.answer(line))

    def some_bytes(self, size):
        return self.random.randbytes(size).hex()

    def currency(self):
        return self.pick(["base", *self.link.currencies], CURRENCY_NAMES)

    def flow(self):
        return self.pick([flow.name for flow in self.link.flows], FLOW_NAMES)

    def ticket(self, is_held):
        """The number of a ticket with a holder, or without."""
        fitting = [ticket.number for ticket in self.link.tickets.values() if bool(ticket.holder) == is_held]
        last = self.link.made_tickets
        return self.pick(fitting, (0, last, last + 1, (1 << 64) - 1, 1 << 64, *list(self.link.tickets)[:8]))

    def mkcur(self):
        self.give("mkcur %s" % self.pick(CURRENCY_NAMES, ("base", *NO_NAMES)))

    def rmcur(self):
        self.give("rmcur %s" % self.pick(self.link.currencies, (*["base"] * 9, *CURRENCY_NAMES)))

    def mktkt(self):
        self.give("mktkt %d %s" % (self.pick(AMOUNTS, NO_AMOUNTS), self.currency()))

    def rmtkt(self):
        self.give("rmtkt %d" % self.ticket(False))

    def fund_cur(self):
        if self.happens(0.5):
            self.mktkt()
        self.give("fund %d cur %s" % (self.ticket(False), self.pick(self.link.currencies,
                                                                           (*["base"] * 9, *CURRENCY_NAMES))))

    def fund_flow(self):
        if self.happens(0.5):
            self.mktkt()
        self.give("fund %d flow %s" % (self.ticket(False), self.flow()))

    def unfund(self):
        self.give("unfund %d" % self.ticket(self.happens(0.95)))

    def amend(self):
        """Another amount for a ticket, most often for one that funds something."""
        self.give("amend %d %d" % (self.ticket(self.happens(0.9)), self.pick(AMOUNTS, NO_AMOUNTS)))

    def open(self):
        self.give("open %s %d %d" % (self.pick(FLOW_NAMES, NO_NAMES), self.pick(LIMITS, NO_LIMITS),
                                     self.pick((1, 2, 3, 4), (0, 5, 1 << 63))))

    def close(self):
        self.give("close %s" % self.flow())

    def hold(self):
        """A flow is held, at times the one whose frame is sent, or one that is closed and opened again then."""
        sent = self.link.part or self.link.queue.next()
        name = sent.name if sent and self.happens(0.4) else self.flow()
        self.give("hold %s" % name)
        if self.happens(0.05):
            self.give("close %s" % name)
            self.give("open %s 8 %d" % (name, self.pick((1, 2, 3, 4))))

    def resume(self):
        self.give("resume %s" % self.pick([flow.name for flow in self.link.flows if flow.is_held], FLOW_NAMES))

    def held_in_part(self):
        """A flow is held while its frame is in part; most often its frame is finished, and then it is resumed."""
        self.turn()
        self.give("turn %d" % self.pick(TURN_SIZES[:4]))
        if not self.link.part:
            return
        name = self.link.part.name
        self.give("hold %s" % name)
        for kind in self.random.choices(("amend", "unfund", "fund_flow", "send", "report", "close"), k=2):
            getattr(self, kind)()
        for line in ("turn 65535", "turn 65535", "resume %s" % name):
            if self.happens(0.8):
                self.give(line)

    def send(self):
        """Some packets for a flow, most often for one that is funded and has places in its buffer."""
        ready = [flow.name for flow in self.link.flows
                 if len(flow.packets) < flow.limit and self.link.held_by(("flow", flow.number))]
        name = self.random.choice(ready) if ready and self.happens(0.8) else self.flow()
        version = self.link.version
        size = self.random.choice((*SIZES * 4, *LARGE_SIZES[version], self.random.randint(1, LONGEST_PAYLOAD[version])))
        for _ in range(self.random.choice((1, 1, 2, 3, 8))):
            self.give("send %s %s" % (name, self.some_bytes(size)))

    def turn(self):
        """Some turns. If nothing is to be sent, flows, tickets and packets for them come first."""
        for prepare in (self.open, self.fund_flow, self.send, self.send):
            if not self.link.part and not self.link.queue.next() and self.happens(0.8):
                prepare()
        longest = LONGEST_PAYLOAD[self.link.version] + 100
        size = self.pick((*TURN_SIZES, self.random.randint(1, 40), self.random.randint(1, longest)), NO_TURN_SIZES)
        for _ in range(self.random.choice((1, 1, 2, 5))):
            self.give("turn %d" % size)

    def torn(self):
        self.give("torn")

    def report(self):
        self.give("report")

    def odd(self):
        """A line that is too long, or nearly, or one that was drawn before, as it was or spoiled."""
        if self.happens(0.1):
            size = self.random.choice(LINE_SIZES)
            line = "send a " if size % 2 else "send ab "
            self.give(line + "0" * (size - len(line)))
        else:
            sends = [line for line in self.lines[-20:] if line.startswith("send ")]
            line = self.random.choice((*self.lines[-20:], *sends[-4:], "audit 1", "audit 2", "report", "torn", ""))
            self.give(spoiled(self.random, line) if self.happens(0.9) else line)

    def doubtful(self):
        """A line that may have several reasons to be refused."""
        usual, self.doubt = self.doubt, 0.5
        getattr(self, self.random.choice(KINDS[:KINDS.index("send")]))()
        self.doubt = usual

    # The lines that scripts begin with, and end with.

    def ticket_for(self, denomination, holder):
        """A ticket that funds a holder."""
        self.give("mktkt %d %s" % (self.pick(AMOUNTS), denomination))
        self.give("fund %d %s" % (self.link.made_tickets, holder))

    def chain(self):
        """A chain of currencies as long as may be, or one less or more, with a flow at its end."""
        depth = self.pick((MOST_CHAINED - 1, MOST_CHAINED, MOST_CHAINED + 1))
        self.give("open a %d %d" % (self.pick(LIMITS), self.pick((1, 2, 3, 4))))
        names = CURRENCY_NAMES[:depth]
        for name in names:
            self.give("mkcur %s" % name)
        steps = list(zip(("base", *names), (*["cur %s" % name for name in names], "flow a")))
        self.random.shuffle(steps)
        for denomination, holder in steps:
            for _ in range(self.pick((1, 1, 2))):
                self.ticket_for(denomination, holder)
        self.give("send a 00")

    def race(self):
        """Flows whose tickets come through currencies, each with packets."""
        for name in CURRENCY_NAMES[:self.pick((1, 2, 3))]:
            self.give("mkcur %s" % name)
            self.ticket_for("base", "cur %s" % name)
        many = ["x%d" % number for number in range(MOST_FLOWS)]
        for name in many if self.happens(0.01) else FLOW_NAMES[:self.pick((2, 3, 5, 7))]:
            self.give("open %s %d %d" % (name, self.pick((3, 8, 1024)), self.pick((1, 2, 3, 4))))
            self.ticket_for(self.currency(), "flow %s" % name)
            for _ in range(self.pick((1, 3, 6))):
                self.give("send %s %s" % (name, self.some_bytes(self.pick(SIZES))))

    def crowd(self):
        """A holder that is funded by as many tickets as it may be, or one less or more."""
        self.give("mkcur a")
        self.give("open b 4 1")
        self.give("send b 01")
        for holder, denomination in (("cur a", "base"), ("flow b", self.pick(("a", "base")))):
            for _ in range(self.pick((2, MOST_FUNDING - 1, MOST_FUNDING, MOST_FUNDING + 1))):
                self.ticket_for(denomination, holder)

    def full_buffer(self):
        """A flow whose buffer is nearly full, or full."""
        limit = self.pick((1, 2, 3, 16), (1023, 1024))
        self.give("open a %d %d" % (limit, self.pick((1, 2, 3, 4))))
        self.ticket_for("base", self.pick(("flow a", "flow a", "cur a")))
        for _ in range(limit + self.pick((-1, 0, 1))):
            self.give("send a %s" % self.some_bytes(self.pick((1, 2, 16))))

    def full_table(self):
        """A table that is nearly full, or full."""
        spelling, most = self.random.choice((("mkcur x%d", MOST_CURRENCIES), ("open x%d 2 1", MOST_FLOWS)) * 2
                                            + (("mktkt %d base", MOST_TICKETS),))
        for number in range(1, most + 1 - self.pick((0, 1, 2))):
            self.give(spelling % number)
        for _ in range(10):
            self.doubtful()

    def fault(self):
        """A fault in a frame or before it, and lines after it."""
        self.turn()
        if self.happens(0.6):
            self.give("turn %d" % self.pick(TURN_SIZES[:5]))
        self.torn()
        name = self.link.torn_flow.name if self.link.torn_flow else self.flow()
        lines = ("report", "turn 1", "torn", "send %s 00" % name, "close %s" % name, "hold %s" % name,
                 "resume %s" % name)
        for line in self.random.sample(lines, self.pick((3, 5))):
            self.give(line)

    def draw(self):
        """Draws a text: how it begins, some dozens of lines, and how it ends."""
        if self.happens(0.4):
            self.give("audit 2")
        for _ in range(self.random.choice((0, 0, 0, 0, 1, 2))):
            self.give(self.random.choice(FIRST_LINES))
        for begin, share in ((self.full_table, 0.07), (self.full_buffer, 0.1), (self.chain, 0.2), (self.crowd, 0.12),
                             (self.race, 0.6)):
            if self.happens(share):
                begin()
        for kind in self.random.choices(KINDS, self.weights, k=self.random.choice((0, 10, 40, 60, 80, 100))):
            getattr(self, kind)()
        for end, share in ((self.fault, 0.3), (self.report, 0.5)):
            if self.happens(share):
                end()

    def text(self):
        return "".join(line + "\n" for line in self.lines).encode("latin-1")

    def answers(self):
        return "".join(reply + "\n" for reply in self.replies if reply is not None)


ODD_CHARACTERS = "0123456789abcdefghz_-. \t\r\x00\x7f\xffAF"


def spoiled(chance, line):
    """A line with a character changed, dropped, doubled or put in, cut, or with a space or a zero too much."""
    at = chance.randrange(len(line) + 1)
    before, after = line[:at], line[at:]
    character = chance.choice(ODD_CHARACTERS)
    return chance.choice((before + character + after[1:], before + after[1:], before + after[:1] + after,
                          before + character + after, before, line.replace(" ", "  ", 1), line + " ", " " + line,
                          line + "\r", line.upper(), line.replace(" ", " 0", 1), line + " " + line))


def spoiled_byte(chance, text):
    """A text in which one byte of a line was changed, dropped or doubled."""
    lines = text.splitlines(keepends=True)
    number = chance.randrange(len(lines))
    line = lines[number]
    at = chance.randrange(len(line))
    changes = (chance.choice(ODD_CHARACTERS + "\n").encode("latin-1"), b"", line[at:at + 1] * 2)
    lines[number] = line[:at] + chance.choice(changes) + line[at + 1:]
    return b"".join(lines)


# How streams of records end: whole or in a field that is not whole, and with a field that is out of its range.
CUT_ENDS = (b"\x01", b"\x10", b"\x03a", b"\x03A.", b"\x01a", b"\x01a\x00", b"\x01a\xff", b"\x01a\x00\x01",
            b"\x10abcdefghij012345\x00\x01", b"\x01a\x05\xd3" + b"\x00" * 1490, b"\x01a\x23\x28" + b"\x00" * 8999)
WRONG_ENDS = (b"\x00", b"\x11", b"\xff", b"\x01A", b"\x02a.", b"\x02-a", b"\x02a\xff", b"\x01a\x00\x00",
              b"\x01a\x23\x29" + b"\x00" * 9001, b"\x01a\xff\xff" + b"\x00" * 65535,
              b"\x11abcdefghij0123456\x00\x01z")


def some_record(chance, names):
    """A record of a packet for a flow, which may be one that is not open."""
    size = chance.choice((1, 1, 2, 3, 16, 17, 36, 255, 256, 257, 1490, 1491, 8999, 9000))
    return record(chance.choice((*names * 4, *FLOW_NAMES)), chance.randbytes(size))


def some_stream(chance, number, names):
    """A stream of records: whole, with one of the ends, or with a byte changed, dropped or doubled, or cut."""
    some = [b"".join(some_record(chance, names) for _ in range(chance.choice((0, 1, 2, 5, 20, 60)))) for _ in range(2)]
    kind, turn = number % 4, number // 4
    if kind == 0:
        return some[0]
    if kind == 1:
        return some[0] + CUT_ENDS[turn % len(CUT_ENDS)]
    if kind == 2:
        return some[0] + WRONG_ENDS[turn % len(WRONG_ENDS)] + some[1]
    stream = some[0] + some_record(chance, names)
    at = chance.randrange(len(stream))
    changes = (chance.randbytes(1), b"", stream[at:at + 1] * 2)
    return stream[:at] + chance.choice((b"", *[change + stream[at + 1:] for change in changes]))


def pieces_of(chance, data):
    """Data, cut at some places."""
    places = sorted(chance.randrange(len(data) + 1) for _ in range(chance.choice((0, 1, 5, 30))))
    return [data[start:end] for start, end in zip([0, *places], [*places, len(data)])]


# ---- What is compared

class Case:
    """A case: what it draws from, what the program was given, how it is given again, and how many answers of each kind
    agreed."""

    def __init__(self, seed, kind, number):
        self.seed = seed
        self.number = number
        self.title = "seed %d, %s %d" % (seed, kind, number)
        self.name = "fuzz-%d-%s-%d" % (seed, kind, number)
        self.chance = random.Random(self.name)
        self.run = None
        self.ingress = None
        self.given = b""
        self.again = ""
        self.agreed = Counter()

    def compare(self, kind, found, wanted):
        if found != wanted:
            raise Difference(kind, found, wanted)
        self.agreed[kind] += 1

    def run_script(self, kind, text, life, wanted):
        """Runs a script, and compares what it prints."""
        self.given = text
        self.again = "%s run --life %d %s.input" % (PROGRAM, life, self.name)
        done = subprocess.run([PROGRAM, "run", "--life", str(life)], input=text, capture_output=True, check=False)
        end = "status %d\n%s"
        self.compare(kind, done.stdout.decode("latin-1") + end % (done.returncode, done.stderr.decode("latin-1")),
                     wanted + end % (0, ""))


class Difference(Exception):
    """Two answers that differ."""

    def __init__(self, kind, found, wanted):
        super().__init__("the answers to one of the %s differ" % kind)
        self.found = found
        self.wanted = wanted


def script_case(case):
    """A script, its audit, and that audit with one byte changed."""
    life = DEFAULT_LIFE
    drawer = Drawer(case.chance, life)
    drawer.draw()
    text, link = drawer.text(), drawer.link
    wanted = drawer.answers() + link.out_line()
    if drawer.happens(0.1) and drawer.lines and drawer.lines[-1]:
        text = text[:-1]
    if link.events and drawer.happens(0.2):
        life = case.chance.randint(1, len(link.events))
        wanted, link = printout(text, life)
    case.run_script("scripts", text, life, wanted)
    case.agreed.update(link.met)
    audit = link.audit().encode()
    case.run_script("audits", audit, life, "".join(reply + "\n" for _, reply in link.events) + link.out_line())
    changed = spoiled_byte(case.chance, audit)
    case.run_script("changed audits", changed, life, printout(changed, life)[0])


def give_pieces(case, connection, data):
    """Sends data in pieces, some of them with a rest after them. The server may end the connection before."""
    with contextlib.suppress(OSError):
        for piece in pieces_of(case.chance, data):
            connection.sendall(piece)
            time.sleep(case.chance.choice((0, 0, 0.002)))
        connection.shutdown(socket.SHUT_WR)


def told_at_end(server):
    """The lines of --verbose on the outcome of a run, the fault, and the status."""
    status = server.wait()
    wanted = r"^(?:control 1: ended|ingress 1: ended|\d+ commands|stridelink:).*$"
    return sorted(re.findall(wanted, server.text("stderr"), re.MULTILINE)) + ["status %d" % status]


def ends(link, *more):
    """The lines on a run that left this link, and more lines."""
    arrivals = sum(line.startswith("send ") for line, _ in link.events)
    turns = sum(line.startswith("turn ") for line, _ in link.events)
    commands = len(link.events) - arrivals - turns
    is_spent = len(link.events) == link.life
    told = ["%d commands, %d arrivals, %d turns" % (commands, arrivals, turns),
            "control 1: ended, End, %d commands" % commands, *more, *["stridelink: the life is spent"] * is_spent]
    return sorted(told) + ["status %d" % is_spent]


def control_case(case):
    """A control text, and the audit and the report of a server that gets no packets."""
    life = case.chance.choice((*[DEFAULT_LIFE] * 3, case.chance.randint(1, 100)))
    drawer = Drawer(case.chance, life, is_control=True)
    drawer.draw()
    link = drawer.link
    case.given = drawer.text() + case.chance.choice((b"", b"", b"mkcur zzz", b"report", b" "))
    case.again = "give %s.input to the control connection of a server with a life of %d" % (case.name, link.life)
    server = case.run.server(case.run.peer(), life=link.life)
    ingress, control, replies = server.ingress(), server.control(), []
    reading = case.run.thread(lambda: replies.append(control.replies.read().decode()))
    give_pieces(case, control.socket, case.given)
    reading.finish()
    control.vanish()
    ingress.close()
    told = [line for line in told_at_end(server) if not line.startswith("ingress")]
    case.compare("control texts", "\n".join([*replies, *told, server.text("audit"), server.text("stdout")]),
                 "\n".join([drawer.answers(), *ends(link), link.audit(), link.report() + "\n"]))
    case.agreed.update(link.met)


def records_case(case):
    """A stream of ingress records, and what comes of it. The order of packets and writes is that of the audit."""
    names = case.chance.sample(FLOW_NAMES, 2)
    limit, tariffs = case.chance.choice((1024, 1024, 3, 1)), case.chance.choices(list(TARIFFS), k=2)
    funding = [line for number, name in enumerate(names, 1) for line in (
        "open %s %d %d" % (name, limit, tariffs[number - 1]),
        "mktkt %d base" % case.chance.choice(AMOUNTS), "fund %d flow %s" % (number, name))]
    case.given = some_stream(case.chance, case.number, names)
    case.again = "give %s.input to the ingress connection of a server, after %s" % (case.name, ", ".join(funding))
    peer = case.run.peer()
    server = case.run.server(peer)
    control = server.control()
    control.ask_wanted(funding, ["flow 1", "ticket 1", "ok", "flow 2", "ticket 2", "ok"])
    ingress = server.ingress()
    give_pieces(case, ingress, case.given)
    ends_by_itself(ingress)
    ingress.close()
    control.close()
    told = told_at_end(server)
    peer.thread.join(PATIENCE)
    audit, items, why = server.text("audit"), *items_of(case.given)
    _, link = printout(audit.encode(), DEFAULT_LIFE)
    sent = ["send %s %s" % (name, payload.hex()) for name, payload in items]
    found = [*told, audit, audit.split("\n")[0], server.text("stdout"), peer.got.hex(),
             *re.findall("^send .*$", audit, re.MULTILINE)]
    wanted = [*ends(link, "ingress 1: ended, %s, %d packets" % (why, len(items))), link.audit(), "audit %d" % SERVED,
              link.report() + "\n", link.out.hex(), *sent]
    if limit == 1024:
        found += [frame(*parts).hex() for parts in sorted(frames(peer.got)[0])]
        wanted += [frame(flow, number, payload, tariffs[flow - 1]).hex() for flow, own in enumerate(names, 1)
                   for number, payload in enumerate([payload for name, payload in items if name == own], 1)]
    case.compare("streams of records", "\n".join(found), "\n".join(wanted))
    case.agreed["records: " + why] += 1


def uplink_of(server, peer):
    """A second handle of the socket by which a server writes to its peer."""
    libc = ctypes.CDLL(None, use_errno=True)
    pid = os.pidfd_open(server.process.pid)
    try:
        for name in os.listdir("/proc/%d/fd" % server.process.pid):
            handle = libc.syscall(PIDFD_GETFD, pid, int(name), 0)
            if handle < 0:
                continue
            with contextlib.suppress(OSError):
                uplink = socket.socket(fileno=handle)
                if uplink.family == socket.AF_INET and "%s:%d" % uplink.getpeername() == peer.address:
                    return uplink
                uplink.close()
    finally:
        os.close(pid)
    raise Failure("the server has no connection to its peer")


def stay(server, state):
    """Waits until all threads of a server are in a state, and stay in it for a while."""
    seen = 0

    def is_steady():
        nonlocal seen
        seen = seen + 1 if server.states() == {state} else 0
        return seen == 3

    wait_for(is_steady, "a server in state %s" % state)


def interrupted(case, server, peer, rounds):
    """Stops and continues a server while its write to the peer waits. The system interrupts a write of a socket with a
    limit of time then. Between the rounds the peer reads some bytes."""
    uplink = uplink_of(server, peer)
    uplink.setsockopt(socket.SOL_SOCKET, socket.SO_SNDTIMEO, struct.pack("ll", LIMIT, 0))
    uplink.setsockopt(socket.SOL_SOCKET, socket.SO_SNDBUF, 4096)
    case.ingress.sendall(b"".join(record("a", bytes(9000)) for _ in range(PACKETS)))
    for _ in range(rounds):
        stay(server, "S")
        server.process.send_signal(signal.SIGSTOP)
        stay(server, "T")
        server.process.send_signal(signal.SIGCONT)
        case.agreed["uplink: a write interrupted"] += 1
        peer.read(case.chance.choice((1, 500, 5000, 20000)))
    uplink.close()


def uplink_case(case):
    """A server whose writes are cut short and interrupted, or whose peer resets its connection. What it wrote is what
    the audit says."""
    is_torn = case.number > INTERRUPTED
    size = case.chance.choice((1, 5, 17, 200, 9017, 20000))
    peer = case.run.peer(lambda peer: torn_after(peer, size) if is_torn else peer.go_on.wait(LIMIT), narrow=True)
    server = case.run.server(peer)
    control, case.ingress = server.control(), server.ingress()
    tariff = case.chance.choice(list(TARIFFS))
    control.ask_wanted(["open a 1024 %d" % tariff, "mktkt 1 base", "fund 1 flow a"], ["flow 1", "ticket 1", "ok"])
    case.again = "--seed %d, as no file gives it again" % case.seed
    if is_torn:
        wait_for(lambda: is_torn_by(case, control), "a fault of the uplink")
    else:
        interrupted(case, server, peer, ROUNDS)
        peer.go_on.set()
    case.ingress.close()
    control.close()
    status = server.wait()
    peer.thread.join(PATIENCE)
    audit = server.text("audit")
    answers, link = printout(audit.encode(), DEFAULT_LIFE)
    sent = link.out[:len(peer.got)] if is_torn else link.out
    case.compare("uplinks", "\n".join([str(status), audit, server.text("stdout"), peer.got.hex()]),
                 "\n".join([str(int(is_torn)), link.audit(), link.report() + "\n", sent.hex()]))
    case.agreed["uplink: a write cut short"] += answers.count(" part\n")
    case.agreed["uplink: torn"] += link.is_broken


def torn_after(peer, size):
    """Reads that many bytes, and resets the connection."""
    while len(peer.got) < size and peer.read(size - len(peer.got)):
        pass
    reset(peer.connection)


def is_torn_by(case, control):
    """Sends one more packet, and says whether the link is torn."""
    case.ingress.sendall(record("a", bytes(case.chance.choice((1, 2, 1000, 9000)))))
    return control.ask("report")[0].split("\n")[10].split() == ["link", "2"]


CASES = (("script", script_case, SCRIPTS), ("uplink", uplink_case, UPLINK_CASES), ("control", control_case, TEXTS),
         ("records", records_case, STREAMS))


def tell(case, fault):
    """Reports a case that differs, keeps what it was given and both answers, and ends the program."""
    kept = {"input": case.given}
    print("%s: %s: %s" % (case.title, type(fault).__name__, fault))
    print("again: %s" % case.again)
    if isinstance(fault, Difference):
        kept.update(found=fault.found.encode("latin-1", "replace"), wanted=fault.wanted.encode("latin-1"))
        pairs = zip_longest(fault.found.split("\n"), fault.wanted.split("\n"), fillvalue="(no line)")
        number, (found, wanted) = next((number, pair) for number, pair in enumerate(pairs, 1) if pair[0] != pair[1])
        print("line %d\n  found  %s\n  wanted %s" % (number, shortened(found), shortened(wanted)))
    for end, data in kept.items():
        with open("%s.%s" % (case.name, end), "wb") as sink:
            sink.write(data)
    sys.exit(1)


def run_seed(seed, until, agreed):
    """Runs the cases of a seed, until a moment if one is given."""
    for kind, play, count in CASES:
        for number in range(1, count + 1):
            if until and time.monotonic() > until:
                return
            case = Case(seed, kind, number)
            signal.alarm(LIMIT)
            try:
                with Run() as case.run:
                    play(case)
            except Exception as fault:
                signal.alarm(0)
                tell(case, fault)
            signal.alarm(0)
            agreed.update(case.agreed)


def check_alone(case):
    """The models alone, on a script: no packet is lost, each that was written is a frame of the link's version, no flow
    that is held competes, and the audit is answered as the script was."""
    drawer = Drawer(case.chance, DEFAULT_LIFE)
    drawer.draw()
    link = drawer.link
    audit = link.audit().encode()
    case.given, case.again = drawer.text(), "%s --print %s.input" % (sys.argv[0], case.name)
    waiting = sum(map(link.waiting, link.flows))
    case.compare("sums of packets", str(link.written + link.is_broken + waiting + link.dropped), str(link.accepted))
    sent = frames(bytes(link.out), link.version)[0]
    case.compare("numbers of frames", str(len(sent)), str(link.written))
    held = [flow for flow in link.flows if flow.is_held]
    case.compare("flows that are held", str([flow.name for flow in held if flow.competes]), "[]")
    case.compare("audits", "".join(reply + "\n" for _, reply in link.events) + link.out_line(),
                 printout(audit, DEFAULT_LIFE)[0])
    case.agreed["links of version 2"] += link.version == 2
    case.agreed["frames of more than 1490 bytes"] += sum(len(payload) > 1490 for _, _, payload, _ in sent)
    case.agreed["links with flows that are held"] += bool(held)
    for name in ("hold", "resume", "amend"):
        case.agreed["lines of " + name] += sum(line.startswith(name + " ") for line, _ in link.events)
    for name in REFUSALS[-2:]:
        case.agreed["answers " + name] += sum(reply.endswith(" " + name) for _, reply in link.events)


def tell_met(agreed):
    """Prints how often all of the language was met; and whether each was met often enough."""
    rows = defaultdict(list)
    for name in all_met():
        line, _, answer = name.partition(": ")
        rows[line].append("%s %d" % (answer or "met", agreed[name]))
    for line, counts in rows.items():
        print("%-17s %s" % (line, ", ".join(counts)))
    rare = [name for name in all_met() if agreed[name] < LEAST]
    if rare:
        print("met fewer than %d times: %s" % (LEAST, ", ".join(rare)))
    return not rare


def run_alone(seed, agreed):
    """Runs the models alone on the scripts of a seed."""
    for number in range(1, SCRIPTS + 1):
        case = Case(seed, "script", number)
        try:
            check_alone(case)
        except Exception as fault:
            tell(case, fault)
        agreed.update(case.agreed)


def print_answers(path):
    with open(path, "rb") as script:
        print(printout(script.read(), DEFAULT_LIFE)[0], end="")


def read_words():
    parser = argparse.ArgumentParser(description="compares a built program with models of the rules")
    parser.add_argument("--seed", type=int, default=SEED, help="the seed, %d if not given" % SEED)
    parser.add_argument("--minutes", type=float, help="draws seeds, and runs them for so long")
    parser.add_argument("--self", action="store_true", dest="is_alone", help="runs the models alone, with no program")
    parser.add_argument("--print", metavar="FILE", help="prints what the models answer to a script")
    return parser.parse_args()


def main():
    words = read_words()
    check_models()
    if words.print:
        print_answers(words.print)
        return
    limit_time()
    agreed = Counter()
    if words.is_alone:
        run_alone(words.seed, agreed)
    elif words.minutes is None:
        run_seed(words.seed, None, agreed)
    else:
        until = time.monotonic() + 60 * words.minutes
        while time.monotonic() < until:
            seed = random.SystemRandom().randrange(1 << 32)
            print("seed %d" % seed, flush=True)
            run_seed(seed, until, agreed)
    known = set(all_met())
    print("as the models have it: " + ", ".join("%d %s" % (count, kind) for kind, count in agreed.items()
                                                if kind not in known))
    if words.minutes is None and not words.is_alone and not tell_met(agreed):
        sys.exit(1)


if __name__ == "__main__":
    main()
