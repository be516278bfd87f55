#!/usr/bin/env python3
"""Bills books with the built program, and compares what it prints with a plain model of a link.

The books of books/ have to give the bills that are stored beside them. Then their texts are altered: a line is left
out, doubled or swapped with the next one; an odd line is put before it; a turn writes another number of bytes, and a
packet comes for no tenant; a byte of the last line is left out, or all bytes after it; and a text is cut at each of its
bytes. The model runs each altered text and finds its bill, or the first line that is no run's and the reason. The
program has to find the same: then its status is 1, it prints no bill, and standard error names the file and the line.

    bill.py           plays all of this, with bin/stridelink or the program of the variable STRIDELINK
    bill.py FILE...   prints what the model finds in books, as CSV
"""
import itertools
import json
import os
import subprocess
import sys
import tempfile
from dataclasses import dataclass, field

sys.dont_write_bytecode = True

from fuzz import LONGEST_LINE, LONGEST_TURN, TARIFFS, Link, refused, words_of
from serving import PROGRAM

BOOKS = os.path.join(os.path.dirname(os.path.realpath(__file__)), "books")

# Seconds for a run.
LIMIT = 180

LIFE = 1 << 24
LONGEST = 9000
HEADER = 17

# The kind of a book, by its first line.
KINDS = {b"audit 2": "whole", b"lengths 2": "lengths"}

FIRST = "the first line is neither 'audit 2' nor 'lengths 2'"
LONG = "the line has more than 20480 bytes"
UNREAD = "it cannot be read"
RANGE = "a number or a length is out of its range"
FOREIGN = "the line stands in no book"
IDLE = "nothing is to be sent"
SENT = "the frame that is sent has %d bytes"
UNTAKEN = {refused("NoFlow"): "no tenant has this name", refused("BufferFull"): "the buffer of the tenant is full"}
CUT = "the last line has no line feed, and is left out"

COLUMNS = ("packets", "bytes", "units", "amount")
ROW = "%-16s %12s %16s %16s %20s\n"

# How many altered texts have to be refused and billed: otherwise they were not altered well.
LEAST_REFUSED = 500
LEAST_BILLED = 300

# How many altered texts are given together, and which of them are given alone too: one of that many.
TOGETHER = 50
ALONE = 50

# ---- The model


class Wrong(Exception):
    """A line is no run's, for this reason."""


@dataclass
class Tally:
    """The traffic of a tenant."""
    packets: int = 0
    bytes: int = 0
    units: int = 0
    amount: int = 0

    def add(self, other):
        for column in COLUMNS:
            setattr(self, column, getattr(self, column) + getattr(other, column))


@dataclass
class Book:
    """The run of a book: its link, and each flow of a tenant with its name and what it sent."""
    kind: str
    link: Link = field(default_factory=lambda: Link(LIFE))
    flows: dict = field(default_factory=dict)

    def event_of(self, line):
        """The spelling of a line, its values, and the line as that of a script."""
        text = line.decode("latin-1")
        if len(text) > LONGEST_LINE:
            raise Wrong(LONG)
        if self.kind == "lengths" and text.startswith("send "):
            words = words_of("fund %s flow %s" % tuple(reversed(text.split(" ")[1:]))) if text.count(" ") == 2 else None
            if words is None:
                raise Wrong(UNREAD)
            count, name = words[1]
            if not 1 <= count <= LONGEST:
                raise Wrong(RANGE)
            text = "send %s %s" % (name, "00" * count)
        spelled = words_of(text)
        if spelled is None:
            raise Wrong(UNREAD)
        return (*spelled, text)

    def take(self, line):
        """Takes the next line."""
        spelling, values, text = self.event_of(line)
        if spelling in ("report", "torn", "audit 1", "audit 2"):
            raise Wrong(FOREIGN)
        if spelling == "turn NUM":
            self.turn(values[0])
            return
        if spelling == "send NAME HEX" and len(values[1]) > LONGEST:
            raise Wrong(RANGE)
        reply = self.link.answer_to(text)
        if spelling == "send NAME HEX" and not reply.startswith("packet "):
            raise Wrong(UNTAKEN[reply])
        if reply.startswith("flow ") and values[0] != "gap":
            self.flows[int(reply.split(" ")[1])] = (values[0], Tally())

    def turn(self, count):
        """A turn that writes a whole frame of that many bytes."""
        if not 1 <= count <= LONGEST_TURN:
            raise Wrong(RANGE)
        flow = self.link.queue.next()
        if flow is None:
            raise Wrong(IDLE)
        length = HEADER + len(flow.packets[0][1])
        if length != count:
            raise Wrong(SENT % length)
        self.link.answer_to("turn %d" % count)
        cell, overhead, price = TARIFFS[flow.tariff]
        units = overhead + cell * -(-length // cell)
        if flow.number in self.flows:
            self.flows[flow.number][1].add(Tally(1, length, units, units * price))


def read_book(text):
    """The flows of tenants in a book, with what they sent, and the number of a last line without its line feed. Raises
    Wrong with the number of a line that is no run's, and the reason."""
    *lines, rest = text.split(b"\n")
    if not lines or lines[0] not in KINDS:
        raise Wrong(1, FIRST)
    book = Book(KINDS[lines[0]])
    book.link.answer_to("audit 2")
    for number, line in enumerate(lines[1:], 2):
        try:
            book.take(line)
        except Wrong as wrong:
            raise Wrong(number, *wrong.args) from None
    return list(book.flows.values()), len(lines) + 1 if rest else None


def bill_of(books):
    """The traffic of each tenant in these books, in the order in which they first appear."""
    tenants = {}
    for flows in books:
        for name, tally in flows:
            tenants.setdefault(name, Tally()).add(tally)
    return tenants


def values_of(tally):
    return tuple(getattr(tally, column) for column in COLUMNS)


def as_table(tenants, _books):
    sums = Tally()
    for tally in tenants.values():
        sums.add(tally)
    rows = [("tenant", *COLUMNS), *((name, *values_of(tally)) for name, tally in tenants.items()),
            ("all tenants", *values_of(sums))]
    return "".join(ROW % row for row in rows)


def as_csv(tenants, _books):
    rows = [("tenant", *COLUMNS), *((name, *values_of(tally)) for name, tally in tenants.items())]
    return "".join(",".join(map(str, row)) + "\n" for row in rows)


def as_json(tenants, books):
    rows = [{"name": name, **{column: getattr(tally, column) for column in COLUMNS}}
            for name, tally in tenants.items()]
    return json.dumps({"books": books, "tenants": rows}, separators=(",", ":")) + "\n"


FORMS = {"table": ([], as_table), "csv": (["--csv"], as_csv), "json": (["--json"], as_json)}

# ---- What the program prints


class Difference(Exception):
    """The program and the model differ."""


def expect_equal(found, wanted, what):
    """Compares a status, what was printed and what was said. Of texts the first lines that differ are shown."""
    for one, other in zip(found, wanted):
        if one != other:
            lines = itertools.zip_longest(str(one).split("\n"), str(other).split("\n"))
            raise Difference("%s: %r, not %r" % (what, *next(pair for pair in lines if pair[0] != pair[1])))


def run_bill(*words, output=subprocess.PIPE):
    """The status of the program, what it prints, and what it says on standard error."""
    done = subprocess.run([PROGRAM, "bill", *words], stdout=output, stderr=subprocess.PIPE, timeout=LIMIT, check=False)
    return done.returncode, (done.stdout or b"").decode(), done.stderr.decode()


def wanted_of(paths, form):
    """The model's result for these files: the status, the text of the bill, and that on standard error."""
    said, books, status = "", [], 0
    for path in paths:
        with open(path, "rb") as file:
            text = file.read()
        try:
            flows, cut = read_book(text)
            books.append(flows)
            said += "%s:%d: %s\n" % (path, cut, CUT) if cut else ""
        except Wrong as wrong:
            said += "%s:%d: %s\n" % (path, *wrong.args)
            status = 1
    return status, "" if status else FORMS[form][1](bill_of(books), len(books)), said


def compare(paths, form, what):
    """Compares the program with the model, and returns whether the books have a bill."""
    wanted = wanted_of(paths, form)
    expect_equal(run_bill(*FORMS[form][0], *paths), wanted, what)
    return wanted[0] == 0


def book(name):
    return os.path.join(BOOKS, name)


def read(name):
    with open(book(name), "rb") as file:
        return file.read()


# ---- Stored books

# The books of a bill, and the name of its files.
STORED = ((("plan.audit",), "plan"), (("plan.lengths",), "plan"), (("carried.lengths", "plan.audit"), "both"),
          (("carried.lengths", "plan.lengths"), "both"))


def play_stored():
    """The bills of stored books are those that are stored, in each form."""
    for names, bill in STORED:
        for form, (words, _) in FORMS.items():
            wanted = 0, read("%s.%s" % (bill, form)).decode(), ""
            expect_equal(run_bill(*words, *map(book, names)), wanted, "%s of %s" % (form, names))
            expect_equal(wanted_of(list(map(book, names)), form), wanted, "the model's %s of %s" % (form, names))


# ---- Altered books

# Lines of which each is put before each line of a book.
ODD_LINES = (b"", b"torn", b"report", b"audit 2", b"lengths 2", b"turn 0", b"turn 17", b"turn 18", b"turn 19",
             b"turn 65536", b"send a 0", b"send a 01", b"send a 9000", b"send a 9001", b"send c 1", b"send a",
             b"send a 61 61", b"send a 6G", b"open gap 1 1", b"close a", b"resume a", b"hold b", b"open c 1 9",
             b"close b", b"open b 2 2", b"mkcur " + b"x" * LONGEST_LINE)


def joined(lines):
    return b"".join(line + b"\n" for line in lines)


def others_of(line):
    """The lines that a turn is exchanged for, or a packet."""
    word, _, rest = line.partition(b" ")
    if word == b"turn":
        return [b"turn %d" % count for count in (1, int(rest) - 1, int(rest) + 1, LONGEST_TURN)]
    if word == b"send":
        return [b"send c " + rest.split(b" ")[1]]
    return []


def altered(text):
    """A text altered in each way, with a word for it."""
    lines = text.split(b"\n")[:-1]
    for at, line in enumerate(lines):
        for other in others_of(line):
            yield "line %d exchanged" % (at + 1), joined(lines[:at] + [other] + lines[at + 1:])
    for at in range(len(lines[-1])):
        yield "byte %d of the last line left out" % at, joined(lines[:-1] + [lines[-1][:at] + lines[-1][at + 1:]])
        yield "last line ended after byte %d" % at, joined(lines[:-1] + [lines[-1][:at]])
    for at in range(len(lines)):
        yield "line %d left out" % (at + 1), joined(lines[:at] + lines[at + 1:])
        yield "line %d doubled" % (at + 1), joined(lines[:at + 1] + lines[at:])
        yield "line %d swapped" % (at + 1), joined(lines[:at] + lines[at:at + 2][::-1] + lines[at + 2:])
        for odd in ODD_LINES:
            yield "line put before line %d" % (at + 1), joined(lines[:at] + [odd] + lines[at:])
    for end in range(len(text)):
        yield "cut after byte %d" % end, text[:end]
    sends = [line for line in lines if line.startswith(b"send a ")]
    for count in range(1, 6):
        yield "%d packets more" % count, joined(lines + sends[:1] * count)
        yield "%d packets more, cut" % count, joined(lines + sends[:1] * count) + b"turn 18"


def play_altered(folder):
    """The program finds the same as the model in each altered text. Texts that the model refuses are given together,
    and so are those that it bills."""
    ways = {True: [], False: []}
    for name in ("plan.audit", "plan.lengths", "carried.lengths"):
        for number, (_, text) in enumerate(altered(read(name))):
            path = os.path.join(folder, "%s-%d" % (name, number))
            with open(path, "wb") as file:
                file.write(text)
            ways[wanted_of([path], "csv")[0] == 0].append(path)
    if len(ways[False]) < LEAST_REFUSED or len(ways[True]) < LEAST_BILLED:
        raise Difference("only %d are refused and %d billed" % (len(ways[False]), len(ways[True])))
    forms = itertools.cycle(FORMS)
    for paths in ways.values():
        for at in range(0, len(paths), TOGETHER):
            compare(paths[at:at + TOGETHER], next(forms), "altered books")
        for path in paths[::ALONE]:
            compare([path], "table", "an altered book")
    return {has_bill: len(paths) for has_bill, paths in ways.items()}


# ---- Other books and faults


def play_long(folder):
    """Books with payloads and lengths of each tariff's cells, and with names that are opened again."""
    opening = [b"open %s 4 %d" % (name, tariff) for tariff, name in enumerate((b"a", b"b", b"c", b"d-_9"), 1)]
    opening += [b"mktkt 1 base"] * 4
    opening += [b"fund %d flow %s" % (number, name) for number, name in enumerate((b"a", b"b", b"c", b"d-_9"), 1)]
    events = []
    for count in (1, 31, 32, 47, 1007, 1008, 2031, 2032, 9000):
        for name in (b"a", b"b", b"c", b"d-_9"):
            events.append((b"send " + name, count))
            events.append((b"turn %d" % (HEADER + count), None))
    again = [b"close a", b"open a 4 2", b"mktkt 5 base", b"fund 5 flow a"]
    paths = []
    for kind in (b"audit 2", b"lengths 2"):
        spell = (lambda n: b"5a" * n) if kind == b"audit 2" else (lambda n: b"%d" % n)
        lines = [line if count is None else line + b" " + spell(count) for line, count in events]
        paths.append(os.path.join(folder, kind.decode().replace(" ", "-")))
        with open(paths[-1], "wb") as file:
            file.write(joined([kind, *opening, *lines, *again, *lines]))
    for form in FORMS:
        for given in ([paths[0]], [paths[1]], paths, [book("plan.audit"), *paths, book("carried.lengths")]):
            if not compare(given, form, "long books"):
                raise Difference("the long books have no bill by the model")


def play_faults(folder):
    """Files that cannot be read, books that have no bill beside some that have, and an output that takes nothing."""
    good, missing, bad = book("plan.audit"), os.path.join(folder, "missing"), os.path.join(folder, "bad\nbook")
    with open(bad, "wb") as file:
        file.write(b"lengths 2\nturn 18\n")
    shown = bad.replace("\n", "\\n")
    for words in ([good, bad], [bad, good], ["--csv", good, bad, good], ["--json", bad]):
        expect_equal(run_bill(*words), (1, "", "%s:2: %s\n" % (shown, IDLE)), "a book with no bill")
    for path, reason in ((missing, "No such file or directory (os error 2)"), (folder, "Is a directory (os error 21)")):
        status, output, said = run_bill(good, path)
        expect_equal((status, output), (1, ""), "a file that cannot be read")
        if not said.startswith(path + ": ") or said.count("\n") != 1:
            raise Difference("%s: said %r, not %r" % (path, said, reason))
    with open("/dev/full", "wb") as full:
        status, _, said = run_bill(good, output=full)
        expect_equal((status, said), (1, "stridelink: cannot write the output\n"), "an output that takes nothing")
    for words in ([], ["--csv"], ["--csv", "--json", good], ["--tsv", good]):
        expect_equal(run_bill(*words)[:2], (2, ""), "words %s" % words)


def main():
    if len(sys.argv) > 1:
        status, text, said = wanted_of(sys.argv[1:], "csv")
        sys.stdout.write(text)
        sys.stderr.write(said)
        sys.exit(status)
    with tempfile.TemporaryDirectory() as folder:
        play_stored()
        counts = play_altered(folder)
        play_long(folder)
        play_faults(folder)
    print("bill: %d altered books refused, %d billed, as the model does" % (counts[False], counts[True]))


if __name__ == "__main__":
    try:
        main()
    except Difference as difference:
        sys.exit("bill: %s" % difference)
