#!/usr/bin/env python3
"""Plays control clients, ingress clients and the peer of the uplink with a built server, over real sockets.

The program is bin/stridelink, or that of the environment variable STRIDELINK; it has to know `serve` and `run`. With
words, only the cases of these names are tried; with TIMES set, it prints how long each took. Expected values come from
the rules: the bytes that the peer gets are those that the audit gives as a script, each connection's packets stand in
it once and in order, and the report is the audit's. Each case has a limit of time, and what it started ends with it.
"""
import contextlib
import fcntl
import os
import random
import re
import resource
import select
import signal
import socket
import statistics
import struct
import sys
import termios
import threading
import time

sys.dont_write_bytecode = True

from measured import Load, check_changes, check_currency, check_load, flooded, judged_alone
from serving import (ENDED, END, LATE_UPLINK, LOOPBACK, LOST_UPLINK, NO_DESCRIPTOR, ONE_PACKET, PATIENCE,
                     QUIET_SECONDS, Failure, address_space, check, ends_by_itself, expect, expect_equal, frame, frames,
                     is_blocked, listeners, lower, lowest_free, one_packet, packets, packets_until_torn, record,
                     records, reset, reset_once_told, send_on, tcp_connections, total, try_cases, wait_for)

# Seconds for a case, and for all of them.
LIMIT = 240
LIMIT_OF_ALL = 1800

# The most workers, and the most clerks.
MOST_ENDS = 8

# How often a life is spent while clients wait to send.
BLOCKED_RUNS = 10

# Half of the packets that come to a server that sleeps are at the far end within that many seconds, beyond those that
# they take through a plain program: the system holds a frame back for up to 0.04.
PROMPT = 0.015

# How many packets of a flood may be refused for each that is sent.
MOST_REFUSED = 0.01

# How fast the far end of a server that ends under floods reads, in bytes a second, and within how many seconds the
# server ends.
SLOW_END = 1e6
SLOW_END_SECONDS = 45

# A server whose life is spent ends within that many seconds, and that many times those of a plain program that writes a
# file of MUCH bytes.
SPENT_END = 1
SPENT_END_BESIDE = 5
MUCH = 3_000_000
WRITE_MUCH = "import sys\nwith open(sys.argv[1], 'w') as file:\n    file.write('61' * (int(sys.argv[2]) // 2))"

# A server that has nothing to do, or waits for its far end, may use this share of a core: its threads sleep.
ASLEEP_SHARE = 0.0005

# A connection gives that many bytes at most once the end has begun, and before that any number.
LAST_BYTES = 1 << 24

# For that many seconds after the beginning of the end replies may wait, and a write call on the uplink.
GRACE = 5

# That many servers are started at most until the number of write calls of one is odd, or even.
TRIES = 12

REPORT = """\
clock                           18
accepted                         1
written                          1
torn                             0
waiting                          0
dropped                          0
bytes                           18
past                             0
tickets                          0
pass                   19327352832
link                             0
flow        1 a                      0    0                18 out              1099511627776
end
"""

# The sizes of payloads whose frames have 22, 1507, 1508, 9016 and 9017 bytes, and what flows of the tariffs 1 to 4 owe
# for one frame of each: 21070 units; 64, 1552, 1552, 9040 and 9040 of price 2; 1024, 2048, 2048, 9216 and 9216; and
# three times 3072 and twice 11264, of price 3.
LONG_SIZES = (5, 1490, 1491, 8999, 9000)
OWED = {"a": 21070, "b": 2 * 21248, "c": 23552, "d": 3 * 31744}


def served(run):
    """One packet, from its record to its frame."""
    peer = run.peer()
    server = run.server(peer)
    control = server.control()
    control.fund(4)
    server.ingress(bytes.fromhex("0161000161")).close()
    control.close()
    server.ends()
    check(server, peer, [("whole", [("a", b"a")])])
    expect_equal(peer.got.hex(), "4c0201000000010000000000000001000161", "the frame")
    expect_equal(server.text("stdout"), REPORT, "the report")
    told = server.text("stderr").splitlines()
    for line in (ENDED % ("control", 1), ENDED % ("ingress", 1)):
        expect(any(text.startswith(line) for text in told), "not told: %s" % line)


def quiet(run):
    """Without --verbose nothing is printed. The ports are found among those that the process listens on."""
    peer = run.peer()
    server = run.start(peer.address, verbose=False, ingress="127.0.0.2:0", control="127.0.0.3:0")
    server.ports = wait_for(lambda: listeners(server.process.pid), "two sockets that listen")
    with socket.create_connection(("127.0.0.3", server.ports["control"])) as control:
        control.sendall(b"open a 4 1\n")
        expect_equal(control.recv(100), b"flow 1\n", "the reply")
        socket.create_connection(("127.0.0.2", server.ports["ingress"])).close()
    server.ends()
    check(server, peer, [])
    expect_equal(server.text("stderr"), "", "what is told")


def control_lines(run):
    """The answers of a control connection to lines of all kinds."""
    peer = run.peer()
    server = run.server(peer, clerks=2)
    first, second = server.control(), server.control()
    first.ask_wanted(["audit 2", "turn 1", "send a 61", "torn", "audit 1", "audit 2", "", "mkcur x", "mkcur  y",
                      "mkcur Y", "mkcur y\r"], ["no 3 Syntax"] * 7 + ["ok"] + ["no 3 Syntax"] * 3)
    first.ask_wanted(["x" * 20481, "mkcur " + "y" * 60000, "mkcur x", "mkcur z"],
                     ["no 3 Syntax", "no 3 Syntax", "no 9 Taken", "ok"])
    first.send(b"y" * 100000)
    time.sleep(0.1)
    first.ask_wanted(["mkcur w", "report"], ["no 3 Syntax", expected_rows(())])
    first.ask_wanted(["mktkt 0 nope", "mktkt 1 nope", "fund 9 flow zz", "open a 0 9", "open a 1 9", "rmcur base"],
                     ["no 4 Range", "no 5 NoCurrency", "no 6 NoTicket", "no 4 Range", "no 8 NoTariff", "no 10 Base"])
    second.ask_wanted(["open a 4 1", "open b 4 3", "report"], ["flow 1", "flow 2", expected_rows("ab")])
    for byte in b"mktkt 7 base\nfund 1 flow a\n":
        second.send(bytes([byte]))
    expect_equal([second.reply(), second.reply()], ["ticket 1", "ok"], "replies to single bytes")
    first.ask_wanted(["close b", "rmtkt 1", "unfund 1", "rmtkt 1"], ["closed 2 0 0", "no 12 Funding", "ok", "ok"])
    many = ["mktkt 1 base", "rmtkt %d"]
    lines = [line % number if "%" in line else line for number in range(2, 3002) for line in many]
    first.ask_wanted(lines, [reply for number in range(2, 3002) for reply in ("ticket %d" % number, "ok")])
    first.send(b"mkcur w\nmktkt 1 ba")
    expect_equal(first.close(), b"ok\n", "the replies to a line and a line without its end")
    second.vanish()
    server.ingress().close()
    server.ends()
    replay = check(server, peer, [])
    expect_equal(len(replay.lines), 1 + 2 + 6 + 2 + 2 + 4 + 6000 + 1, "commands in the audit")


def expected_rows(names):
    """The report of a link with these flows, of which nothing was sent."""
    keys = ("clock", "accepted", "written", "torn", "waiting", "dropped", "bytes", "past", "tickets", "pass", "link")
    rows = [total(key, 0)[:-1] for key in keys]
    rows += ["flow %8d %-16s %7d %4d %17d %-3s %26d" % (n, name, 0, 0, 0, "out", 0)
             for n, name in enumerate(names, 1)]
    return "\n".join([*rows, "end"])


def long_packets(run):
    """Packets of up to 9000 bytes for a flow of each tariff: their frames, and what the flows owe for them."""
    peer = run.peer()
    server = run.server(peer)
    control = server.control()
    sent = []
    for number, name in enumerate(OWED, 1):
        control.ask_wanted(["open %s 8 %d" % (name, number), "mktkt 1 base", "fund %d flow %s" % (number, name)],
                           ["flow %d" % number, "ticket %d" % number, "ok"])
        sent += [packets(name, number, 1, size)[0] for size in LONG_SIZES]
    server.ingress(records(sent)).close()
    control.close()
    server.ends()
    replay = check(server, peer, [("whole", sent)])
    wanted = [(number, seq, payload, number) for number, name in enumerate(OWED, 1)
              for seq, payload in enumerate([payload for flow, payload in sent if flow == name], 1)]
    expect(sorted(frames(replay.out)[0]) == wanted, "other frames were sent")
    owed = {line.split()[2]: int(line.split()[5]) for line in replay.report.splitlines() if line.startswith("flow ")}
    expect_equal(owed, OWED, "what the flows owe")


def much_of_one_connection(run):
    """All that one connection brings arrives, if it is more than a connection gives once the end has begun."""
    peer = run.peer()
    server = run.server(peer)
    control = server.control()
    control.fund()
    some = packets("a", 0, LAST_BYTES // 9000 + 120, 9000)
    send_all(server.ingress(), some)
    control.close()
    server.ends()
    check(server, peer, [("whole", some)])


def accepted_in_order(run):
    """Control connections are accepted first, each is answered at once, and ingress connections wait for all of them,
    also those that were there before."""
    peer = run.peer()
    server = run.server(peer, clerks=2)
    some = packets("a", 0, 10, 100)
    connection = server.ingress(records(some))
    first = server.control()
    first.fund()
    time.sleep(0.2)
    expect(total("accepted", 0) in first.ask("report")[0], "a packet arrives before all control connections are there")
    second = server.control()
    wait_for(lambda: len(peer.got) == 10 * 117, "the frames of a client")
    for client in (first, second, connection):
        client.close()
    server.ends()
    check(server, peer, [("whole", some)])


def seconds_through(connection, peer, some, size):
    """How long packets take to a peer, at which they have that many bytes."""
    got, start = len(peer.got) + size, time.monotonic()
    connection.sendall(records(some))
    wait_for(lambda: len(peer.got) == got, "the frames of %d packets" % len(some))
    return time.monotonic() - start


def full_queue(run):
    """As many workers and clerks as there may be, and 40,000 packets while the peer reads nothing for a while. What
    waits in the sockets of a connection is less than what its client sends."""
    flows, currencies = "abcdefgh", "stuvwxyz"
    peer = run.peer(lambda peer: peer.go_on.wait(), narrow=True)
    server = run.server(peer, workers=MOST_ENDS, clerks=MOST_ENDS, life=1 << 17)
    controls = [server.control() for _ in range(MOST_ENDS)]
    for number, (control, flow) in enumerate(zip(controls, flows), 1):
        control.ask_wanted(["open %s 1024 2" % flow, "mktkt %d base" % number, "fund %d flow %s" % (number, flow)],
                           ["flow %d" % number, "ticket %d" % number, "ok"])
    sent = [packets(flow, number, 5000, 1490) for number, flow in enumerate(flows)]
    connections = [server.ingress() for _ in range(MOST_ENDS)]
    senders = [run.thread(send_all, connection, some) for connection, some in zip(connections, sent)]
    wait_for(lambda: is_blocked(server, senders, ASLEEP_SHARE), "clients that wait for a full queue", 2 * PATIENCE)
    commanders = [run.thread(command_much, control, name) for control, name in zip(controls, currencies)]
    wait_for(lambda: is_blocked(server, senders + commanders, ASLEEP_SHARE), "commands that wait for a full queue")
    used = server.processor_seconds()
    time.sleep(QUIET_SECONDS)
    share = (server.processor_seconds() - used) / QUIET_SECONDS
    peer.go_on.set()
    for task in senders + commanders:
        task.finish(LIMIT)
    server.ends(seconds=LIMIT)
    replay = check(server, peer, [("whole", some) for some in sent])
    for name in currencies:
        wanted = [word % (name, number) for number in range(200) for word in ("mkcur %s%d", "rmcur %s%d")]
        commands = [line for line, reply in replay.answered() if line.split()[1][0] == name and reply == "ok"]
        expect_equal(commands, wanted, "the commands of a clerk")
    expect(share < ASLEEP_SHARE, "a server whose queue is full takes %.2f %% of a core" % (100 * share))


def send_all(connection, some):
    connection.settimeout(LIMIT)
    connection.sendall(records(some))
    connection.close()


def command_much(control, name):
    for number in range(200):
        words = ["mkcur %s%d" % (name, number), "rmcur %s%d" % (name, number)]
        control.ask_wanted(words, ["ok", "ok"])
        if number % 20 == 0:
            expect(control.ask("report")[0].endswith("\nend"), "no report")
    control.close()


def idle(run):
    """A server with nothing to do, one with an unfunded packet among them."""
    peer = run.peer()
    server = run.server(peer)
    control = server.control()
    control.ask_wanted(["open a 4 1"], ["flow 1"])
    connection = server.ingress(record("a", b"a"))
    wait_for(lambda: total("accepted", 1) in control.ask("report")[0], "the packet's arrival")
    wait_for(lambda: is_blocked(server, [], ASLEEP_SHARE), "a server that sleeps")
    used = server.processor_seconds()
    time.sleep(QUIET_SECONDS)
    share = (server.processor_seconds() - used) / QUIET_SECONDS
    control.ask_wanted(["mktkt 1 base", "fund 1 flow a"], ["ticket 1", "ok"])
    wait_for(lambda: peer.got == frame(1, 1, b"a"), "the frame of a flow that is funded late")
    control.close()
    connection.close()
    server.ends()
    check(server, peer, [("whole", [("a", b"a")])])
    expect(share < ASLEEP_SHARE, "an idle server takes %.2f %% of a core" % (100 * share))


def ends_held(run):
    """A server that ends while flows are held ends well, and their packets are in its report as waiting; that of a flow
    that was resumed is sent."""
    peer = run.peer()
    server = run.server(peer)
    control = server.control()
    control.fund(4)
    control.ask_wanted(["open b 4 1", "mktkt 2 base", "fund 2 flow b", "open c 4 1", "hold a", "hold b", "hold c",
                        "hold b", "amend 2 5", "amend 2 0", "amend 3 1", "resume d"],
                       ["flow 2", "ticket 2", "ok", "flow 3", "ok", "ok", "ok", "no 21 Held", "ok", "no 4 Range",
                        "no 6 NoTicket", "no 7 NoFlow"])
    sent = [("a", b"a"), ("b", b"b"), ("c", b"c"), ("a", b"aa")]
    client = server.ingress(b"".join(record(*packet) for packet in sent))
    wait_for(lambda: total("waiting", 4) in control.ask("report")[0], "packets that wait")
    control.ask_wanted(["resume b", "resume b"], ["ok", "no 22 NotHeld"])
    wait_for(lambda: peer.got == frame(2, 1, b"b"), "the frame of the flow that is resumed")
    client.close()
    control.close()
    server.ends()
    replay = check(server, peer, [("whole", sent)])
    expect_equal(replay.totals()["waiting"], 3, "packets that wait at the end")
    standings = [line.split()[6] for line in replay.report.splitlines() if line.startswith("flow ")]
    expect_equal(standings, ["hld", "out", "hld"], "what the report says of the flows")


def lone_packets(run):
    """Packets that come one by one, at random pauses, to a server that sleeps: each is sent, and some at once are. Most
    arrive promptly, so the system holds none back."""
    peer = run.peer()
    server = run.server(peer)
    control = server.control()
    control.fund()
    connection, plain_peer = server.ingress(), run.peer()
    draw, relay = random.Random(1), run.relay(plain_peer)
    some, seconds, plainly = packets("a", 0, 600, 64), [], []
    for first in range(0, len(some), 3):
        for lone in (some[first:first + 1], some[first + 1:first + 3]):
            time.sleep(draw.uniform(0, 0.004))
            seconds.append(seconds_through(connection, peer, lone, 81 * len(lone)))
            plainly.append(seconds_through(relay, plain_peer, lone, len(records(lone))))
    taken, plain = statistics.median(seconds), statistics.median(plainly)
    expect(taken < PROMPT + plain, "packets take %.1f ms, and %.1f through a plain program"
           % (1000 * taken, 1000 * plain))
    connection.close()
    control.close()
    server.ends()
    check(server, peer, [("whole", some)])


@judged_alone
def shares_at_slow_far_ends(run):
    """Four floods of 400:300:200:100 tickets get their shares at far ends that read slowly, with small buffers, one
    connection that carries all flows in turn, and two connections a flow."""
    loads = (Load("0.3 MB/s, a limit of 1", 3e5, limit=1),
             Load("2.5 MB/s, one connection", 2.5e6, limit=8, connections=("abcd",)),
             Load("2.5 MB/s, two connections a flow", 2.5e6, connections=("a", "b", "c", "d") * 2,
                  lengths=("64,1400", "700", "64", "1490")))
    for task in [run.thread(check_load, run, load) for load in loads]:
        task.finish(LIMIT)


@judged_alone
def shares_of_tariffs(run):
    """The same if each flow has another tariff, other lengths, and a great buffer."""
    check_load(run, Load("25 MB/s, four tariffs", 2.5e7, limit=1024, tariffs=(1, 2, 3, 4),
                         lengths=("64,1400", "700,9000", "300", "1490,8")))


@judged_alone
def shares_beside_busy_loops(run):
    """The same as fast as the far end takes it, beside three busy loops."""
    check_load(run, Load("loopback, two connections", connections=("ac", "bd"), busy=3))


@judged_alone
def shares_as_tickets_change(run):
    """A currency's flow goes and comes; and on another server a flow is held and resumed, and a ticket is amended."""
    for task in [run.thread(check, run) for check in (check_currency, check_changes)]:
        task.finish(LIMIT)


BAD_FIELDS = {
    "a name without a byte": b"\x00",
    "a name of 17 bytes": b"\x11",
    "a name that begins with a digit": b"\x021a",
    "a name with an upper-case letter": b"\x02aB",
    "a name with a space": b"\x02a ",
    "a payload of no byte": b"\x01a\x00\x00",
    "a payload of 9001 bytes": b"\x01a\x23\x29",
    "a payload of 65535 bytes": b"\x01a\xff\xff",
}


def few_are_refused(run):
    """While each connection carries a flow of its own, its worker is in step with the link: of the packets of a flood
    hardly one is refused, whatever the limit."""
    for limit in (1, 8, 1024):
        load = Load("a limit of %d" % limit, 2.5e7, limit=limit)
        floods = flooded(run, load, until_eof=True)
        floods.go()
        floods.far.wait(2.0)
        floods.say("stop")
        wait_for(floods.is_over, "the end of the floods", seconds=END)
        floods.server.end_input()
        floods.server.ends(seconds=END)
        written = int(re.search(r"^written *(\d+)$", floods.server.text("stdout"), re.MULTILINE).group(1))
        arrivals = int(re.search(r"(\d+) arrivals", floods.server.text("stderr")).group(1))
        expect(written > 0 and arrivals - written <= MOST_REFUSED * written,
               "%s: of %d packets %d were sent" % (load.name, arrivals, written))


def malformed(run):
    """A field that no record has ends its connection as soon as it is whole; what came before it is sent, and nothing
    after it."""
    for what, bad in BAD_FIELDS.items():
        peer = run.peer()
        server = run.server(peer, workers=2)
        control = server.control()
        control.fund()
        good = [packets("a", number, 50, 20) for number in (0, 1)]
        first = server.ingress(records(good[0]) + bad)
        second = server.ingress(records(good[1]) + bad + b"a" * 9001 + records(packets("a", 2, 50, 20)))
        for connection in (first, second):
            ends_by_itself(connection)
            connection.close()
        control.ask_wanted(["mkcur x"], ["ok"])
        control.close()
        server.ends()
        replay = check(server, peer, [("whole", some) for some in good])
        expect_equal(replay.totals()["written"], 100, "frames before " + what)


def cut(run):
    """A record that is cut anywhere is dropped; so is a name that no flow has, as an arrival that is refused."""
    whole = record("abc", b"payload")
    for place in range(1, len(whole)):
        peer = run.peer()
        server = run.server(peer)
        control = server.control()
        control.fund()
        some = [("a", b"1st"), ("nobody", b"2nd")]
        server.ingress(records(some) + whole[:place]).close()
        control.close()
        server.ends()
        expect(ENDED % ("ingress", 1) + ", Cut, 2 packets" in server.text("stderr").splitlines(), "the end is not told")
        replay = check(server, peer, [("whole", some)])
        expect_equal([reply for _, _, reply in replay.arrivals()], ["packet 1 1", "no 7 NoFlow"], "arrivals")


def clients_vanish(run):
    """Clients that are reset in the middle of a record or a line are no fault, and harm nobody else."""
    peer = run.peer()
    server = run.server(peer, workers=2, clerks=2)
    first, second = server.control(), server.control()
    second.fund()
    gone = packets("a", 0, 5, 1000)
    vanishing = server.ingress(records(gone) + b"\x01a\x03\xe8half")
    stays = server.ingress()
    wait_for(lambda: len(peer.got) == 5 * 1017, "the frames of a client")
    reset(vanishing)
    first.send(b"report\n" * 100 + b"mkcur")
    first.replies.close()
    reset(first.socket)
    some = packets("a", 1, 100, 100)
    stays.sendall(records(some))
    wait_for(lambda: len(peer.got) == 5 * 1017 + 100 * 117, "the frames of another client")
    second.ask_wanted(["mkcur x"], ["ok"])
    second.close()
    stays.close()
    server.ends()
    check(server, peer, [("whole", gone), ("whole", some)])


def clients_stall(run):
    """A client that stops in the middle of a record, one that sends a byte at a time, one that asks and never reads,
    and one that sends half a line, hold up nobody."""
    peer = run.peer()
    server = run.server(peer, workers=2, clerks=2)
    deaf, control = server.control(), server.control()
    control.fund()
    asked = run.thread(lambda: deaf.send(b"report\n" * 20000))
    stalls, slow = server.ingress(b"\x01a\x00"), server.ingress()
    some = packets("a", 1, 60, 8)
    for byte in records(some):
        slow.sendall(bytes([byte]))
    wait_for(lambda: len(peer.got) == 60 * 25, "the frames of a client")
    control.ask_wanted(["mkcur x"], ["ok"])
    control.send(b"mkcur ")
    time.sleep(0.2)
    late = [("a", b"late")]
    stalls.sendall(records(late)[3:])
    wait_for(lambda: len(peer.got) == 60 * 25 + 21, "the frame of a client that went on")
    control.ask_wanted(["y"], ["ok"])
    expect_equal([deaf.reply() is not None for _ in range(20000)], [True] * 20000, "the reports, read late")
    asked.finish()
    for connection in (deaf, control, stalls, slow):
        connection.close()
    server.ends()
    check(server, peer, [("whole", late), ("whole", some)])


def peer_closes_at_once(run):
    packets_until_torn(run, run.peer(lambda peer: peer.connection.close()))


def peer_resets_at_once(run):
    packets_until_torn(run, run.peer(reset_once_told))


def peer_closes_after_some_bytes(run):
    def read_some(peer):
        while len(peer.got) < 1500:
            peer.read(1500 - len(peer.got))
        peer.connection.close()

    peer = run.peer(read_some)
    packets_until_torn(run, peer)
    expect_equal(len(peer.got), 1500, "bytes that the peer got")


def peer_reads_slowly(run):
    """A slow peer gets everything, also what was on its way when all clients had ended."""
    def read_slowly(peer):
        while peer.read(700):
            time.sleep(0.002)

    gets_all(run, run.peer(read_slowly, narrow=True), packets("a", 0, 300, 500))


def gets_all(run, peer, some):
    """A client sends these packets and ends, and the peer gets all."""
    server = run.server(peer)
    control = server.control()
    control.fund()
    server.ingress(records(some)).close()
    control.close()
    server.ends()
    expect_equal(check(server, peer, [("whole", some)]).totals()["written"], len(some), "frames")


def peer_writes_back(run):
    """Bytes from the peer are read away: neither does it disturb the run, nor is the end of the frames lost by it,
    which is still on its way when the server has sent all, since the peer reads slowly."""
    def write_back(peer):
        peer.connection.sendall(b"hello " * 1000)
        while peer.read(700):
            peer.connection.sendall(b"thanks " * 100)
            time.sleep(0.01)
        peer.connection.sendall(b"bye " * 10000)

    gets_all(run, run.peer(write_back, narrow=True), packets("a", 0, 300, 500))


def spent_life(run):
    """A spent life ends the ingress connections, idle ones too, and control connections are answered on."""
    peer = run.peer()
    server = run.server(peer, workers=2, life=5)
    control = server.control()
    control.fund(4)
    busy, silent = server.ingress(record("a", b"1st")), server.ingress()
    for connection in (busy, silent):
        ends_by_itself(connection)
        connection.close()
    control.ask_wanted(["mkcur x", "close a", "mkcur", "turn 1"], ["no 2 Spent"] * 2 + ["no 3 Syntax"] * 2)
    report = control.ask("report")[0]
    expect(report.startswith(total("clock", 20) + total("accepted", 1) + total("written", 1)), "a report: %s" % report)
    control.close()
    server.ends(1, "the life is spent")
    replay = check(server, peer, [("whole", [("a", b"1st")])])
    expect_equal(len(replay.lines), 5, "events in the audit")


def spent_life_late_clients(run):
    """An ingress client that connects once the life is spent sees the end, whether it sends or is idle."""
    peer = run.peer()
    server = run.server(peer, workers=3, life=3)
    control = server.control()
    control.fund()
    control.ask_wanted(["mkcur x"], ["no 2 Spent"])
    time.sleep(0.2)
    for data in (b"", record("a", b"late"), b"\x01a"):
        client = server.ingress(data)
        ends_by_itself(client)
        client.close()
    control.close()
    server.ends(1, "the life is spent")
    check(server, peer, [])


def spent_life_under_load(run):
    """Offers that no event is left for are dropped; what was admitted is in the audit."""
    peer = run.peer()
    server = run.server(peer, workers=2, life=1000)
    control = server.control()
    control.fund()
    sent = [packets("a", number, 5000, 100) for number in (0, 1)]
    connections = [server.ingress(), server.ingress()]
    for connection, some in zip(connections, sent):
        run.thread(send_all, connection, some)
    wait_for(lambda: control.ask("mkcur x") == ["no 2 Spent"], "the end of the life")
    for connection in connections:
        wait_for(lambda: is_over(connection), "the end of a connection")
    control.close()
    server.ends(1, "the life is spent")
    replay = check(server, peer, [("part", some) for some in sent])
    expect_equal(len(replay.lines), 1000, "events in the audit")


def spent_life_blocked(run):
    """A server whose life is spent ends within a second, however much its clients still want to send. A plain program
    that writes as much shows how busy the machine is."""
    peer = run.peer()
    server = run.server(peer, workers=4, life=2000)
    control = server.control()
    control.fund()
    sent = [packets("a", number, 5000, 700) for number in range(4)]
    for some in sent:
        run.thread(send_quietly, server.ingress(), some)
    wait_for(lambda: control.ask("mkcur x") == ["no 2 Spent"], "the end of the life")
    start = time.monotonic()
    plain = run.beside(sys.executable, "-c", WRITE_MUCH, os.path.join(run.folder(), "much"), str(MUCH))
    control.close()
    server.ends(1, "the life is spent")
    seconds = time.monotonic() - start
    plainly = plain.seconds(start)
    expect(seconds <= SPENT_END + SPENT_END_BESIDE * plainly, "the end takes %.2f s, and a plain program %.2f"
           % (seconds, plainly))
    check(server, peer, [("part", some) for some in sent])


def spent_life_blocked_often(run):
    for _ in range(BLOCKED_RUNS):
        spent_life_blocked(run)


def is_over(connection):
    """Whether a connection that another thread writes to has ended."""
    if connection.fileno() < 0:
        return True
    try:
        return connection.recv(1) == b""
    except OSError:
        return True


def until_eof_idle(run):
    """The end of standard input ends a server whose connections are idle, and one that waits for more connections."""
    for workers, clerks, there in ((1, 1, 2), (2, 2, 0), (2, 1, 1), (2, 1, 2)):
        peer = run.peer()
        server = run.server(peer, workers=workers, clerks=clerks, until_eof=True)
        control = server.control() if there > 0 else None
        some = []
        if control:
            control.fund()
        if there > 1:
            some = packets("a", 0, 200, 20)
            server.ingress(records(some) + b"\x01a\x00")
            wait_for(lambda: len(peer.got) == 200 * 37, "the frames of a client")
        server.end_input()
        server.ends(seconds=END)
        if control:
            expect_equal(control.close(), b"", "what is said at the end")
        check(server, peer, [("whole", some)])


def unacknowledged(connection):
    """How many bytes of those that were sent the other side does not have yet."""
    return struct.unpack("i", fcntl.ioctl(connection, termios.TIOCOUTQ, bytes(4)))[0]


def until_eof_floods(run):
    """A client that goes on sending is cut off, long before it has spent a life, and the audit has what was
    admitted."""
    peer = run.peer()
    server = run.server(peer, until_eof=True, life=1 << 20)
    control = server.control()
    control.ask_wanted(["open a 1 1"], ["flow 1"])
    flooding = run.thread(send_on, server.ingress(), record("a", b"0" * 9) * 100000)
    wait_for(lambda: total("accepted", 1) in control.ask("report")[0], "the first packet's arrival")
    server.end_input()
    server.ends(seconds=END)
    flooding.finish()
    replay = check(server, peer)
    expect(set(replay.lines[1:]) == {"send a " + "30" * 9}, "other packets arrived than were sent")
    expect_equal(replay.totals()["waiting"], 1, "packets that wait")


def until_eof_of_no_input(run):
    """Standard input that cannot be read, such as a folder, has ended."""
    peer = run.peer()
    folder = os.open(run.folder(), os.O_RDONLY)
    run.stack.callback(os.close, folder)
    server = run.start(peer.address, until_eof=True, stdin=folder)
    server.ends()
    check(server, peer, [])


def until_eof_before_a_slow_far_end(run):
    """From the beginning of the end on no worker waits for room: what buffers have no room for is refused. So the end
    does not take as long as the far end would take for all that had come."""
    load = Load("an end before a slow far end", SLOW_END)
    floods = flooded(run, load, until_eof=True)
    floods.begin()
    floods.far.wait(1.0)
    floods.server.end_input()
    floods.server.ends(seconds=SLOW_END_SECONDS)


def send_quietly(connection, some):
    try:
        connection.sendall(records(some))
    except OSError:
        pass


def unread_replies(run):
    """A client that never reads its replies cannot hold up the end."""
    peer = run.peer()
    server = run.server(peer, until_eof=True)
    control = server.control()
    control.fund()
    control.socket.settimeout(None)
    asking = run.thread(send_on, control.socket, b"report\n" * 1000)
    some = packets("a", 0, 10, 100)
    server.ingress(records(some)).close()
    wait_for(lambda: len(peer.got) == 10 * 117, "the frames of a client")
    time.sleep(0.5)
    server.end_input()
    server.ends(seconds=END)
    asking.finish()
    check(server, peer, [("whole", some)])


def what_had_come(run):
    """Bytes that had come when standard input ended are answered, admitted, sent and settled, if the peer takes them in
    time."""
    peer = run.peer(lambda peer: peer.go_on.wait(), narrow=True)
    server = run.server(peer, until_eof=True)
    control = server.control()
    control.fund()
    some = packets("a", 0, 660, 1000)
    connection = server.ingress(records(some[:60]))
    wait_for(lambda: is_blocked(server, []), "a link that waits for its peer")
    sending = run.thread(connection.sendall, records(some[60:]))
    control.send(b"mkcur x\nmkcur y\nmkcur")
    sending.finish()
    time.sleep(0.2)
    came = len(records(some)) - unacknowledged(connection)
    server.end_input()
    time.sleep(0.6 * GRACE)
    peer.go_on.set()
    server.ends(seconds=END)
    expect_equal(control.close(), b"ok\nok\n", "the replies")
    connection.close()
    totals = check(server, peer, [("part", some)]).totals()
    expect(totals["written"] >= came // len(record(*some[0])), "%d bytes had come, and %d frames of 1000 were sent"
           % (came, totals["written"]))


def idle_client(run):
    """At the end of input a client that sends nothing sees the end of its connection at once, and one whose packets
    wait for the link sees none before they are taken."""
    peer = run.peer(lambda peer: peer.go_on.wait(), narrow=True)
    server = run.server(peer, workers=2, until_eof=True)
    control = server.control()
    control.fund()
    some = packets("a", 0, 3000, 1000)
    waits, rests = server.ingress(), server.ingress()
    sending = run.thread(send_quietly, waits, some)
    wait_for(lambda: server.unread() and is_blocked(server, []), "a link that waits for its peer")
    server.end_input()
    ends_by_itself(rests)
    time.sleep(1)
    expect(not has_more(waits), "a client whose packets wait sees the end of its connection")
    peer.go_on.set()
    server.ends(seconds=END)
    sending.finish()
    for connection in (waits, rests):
        connection.close()
    check(server, peer, [("part", some)])


def has_more(connection):
    """Whether something came on a connection, or its end."""
    return bool(select.select([connection], [], [], 0)[0])


def dead_peer(run, is_odd):
    """An uplink that takes nothing is torn, so that a dead peer costs no audit: whether the number of write calls that
    began is odd or even."""
    some = packets("a", 0, 3000, 1000)
    for frames_before in range(TRIES):
        peer, server, sending = stalled(run, some, frames_before)
        if (written_to(peer) // 1017 + 1) % 2 == is_odd:
            server.end_input()
            torn_at_the_end(server, peer, some)
            sending.finish()
            return
        server.close()
        peer.close()
    raise Failure("no number of write calls is %s" % ("odd" if is_odd else "even"))


def stalled(run, some, frames_before):
    """A server whose link waits for a peer that reads that many frames of 1017 bytes, and then nothing until it is told
    to: the peer, the server, and what sends these packets."""
    def die(peer):
        while len(peer.got) < 1017 * frames_before and peer.read(1017 * frames_before - len(peer.got)):
            pass
        peer.go_on.wait()

    peer = run.peer(die, narrow=True)
    server = run.server(peer, until_eof=True)
    control = server.control()
    control.fund()
    sending = run.thread(send_quietly, server.ingress(), some)
    wait_for(lambda: server.unread() and is_blocked(server, []), "a link that waits for its peer")
    return peer, server, sending


def written_to(peer):
    """How many bytes the system has taken for the peer of an uplink: those that it read, and those on their way."""
    port = int(peer.address.split(":")[1])
    return len(peer.got) + sum(sent * (other == port) + received * (own == port)
                               for own, other, sent, received in tcp_connections())


def torn_at_the_end(server, peer, some):
    """Wants that the uplink is torn for a peer that reads on once the server has ended; the audit's replay."""
    status = server.wait(END)
    peer.go_on.set()
    expect_equal(status, 1, "status")
    server.ends(1, LATE_UPLINK)
    replay = check(server, peer, [("part", some)], torn=True)
    expect_equal(replay.lines.count("torn"), 1, "faults in the audit")
    return replay


def peer_that_dies(run):
    """A peer that reads when the end begins, and soon no more: the uplink is torn at a later look."""
    def read_for_a_while(peer):
        while not is_over.is_set() and peer.read(1017):
            time.sleep(0.005)
        peer.go_on.wait()

    is_over = threading.Event()
    peer = run.peer(read_for_a_while, narrow=True)
    server = run.server(peer, until_eof=True)
    control = server.control()
    control.fund()
    some = packets("a", 0, 3000, 1000)
    sending = run.thread(send_quietly, server.ingress(), some)
    wait_for(lambda: len(peer.got) > 10170, "some frames")
    server.end_input()
    time.sleep(1)
    is_over.set()
    torn_at_the_end(server, peer, some)
    sending.finish()


def slow_peer(run):
    """A peer that takes little, but always more, gets all that was admitted, however long it takes."""
    def read_slowly(peer):
        while not peer.go_on.is_set() and peer.read(1017):
            time.sleep(0.01)

    peer = run.peer(read_slowly, narrow=True)
    server = run.server(peer, until_eof=True)
    control = server.control()
    control.fund()
    some = packets("a", 0, 3000, 1000)
    sending = run.thread(send_quietly, server.ingress(), some)
    wait_for(lambda: len(peer.got) > 10170, "some frames")
    server.end_input()
    time.sleep(2.1 * GRACE)
    peer.go_on.set()
    server.ends(seconds=END)
    sending.finish()
    check(server, peer, [("part", some)])


def idle_uplink(run, count):
    """While replies wait, an uplink on which nothing is left to write is no dead one: its peer gets the frames that are
    on their way, though it reads them late and writes back, which would reset an uplink that was torn."""
    def read_late(peer):
        peer.go_on.wait()
        peer.connection.sendall(b"thanks")
        while peer.read(1017):
            peer.connection.sendall(b"thanks")

    peer = run.peer(read_late)
    server = run.server(peer, until_eof=True, clerks=2)
    control, deaf = server.control(), server.control()
    control.fund()
    deaf.socket.settimeout(None)
    asking = run.thread(send_on, deaf.socket, b"report\n" * 1000)
    some = packets("a", 0, count, 1000)
    server.ingress(records(some)).close()
    wait_for(lambda: total("written", count) in control.ask("report")[0], "the writes of the frames")
    time.sleep(0.5)
    server.end_input()
    time.sleep(GRACE + 0.5)
    peer.go_on.set()
    server.ends(seconds=END)
    asking.finish()
    check(server, peer, [("whole", some)])


def until_eof_beside_slow_ones(run):
    """The end of standard input beside clients and peers that are slow, idle or dead. They are tried side by side,
    since each takes seconds."""
    run.side_by_side(((unread_replies,), (what_had_come,), (idle_client,), (dead_peer, False), (dead_peer, True),
                      (peer_that_dies,), (slow_peer,), (idle_uplink, 7), (idle_uplink, 8)), LIMIT)


def until_eof_open(run):
    """A server that has nothing more to do does not wait for the end of standard input."""
    peer = run.peer()
    server = run.server(peer, until_eof=True)
    control = server.control()
    control.fund()
    some = packets("a", 0, 10, 100)
    server.ingress(records(some)).close()
    control.close()
    server.ends()
    check(server, peer, [("whole", some)])


class Ends:
    """A server with two ingress connections, whose clients are silent or flood it, and a control connection."""

    def __init__(self, run, is_awake, **words):
        self.run = run
        self.peer = run.peer()
        self.server = run.server(self.peer, **{"workers": 2, "life": 1 << 20, **words})
        self.control = self.server.control()
        self.control.fund(64)
        self.sent = [packets("a", number, 4000, 700) for number in range(2)]
        self.clients = [self.server.ingress() for _ in self.sent]
        self.senders = []
        if is_awake:
            self.senders = [run.thread(send_quietly, *both) for both in zip(self.clients, self.sent)]
            wait_for(lambda: len(self.peer.got) > 717 * 100, "frames of the floods")
        else:
            self.clients[0].sendall(record(*self.sent[0][0]))
            wait_for(lambda: len(self.peer.got) == 717, "a frame")

    def leave(self):
        """The clients end, once they have sent what they had."""
        for sender in self.senders:
            sender.finish()
        for client in self.clients:
            client.close()
        self.control.close()

    def is_ended(self, status, fault=None, torn=False):
        self.server.ends(status, fault, seconds=END)
        check(self.server, self.peer, [("part", some) for some in self.sent], torn=torn)


def drains(run, is_awake):
    ends = Ends(run, is_awake)
    ends.leave()
    ends.is_ended(0)


def spends(run, is_awake):
    ends = Ends(run, is_awake, life=1000)
    ends.control.send(b"mkcur x\nrmcur x\n" * 500)
    for client in ends.clients:
        wait_for(lambda: is_over(client), "the end of a connection")
    ends.control.close()
    ends.is_ended(1, "the life is spent")


def tears(run, is_awake):
    ends = Ends(run, is_awake)
    reset(ends.peer.connection)
    for number in range(1, 4):
        with contextlib.suppress(OSError):
            ends.clients[1].sendall(b"" if is_awake else record(*ends.sent[1][number - 1]))
        time.sleep(0.05)
    ends.leave()
    ends.is_ended(1, LOST_UPLINK, torn=True)


def refuse_threads(server):
    """Leaves a server too little memory for another thread."""
    lower(server, resource.RLIMIT_AS, address_space(server.process) + (1 << 20))


def refuses_a_thread(run, is_awake):
    ends = Ends(run, is_awake, clerks=1, workers=3)
    refuse_threads(ends.server)
    late = ends.server.ingress()
    ends_by_itself(late)
    ends.is_ended(1, "cannot start a worker")


def ends_its_input(run, is_awake):
    ends = Ends(run, is_awake, until_eof=True)
    ends.server.end_input()
    ends.is_ended(0)


def ends_asleep_and_awake(run):
    """Each way to end, while the link and its workers sleep and while they are flooded."""
    for way in (drains, spends, tears, refuses_a_thread, ends_its_input):
        for is_awake in (False, True):
            try:
                way(run, is_awake)
            except Failure as fault:
                raise Failure("%s, %s: %s" % (way.__name__, "awake" if is_awake else "asleep", fault)) from None


def fault_words(run):
    """Words that are wrong or missing are a usage fault, and nothing is made or listened on."""
    words = {"ingress": LOOPBACK + ":0", "control": LOOPBACK + ":0", "uplink": LOOPBACK + ":1", "workers": 1,
             "life": 16}
    wrong = [{"workers": 0}, {"workers": MOST_ENDS + 1}, {"workers": "x"}, {"clerks": 0}, {"clerks": MOST_ENDS + 1},
             {"life": 0}, {"life": (1 << 24) + 1}, {"life": -1}]
    wrong += [{word: None} for word in words] + [{"audit": ""}, {"further": ["--fast"]}, {"further": ["further"]},
                                                 {"further": ["--life", "4"]}, {"further": ["--clerks"]}]
    for change in wrong:
        server = run.start(**{"verbose": False, **words, **change})
        expect_equal(server.wait(), 2, "status of the words %s" % change)
        expect_equal(server.text("stdout"), "", "the output")
        expect(not os.path.exists(server.path("audit")), "a file is made")


def nothing_is_left(server):
    expect_equal(sorted(os.listdir(server.folder)), ["stderr", "stdout"], "files")


def fault_addresses(run):
    """An address that is taken, a text that is not one, and an uplink that nobody listens on: each with the system's
    reason."""
    peer = run.peer()
    with socket.socket() as taken, socket.socket() as silent:
        taken.bind((LOOPBACK, 0))
        taken.listen()
        silent.bind((LOOPBACK, 0))
        taken, silent = ("%s:%d" % some.getsockname() for some in (taken, silent))
        in_use = "cannot listen on %s: address in use" % taken
        for words, uplink, text in (({"ingress": taken}, peer.address, in_use),
                                    ({"control": taken}, peer.address, in_use),
                                    ({"control": "nonsense"}, peer.address,
                                     "cannot listen on nonsense: invalid socket address"),
                                    ({"ingress": taken}, silent, in_use),
                                    ({}, silent, "cannot connect to %s: connection refused" % silent),
                                    ({}, "nonsense", "cannot connect to nonsense: invalid socket address")):
            server = run.start(uplink, **words)
            server.ends(1, text)
            expect_equal(server.text("stdout"), "", "the output")
            nothing_is_left(server)


def fault_memory(run):
    """A life that there is no memory for is reported before anything listens."""
    peer = run.peer()
    size = 160 << 20
    server = run.start(peer.address, life=1 << 24,
                       before=lambda: resource.setrlimit(resource.RLIMIT_AS, (size, size)))
    server.ends(1, "out of memory")
    nothing_is_left(server)
    expect(peer.connection is None, "the uplink was connected")


def fault_accept(run):
    """A connection that finds no descriptor ends the run, with its audit and report."""
    peer = run.peer()
    server = run.server(peer, clerks=2)
    # A call that accepts takes its descriptor before it waits: without one it ends the run before anybody connects.
    wait_for(lambda: is_blocked(server, [], ASLEEP_SHARE), "a server that sleeps")
    lower(server, resource.RLIMIT_NOFILE, lowest_free(server))
    first, second = server.control(), None
    try:
        second = server.control()
        first.fund()
    except (OSError, Failure):
        pass
    server.ends(1, NO_DESCRIPTOR, seconds=END)
    for control in filter(None, (first, second)):
        control.vanish()
    check(server, peer, [])


def fault_thread(run):
    """A thread that is refused ends the run, with its audit and report."""
    peer = run.peer()
    server = run.server(peer, workers=2)
    control = server.control()
    control.fund()
    first = server.ingress(record("a", b"1st"))
    wait_for(lambda: len(peer.got) == 20, "the frame of a client")
    refuse_threads(server)
    second = server.ingress()
    server.ends(1, "cannot start a worker", seconds=END)
    for connection in (first, second):
        connection.close()
    control.vanish()
    check(server, peer, [("whole", [("a", b"1st")])])


def fault_control_thread(run):
    """So does one of a control connection. Those that are there are ended."""
    peer = run.peer()
    server = run.server(peer, clerks=2)
    first = server.control()
    first.fund()
    refuse_threads(server)
    second = server.control()
    server.ends(1, "cannot start a worker", seconds=END)
    expect_equal(first.close(), b"", "what is said at the end")
    second.vanish()
    check(server, peer, [])


def fault_files(run):
    """An audit that cannot be opened is reported before anything listens, one that cannot be written at the end."""
    peer = run.peer()
    missing = os.path.join(run.folder(), "missing", "audit")
    for path, why in ((missing, "entity not found"), ("/", "is a directory")):
        server = run.start(peer.address, audit=path)
        server.ends(1, "cannot write the audit %s: %s" % (path, why))
        nothing_is_left(server)
    expect(peer.connection is None, "the uplink was connected")
    server = run.server(peer, audit="/dev/full")
    one_packet(server)
    lost = "cannot write the audit /dev/full: no storage space"
    server.ends(1, lost)
    expect(server.text("stdout").startswith(total("clock", 20)), "no report")
    for path, fault in ((None, "cannot write the output"), ("/dev/full", lost)):
        with open("/dev/full", "wb") as full:
            peer = run.peer()
            server = run.server(peer, audit=path, stdout=full)
            one_packet(server)
            server.ends(1, fault)
            peer.thread.join(PATIENCE)
            expect_equal(bytes(peer.got), frame(1, 1, b"1st"), "the frame")
            expect_equal(os.path.exists(server.path("audit")), path is None, "whether there is an audit")
            if path is None:
                expect_equal(server.text("audit"), ONE_PACKET, "the audit")


def audit_exists(run):
    """An audit that exists, and a link to one, is refused before anything listens, and stays as it was. So does one
    that comes while the server runs: the new one then stays beside it. A link to nothing is no audit."""
    folder, peer = run.folder(), run.peer()
    old, link = os.path.join(folder, "old"), os.path.join(folder, "link")
    with open(old, "w") as sink:
        sink.write("an old audit\n")
    os.symlink(old, link)
    for path in (old, link):
        server = run.start(peer.address, audit=path)
        server.ends(1, path + " exists: --force replaces it")
        nothing_is_left(server)
        expect_equal((open(old).read(), sorted(os.listdir(folder))), ("an old audit\n", ["link", "old"]), "files")
    expect(peer.connection is None, "the uplink was connected")
    os.remove(old)
    server = run.start(peer.address, audit=link)
    server.ends(1, "cannot write the audit %s: entity not found" % link)
    late = os.path.join(folder, "late")
    server = run.server(peer, audit=late)
    with open(late, "w") as sink:
        sink.write("a late audit\n")
    one_packet(server)
    server.ends(1, "cannot write the audit %s: entity already exists" % late)
    expect("\nthe whole audit is in %s.1\n" % late in server.text("stderr"), "where the audit is")
    expect_equal((open(late).read(), open(late + ".1").read()), ("a late audit\n", ONE_PACKET), "the audits")


def audit_files(run):
    """With --force an old audit is replaced, and stays until the new one is whole; a link and a pipe are written in
    place."""
    folder = run.folder()
    old, link = os.path.join(folder, "old"), os.path.join(folder, "link")
    with open(old, "w") as sink:
        sink.write("an old audit that is longer than the new one\n" * 100)
    os.symlink(old, link)
    for path in (old, link):
        peer = run.peer()
        server = run.server(peer, audit=path, further=["--force"])
        control = server.control()
        expect(open(old).read().startswith("an old audit" if path == old else "audit 2"), "the old audit is gone")
        control.fund()
        server.ingress(record("a", b"1st")).close()
        control.close()
        server.ends()
        check(server, peer, [("whole", [("a", b"1st")])])
        expect(os.path.islink(link), "the link is gone")
        expect_equal(sorted(os.listdir(folder)), ["link", "old"], "files")
    pipe = os.path.join(folder, "pipe")
    os.mkfifo(pipe)
    got = []
    reading = run.thread(lambda: got.append(open(pipe).read()))
    peer = run.peer()
    server = run.server(peer, audit=pipe)
    one_packet(server)
    server.ends()
    reading.finish()
    expect_equal(got[0], ONE_PACKET, "the audit")
    peer.thread.join(PATIENCE)
    expect_equal(bytes(peer.got), frame(1, 1, b"1st"), "the frame")


def ended_by_a_signal(run):
    """A signal ends a server without its audit and its report. An old audit stays as it was."""
    for sent in (signal.SIGTERM, signal.SIGINT, signal.SIGKILL):
        old = os.path.join(run.folder(), "audit")
        with open(old, "w") as sink:
            sink.write("an old audit\n")
        peer = run.peer()
        server = run.server(peer, audit=old, further=["--force"])
        control = server.control()
        control.fund()
        client = server.ingress(record("a", b"1st"))
        wait_for(lambda: len(peer.got) == 20, "the frame of a client")
        server.process.send_signal(sent)
        expect_equal(server.wait(), -sent, "status")
        expect_equal(server.text("stdout"), "", "the report")
        with open(old) as source:
            expect_equal(source.read(), "an old audit\n", "the old audit")
        client.close()
        control.vanish()


def wait_for_line(server, line):
    """Waits until a server that runs has printed a line that begins so; the line."""
    def told():
        found = [text for text in server.text("stderr").splitlines() if text.startswith(line)]
        expect(server.process.poll() is None, "the server has ended")
        return found

    return wait_for(told, line)[-1]


def tells_what_it_waits_for(run):
    """A server prints what it waits for: its uplink, each connection in turn, their ends, and what is left to be sent.
    """
    peer = run.peer()
    server = run.server(peer, clerks=2)
    wait_for_line(server, "waiting for control 1 of 2")
    first = server.control()
    wait_for_line(server, "waiting for control 2 of 2")
    second = server.control()
    wait_for_line(server, "waiting for ingress 1 of 1")
    client = server.ingress()
    wait_for_line(server, "waiting for all connections to end")
    for connection in (first, second, client):
        connection.close()
    server.ends()
    told = [line for line in server.text("stderr").splitlines() if line.startswith(("waiting", "the stop"))]
    wanted = ["waiting for the uplink at " + peer.address, "waiting for control 1 of 2", "waiting for control 2 of 2",
              "waiting for ingress 1 of 1", "waiting for all connections to end", "the stop is set",
              "waiting for what is left to be sent", "waiting for the uplink's peer to end"]
    expect_equal(told, wanted, "what the server waited for")
    check(server, peer, [])


def tells_of_an_uplink(run):
    """A server whose uplink is lost prints that, with the reason, when a write fails; one whose far end reads nothing
    prints once that it waits."""
    peer = run.peer(reset_once_told)
    server = run.server(peer)
    peer.go_on.set()
    control = server.control()
    control.fund()
    client, some = server.ingress(), packets("a", 0, 200, 1000)
    for packet in some:
        client.sendall(record(*packet))
        time.sleep(0.01)
        if "the uplink is lost" in server.text("stderr"):
            break
    line = wait_for_line(server, "the uplink is lost: ")
    expect(line.split(": ")[1] in ("connection reset", "broken pipe"), "the reason: " + line)
    control.ask_wanted(["mkcur x"], ["ok"])
    client.close()
    control.close()
    server.ends(1, "the uplink failed: " + line.split(": ")[1])
    expect_equal(server.text("stderr").count("the uplink is lost"), 1, "how often the loss is told")
    peer = run.peer(lambda peer: peer.go_on.wait(), narrow=True)
    server = run.server(peer)
    control = server.control()
    control.fund()
    client = server.ingress()
    sending = run.thread(send_quietly, client, packets("a", 0, 3000, 1000))
    wait_for_line(server, "waiting for the uplink, which takes nothing")
    time.sleep(2.1 * GRACE)
    expect_equal(server.text("stderr").count("takes nothing"), 1, "how often it is told that the uplink takes nothing")
    peer.go_on.set()
    sending.finish()
    client.close()
    control.close()
    server.ends(seconds=END)
    expect("the uplink is lost" not in server.text("stderr"), "a loss is told of an uplink that was slow")


def tells_of_refused_packets(run):
    """Packets that are refused are reported while the server runs: the first of a connection, then each time that there
    are twice as many, and at the end."""
    peer = run.peer()
    server = run.server(peer, workers=2)
    control = server.control()
    control.fund(2)
    control.ask_wanted(["hold a"], ["ok"])
    first, second = server.ingress(), server.ingress()
    for count in range(1, 12):
        second.sendall(record("nobody", b"x"))
        if count & (count - 1) == 0:
            wait_for_line(server, "ingress 2: %d packets refused, the last as NoFlow" % count)
    first.sendall(record("a", b"x") * 3)
    wait_for_line(server, "ingress 1: 1 packets refused, the last as BufferFull")
    for connection in (first, second, control):
        connection.close()
    server.ends()
    told = [line for line in server.text("stderr").splitlines() if " refused, " in line]
    expect_equal([line for line in told if line.startswith("ingress 1")],
                 ["ingress 1: 1 packets refused, the last as BufferFull"], "what is told of connection 1")
    expect_equal(told[-1], "ingress 2: 11 packets refused, the last as NoFlow", "what is told at the end")
    expect_equal(len(told), 6, "how many lines are told of refused packets")
    check(server, peer)


CASES = (served, quiet, control_lines, long_packets, much_of_one_connection, accepted_in_order, idle, ends_held,
         lone_packets, full_queue, shares_at_slow_far_ends, shares_of_tariffs, shares_beside_busy_loops,
         shares_as_tickets_change, few_are_refused, malformed, cut, clients_vanish, clients_stall, peer_closes_at_once,
         peer_resets_at_once, peer_closes_after_some_bytes, peer_reads_slowly, peer_writes_back, spent_life,
         spent_life_late_clients, spent_life_under_load, spent_life_blocked_often, until_eof_idle, until_eof_floods,
         until_eof_of_no_input, until_eof_before_a_slow_far_end,
         until_eof_beside_slow_ones, until_eof_open, ends_asleep_and_awake, fault_words, fault_addresses, fault_memory,
         fault_accept, fault_thread, fault_control_thread, fault_files, audit_exists, audit_files,
         ended_by_a_signal, tells_what_it_waits_for, tells_of_an_uplink, tells_of_refused_packets)


if __name__ == "__main__":
    try_cases(CASES, LIMIT, LIMIT_OF_ALL)
