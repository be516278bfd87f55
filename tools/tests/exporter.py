#!/usr/bin/python3
"""Tries tools/exporter beside a served link, by scrapes over HTTP that are read by Prometheus' own parser. The numbers
that are wanted are worked by hand from the rules."""
import os
import re
import signal
import socket
import subprocess
import threading
import time
import urllib.request

from trying import TOOLS, expect, expect_equal, expect_fails, tool, try_cases

from prometheus_client.parser import text_string_to_metric_families

from serving import LOOPBACK, PATIENCE, check, record, wait_for

LISTENING = re.compile(r"^exporter: listening on 127\.0\.0\.1:(\d+)$")

# Flow acme owes 1 a unit and byte, zeta 2 a unit, of which a frame of up to 48 bytes has 64.
FUNDING = ("open acme 16 1", "mktkt 300 base", "fund 1 flow acme",
           "open zeta 16 2", "mktkt 100 base", "fund 2 flow zeta")
FUNDED = ["flow 1", "ticket 1", "ok", "flow 2", "ticket 2", "ok"]
PACKETS = (("acme", b"hello"), ("zeta", b"bye"), ("acme", b"again"))
ACME, ZETA = (("flow", "1"), ("name", "acme")), (("flow", "2"), ("name", "zeta"))

NOTHING = {"stridelink_charged_units_total": 0, "stridelink_accepted_packets_total": 0,
           "stridelink_written_packets_total": 0, "stridelink_torn_packets_total": 0, "stridelink_waiting_packets": 0,
           "stridelink_dropped_packets_total": 0, "stridelink_written_bytes_total": 0,
           "stridelink_past_account_total": 0, "stridelink_competing_tickets": 0, "stridelink_global_pass_total": 0}

# Three frames were written: 22 and 22 bytes of acme, 20 of zeta.
SENT = {**NOTHING, "stridelink_charged_units_total": 44 + 64, "stridelink_accepted_packets_total": 3,
        "stridelink_written_packets_total": 3, "stridelink_written_bytes_total": 64}


class Exporter:
    """An exporter that runs until the end of its case."""

    def __init__(self, run, *words):
        self.process = subprocess.Popen([os.path.join(TOOLS, "exporter"), "--listen", LOOPBACK + ":0", *words],
                                        stderr=subprocess.PIPE)
        run.stack.callback(self.close)
        told = self.process.stderr.readline().decode()
        expect(LISTENING.match(told), "the exporter does not listen: %s" % told)
        self.url = "http://%s:%s/metrics" % (LOOPBACK, LISTENING.match(told).group(1))

    def scrape(self):
        """A scrape: the value of each series, by its name and labels."""
        with urllib.request.urlopen(self.url, timeout=PATIENCE) as answer:
            text = answer.read().decode()
        found = {}
        for family in text_string_to_metric_families(text):
            for sample in family.samples:
                name = (sample.name, tuple(sample.labels.items()))
                expect(name not in found, "twice in a scrape: %s %s" % name)
                found[name] = sample.value
                expect((family.type == "counter") == sample.name.endswith("_total"), "the name %s" % sample.name)
        return found

    def expect_down(self):
        expect_equal(self.scrape(), {("stridelink_up", ()): 0}, "a scrape of a link that is down")

    def is_down(self):
        return self.scrape() == {("stridelink_up", ()): 0}

    def signal(self, number):
        self.process.send_signal(number)

    def close(self):
        if self.process.poll() is None:
            self.process.kill()
        self.process.wait()
        self.process.stderr.close()


def beside(run, server, *words):
    """An exporter of a server's link."""
    return Exporter(run, "--control", "%s:%s" % (LOOPBACK, server.ports["control"]), *words)


def expect_totals(scrape, wanted):
    for name, value in wanted.items():
        expect_equal(scrape.get((name, ())), value, name)


def expect_flow(scrape, labels, **wanted):
    for name, value in wanted.items():
        expect_equal(scrape.get(("stridelink_flow_" + name, labels)), value, "%s of %s" % (name, labels))


def served(run):
    """The numbers of a link before and after it sends, over one connection, which a signal ends; then the server ends,
    and the link is down."""
    peer = run.peer()
    server = run.server(peer, clerks=2)
    exporter = beside(run, server)
    control = server.control()
    scrape = exporter.scrape()
    expect_totals(scrape, {**NOTHING, "stridelink_up": 1})
    expect(not any(labels and labels[0][0] == "flow" for _, labels in scrape), "a flow of a link without flows")
    states = {labels[0][1]: value for (name, labels), value in scrape.items() if name == "stridelink_link_state"}
    expect_equal(states, {"whole": 1, "part": 0, "torn": 0}, "the state of the link")
    control.ask_wanted(FUNDING, FUNDED)
    client = server.ingress(b"".join(record(*packet) for packet in PACKETS))
    wait_for(lambda: len(peer.got) == 64 and exporter.scrape()[("stridelink_written_packets_total", ())] == 3, "frames")
    scrape = exporter.scrape()
    expect_totals(scrape, {name: value for name, value in SENT.items() if name != "stridelink_global_pass_total"})
    expect_flow(scrape, ACME, account_total=44, tickets=0, waiting_packets=0, competes=0)
    expect_flow(scrape, ZETA, account_total=128, tickets=0, waiting_packets=0, competes=0)
    control.ask_wanted(["close zeta", "open zeta 16 1", "unfund 1"], ["closed 2 0 128", "flow 3", "ok"])
    client.sendall(record("acme", b"waits"))
    wait_for(lambda: exporter.scrape()[("stridelink_waiting_packets", ())] == 1, "a packet that waits")
    scrape = exporter.scrape()
    expect_totals(scrape, {"stridelink_past_account_total": 128, "stridelink_accepted_packets_total": 4})
    expect_flow(scrape, ACME, account_total=44, tickets=0, waiting_packets=1, competes=0)
    expect_flow(scrape, (("flow", "3"), ("name", "zeta")), account_total=0)
    expect(("stridelink_flow_account_total", ZETA) not in scrape, "a flow that is closed")
    control.ask_wanted(["close acme"], ["closed 1 1 44"])
    expect_totals(exporter.scrape(), {"stridelink_dropped_packets_total": 1, "stridelink_past_account_total": 172})
    expect_equal(server.text("stderr").count("control 1: connected"), 1, "connections of the exporter")
    for connection in (client, control):
        connection.close()
    expect(server.process.poll() is None, "the server ends before the exporter")
    exporter.signal(signal.SIGUSR1)
    server.ends()
    check(server, peer)
    exporter.expect_down()
    expect(exporter.process.poll() is None, "the exporter has ended")
    exporter.signal(signal.SIGTERM)
    expect_equal(exporter.process.wait(PATIENCE), 0, "status")


def held_up(run):
    """A report that the uplink holds up, as its peer reads nothing, is not waited for; it comes with a later scrape."""
    peer = run.peer(lambda peer: peer.go_on.wait(), narrow=True)
    server = run.server(peer, clerks=2)
    exporter = beside(run, server, "--patience", "0.5")
    control = server.control()
    control.fund(1024)
    client = server.ingress()
    task = run.thread(client.sendall, b"".join(record("a", bytes(1400)) for _ in range(1000)))
    wait_for(exporter.is_down, "a report that is held up")
    start = time.monotonic()
    exporter.expect_down()
    expect(time.monotonic() - start < 5, "a scrape waits for too long")
    peer.go_on.set()
    wait_for(lambda: not exporter.is_down(), "the report")
    task.finish()
    wait_for(lambda: len(peer.got) == 1000 * 1417, "the frames")
    expect_totals(exporter.scrape(), {"stridelink_up": 1, "stridelink_written_packets_total": 1000,
                                      "stridelink_written_bytes_total": 1417000})
    for connection in (client, control):
        connection.close()
    exporter.signal(signal.SIGTERM)
    expect_equal(exporter.process.wait(PATIENCE), 0, "status")
    server.ends()
    check(server, peer)


def waits_for(packets, exporter):
    wait_for(lambda: exporter.scrape()[("stridelink_waiting_packets", ())] == packets, "packets that wait")


def held(run):
    """A flow that is held is shown so, and has no tickets, until it is resumed. The server ends well while it is held
    again, with a packet that waits."""
    peer = run.peer()
    server = run.server(peer, clerks=2)
    exporter = beside(run, server)
    control = server.control()
    control.ask_wanted([*FUNDING, "hold acme"], [*FUNDED, "ok"])
    client = server.ingress(record("acme", b"hello") + record("zeta", b"bye"))
    wait_for(lambda: len(peer.got) == 20, "the frame of zeta")
    waits_for(1, exporter)
    scrape = exporter.scrape()
    expect_flow(scrape, ACME, held=1, competes=0, tickets=0, waiting_packets=1, account_total=0, place=0)
    expect_flow(scrape, ZETA, held=0, account_total=128)
    control.ask_wanted(["amend 1 1000", "resume acme"], ["ok", "ok"])
    wait_for(lambda: len(peer.got) == 20 + 22, "the frame of acme")
    waits_for(0, exporter)
    expect_flow(exporter.scrape(), ACME, held=0, account_total=22)
    control.ask_wanted(["hold acme"], ["ok"])
    client.sendall(record("acme", b"later"))
    waits_for(1, exporter)
    for connection in (client, control):
        connection.close()
    exporter.signal(signal.SIGTERM)
    expect_equal(exporter.process.wait(PATIENCE), 0, "status")
    server.ends()
    expect_equal(check(server, peer).totals()["waiting"], 1, "packets that wait at the end")


def many_scrapes(run):
    """Scrapes at once, from four threads, get whole reports over the one connection, while tickets are made."""
    peer = run.peer()
    server = run.server(peer, clerks=2)
    exporter = beside(run, server)
    control = server.control()
    control.ask_wanted(FUNDING, FUNDED)
    tasks = [run.thread(lambda: [expect_flow(exporter.scrape(), ACME, account_total=0) for _ in range(25)])
             for _ in range(4)]
    for number in range(3, 203):
        control.ask_wanted(["mktkt 1 base", "rmtkt %d" % number], ["ticket %d" % number, "ok"])
    for task in tasks:
        task.finish()
    control.close()
    server.ingress().close()
    exporter.signal(signal.SIGINT)
    expect_equal(exporter.process.wait(PATIENCE), 0, "status")
    server.ends()
    check(server, peer, [])
    expect_equal(server.text("stderr").count("connected from"), 3, "connections")


def server_ends(run):
    """A server that ends by its standard input does not wait for the exporter, which says that the link is down."""
    peer = run.peer()
    server = run.server(peer, until_eof=True)
    exporter = beside(run, server)
    expect_totals(exporter.scrape(), {"stridelink_up": 1})
    server.end_input()
    server.ends()
    exporter.expect_down()
    exporter.expect_down()


REPORT = "".join("%-8s%26d\n" % (key, value) for key, value in
                 (("clock", 64), ("accepted", 1), ("written", 0), ("torn", 1), ("waiting", 0), ("dropped", 0),
                  ("bytes", 7), ("past", 0), ("tickets", 1), ("pass", 0), ("link", 2)))
REPORT += "flow        1 a                      1    0               128 in               1168231104512\nend\n"
FOUR_LINES = 4 * 35
HELD_REPORT = REPORT.replace(" 1    0 ", " 0    1 ").replace(" in  ", " hld ")


def answers(run):
    """The metrics of a refusal, of the report of a torn link, in pieces, with a flow that competes or is held, and of
    an answer that is neither."""
    listener = socket.create_server((LOOPBACK, 0))
    run.stack.callback(listener.close)
    exporter = Exporter(run, "--control", "%s:%d" % listener.getsockname(), "--patience", "5")
    connection = listener.accept()[0]
    run.stack.callback(connection.close)
    for pieces, is_up in ((["no 1 NoMemory\n"], 0), ([REPORT], 1),
                          ([REPORT[:FOUR_LINES], REPORT[FOUR_LINES:-1], "\n"], 1), (["no 1 NoM", "emory\n"], 0),
                          ([REPORT.replace("clock", "clack")], 0), ([HELD_REPORT.replace("hld", "off")], 0),
                          ([HELD_REPORT], 1), ([REPORT], 1)):
        replies = threading.Thread(target=reply, args=(connection, pieces), daemon=True)
        replies.start()
        scrape = exporter.scrape()
        replies.join(PATIENCE)
        expect_equal(scrape[("stridelink_up", ())], is_up, "whether the link is up after %s" % pieces)
        if is_up:
            expect_equal(scrape[("stridelink_link_state", (("stridelink_link_state", "torn"),))], 1, "a torn link")
            is_held = pieces == [HELD_REPORT]
            expect_flow(scrape, (("flow", "1"), ("name", "a")), tickets=1 - is_held, account_total=128,
                        competes=1 - is_held, held=is_held, waiting_packets=is_held, place=1168231104512)


def reply(connection, pieces):
    """Answers one `report` in pieces."""
    expect_equal(connection.recv(100), b"report\n", "what is asked")
    for piece in pieces:
        connection.sendall(piece.encode())
        time.sleep(0.05)


def faults(run):
    """Addresses that nobody listens on, or somebody does already, and wrong words."""
    with socket.create_server((LOOPBACK, 0)) as taken:
        place = "%s:%d" % taken.getsockname()
        expect_fails("cannot listen on %s: Address already in use" % place, "exporter", "--control", place, "--listen",
                     place)
    expect_fails("cannot connect to %s: Connection refused" % place, "exporter", "--control", place)
    for words in ((), ("--control", "7002"), ("--control", LOOPBACK + ":65536"),
                  ("--control", place, "--listen", "x:y")):
        status, printed, told = tool("exporter", *words)
        expect_equal((status, printed), (2, ""), "status and output of %s" % (words,))
        expect(told.startswith("usage: exporter "), "told: %s" % told)


try_cases(served, held, held_up, many_scrapes, server_ends, answers, faults)
