#!/usr/bin/env python3
"""Tries tools/bill on worked audits, whose bills are computed by hand from the rules, on audits of served links, and on
texts that no journal prints."""
import csv
import io
import json
import os
import subprocess

from trying import TOOLS, audit, expect, expect_equal, expect_fails, expect_works, tool, try_cases, write

from serving import check, record, wait_for

COLUMNS = ("flow", "name", "tickets", "packets", "bytes", "units", "price", "account", "state")

ONE_PACKET = ("open a 4 1", "mktkt 10 base", "fund 1 flow a", "send a 6869", "turn 14")
THREE_FLOWS = ("mktkt 3 base", "mktkt 2 base", "mktkt 1 base", "open a 4 3", "open b 4 3", "open c 4 3",
               "fund 1 flow a", "fund 2 flow b", "fund 3 flow c", *["send a 61"] * 3, *["send b 62"] * 2, "send c 63",
               *["turn 13"] * 6)
CURRENCY = ("mkcur x", "mktkt 1000 base", "fund 1 cur x", "mktkt 1 x", "mktkt 2 x", "open a 4 1", "open b 4 1",
            "fund 2 flow a", "fund 3 flow b", "send a 61", "send b 62", "turn 13")
TORN = ("open a 4 2", "mktkt 1 base", "fund 1 flow a", "send a 6869", "turn 7", "torn", "mkcur x")

# The lines of an audit, and its bill: an audit of 14 bytes under tariff 1; strides of 3, 2 and 1 tickets; a currency of
# 1000, of which b has two parts of three; a write of 7 bytes and a fault, with and without the close of its flow; one
# byte a write; a frame in part whose flow loses its ticket, or is held; a hold that ends, with another amount then; a
# name that is opened again; a frame of 1502 bytes; the most tickets; overheads; refused lines, which are billed to
# nobody.
WORKED = {
    "no lines": ((), []),
    "one packet": (ONE_PACKET, [(1, "a", 10, 1, 14, 14, 1, 14, "open")]),
    "three flows": (THREE_FLOWS, [(1, "a", 3, 3, 39, 3072, 1, 3072, "open"), (2, "b", 2, 2, 26, 2048, 1, 2048, "open"),
                                  (3, "c", 1, 1, 13, 1024, 1, 1024, "open")]),
    "a currency": (CURRENCY, [(1, "a", 0, 0, 0, 0, 1, 0, "open"), (2, "b", 666, 1, 13, 13, 1, 13, "open")]),
    "torn": (TORN, [(1, "a", 1, 0, 7, 64, 2, 128, "open")]),
    "torn and closed": ((*TORN, "close a"), [(1, "a", 1, 0, 7, 64, 2, 128, "closed")]),
    "torn at once": ((*TORN[:4], "torn"), [(1, "a", 1, 0, 0, 0, 2, 0, "open")]),
    "single bytes": ((*ONE_PACKET[:4], *["turn 1"] * 14), [(1, "a", 10, 1, 14, 14, 1, 14, "open")]),
    "without tickets": (("open a 4 3", "mktkt 5 base", "fund 1 flow a", "send a 61", "turn 5", "unfund 1", "turn 8"),
                        [(1, "a", 5, 1, 13, 1024, 1, 1024, "open")]),
    "in part": (("open a 4 3", "mktkt 5 base", "fund 1 flow a", "send a 61", "turn 5"),
                [(1, "a", 5, 0, 5, 0, 1, 0, "open")]),
    "held in part": (("open a 4 3", "mktkt 5 base", "fund 1 flow a", "send a 61", "send a 62", "turn 5", "hold a",
                      "turn 8"), [(1, "a", 5, 1, 13, 1024, 1, 1024, "open")]),
    "held and amended": ((*ONE_PACKET[:4], "hold a", "amend 1 7", "resume a", "turn 14", "hold a"),
                         [(1, "a", 7, 1, 14, 14, 1, 14, "open")]),
    "opened again": (("open a 4 1", "mktkt 1 base", "fund 1 flow a", *["send a 61"] * 4, "turn 5", "close a", "turn 8",
                      "close a", "open a 4 2", "fund 1 flow a"),
                     [(1, "a", 1, 1, 13, 13, 1, 13, "closed"), (2, "a", 0, 0, 0, 0, 2, 0, "open")]),
    "the longest frame": (("open a 4 2", "mktkt 1 base", "fund 1 flow a", "send a " + "00" * 1490, "turn 1502"),
                          [(1, "a", 1, 1, 1502, 1552, 2, 3104, "open")]),
    "the most tickets": (("open a 4 1", "mktkt 1048576 base", "mktkt 1048576 base", "fund 1 flow a", "fund 2 flow a",
                          "send a 61", "turn 13"), [(1, "a", 1048576, 1, 13, 13, 1, 13, "open")]),
    "overheads": (("open a 4 4", "mktkt 1 base", "fund 1 flow a", "send a 61", "turn 13", "mktkt 1 base",
                   "fund 2 flow a", "send a 61", "turn 13"), [(1, "a", 2, 2, 26, 6144, 3, 18432, "open")]),
    "refused lines": (("mkcur base", "open a 1 9", "open a 0 1", "open a 1 1", "send b 61", "send a 61", "send a 62",
                       "close b", "hold b", "hold a", "hold a", "resume a", "resume a", "amend 1 0", "amend 1 1"),
                      [(1, "a", 0, 0, 0, 0, 1, 0, "open")]),
}

# Audits of version 2, whose frames have 5 bytes more: 19 bytes under tariff 1; the same, of which 7 went out under
# tariff 2 before a fault; frames of 9017 bytes under each tariff; and 1508 bytes, in a part of 1500 and one of 8, under
# tariff 3.
ONE_PACKET_2 = (*ONE_PACKET[:4], "turn 19")
LONGEST = [line for flow, name in enumerate("abcd", 1)
           for line in ("open %s 4 %d" % (name, flow), "mktkt 1 base", "fund %d flow %s" % (flow, name),
                        "send %s %s" % (name, "00" * 9000))]
WORKED_2 = {
    "no lines": ((), []),
    "one packet": (ONE_PACKET_2, [(1, "a", 10, 1, 19, 19, 1, 19, "open")]),
    "torn": (TORN, [(1, "a", 1, 0, 7, 64, 2, 128, "open")]),
    "single bytes": ((*ONE_PACKET[:4], *["turn 1"] * 19), [(1, "a", 10, 1, 19, 19, 1, 19, "open")]),
    "the longest frames": ((*LONGEST, *["turn 9017"] * 4), [
        (1, "a", 1, 1, 9017, 9017, 1, 9017, "open"), (2, "b", 1, 1, 9017, 9040, 2, 18080, "open"),
        (3, "c", 1, 1, 9017, 9216, 1, 9216, "open"), (4, "d", 1, 1, 9017, 11264, 3, 33792, "open")]),
    "a frame in two parts": (("open a 4 3", "mktkt 1 base", "fund 1 flow a", "send a " + "00" * 1491, "turn 1500",
                              "turn 8", "close a"), [(1, "a", 1, 1, 1508, 2048, 1, 2048, "closed")]),
}

# Texts that no journal prints, with the line at fault and its message. Lines 2 to 6 of ONE_PACKET are fine.
NO_JOURNAL = {
    "a report": (audit("report"), 2, "'report', asks for a report"),
    "a version twice": (audit("audit 1"), 2, "'audit 1', is answered 'no 3 Syntax'"),
    "version 2 twice": (audit("audit 2", version=2), 2, "'audit 2', is answered 'no 3 Syntax'"),
    "another version": (audit("audit 2"), 2, "'audit 2', is answered 'no 3 Syntax'"),
    "a misspelled line": (audit("mkcur  x"), 2, "'mkcur  x', is answered 'no 3 Syntax'"),
    "an empty line": (audit(*ONE_PACKET, ""), 7, "'', is answered 'no 3 Syntax'"),
    "a long line": (audit("x" * 30000), 2, "'%s', is answered 'no 3 Syntax'" % ("x" * 60)),
    "control characters": ("audit 1\n\x1b[2J\n", 2, r"'\x1b[2J', is answered 'no 3 Syntax'"),
    "torn and nothing to send": (audit("torn"), 2, "'torn', is answered 'idle'"),
    "a turn and nothing to send": (audit("turn 1"), 2, "'turn 1', is answered 'idle'"),
    "a turn of a torn link": (audit(*TORN, "turn 1"), 9, "'turn 1', is answered 'no 20 Broken'"),
    "torn twice": (audit(*TORN, "torn"), 9, "'torn', is answered 'no 20 Broken'"),
    "a payload of 1491 bytes": (audit("send a " + "00" * 1491), 2,
                                "'send a %s', is answered 'no 4 Range'" % ("0" * 53)),
    "a payload of 9001 bytes": (audit("send a " + "00" * 9001, version=2), 2,
                                "'send a %s', is answered 'no 4 Range'" % ("0" * 53)),
    "a turn of no byte": (audit(*ONE_PACKET[:4], "turn 0"), 6, "'turn 0', is answered 'no 4 Range'"),
    "a turn of too many bytes": (audit(*ONE_PACKET[:4], "turn 15"), 6,
                                 "'turn 15', is answered 'wrote 1 1 14 whole', "
                                 "as no turn of 15 bytes that were written"),
    "a turn of too many bytes in version 2": (audit(*ONE_PACKET[:4], "turn 20", version=2), 6,
                                              "'turn 20', is answered 'wrote 1 1 19 whole', "
                                              "as no turn of 20 bytes that were written"),
    "a last line that is cut": (audit(*ONE_PACKET)[:-2], 6, "'turn 1', ends without a line feed"),
}

FIRST_LINES = ("", "audit 1", "audit 1\r\n", "audit 2", "audit 2 \n", "audit 3\n", "audit 02\n", "open a 4 1\n",
               "\naudit 2\n")

# Answers that a link gives only if memory is short, its life is over, or a writer was interrupted: a program that
# gives such an answer to each line stands in for it.
STAND_INS = ("no 1 NoMemory", "no 2 Spent", "again")

FUNDING = ("open acme 16 1", "mktkt 300 base", "fund 1 flow acme",
           "open zeta 16 2", "mktkt 100 base", "fund 2 flow zeta")


def worked(run):
    """The bills of worked audits as CSV and JSON, and what stands in the table."""
    expect_bills(run, WORKED, 1)
    expect_bills(run, WORKED_2, 2)


def expect_bills(run, worked_audits, version):
    """Wants these bills of audits of a version."""
    for what, (lines, wanted) in worked_audits.items():
        path = write(run.folder(), "audit", audit(*lines, version=version))
        rows = list(csv.reader(io.StringIO(expect_works("bill", "--csv", path))))
        expect_equal(rows, [list(COLUMNS), *[[str(field) for field in row] for row in wanted]], what + " as CSV")
        expect_equal(json.loads(expect_works("bill", "--json", path)), [dict(zip(COLUMNS, row)) for row in wanted],
                     what + " as JSON")
        table = [line.split() for line in expect_works("bill", path).splitlines()]
        sums = [str(sum(row[column] for row in wanted)) for column in (3, 4, 5, 7)]
        expect_equal(table, [*rows, sums], what + " as a table")


def no_journal(run):
    """Texts that no journal prints are refused, with the line at fault."""
    folder = run.folder()
    for text, number, fault in NO_JOURNAL.values():
        path = write(folder, "audit", text)
        expect_fails("%s: line %d, %s: no journal prints it" % (path, number, fault), "bill", path)
    for text in FIRST_LINES:
        path = write(folder, "audit", text)
        expect_fails("%s: line 1 is neither 'audit 1' nor 'audit 2'" % path, "bill", path)
    path = write(folder, "audit", audit("mkcur x"))
    for answer in STAND_INS:
        program = stand_in(folder, "while read -r line; do echo '%s'; done" % answer)
        expect_fails("%s: line 2, 'mkcur x', is answered '%s': no journal prints it" % (path, answer), "bill", path,
                     program=program)


def stand_in(folder, work):
    """A program that does this work of a shell, whatever its words are."""
    path = write(folder, "stridelink", "#!/bin/sh\n%s\n" % work)
    os.chmod(path, 0o755)
    return path


def wrong_accounts(run):
    """A program that charges an account, or sums, otherwise than the rules is found out, and so is one with another
    tariff, or with frames of another version than the audit's."""
    folder = run.folder()
    path = write(folder, "audit", audit("open a 4 5"))
    expect_fails("line 2: the rules of tariff 5 are not known", "bill", path,
                 program=stand_in(folder, "while read -r line; do echo flow 1; done"))
    for version, lines, wrong, right in ((1, ONE_PACKET_2, 19, 14), (2, ONE_PACKET, 14, 19)):
        program = stand_in(folder, "printf 'flow 1\\nticket 1\\nok\\npacket 1 1\\nwrote 1 1 %d whole\\n'" % wrong)
        expect_fails("the bytes of packet 1 of flow 1: %d by the program, and %d by the rules" % (wrong, right), "bill",
                     write(folder, "audit", audit(*lines, version=version)), program=program)
    path = write(folder, "audit", audit(*ONE_PACKET))
    totals = {"clock": 14, "accepted": 1, "written": 1, "torn": 0, "waiting": 0, "dropped": 0, "bytes": 14, "past": 0,
              "tickets": 0, "pass": 0, "link": 0}
    for key, value, fault in (("account", 15, "the account of flow 1 (a): 15 by the program, and 14 by the rules"),
                              ("clock", 13, "the units charged: 13 by the program, and 14 by the rules"),
                              ("past", 1, "the accounts of closed flows: 1 by the program, and 0 by the rules"),
                              ("bytes", 15, "the bytes written: 15 by the program, and 14 by the rules"),
                              ("written", 2, "the frames written: 2 by the program, and 1 by the rules")):
        told = {**totals, "account": 14, key: value}
        lines = ["flow 1", "ticket 1", "ok", "packet 1 1", "wrote 1 1 14 whole",
                 *("%-8s%26d" % (total, told[total]) for total in totals),
                 "flow %8d %-16s %7d %4d %17d %-3s %26d" % (1, "a", 0, 0, told["account"], "out", 0), "end", "out -"]
        program = stand_in(folder, "cat > /dev/null\ncat << end_of_text\n%s\nend_of_text" % "\n".join(lines))
        expect_fails(fault, "bill", path, program=program)


def faults(run):
    """A file that is not there, a program that is not there or ends early, an output that is full, wrong words."""
    folder = run.folder()
    path = write(folder, "audit", audit(*ONE_PACKET))
    nothing = os.path.join(folder, "nothing")
    expect_fails("%s: no such file" % nothing, "bill", nothing)
    expect_fails("cannot run %s: No such file or directory" % nothing, "bill", path, program=nothing)
    program = stand_in(folder, "echo 'stridelink: out of memory' >&2; exit 1")
    expect_fails("the replay of %s ends with status 1: stridelink: out of memory" % path, "bill", path, program=program)
    program = stand_in(folder, "cat > /dev/null; echo flow 1")
    expect_fails("%s answers too little" % program, "bill", path, program=program)
    program = stand_in(folder, "while read -r line; do echo ok; done")
    expect_fails("no line of a report: 'ok'", "bill", write(folder, "short", audit("mkcur x")), program=program)
    with open("/dev/full", "wb") as full:
        done = subprocess.run([os.path.join(TOOLS, "bill"), path], stdout=full, stderr=subprocess.PIPE, check=False)
    expect_equal((done.returncode, done.stderr), (1, b"bill: No space left on device\n"), "a full output")
    for words in ((), (path, path), ("--xml", path), ("--csv", "--json", path)):
        status, printed, told = tool("bill", *words)
        expect_equal((status, printed), (2, ""), "status and output of %s" % (words,))
        expect(told.startswith("usage: bill "), "told: %s" % told)


def served(run):
    """The bill of a served link has the accounts of its own report, with a flow that an operator closed."""
    peer = run.peer()
    server = run.server(peer)
    control = server.control()
    control.ask_wanted(FUNDING, ["flow 1", "ticket 1", "ok", "flow 2", "ticket 2", "ok"])
    client = server.ingress(b"".join(record(*packet) for packet in (("acme", b"hello"), ("zeta", b"bye"),
                                                                    ("acme", b"again"))))
    wait_for(lambda: len(peer.got) == 22 + 20 + 22, "the frames")
    control.ask_wanted(["close zeta"], ["closed 2 0 128"])
    client.close()
    control.close()
    server.ends()
    check(server, peer)
    rows = json.loads(expect_works("bill", "--json", server.audit_path))
    wanted = [(1, "acme", 300, 2, 44, 44, 1, 44, "open"), (2, "zeta", 100, 1, 20, 64, 2, 128, "closed")]
    expect_equal([tuple(row.values()) for row in rows], wanted, "the bill")
    report = server.text("stdout").splitlines()
    expect_equal(report[11].split()[5], "44", "the account of acme in the report")


try_cases(worked, no_journal, wrong_accounts, faults, served)
