#!/usr/bin/env python3
"""Plays the session of docs/SERVING.md over real sockets: an operator funds two tenants, one of them sends packets, and
the bill is proved. It prints what each side sees, and ends with status 1 if something is not as it should be."""
import os
import subprocess
import sys

sys.dont_write_bytecode = True
sys.path.insert(0, os.path.join(os.path.dirname(os.path.abspath(__file__)), "..", "tests"))

from serving import (HEADER, PROGRAM, SERVED, Failure, Run, expect_equal, frame, frames, limit_time,  # noqa: E402
                     record, wait_for)

LIFE = 1000

FUNDING = ("open acme 16 1", "mktkt 300 base", "fund 1 flow acme",
           "open zeta 16 1", "mktkt 100 base", "fund 2 flow zeta")
PACKETS = (("acme", b"hello"), ("zeta", b"bye"), ("acme", b"again"))

# The frames and the account of acme that docs/SERVING.md shows.
ACME_FRAMES = ["4c0201000000010000000000000001000568656c6c6f", "4c02010000000100000000000000020005616761696e"]
ACME_ACCOUNT = "44"


def told(server):
    """Prints what the server printed on standard error."""
    for line in server.text("stderr").splitlines():
        print("server   " + line)


def asked(control, line):
    """Prints a line of the operator, and its reply."""
    reply = control.ask(line)[0]
    print("operator %-24s %s" % (line, reply))


def proved(server, peer):
    """Runs the audit as a script, and wants that it gives the bytes that the peer got."""
    with open(server.audit_path, encoding="ascii") as audit:
        script = audit.read()
    command = [PROGRAM, "run", "--life", str(LIFE)]
    out = subprocess.run(command, input=script, capture_output=True, text=True, check=True).stdout.splitlines()[-1]
    print("\nThe audit, %d lines, as a script ('stridelink run --life %d < audit') ends with\n%s"
          % (script.count("\n"), LIFE, out))
    expect_equal(out, "out " + peer.got.hex(), "the bytes of the audit")
    print("which are the very bytes that the peer of the uplink got.")


def play(run):
    peer = run.peer()
    server = run.server(peer, life=LIFE)
    control = server.control()
    for line in FUNDING:
        asked(control, line)
    server.ingress(b"".join(record(name, payload) for name, payload in PACKETS)).close()
    wanted = sum(HEADER[SERVED] + len(payload) for _, payload in PACKETS)
    wait_for(lambda: len(peer.got) == wanted, "the frames")
    got = [(each[0], frame(*each).hex()) for each in frames(peer.got)[0]]
    for _, each in got:
        print("peer     %s" % each)
    expect_equal([each for flow, each in got if flow == 1], ACME_FRAMES, "the frames of acme")
    control.close()
    server.ends()
    told(server)
    report = server.text("stdout")
    print("\nThe bill, on standard output:\n" + report, end="")
    accounts = {line.split()[2]: line.split()[5] for line in report.splitlines() if line.startswith("flow ")}
    expect_equal(accounts["acme"], ACME_ACCOUNT, "the account of acme")
    proved(server, peer)


def main():
    limit_time()
    try:
        with Run() as run:
            play(run)
    except Failure as failure:
        sys.exit("session.py: %s" % failure)


if __name__ == "__main__":
    main()
