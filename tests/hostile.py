#!/usr/bin/env python3
"""Plays a built program from which the system takes something away: connections that are reset, descriptors, memory,
room on a disk, standard output and error.

The program is bin/stridelink, or that of the environment variable STRIDELINK; it has to know `serve` and `run`. With
words, only the cases of these names are tried; with TIMES set, it prints how long each took. Expected values come from
the rules: each fault has its text and its status, nothing waits for ever, and an audit that can be written is written,
whatever fails besides. Each case has a limit of time, and what it started ends with it.
"""
import contextlib
import itertools
import os
import resource
import shutil
import signal
import socket
import subprocess
import sys

sys.dont_write_bytecode = True

from serving import (END, FUNDED, LINK, LOOPBACK, LOST_UPLINK, NO_DESCRIPTOR, ONE_PACKET, PATIENCE, Failure,
                     address_space, check, connected, expect, expect_equal, frame, is_blocked, listeners, lowest_free,
                     one_packet, packets, packets_until_torn, records, reset, total, try_cases, wait_for)

# Seconds for a case, and for all of them, and for a server that ends before anything comes.
LIMIT = 120
LIMIT_OF_ALL = 600
QUICK = 30

# A server that listens at ports that are found without its messages.
ELSEWHERE = {"ingress": "127.0.0.2:0", "control": "127.0.0.3:0"}

# A shell that has mounts of its own, and how many bytes a disk or a file has room for.
OWN_MOUNTS = ["unshare", "--map-root-user", "--mount", "sh", "-c"]
ROOM = 16384

# Lines that take memory, each with its number, and what is answered if there is none.
OPENED = [FUNDED[0] % 1024, *FUNDED[1:]]
OPENING = "open f%d 1024 1"
SENDING = "send a %02980d"
NO_MEMORY = "no 1 NoMemory"


def script_is_reset(run):
    """A script that comes over a connection which is reset, between lines and in the middle of one: lines that came
    before are answered, and the bytes of the link are not printed."""
    for words in (["run"], ["run", "--strict"]):
        for half, may_follow in ((b"", b""), (b"fund 1", b"no 3 Syntax\n")):
            with socket.create_server((LOOPBACK, 0)) as listener:
                ours = connected(listener.getsockname())
                theirs = listener.accept()[0]
            process = run.process(words, stdin=theirs)
            theirs.close()
            ours.sendall(b"open a 4 1\nmktkt 1 base\n")
            expect_equal(process.stdout.read(16), b"flow 1\nticket 1\n", "the answers of %s" % words)
            ours.sendall(half)
            reset(ours)
            more = expect_fault(process, "cannot read the script")
            expect(may_follow.startswith(more), "%s prints %s after a fault of its input" % (words, more))


def expect_fault(process, fault):
    """Wants that the program ends with this fault; returns the unread part of its output."""
    status = process.wait(PATIENCE)
    more = b"" if process.stdout.closed else process.stdout.read()
    expect_equal((status, process.stderr.read()), (1, b"stridelink: %s\n" % fault.encode()), "the end of a script")
    return more


def script_reader_goes(run):
    """A reader of the answers to a script goes in the middle of them."""
    for words in (["run"], ["run", "--strict"]):
        process = run.process(words, stdin=subprocess.PIPE)
        asking = run.thread(give, process.stdin, b"torn\n" * 200000)
        expect_equal(process.stdout.read(50000), b"idle\n" * 10000, "the answers of %s" % words)
        process.stdout.close()
        expect_fault(process, "cannot write the output")
        asking.finish()


def give(sink, data):
    """Writes to a program, which may end before it has read all."""
    try:
        sink.write(data)
        sink.close()
    except OSError:
        pass


def going(many, leave):
    """A peer that reads that many bytes and then leaves."""
    def go(peer):
        while len(peer.got) < many:
            expect(peer.read(many - len(peer.got)), "the uplink ends")
        leave(peer.connection)
        peer.go_on.set()
    return go


def finish(connection):
    """Says that nothing more is sent."""
    connection.shutdown(socket.SHUT_WR)


def peer_goes_between_writes(run):
    """The peer of the uplink leaves after a frame and a half, or after two frames."""
    for many, leave in ((1500, reset), (2034, reset), (2034, socket.socket.close)):
        peer = run.peer(going(many, leave))
        packets_until_torn(run, peer)
        expect_equal(len(peer.got), many, "bytes that the peer got")


def peer_goes_in_a_write(run):
    """The peer leaves while a write call waits for it. What the clients had sent arrives, and commands are taken on."""
    for leave in (lambda peer: reset(peer.connection), read_and_close):
        def go(peer):
            peer.go_on.wait()
            leave(peer)

        peer = run.peer(go, narrow=True)
        server = run.server(peer)
        control = server.control()
        control.fund()
        some = packets("a", 0, 300, 1490)
        server.ingress(records(some)).close()
        wait_for(lambda: is_blocked(server, []), "a link that waits for its peer")
        peer.go_on.set()
        control.ask_wanted(["mkcur x"], ["ok"])
        control.close()
        server.ends(1, LOST_UPLINK)
        check(server, peer, [("whole", some)], torn=True)


def read_and_close(peer):
    """Reads what is there. If a connection is closed with nothing unread, the other side first sees an end."""
    peer.connection.setblocking(False)
    with contextlib.suppress(BlockingIOError):
        while len(peer.got) < 30000 and peer.read(4096):
            pass
    peer.connection.close()


def peer_goes_unseen(run):
    """A peer that only says that it sends nothing gets all, and one that is reset after the last frame tears nothing:
    no write fails."""
    for many, leave in ((0, finish), (10 * 1017, reset)):
        peer = run.peer(going(many, leave))
        server = run.server(peer)
        control = server.control()
        control.fund()
        some = packets("a", 0, 10, 1000)
        server.ingress(records(some)).close()
        wait_for(lambda: len(peer.got) == 10 * 1017 and peer.go_on.is_set(), "the frames")
        control.ask_wanted(["mkcur x"], ["ok"])
        control.close()
        server.ends()
        check(server, peer, [("whole", some)])


def clients_reset_before_they_are_accepted(run):
    """The way in which a connection ends is no fault, even if it ended before it was accepted."""
    peer = run.peer()
    server = run.server(peer, workers=2, clerks=2)
    sent = [packets("a", number, 5, 100) for number in (0, 1)]
    server.process.send_signal(signal.SIGSTOP)
    for some in sent:
        control = server.control()
        control.send(b"mkcur x\nmkcur")
        vanish(control)
        reset(server.ingress(records(some) + b"\x01a\x00"))
    server.process.send_signal(signal.SIGCONT)
    server.ends()
    check(server, peer, [("part", some) for some in sent])


def vanish(control):
    """Resets a control connection."""
    control.replies.close()
    reset(control.socket)


def clients_reset_while_the_link_waits(run):
    """Clients are reset, of which one waits for a full queue and one for its replies. Others are served on."""
    peer = run.peer(lambda peer: peer.go_on.wait(), narrow=True)
    server = run.server(peer, workers=2, clerks=2)
    first, second = server.control(), server.control()
    second.fund()
    # More than the buffers of a flow and of a connection take.
    gone, some = packets("a", 0, 10000 + most_received() // 1000, 1000), packets("a", 1, 100, 100)
    flooding, stays = server.ingress(), server.ingress()
    fill(flooding, records(gone))
    first.send(b"mkcur x\nreport\n" * 100)
    vanish(first)
    reset(flooding)
    peer.go_on.set()
    second.ask_wanted(["mkcur y"], ["ok"])
    stays.sendall(records(some))
    second.close()
    stays.close()
    server.ends()
    check(server, peer, [("part", gone), ("whole", some)])


def most_received():
    """The most bytes that the system keeps for a connection from which its program does not read."""
    with open("/proc/sys/net/ipv4/tcp_rmem", encoding="ascii") as sizes:
        return int(sizes.read().split()[2])


def fill(connection, data):
    """Sends until nothing more is taken for a while."""
    connection.setsockopt(socket.SOL_SOCKET, socket.SO_SNDBUF, 1 << 16)
    connection.settimeout(0.5)
    try:
        connection.sendall(data)
    except TimeoutError:
        return
    raise Failure("a connection takes all while the link waits")


def limited(what, limit):
    """Starts a program with no more than this of a resource."""
    return lambda: resource.setrlimit(what, (limit, limit))


def no_descriptor_to_begin(run):
    """Both listeners, the uplink and another handle of each listener need a descriptor each, after that of the audit's
    file, and take them in this order. With fewer than four descriptors the system does not start a program."""
    peer = run.peer()
    faults = [text + ": Too many open files (os error 24)" for text in (
        "cannot listen on " + ELSEWHERE["ingress"], "cannot listen on " + ELSEWHERE["control"],
        "cannot connect to " + peer.address)]
    faults += [NO_DESCRIPTOR] * 2
    for limit, fault in enumerate(faults, 4):
        server = run.start(peer.address, before=limited(resource.RLIMIT_NOFILE, limit), **ELSEWHERE)
        server.ends(1, fault)
        expect_equal(server.text("stdout"), "", "the output")
        expect_equal(sorted(os.listdir(server.folder)), ["stderr", "stdout"], "files")


def no_descriptor_for_an_accept(run):
    """Each connection in turn finds no descriptor. It ends the run, and what had come of those before it is done."""
    some = packets("a", 0, 10, 100)
    free = lowest_free(run.server(run.peer(), workers=2, clerks=2))
    for there in range(4):
        peer = run.peer()
        server = run.server(peer, workers=2, clerks=2, before=limited(resource.RLIMIT_NOFILE, free + there))
        controls, stays = [], None
        if there > 0:
            server.process.send_signal(signal.SIGSTOP)
            if there == 3:
                stays = server.ingress(records(some))
            controls = [server.control() for _ in range(min(there, 2))]
            for number, control in enumerate(controls):
                control.send(b"mkcur x%d\n" % number)
            server.process.send_signal(signal.SIGCONT)
        server.ends(1, NO_DESCRIPTOR, seconds=END)
        for control in controls:
            expect_equal(control.close(), b"ok\n", "the replies")
        if stays:
            stays.close()
        replay = check(server, peer, [("whole", some)] if there == 3 else [])
        commands = [line for line in replay.lines if line.startswith("mkcur")]
        expect_equal(sorted(commands), ["mkcur x0", "mkcur x1"][:len(controls)], "the commands")


def no_memory_for_the_first_threads(run):
    """A server starts a thread for each of these, if it is to end with its input: the input, the watch of the end, and
    the link. The last of them finds no memory, or the last two, or all: the server ends at once, with its audit."""
    sizes = {}
    for is_until_eof in (False, True):
        server = run.server(run.peer(), until_eof=is_until_eof)
        wait_for(lambda: len(os.listdir("/proc/%d/task" % server.process.pid)) == 3 + is_until_eof, "threads")
        sizes[is_until_eof] = address_space(server.process)
    stack = sizes[True] - sizes[False]
    for is_until_eof, size in sizes.items():
        for refused in range(1, 3 + is_until_eof):
            peer = run.peer()
            limit = size - (refused - 1) * stack - stack // 8
            server = run.start(peer.address, until_eof=is_until_eof, before=limited(resource.RLIMIT_AS, limit))
            server.ends(1, "cannot start a worker", seconds=QUICK)
            check(server, peer, [])


@contextlib.contextmanager
def without_memory(process):
    """Refuses each growth of a program that runs, until the end of the block."""
    before = resource.prlimit(process.pid, resource.RLIMIT_AS)
    resource.prlimit(process.pid, resource.RLIMIT_AS, (address_space(process), before[1]))
    yield
    if process.poll() is None:
        resource.prlimit(process.pid, resource.RLIMIT_AS, before)


def until_refused(ask, line, reply, first):
    """Asks numbered lines up to the first that finds no memory; its number."""
    for number in range(first, 2000):
        found = ask(line % number)
        if found == NO_MEMORY:
            return number
        expect_equal(found, reply % number, "the reply to %s" % (line % number)[:40])
    raise Failure("memory is not refused")


class Script:
    """A program that is given the lines of its script one by one."""

    def __init__(self, run, *words):
        self.process = run.process(["run", *words], stdin=subprocess.PIPE)

    def ask(self, line):
        """The answer to a line; an empty one if the program has ended."""
        self.process.stdin.write(line.encode() + b"\n")
        self.process.stdin.flush()
        return self.process.stdout.readline().decode().rstrip("\n")


def script_without_memory(run):
    """A line that finds no memory changes nothing, and is accepted as if it were new once there is some."""
    script = Script(run)
    expect_equal([script.ask(line) for line in OPENED], ["flow 1", "ticket 1", "ok"], "the answers")
    for line, reply, first in ((OPENING, "flow %d", 2), (SENDING, "packet 1 %d", 1)):
        with without_memory(script.process):
            refused = until_refused(script.ask, line, reply, first)
            expect_equal(script.ask(line % refused), NO_MEMORY, "the line again")
        expect_equal(script.ask(line % refused), reply % refused, "the line with memory")
    expect_equal(script.ask("turn 65535"), "wrote 1 1 1502 whole", "the turn")
    script.process.stdin.close()
    out = script.process.stdout.read()
    expect_equal((script.process.wait(PATIENCE), script.process.stderr.read()), (0, b""), "the end")
    expect_equal(out, b"out %s\n" % frame(1, 1, bytes.fromhex("%02980d" % 1), version=1).hex().encode(), "the bytes")


def strict_script_without_memory(run):
    """A strict run ends with the first line that finds no memory."""
    script = Script(run, "--strict")
    expect_equal(script.ask("report")[:6], "clock ", "the report")
    while script.process.stdout.readline() != b"end\n":
        pass
    with without_memory(script.process):
        refused = until_refused(script.ask, OPENING, "flow %d", 1)
        fault = "line %d, '%s': %s" % (refused + 1, OPENING % refused, NO_MEMORY)
        expect_equal(expect_fault(script.process, fault), b"", "what is printed behind that line")


def tape_without_memory(run):
    """The list of the bytes of a script's link finds no memory, which ends the run."""
    script = Script(run)
    lines = [*OPENED, *[SENDING % number for number in range(1, 1001)]]
    expect_equal([script.ask(line) for line in lines][-1], "packet 1 1000", "the last answer")
    with without_memory(script.process):
        number = 1
        while script.ask("turn 65535") == "wrote 1 %d 1502 whole" % number:
            number += 1
        expect_equal(expect_fault(script.process, "out of memory"), b"", "what is printed at the end")


def disk_is_full(run):
    """The audit does not fit on the disk, or into the largest file that there may be."""
    for count in (20, 100):
        for words, why in ((small_files(run), "file too large"), (small_disk(run), "no storage space")):
            if words is None:
                continue
            peer = run.peer()
            server = run.server(peer, **words)
            control = server.control()
            control.fund()
            server.ingress(records(packets("a", 0, count, 1490))).close()
            control.close()
            expect_no_audit(server, peer, count, 1507 * count, why)


def small_files(run):
    """The words of a server that cannot write its audit into a file, since that would be too long. There is an old one
    at its place."""
    def before():
        signal.signal(signal.SIGXFSZ, signal.SIG_IGN)
        resource.setrlimit(resource.RLIMIT_FSIZE, (ROOM, ROOM))

    path = os.path.join(run.folder(), "audit")
    with open(path, "w", encoding="ascii") as old:
        old.write("an old audit\n")
    return {"audit": path, "before": before, "further": ["--force"]}


def small_disk(run):
    """The words of a server that cannot write its audit, since its disk is small; none if no disk can be mounted."""
    disk, program = run.folder(), os.path.join(run.folder(), "program")
    mount = "mount -t tmpfs -o size=%d none %s" % (ROOM, disk)
    if subprocess.run([*OWN_MOUNTS, mount], stderr=subprocess.DEVNULL, check=False).returncode != 0:
        return None
    with open(program, "w", encoding="ascii") as script:
        script.write("#!/bin/sh\nexec %s '%s && exec %s \"$@\"' sh \"$@\"\n" % (" ".join(OWN_MOUNTS), mount, LINK))
    os.chmod(program, 0o755)
    return {"audit": os.path.join(disk, "audit"), "program": program}


def expect_no_audit(server, peer, count, size, why):
    """Wants that the server ends since it cannot write its audit, and why, with all that it sent, and its report."""
    server.ends(1, "cannot write the audit %s: %s" % (server.audit_path, why))
    peer.thread.join(PATIENCE)
    expect_equal(len(peer.got), size, "bytes that the peer got")
    report = server.text("stdout")
    expect(report.startswith(total("clock", size) + total("accepted", count) + total("written", count)), "the report")
    expect(report.endswith("\nend\n"), "the end of the report")


def audit_cannot_take_its_name(run):
    """The folder of the audit has gone since, or a folder has come to its place. The audit that was written stays in
    its new file, if that is somewhere, and this is reported."""
    for change, left, why in (
            (lambda folder: os.rename(folder, folder + " away"), "folder away", "entity not found"),
            (shutil.rmtree, None, "entity not found"),
            (lambda folder: os.mkdir(os.path.join(folder, "audit")), "folder", "entity already exists")):
        peer = run.peer()
        place = run.folder()
        folder = os.path.join(place, "folder")
        os.mkdir(folder)
        server = run.server(peer, audit=os.path.join(folder, "audit"))
        change(folder)
        one_packet(server)
        expect_no_audit(server, peer, 1, 20, why)
        expect("\nthe whole audit is in %s.1\n" % server.audit_path in server.text("stderr"), "where the audit is")
        if left:
            with open(os.path.join(place, left, "audit.1"), encoding="ascii") as source:
                expect_equal(source.read(), ONE_PACKET, "the audit")


def audit_reader_goes(run):
    """The audit goes into a pipe whose reader has left."""
    peer = run.peer()
    path = os.path.join(run.folder(), "pipe")
    os.mkfifo(path)
    reader = os.open(path, os.O_RDONLY | os.O_NONBLOCK)
    server = run.server(peer, audit=path)
    os.close(reader)
    one_packet(server)
    expect_no_audit(server, peer, 1, 20, "broken pipe")


def full(number):
    os.dup2(os.open("/dev/full", os.O_WRONLY), number)


def closed(number):
    os.close(number)


def unread(number):
    reader, writer = os.pipe()
    os.dup2(writer, number)
    os.close(reader)
    os.close(writer)


def outputs_are_gone(run):
    """Standard output or error is full, closed, or a pipe that nobody reads: the status is as it would be, the audit is
    written, and so is the report if it can be."""
    for out, errors in itertools.product((None, full, closed, unread), repeat=2):
        def before():
            for number, change in ((1, out), (2, errors)):
                if change:
                    change(number)

        peer = run.peer()
        server = run.start(peer.address, before=before, **ELSEWHERE)
        server.ports = wait_for(lambda: listeners(server.process.pid), "two sockets that listen")
        one_packet(server)
        status = 1 if out else 0
        expect_equal(server.wait(), status, "status with %s and %s" % (out, errors))
        if not errors:
            server.ends(status, "cannot write the output" if out else None)
        peer.thread.join(PATIENCE)
        expect_equal(bytes(peer.got), frame(1, 1, b"1st"), "the frame")
        expect_equal(server.text("audit"), ONE_PACKET, "the audit")
        expect(out or server.text("stdout").startswith(total("clock", 20)), "the report")


CASES = (script_is_reset, script_reader_goes, peer_goes_between_writes, peer_goes_in_a_write, peer_goes_unseen,
         clients_reset_before_they_are_accepted, clients_reset_while_the_link_waits, no_descriptor_to_begin,
         no_descriptor_for_an_accept, no_memory_for_the_first_threads, script_without_memory,
         strict_script_without_memory, tape_without_memory, disk_is_full, audit_cannot_take_its_name, audit_reader_goes,
         outputs_are_gone)


if __name__ == "__main__":
    try_cases(CASES, LIMIT, LIMIT_OF_ALL)
