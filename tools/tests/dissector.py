#!/usr/bin/env python3
"""Tries the dissector with tshark, on captures that text2pcap makes of the bytes of runs. What is wanted of good frames
comes from their format, and of bad ones from the table of what `read_frame` names."""
import glob
import os
import subprocess

from trying import LIMIT, TOOLS, TOP, expect, expect_equal, try_cases

from gatewaying import Tenant
from serving import PATIENCE, PROGRAM, frame, frames, payloads

DISSECTOR = os.path.join(TOOLS, "wireshark", "stridelink.lua")
PORT = 7003
AS_UPLINK = ("-d", "tcp.port==%d,stridelink" % PORT)
FIRST_SOURCE = 40000
FIELDS = ("bad", "tariff", "version", "flow", "seq", "length", "payload")

# By version: a frame, and its description. Those of version 1 have no tariff.
HI = {version: frame(1, 1, b"hi", version=version) for version in (1, 2)}
TOLD = {1: (1, 1, b"hi", None), 2: (1, 1, b"hi", 1)}

# Bytes that begin with no whole frame: the place of the first field that no frame has, and after how many bytes this is
# known; None if more is wanted.
NO_FRAME = {
    "": None,
    "4d": (0, 1),
    "4d01000000010000000100026869": (0, 1),
    "4c": None,
    "4c03": (1, 2),
    "4c00": (1, 2),
    "4c0100": None,
    "4c0100000000": (2, 6),
    "4c0100000000000000000000": (2, 6),
    "4c01000000010000": None,
    "4c010000000100000000": (6, 10),
    "4c01000000010000000105": None,
    "4c01000000010000000105d2": None,
    "4c01000000010000000105d3": (10, 12),
    "4c01000000010000000106": (10, 11),
    "4c010000000100000001ff": (10, 11),
    "4c0100000001000000010000": (10, 12),
    "4c0100000001000000010001": None,
    "4c010000000100000001000268": None,
    "4d020100000001000000000000000100026869": (0, 1),
    "4c02": None,
    "4c0200": (2, 3),
    "4c0209": (2, 3),
    "4c02ff00000001000000000000000100026869": (2, 3),
    "4c0201": None,
    "4c0208000000": None,
    "4c020100000000": (3, 7),
    "4c020100000001": None,
    "4c02010000000100000000000000": None,
    "4c0201000000010000000000000000": (7, 15),
    "4c0208ffffffffffffffffffffffff": None,
    "4c0201000000010000000000000001": None,
    "4c020100000001000000000000000123": None,
    "4c02010000000100000000000000012328": None,
    "4c02010000000100000000000000012329": (15, 17),
    "4c020100000001000000000000000124": (15, 16),
    "4c0201000000010000000000000001ff": (15, 16),
    "4c02010000000100000000000000010000": (15, 17),
    "4c02010000000100000000000000010001": None,
    "4c0201000000010000000000000001000268": None,
}


def capture(run, connections):
    """A capture of connections to PORT, each given by its segments: text2pcap makes one of each, mergecap of all."""
    folder = run.folder()
    paths = [os.path.join(folder, "%d" % number) for number in range(len(connections))]
    for source, (path, segments) in enumerate(zip(paths, connections), FIRST_SOURCE):
        dump = "".join("000000 %s\n" % segment.hex(" ") for segment in segments)
        subprocess.run(["text2pcap", "-q", "-T", "%d,%d" % (source, PORT), "-", path], input=dump.encode(),
                       timeout=LIMIT, stderr=subprocess.DEVNULL, check=True)
    return subprocess.run(["mergecap", "-a", "-w", "-", *paths], stdout=subprocess.PIPE, timeout=LIMIT,
                          check=True).stdout


def tshark(run, connections, *words):
    """The output of tshark for these connections, with the dissector."""
    done = subprocess.run(["tshark", "-r", "-", "-X", "lua_script:" + DISSECTOR, *words],
                          input=capture(run, connections), stdout=subprocess.PIPE, stderr=subprocess.PIPE,
                          timeout=LIMIT, check=False)
    told = [line for line in done.stderr.decode().splitlines() if not line.startswith("Running as user")]
    expect_equal((done.returncode, told), (0, []), "the end of tshark")
    return done.stdout.decode()


def dissected(run, connections, *words):
    """The frames of each connection (flow, sequence number, payload, tariff) that tshark shows, and the places of bad
    fields, each with the number of the segment that shows it."""
    fields = [word for name in ("tcp.srcport", *("stridelink." + name for name in FIELDS)) for word in ("-e", name)]
    found, segments = [([], []) for _ in connections], [0] * len(connections)
    for line in tshark(run, connections, "-T", "fields", "-E", "occurrence=a", *fields, *words).splitlines():
        source, *columns = line.split("\t")
        number = int(source) - FIRST_SOURCE
        segments[number] += 1
        columns = [column.split(",") if column else [] for column in columns]
        found[number][1].extend((int(place), segments[number]) for place in columns[0])
        tariffs = iter(columns[1])
        for version, flow, seq, length, payload in zip(*columns[2:]):
            expect_equal(len(bytes.fromhex(payload)), int(length), "the length of a payload")
            tariff = int(next(tariffs)) if version == "2" else None
            found[number][0].append((int(flow), int(seq), bytes.fromhex(payload), tariff))
    return found


def expect_dissected(run, cases, *words):
    """Wants of connections the description of each: (segments, frames, bad fields, what it is)."""
    found = dissected(run, [case[0] for case in cases], *words)
    for (_, wanted, bad, what), shown in zip(cases, found):
        expect_equal(shown, (wanted, bad), what)


def cut(data, size):
    """These bytes in segments of this size, the last of which may be shorter."""
    return [data[at:at + size] for at in range(0, len(data), size)]


def written(script):
    """The bytes that the program writes for a script, and their frames."""
    with open(script, "rb") as lines:
        text = lines.read()
    printed = subprocess.run([PROGRAM, "run"], input=text, stdout=subprocess.PIPE, timeout=LIMIT, check=True).stdout
    data = bytes.fromhex(printed.decode().rsplit("out ", 1)[1].strip().replace("-", ""))
    return data, frames(data, 2 if text.startswith(b"audit 2\n") else 1)[0]


def examples(run):
    """The bytes of each example, in segments of 20 and of 1460 bytes."""
    cases = []
    for script in sorted(glob.glob(os.path.join(TOP, "examples", "*.script"))
                         + glob.glob(os.path.join(TOP, "tests", "scripts", "*.script"))):
        data, sent = written(script)
        if data:
            cases += [(cut(data, size), sent, [], script) for size in (20, 1460)]
    expect(len(cases) >= 20, "only %d examples write frames" % (len(cases) // 2))
    expect_dissected(run, cases, *AS_UPLINK)


def every_cut(run):
    """A frame that is cut at each place, one byte a segment, and long frames in many segments or many in one."""
    for version, longest, most_seq, tariff in ((1, 1490, (1 << 32) - 1, None), (2, 9000, (1 << 64) - 1, 8)):
        hi, told = HI[version], TOLD[version]
        halves = [half for at in range(1, len(hi)) for half in (hi[:at], hi[at:])]
        long = [((1 << 32) - 1, most_seq, payload, tariff) for payload in payloads(0, 5, longest)]
        many = [(number, 1, bytes([number]), tariff) for number in range(1, 256)]
        cases = [(halves, [told] * (len(hi) - 1), [], "a frame that is cut at each place"),
                 (cut(hi * 3, 1), [told] * 3, [], "a byte a segment"),
                 ([joined(many, version)], many, [], "255 frames in a segment")]
        data = joined(long, version)
        cases += [(cut(data, size), long, [], "frames of %d bytes cut by %d" % (len(data) // 5, size))
                  for size in (100, 1460, len(data) // 5, len(data))]
        expect_dissected(run, cases, *AS_UPLINK)


def joined(packets, version):
    """The bytes of some frames."""
    return b"".join(frame(*packet, version=version) for packet in packets)


def both_versions(run):
    """Frames of both versions in one connection, however they are cut, with each tariff and numbers of eight bytes."""
    some = [(number, 1 << 8 * number - 8, bytes([number]) * (number * 1000), number) for number in range(1, 9)]
    data = b"".join(frame(*packet) + HI[1] for packet in some)
    told = [each for packet in some for each in (packet, TOLD[1])]
    expect_dissected(run, [(cut(data, size), told, [], "frames of both versions cut by %d" % size)
                           for size in (11, 17, 1460, len(data))], *AS_UPLINK)


def no_frame(run):
    """Bytes that are not a frame are marked with the place of the field that no frame has: with a frame in front of it,
    with one after it, and one byte a segment, as soon as it is known."""
    cases = []
    for digits, bad in NO_FRAME.items():
        data = bytes.fromhex(digits)
        for version, hi in HI.items():
            cases.append(([hi + data], [TOLD[version]], [(bad[0], 1)] if bad else [], digits + " behind a frame"))
            if bad:
                cases.append(([data + hi], [], [(bad[0], 1)], digits + " in front of a frame"))
        if bad:
            cases.append((cut(data, 1)[:bad[1]], [], [bad], digits + ", a byte a segment"))
    expect_dissected(run, cases, *AS_UPLINK)


def marked(run):
    """A bad field is an error of tshark's own, of the group Malformed, and is named."""
    for digits, place in (("4c010000000100000000", 6), ("4c0201000000010000000000000000", 7)):
        text = tshark(run, [[bytes.fromhex(digits)]], "-V", *AS_UPLINK)
        for line in ("no stridelink frame: bad seq at byte %d" % place, "    Flow: 1",
                     "    Place of the bad field: %d" % place,
                     "        [Expert Info (Error/Malformed): no frame has this field]"):
            expect(line in text.splitlines(), "not told: %s" % line)
        expect("Sequence number:" not in text.split("stridelink frame")[1], "the bad field is shown as a number")


def shown(run):
    """All fields of a frame of version 2, as tshark prints them."""
    told = printed(run, frame((1 << 32) - 1, (1 << 64) - 1, b"hi", 8))
    expect_equal(told, ["stridelink frame: flow 4294967295, packet 18446744073709551615, 2 bytes of payload",
                        "    Mark: 0x4c", "    Version: 2", "    Tariff: 8", "    Flow: 4294967295",
                        "    Sequence number: 18446744073709551615", "    Payload length: 2", "    Payload: 6869"],
                 "what tshark prints")


def printed(run, data):
    """The lines that tshark prints of a frame."""
    lines = tshark(run, [[data]], "-V", *AS_UPLINK).splitlines()
    begin = next(at for at, line in enumerate(lines) if line.startswith("stridelink frame"))
    return [line for line in lines[begin:] if line]


def recognised(run):
    """A connection is recognised at the first segment that begins with the header of a frame."""
    cases = []
    for version, hi in HI.items():
        cases += [([hi, hi[:5], hi[5:]], [TOLD[version]] * 2, [], "a connection that begins with a frame"),
                  ([hi[5:], hi], [TOLD[version]], [], "a connection whose beginning is missing")]
    for other in (b"GET / HTTP/1.1\r\n\r\n", b"\x4c\x03" + HI[1][2:], HI[1][:11], b"\x4c\x02" + HI[1][2:],
                  b"\x4c\x01" + HI[2][2:7] + bytes(12), HI[2][:16]):
        cases.append(([other] * 2, [], [], "a connection of %s" % other))
    expect_dissected(run, cases)


def page(run):
    """The bytes of a frame of version 2 in docs/SERVING.md are as tshark prints them."""
    with open(os.path.join(TOP, "docs", "SERVING.md"), encoding="utf-8") as source:
        text = source.read()
    wanted = "".join("    %s\n" % line for line in printed(run, HI[2]))
    expect(wanted in text, "docs/SERVING.md does not show:\n%s" % wanted)


def gateway_traffic(run):
    """The frames of a gateway, over two books, are shown as they came, with the connection named or recognised."""
    peer = run.peer()
    gateway = run.gateway(peer.address, {"acme": 300, "bond": Tenant([100], ["tariff = 2"])})
    gateway.send("acme", range(20))
    gateway.send("bond", range(10), 1400)
    gateway.control.expect("rotate", "book 2")
    gateway.send("acme", range(5), 9)
    gateway.end()
    peer.thread.join(PATIENCE)
    data = bytes(peer.got)
    sent = frames(data, 2)[0]
    expect_equal((len(sent), {(flow, tariff) for flow, _, _, tariff in sent}), (35, {(1, 1), (2, 2)}), "frames")
    for words in (AS_UPLINK, ()):
        expect_dissected(run, [(cut(data, 1460), sent, [], "the frames of a gateway")], *words)


try_cases(gateway_traffic, examples, every_cut, both_versions, no_frame, marked, shown, recognised, page)
