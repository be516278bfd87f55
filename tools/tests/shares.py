#!/usr/bin/env python3
"""Tries tools/shares: its numbers on worked audits, and that its pictures are drawn and show each flow."""
import csv
import io
import os
import struct
import subprocess
import xml.etree.ElementTree

from trying import TOOLS, audit, expect, expect_equal, expect_fails, expect_works, tool, try_cases, write

import idle_tenant

# Flows of 3, 2 and 1 tickets with 3, 2 and 1 packets, of 1024 units each in either version. The frames are a1 b1 a2 a3
# b2 c1.
THREE_SENDS = ("mktkt 3 base", "mktkt 2 base", "mktkt 1 base", "open a 4 3", "open b 4 3", "open c 4 3",
               "fund 1 flow a", "fund 2 flow b", "fund 3 flow c", *["send a 61"] * 3, *["send b 62"] * 2, "send c 63")
THREE_FLOWS = (*THREE_SENDS, *["turn 13"] * 6)
THREE_FLOWS_2 = (*THREE_SENDS, *["turn 18"] * 6)

# Of each flow at the clock 0, 1024, .., 6144: the units charged to it; what was promised, as 1024 units are shared by
# 3, 2 and 1 of 6 tickets four times, and then, a having nothing to send, by 2 and 1 of 3, and the last by c alone; and
# the pass in front of the fourth frame, as the strides 366503875925, 549755813888 and 1099511627776 have it.
UNITS = {"a": (0, 1024, 1024, 2048, 3072, 3072, 3072), "b": (0, 0, 1024, 1024, 1024, 2048, 2048),
         "c": (0, 0, 0, 0, 0, 0, 1024)}
PROMISED = {"a": (0, 512, 1024, 1536, 2048, 2048, 2048), "b": (0, 341.333, 682.667, 1024, 1365.333, 2048, 2048),
            "c": (0, 170.667, 341.333, 512, 682.667, 1024, 2048)}
FOURTH = {"a": 1099511627775, "b": 1099511627776, "c": 1099511627776}
COMPETES = {"a": 4, "b": 5, "c": 6}

# Two flows of a ticket and three packets each. a is held in front of the third frame and resumed in front of the fifth:
# the frames are a1 b1 b2 b3 a2 a3, of 1024 units each. If a is held it is promised nothing and has no pass; then its
# pass is two strides of 2^40 above the one that it had, as the global pass is.
HOLD = ("mktkt 1 base", "mktkt 1 base", "open a 4 3", "open b 4 3", "fund 1 flow a", "fund 2 flow b",
        *["send a 61"] * 3, *["send b 62"] * 3, *["turn 13"] * 2, "hold a", *["turn 13"] * 2, "resume a",
        *["turn 13"] * 2)
HOLD_UNITS = {"a": (0, 1024, 1024, 1024, 1024, 2048, 3072), "b": (0, 0, 1024, 2048, 3072, 3072, 3072)}
HOLD_PROMISED = {"a": (0, 512, 1024, 1024, 1024, 2048, 3072), "b": (0, 512, 1024, 2048, 3072, 3072, 3072)}
HOLD_STRIDES = {"a": (1, 2, None, None, 4, 5, None), "b": (1, 1, 2, 3, None, None, None)}


def rows(*words):
    """The rows that --csv prints, as dictionaries of text."""
    return list(csv.DictReader(io.StringIO(expect_works("shares", "--csv", *words))))


def worked(run):
    """The numbers of three flows, whose strides, passes and promises are worked by hand."""
    for text in (audit(*THREE_FLOWS), audit(*THREE_FLOWS_2, version=2)):
        found = rows(write(run.folder(), "audit", text))
        expect_equal([row["flow"] for row in found], ["1"] * 7 + ["2"] * 7 + ["3"] * 7, "flows")
        for name in "abc":
            own = [row for row in found if row["name"] == name]
            expect_equal([int(row["clock"]) for row in own], list(range(0, 7168, 1024)), "the clock")
            expect_equal(tuple(int(row["units"]) for row in own), UNITS[name], "units of " + name)
            expect_equal(tuple(float(row["promised"]) for row in own), PROMISED[name], "what was promised to " + name)
            competing = [bool(row["pass"]) for row in own]
            expect_equal(competing, [at < COMPETES[name] for at in range(7)], "where it competes")
            expect_equal(int(own[3]["pass"]), FOURTH[name], "the pass in front of the fourth frame")


def held(run):
    """A flow that is held gets nothing and is promised nothing, and goes on as an idle one does."""
    found = rows(write(run.folder(), "audit", audit(*HOLD)))
    for name in "ab":
        own = [row for row in found if row["name"] == name]
        expect_equal(tuple(int(row["units"]) for row in own), HOLD_UNITS[name], "units of " + name)
        expect_equal(tuple(float(row["promised"]) for row in own), HOLD_PROMISED[name], "what was promised to " + name)
        passes = ["" if strides is None else str(strides << 40) for strides in HOLD_STRIDES[name]]
        expect_equal([row["pass"] for row in own], passes, "the pass of " + name)


def sampled(run):
    """With fewer points than writes, some writes are sampled, and the end."""
    path = write(run.folder(), "audit", audit(*THREE_FLOWS))
    found = [row for row in rows("--points", "3", path) if row["name"] == "a"]
    expect_equal([(int(row["clock"]), int(row["units"])) for row in found],
                 [(0, 0), (2048, 1024), (4096, 3072), (6144, 3072)], "the samples of a")


def idle(run):
    """The run of the picture in docs: two tenants share a currency that is worth twice what the third has. While one of
    them is idle, the other has all of it, and the third what it had before."""
    found = rows(write(run.folder(), "audit", idle_tenant.script()))
    ends = {row["name"]: int(row["units"]) for row in found}
    expect(set(ends) == {"acme", "bond", "cone"}, "flows: %s" % ends)
    for name, parts in idle_tenant.PARTS.items():
        own = [(int(row["clock"]), int(row["units"])) for row in found if row["name"] == name]
        for (begin, end), part in zip(idle_tenant.SPANS, parts):
            inside = [units for clock, units in own if begin < clock < end]
            clocks = [clock for clock, _ in own if begin < clock < end]
            share = (inside[-1] - inside[0]) / (clocks[-1] - clocks[0])
            expect(abs(share - part) < 0.03, "%s has %.3f of the units between %d and %d, not %.3f"
                   % (name, share, begin, end, part))


def pictures(run):
    """Both pictures are drawn, with a line and a bar for each flow: names that gnuplot might take otherwise, a flow
    that is closed and opened again, a torn link."""
    folder = run.folder()
    lines = ("open a_b 4 1", "open a-b 4 2", "mktkt 1 base", "mktkt 1 base", "fund 1 flow a_b",
             "fund 2 flow a-b", "send a_b 61", "send a-b 62", "turn 13", "turn 13", "close a-b", "open a-b 4 1",
             "fund 2 flow a-b", "send a-b 63", "turn 5", "torn")
    path = write(folder, "audit", audit(*lines))
    picture = os.path.join(folder, "it's one")
    expect_equal(expect_works("shares", path, picture), "", "what is printed")
    texts = [text.strip() for text in xml.etree.ElementTree.parse(picture + ".svg").getroot().itertext()]
    names = ("a_b", "a-b (2)", "a-b (3)")
    for name, times in (*((name, 1) for name in names), *((name + ", 1 ticket", 2) for name in names), ("The bill", 1)):
        expect_equal(texts.count(name), times, "how often the picture tells '%s'" % name)
    with open(picture + ".png", "rb") as source:
        head = source.read(24)
    expect_equal((head[:8], struct.unpack(">II", head[16:])), (b"\x89PNG\r\n\x1a\n", (900, 1080)), "the PNG")


# Two books in a row of two tenants with 3 tickets and 1, in which gap is no tenant. Frames have 1017 bytes, and as many
# units: 4 of acme and 2 of bond in the first book, 2 of bond in the second one.
BOOK_LINES = ("open acme 8 1", "open gap 1 1", "close gap", "open bond 8 1", "mktkt 3 base", "fund 1 flow acme",
              "mktkt 1 base", "fund 2 flow bond")
BOOK_FRAMES = (("acme",) * 4 + ("bond",) * 2, ("bond",) * 2)
BOOK_ENDS = {"acme": 4 * 1017, "bond": 4 * 1017}


def book_text(kind, frames):
    payload = {"lengths": "1000", "audit": "00" * 1000}[kind]
    first = {"lengths": "lengths 2", "audit": "audit 2"}[kind]
    lines = (first, *BOOK_LINES, *("send %s %s" % (name, payload) for name in frames), *["turn 1017"] * len(frames))
    return "".join(line + "\n" for line in lines)


def books(run):
    """Books in a row, of either kind and compressed, are drawn as one: each tenant's units go on, and the last point
    has all of them. The labels of axes are in few signs, and the legend has the tickets."""
    folder = run.folder()
    for kind in ("lengths", "audit"):
        paths = [write(folder, "%06d.%s" % (number, kind), book_text(kind, frames))
                 for number, frames in enumerate(BOOK_FRAMES, 1)]
        for texts in (paths, [path + ".zst" for path in paths]):
            if not os.path.exists(texts[0]):
                subprocess.run(["zstd", "-q", *paths], timeout=60, check=True)
            found = rows(*texts)
            expect_equal({row["name"]: int(row["units"]) for row in found}, BOOK_ENDS, "units at the end")
            expect_equal(max(int(row["clock"]) for row in found), sum(BOOK_ENDS.values()), "the clock at the end")
        picture = os.path.join(folder, "picture")
        expect_works("shares", *paths, picture)
        texts = [text.strip() for text in xml.etree.ElementTree.parse(picture + ".svg").getroot().itertext()]
        for label in ("2 k", "4 k", "acme, 3 tickets", "bond, 1 ticket"):
            expect(label in texts, "the picture has no '%s': %s" % (label, texts))
        expect("gap" not in " ".join(texts), "the picture has the flow gap")


def other_tariffs(run):
    """A book with other tariffs than those of a run is refused, and not drawn wrongly."""
    folder = run.folder()
    path = write(folder, "000001.open", book_text("lengths", BOOK_FRAMES[0]))
    write(folder, "000001.tariffs", "2/0/1\n")
    expect_fails("%s: its tariffs are '2/0/1', and 'stridelink run' has '1/0/1 48/16/2 1024/0/1 2048/1024/3'" % path,
                 "shares", "--csv", path)


def faults(run):
    """A text that no journal prints, no flow, a folder that is not there, wrong words."""
    folder = run.folder()
    wrong, empty = write(folder, "wrong", audit("turn 1")), write(folder, "empty", audit())
    good = write(folder, "good", audit(*THREE_FLOWS))
    picture = os.path.join(folder, "picture")
    expect_fails("%s: line 2, 'turn 1', is answered 'idle': no journal prints it" % wrong, "shares", wrong, picture)
    expect_fails("%s has no flow" % empty, "shares", empty, picture)
    status, printed, told = tool("shares", good, os.path.join(folder, "nothing", "picture"))
    expect_equal((status, printed), (1, ""), "status and output")
    expect(told.startswith("shares: gnuplot fails: "), "told: %s" % told)
    for words in ((), (good,), ("--points", "1", "--csv", good)):
        status, printed, told = tool("shares", *words)
        expect_equal((status, printed), (2, ""), "status and output of %s" % (words,))
        expect(told.startswith("usage: shares "), "told: %s" % told)
    expect_equal(sorted(os.listdir(folder)), ["empty", "good", "wrong"], "files")


def page(run):
    """docs/SERVING.md shows the picture of this run, which is drawn as it is there."""
    folder = os.path.join(os.path.dirname(TOOLS), "docs")
    with open(os.path.join(folder, "SERVING.md"), encoding="utf-8") as source:
        expect("](idle-tenant.svg)" in source.read(), "docs/SERVING.md does not show the picture")
    drawn = os.path.join(run.folder(), "idle-tenant")
    expect_works("shares", "--points", "300", write(run.folder(), "audit", idle_tenant.script()), drawn)
    with open(drawn + ".svg", encoding="utf-8") as now, open(os.path.join(folder, "idle-tenant.svg"),
                                                             encoding="utf-8") as kept:
        expect(shape(now.read()) == shape(kept.read()), "docs/idle-tenant.svg is not what is drawn of this run")


def shape(picture):
    """The paths and texts of a picture: what another version of gnuplot may say besides is left out."""
    root = xml.etree.ElementTree.fromstring(picture)
    return [(node.get("d"), node.text) for node in root.iter() if node.tag.endswith(("}path", "}text"))]


try_cases(worked, held, sampled, idle, pictures, books, other_tariffs, faults, page)
