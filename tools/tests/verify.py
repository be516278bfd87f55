#!/usr/bin/env python3
"""Tries tools/verify on the bytes of worked audits and of served links: as they are, with each byte changed, and cut at
each place."""
import os
import subprocess
from dataclasses import dataclass

from trying import audit, expect, expect_equal, expect_fails, expect_works, tool, try_cases, write

from serving import frame, payloads, record

# Flow 1 gets a frame with 2 bytes of payload, flow 2 one with 1, and flow 1 another one with 1, of which 5 bytes go out
# with line 12.
SENDS = ("open a 4 1", "open b 4 2", "mktkt 1 base", "mktkt 1 base", "fund 1 flow a", "fund 2 flow b", "send a 6869",
         "send b 62", "send a 63")


@dataclass
class Example:
    """An audit of a version: its turns, and its frames; and which bytes, counted from 1, a line wrote, and of which
    packet and flow."""
    version: int
    turns: tuple
    frames: bytes
    written: tuple

    def audit(self):
        return audit(*SENDS, *self.turns, version=self.version)

    def place(self, byte):
        """How verify prints where a byte is from."""
        return next("in packet %d of flow %d, which line %d of the audit wrote" % (packet, flow, line)
                    for written, line, packet, flow in self.written if byte in written)


EXAMPLES = (
    Example(1, ("turn 14", "turn 13", "turn 5", "turn 8"),
            frame(1, 1, b"hi", version=1) + frame(2, 1, b"b", version=1) + frame(1, 2, b"c", version=1),
            ((range(1, 15), 11, 1, 1), (range(15, 28), 12, 1, 2), (range(28, 33), 13, 2, 1),
             (range(33, 41), 14, 2, 1))),
    Example(2, ("turn 19", "turn 18", "turn 5", "turn 13"),
            frame(1, 1, b"hi", 1) + frame(2, 1, b"b", 2) + frame(1, 2, b"c", 1),
            ((range(1, 20), 11, 1, 1), (range(20, 38), 12, 1, 2), (range(38, 43), 13, 2, 1),
             (range(43, 56), 14, 2, 1))),
)


def same(run):
    """The bytes of an audit are the same, none and parts of a frame among them, and one whose flow is held."""
    folder = run.folder()
    for example in EXAMPLES:
        *turns, last = example.turns
        part = example.frames[:example.written[-1][0].start - 1]
        for more, wanted, packets in ((example.turns, example.frames, 3), (turns, part, 2), ((), b"", 0),
                                      ((*turns, "hold a", "amend 1 2", last, "resume a"), example.frames, 3)):
            path = write(folder, "audit", audit(*SENDS, *more, version=example.version))
            found = expect_works("verify", path, write(folder, "frames", wanted))
            expect_equal(found, "the same %d bytes, with %d whole frames\n" % (len(wanted), packets), "what is told")


def changed(run):
    """A byte that was changed is found, wherever it is."""
    folder = run.folder()
    for example in EXAMPLES:
        path = write(folder, "audit", example.audit())
        for at in range(0, len(example.frames), 3):
            before, after = example.frames[:at], example.frames[at + 1:]
            other = example.frames[at] ^ 0x40
            expect_fails("byte %d is %02x, and %02x by the audit, %s"
                         % (at + 1, other, example.frames[at], example.place(at + 1)),
                         "verify", path, write(folder, "frames", before + bytes([other]) + after))


def cut(run):
    """Bytes that are cut, bytes that go on, and those of another version are found."""
    folder = run.folder()
    for example, other in zip(EXAMPLES, reversed(EXAMPLES)):
        path, size = write(folder, "audit", example.audit()), len(example.frames)
        for length in (0, 1, 13, 14, 20, size - 1):
            expect_fails("the frames end after %d of the %d bytes of the audit, %s"
                         % (length, size, example.place(length + 1)),
                         "verify", path, write(folder, "frames", example.frames[:length]))
        expect_fails("the frames go on behind the %d bytes of the audit, with 00" % size, "verify", path,
                     write(folder, "frames", example.frames + b"\0"))
        expect_fails("byte 2 is %02x, and %02x by the audit, %s" % (other.version, example.version, example.place(2)),
                     "verify", path, write(folder, "frames", other.frames))


def torn(run):
    """The bytes of a torn link, and a beginning of them."""
    folder = run.folder()
    lines = ("open a 4 2", "mktkt 1 base", "fund 1 flow a", "send a 6869", "turn 7", "torn")
    for version in (1, 2):
        path = write(folder, "audit", audit(*lines, version=version))
        kept = frame(1, 1, b"hi", 2, version)[:7]
        expect_equal(expect_works("verify", path, write(folder, "frames", kept)),
                     "the same 7 bytes, with 0 whole frames\n", "what is told")
        expect_fails("the frames end after 6 of the 7 bytes of the audit, in packet 1 of flow 1, which line 6 of the "
                     "audit wrote; the uplink was torn", "verify", path, write(folder, "frames", kept[:6]))


def many_bytes(run):
    """A served link of two megabytes, whose last byte is changed, and whose bytes are cut where pieces of them end."""
    peer = run.peer()
    server = run.server(peer, life=20000)
    control = server.control()
    control.fund()
    server.ingress(b"".join(record("a", payload) for payload in payloads(0, 3000, 700))).close()
    control.close()
    server.ends()
    peer.thread.join()
    kept = bytes(peer.got)
    frames = len(kept) // 717
    expect(frames >= 1000 and len(kept) == 717 * frames, "%d bytes in whole frames" % len(kept))
    folder = run.folder()
    path = server.audit_path
    expect_equal(expect_works("verify", path, write(folder, "frames", kept)),
                 "the same %d bytes, with %d whole frames\n" % (len(kept), frames), "what is told")
    for end in (65536, 131072):
        _, _, told = tool("verify", path, write(folder, "frames", kept[:end]))
        expect(told.startswith("verify: the frames end after %d of the %d bytes of the audit, in packet %d of flow 1, "
                               % (end, len(kept), end // 717 + 1)), "told: %s" % told)
    changed_at_end = kept[:-1] + bytes([kept[-1] ^ 1])
    status, printed, told = tool("verify", path, write(folder, "frames", changed_at_end))
    expect_equal((status, printed), (1, ""), "status and output")
    expect(told.startswith("verify: byte %d is %02x, and %02x by the audit, in packet %d of flow 1, "
                           % (len(kept), kept[-1] ^ 1, kept[-1], frames)), "told: %s" % told)


# Two books in a row, of either kind, and their frames: packets of flows 1 and 2 under tariffs 1 and 2.
BOOK_LINES = ("open a 4 1", "open b 4 2", "mktkt 1 base", "fund 1 flow a", "mktkt 1 base", "fund 2 flow b")
BOOKS = {
    "lengths": (("send a 2", "turn 19", "send b 1", "turn 18"), ("send a 1", "turn 18")),
    "audit": (("send a 6869", "turn 19", "send b 62", "turn 18"), ("send a 63", "turn 18")),
}
BOOK_FRAMES = (frame(1, 1, b"hi", 1), frame(2, 1, b"b", 2), frame(1, 1, b"c", 1))

# The bytes that the far end stored of each connection, and the printed result: as the status, the output and the fault.
SAME = (0, "the same 3 frames, in 2 books\n", "")
LOST = (1, "", "verify: 2 frames are the same, and 1 frames of the books did not come\n")
STORED = (
    ((b"".join(BOOK_FRAMES),), SAME),
    ((BOOK_FRAMES[0], BOOK_FRAMES[1] + BOOK_FRAMES[2]), SAME),
    ((BOOK_FRAMES[0] + BOOK_FRAMES[1][:9], BOOK_FRAMES[1] + BOOK_FRAMES[2]), SAME),
    ((BOOK_FRAMES[0], b"", BOOK_FRAMES[1][:17], BOOK_FRAMES[1] + BOOK_FRAMES[2]), SAME),
    ((BOOK_FRAMES[0] + BOOK_FRAMES[1],), LOST),
    ((BOOK_FRAMES[0], BOOK_FRAMES[2]), LOST),
)


def books(run):
    """The frames of books in a row are those that came, over cut connections. Frames that a lost connection had taken
    are counted, and another one is a fault. Compressed texts are read."""
    for kind, texts in BOOKS.items():
        folder = run.folder()
        paths = [write(folder, "%06d.%s" % (number, kind), "".join(
            line + "\n" for line in ("lengths 2" if kind == "lengths" else "audit 2", *BOOK_LINES, *lines)))
            for number, lines in enumerate(texts, 1)]
        for connections, wanted in STORED:
            words = [word for place, data in enumerate(connections)
                     for word in ("--frames", write(folder, "frames.%d" % place, data))]
            expect_equal(tool("verify", *words, *paths), wanted, "%s of %s" % (connections, kind))
        stored = write(folder, "other", BOOK_FRAMES[0] + BOOK_FRAMES[2])
        expect_fails("%s has packet 1 of flow 1, with 1 bytes, and %s has packet 1 of flow 2, with 1 bytes, or another "
                     "payload, as frame 2 of the books" % (stored, paths[0]), "verify", "--frames", stored, *paths)
        changed_payload = write(folder, "payload", b"".join(BOOK_FRAMES).replace(b"hi", b"ho"))
        status, _, _ = tool("verify", "--frames", changed_payload, *paths)
        expect_equal(status, int(kind == "audit"), "the status of a changed payload in a text of kind %s" % kind)
        subprocess.run(["zstd", "-q", "--rm", *paths], timeout=60, check=True)
        whole = write(folder, "whole", b"".join(BOOK_FRAMES))
        expect_equal(tool("verify", "--frames", whole, *(path + ".zst" for path in paths)), SAME, "compressed texts")


def faults(run):
    """A text that no journal prints, files that are not there, wrong words."""
    folder = run.folder()
    path, kept = write(folder, "audit", EXAMPLES[0].audit()), write(folder, "frames", EXAMPLES[0].frames)
    nothing = os.path.join(folder, "nothing")
    wrong = write(folder, "wrong", audit("torn"))
    expect_fails("%s: line 2, 'torn', is answered 'idle': no journal prints it" % wrong, "verify", wrong, kept)
    expect_fails("%s: No such file or directory" % nothing, "verify", path, nothing)
    expect_fails("%s: no such file" % nothing, "verify", nothing, kept)
    for words in ((), (path,), (path, kept, kept)):
        status, printed, told = tool("verify", *words)
        expect_equal((status, printed), (2, ""), "status and output of %s" % (words,))
        expect(told.startswith("usage: verify "), "told: %s" % told)


try_cases(same, changed, cut, torn, many_bytes, books, faults)
