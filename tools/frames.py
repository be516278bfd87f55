"""The frames of books in a row, and those that a far end stored, a file for each connection."""
import struct
from dataclasses import dataclass

from audits import LENGTHS, Fault, Replay, first_line
from folders import expect_standard

HEADER = struct.Struct(">BBBIQH")
MARK = (0x4C, 2)
PIECE = 1 << 20


@dataclass(frozen=True)
class Frame:
    """A frame of version 2. That of a text of lengths has no payload."""
    tariff: int
    flow: int
    number: int
    length: int
    payload: bytes = None

    def is_that(self, other):
        """Whether both may be the same frame: a payload that is not known may be any."""
        fields = [(each.tariff, each.flow, each.number, each.length) for each in (self, other)]
        return fields[0] == fields[1] and (None in (self.payload, other.payload) or self.payload == other.payload)

    def __str__(self):
        return "packet %d of flow %d, with %d bytes" % (self.number, self.flow, self.length)


def cut(pieces, name):
    """The whole frames of bytes that come in pieces. A frame that is cut at the end is left out."""
    rest, place = b"", 0
    for piece in pieces:
        data, at = rest + piece, 0
        while len(data) - at >= HEADER.size:
            mark, version, tariff, flow, number, length = HEADER.unpack_from(data, at)
            if (mark, version) != MARK:
                raise Fault("%s: no frame of version 2 begins at byte %d" % (name, place + at + 1))
            end = at + HEADER.size + length
            if end > len(data):
                break
            yield Frame(tariff, flow, number, length, data[at + HEADER.size:end])
            at = end
        rest, place = data[at:], place + at


def frames_of_book(path):
    """The frames that a book wrote."""
    expect_standard(path)
    is_whole = first_line(path) != LENGTHS
    with Replay(path) as replay:
        if replay.version != 2:
            raise Fault("%s: no text of a book" % path)
        for _ in replay.lines():
            pass
        for frame in cut(replay.written(), path):
            yield frame if is_whole else Frame(frame.tariff, frame.flow, frame.number, frame.length)


def frames_of_books(paths):
    """The frames of books in a row, each with the book."""
    return ((path, frame) for path in paths for frame in frames_of_book(path))


def stored_frames(path):
    """The frames that a far end stored of a connection."""
    with open(path, "rb") as source:
        yield from cut(iter(lambda: source.read(PIECE), b""), path)


@dataclass
class Counts:
    """How many frames came, and how many of the books did not. These are between two connections, or at the end."""
    came: int = 0
    lost: int = 0


def compare(books, connections):
    """Goes through the frames of the books and those of the connections side by side. A frame of the books may be
    missing only where a connection begins; otherwise a difference is a fault."""
    wanted, counts = frames_of_books(books), Counts()
    for path in connections:
        is_first = True
        for frame in stored_frames(path):
            book, found = next(wanted, (None, None))
            while is_first and counts.came and found and not found.is_that(frame):
                counts.lost += 1
                book, found = next(wanted, (None, None))
            if not found:
                raise Fault("%s has %s, which is in no book" % (path, frame))
            if not found.is_that(frame):
                raise Fault("%s has %s, and %s has %s, or another payload, as frame %d of the books"
                            % (path, frame, book, found, counts.came + counts.lost + 1))
            counts.came += 1
            is_first = False
    counts.lost += sum(1 for _ in wanted)
    return counts
