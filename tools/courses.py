"""The course of each flow of an audit, or of books in a row: what was charged to it, what its tickets promised, and its
pass, over the clock of the link, which counts the units charged."""
from dataclasses import dataclass, field
from itertools import islice

from audits import Replay, opened
from bills import Books
from folders import expect_standard


@dataclass(frozen=True)
class Point:
    """A flow at a moment: the clock, the units charged to it, those that its tickets promised, its pass, which is None
    if it does not compete, and the mean pass of those that compete, weighted by their tickets."""
    clock: int
    units: int
    promised: float
    place: int
    level: int

    def after(self, clock, units, promised):
        """The point with what earlier books came to in front of it."""
        return Point(self.clock + clock, self.units + units, self.promised + promised, self.place, self.level)


@dataclass
class Course:
    number: int
    name: str
    points: list = field(default_factory=list)


def write_lines(path):
    """The numbers of the lines that write, or report a fault."""
    with opened(path) as audit:
        for number, line in enumerate(audit, 1):
            if line.startswith((b"turn ", b"torn")):
                yield number


def samples(path, most):
    """The numbers of some lines that write, evenly over all of them: all if these are no more than `most`."""
    step = -(-sum(1 for _ in write_lines(path)) // most) or 1
    return set(islice(write_lines(path), 0, None, step))


def mean_pass(report):
    """The mean pass of the flows that compete, weighted by their tickets. It rises as the global pass does, which a
    report has only as last updated."""
    rows = [row for row in report.flows.values() if row.competes]
    return sum(row.tickets * row.place for row in rows) // (sum(row.tickets for row in rows) or 1)


class Courses:
    """The courses of all flows by their numbers. Between two samples the clock's units are promised to the flows by
    the tickets that they have at the first of the two: each flow's part of those of all that compete."""

    def __init__(self):
        self.courses = {}
        self.promised = {}
        self.last = None

    def sample(self, report, books):
        """Takes a report, and the books as they are then."""
        self.promise(report)
        level = mean_pass(report)
        for number, row in report.flows.items():
            course = self.courses.setdefault(number, Course(number, row.name))
            place = row.place if row.competes else None
            units = books.flows[number].units
            course.points.append(Point(report.totals["clock"], units, self.promised.get(number, 0), place, level))
        self.last = report

    def promise(self, report):
        if not self.last or not self.last.totals["tickets"]:
            return
        each = (report.totals["clock"] - self.last.totals["clock"]) / self.last.totals["tickets"]
        for number, row in self.last.flows.items():
            self.promised[number] = self.promised.get(number, 0) + row.tickets * each


def courses(path, most):
    """The courses of an audit's flows, with a point for each of at most `most` writes, and one for the end."""
    expect_standard(path)
    found = Courses()
    with Replay(path, samples(path, most)) as replay:
        books = Books(replay.version)
        for line in replay.lines():
            if line.report:
                found.sample(line.report, books)
            books.take(line)
        found.sample(replay.report, books)
    return list(found.courses.values())


def courses_of_books(paths, most):
    """The courses of the tenants of books in a row, by their names. A book begins where the one before it ended. A flow
    called gap is no tenant's."""
    found, clock = {}, 0
    for path in paths:
        ends = clock
        for course in courses(path, max(2, most // len(paths))):
            ends = max(ends, clock + course.points[-1].clock)
            if course.name == "gap":
                continue
            whole = found.setdefault(course.name, Course(len(found) + 1, course.name))
            last = whole.points[-1] if whole.points else Point(0, 0, 0, None, 0)
            whole.points += [point.after(clock, last.units, last.promised) for point in course.points]
        clock = ends
    return list(found.values())
