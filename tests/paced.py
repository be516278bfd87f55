"""How well a gateway keeps a rate, and for how long no frame comes while it rotates a book.

Both depend on the machine as well. So a plain program (copy_loop.py) does the same at the same time: it copies frames
at the rate, saves up as much of it, writes lines for each frame first, syncs them each second, and begins another file
when a book is rotated. What it misses itself is not asked of the gateway.

Each measurement goes on until the gateway has done well for long enough without a break, and for MOST_SECONDS at most.
A gateway that always pauses or always falls short never does, on any machine. Once the time is over, the verdict rests
on a comparison with the plain program: no more than it misses is excused.
"""
import bisect
import os
import statistics
import time
from dataclasses import dataclass

import measured
from measured import TESTS, WINDOW, started
from serving import expect

# For how long a measurement goes on at most.
MOST_SECONDS = 40

# How long no frame may come over a rotation, and how many rotations in a row have to keep to that.
MOST_PAUSE = 0.02
ROTATIONS = 20

# How long no frame may come at the median on a machine that is busy, beyond three times the pause of a plain program.
MOST_BUSY_PAUSE = 0.06

# The seconds that a rotation is looked at.
SPAN = 0.2

# A machine is idle if a plain program pauses for no longer than this.
IDLE_PAUSE = 0.005

# How far a rate may be off, how much of it may be saved up, in seconds, and the longest frame.
RATE_ERROR = 0.02
SAVED = 0.02
LONGEST_FRAME = 9017

# How long all windows have to keep to a rate without a break, and where the first one begins.
KEPT = WINDOW + 2
BEGINNING = 0.5

# How much of what a plain program copies a gateway has to send on a machine that is too busy to keep the rate.
LEAST_BESIDE = 0.4


class Plain:
    """The plain program, and its far end."""

    def __init__(self, run, rate):
        self.far = run.keep(measured.FarEnd())
        self.program = run.keep(started([os.path.join(TESTS, "copy_loop.py"), self.far.address, str(rate),
                                         run.folder()]))

    def rotate(self):
        """Begins another file."""
        self.program.process.stdin.write("rotate\n")


# ---- Rotations


@dataclass
class Rotation:
    """The longest time without a frame, in seconds: over a rotation, over as long a time before it, and of the plain
    program over the rotation and before it."""
    over: float
    before: float
    plain_over: float
    plain_before: float

    def is_kept(self):
        return not is_late(self.over, self.plain_over)

    def plain(self):
        return max(self.plain_over, self.plain_before)


def is_late(pause, plain):
    """Whether no frame came for longer than is wanted, beyond the pause of the plain program at the same time unless
    that shows an idle machine."""
    return pause > MOST_PAUSE + (plain if plain > IDLE_PAUSE else 0)


def rotated(gateway, far, plain, book):
    """Rotates the book of a gateway, and lets the plain program begin another file."""
    start = time.monotonic()
    time.sleep(SPAN)
    middle = time.monotonic()
    plain.rotate()
    gateway.control.expect("rotate", f"book {book}")
    time.sleep(max(0.0, middle + SPAN - time.monotonic()))
    end = time.monotonic()
    for each in (far, plain.far):
        each.wait_until(end)
    return Rotation(far.longest_pause(middle, end), far.longest_pause(start, middle),
                    plain.far.longest_pause(middle, end), plain.far.longest_pause(start, middle))


def check_rotations(gateway, far, plain):
    """Rotates books until ROTATIONS of them in a row made no pause, and wants that this comes, or that the pauses are
    the machine's."""
    found, end = [], time.monotonic() + MOST_SECONDS
    while time.monotonic() < end and not (found and is_row(found)):
        found.append(rotated(gateway, far, plain, len(found) + 2))
    over, before = [each.over for each in found], [each.before for each in found]
    by_plain = [each.plain_over for each in found]
    is_idle = max(each.plain() for each in found) <= IDLE_PAUSE
    print(f"rotations: {len(found)}; no frame for {spread(over)}, between them {spread(before)}; of a plain program "
          f"{spread(by_plain)}: the machine is {'idle' if is_idle else 'busy'}")
    if not is_row(found):
        judge_rotations(found, is_idle)


def spread(seconds):
    return f"{1000 * statistics.median(seconds):.1f} ms at the median and {1000 * max(seconds):.1f} ms at most"


def is_row(found):
    """Whether the last rotations made no pause, as many in a row as are wanted."""
    return len(found) >= ROTATIONS and all(each.is_kept() for each in found[-ROTATIONS:])


def judge_rotations(found, is_idle):
    """Wants of rotations of which too few in a row were without a pause that the machine made the pauses: it is not
    idle, there are as many in windows without a rotation and of the plain program, a window with a rotation is not
    always the one with the longer pause, and the median is near that of the plain program."""
    expect(not is_idle, f"of {len(found)} rotations on an idle machine some pause for more than 20 ms")
    late = sum(not each.is_kept() for each in found)
    beside = sum(is_late(each.before, each.plain_before) for each in found)
    beside += sum(pause > MOST_PAUSE for each in found for pause in (each.plain_over, each.plain_before))
    longer = sum(each.over > each.before + MOST_PAUSE / 2 for each in found)
    shorter = sum(each.before > each.over + MOST_PAUSE / 2 for each in found)
    print(f"rotations: no {ROTATIONS} in a row without a pause: {late} of {len(found)} pause for more than 20 ms, and "
          f"so do {beside} of {3 * len(found)} windows beside them; {longer} pause for much longer than the time "
          f"before them, and {shorter} for much shorter")
    expect(late <= 2 * beside + ROTATIONS / 4, "rotations pause more often than the machine does")
    expect(longer <= 3 * shorter + len(found) / 4, "rotations pause for longer than the time between them")
    most = MOST_BUSY_PAUSE + 3 * statistics.median(each.plain_over for each in found)
    expect(statistics.median(each.over for each in found) <= most, "a gateway pauses for longer than the machine does")
    print("rotations: the machine was too busy to measure them: the gateway kept to bounds relative to a plain program")


# ---- Rates


@dataclass
class Window:
    """Bytes a second in a window of a gateway, in parts of the rate, with the pause before it counted to the window and
    without, and those of the plain program in the same window."""
    start: float
    most: float
    found: float
    plain: float

    def is_kept(self):
        return self.found >= 1 - RATE_ERROR


def totals_of(far):
    """The samples of a far end: the time by the system's clock, the bytes that have come, and the longest pause since
    the sample before. The bytes of a tariff of single bytes are its units."""
    samples = list(far.samples)
    return [(far.first + seconds, sum(units.values()), pause[1])
            for (seconds, units), pause in zip(samples, list(far.pauses))]


def bytes_at(totals, instant):
    """How many bytes had come at a time, between two samples in proportion."""
    at = min(max(1, bisect.bisect_left(totals, (instant,))), len(totals) - 1)
    (start, first, _), (end, last, _) = totals[at - 1:at + 1]
    return first + (last - first) * (instant - start) / (end - start)


def windows_of(far, plain, rate):
    """The windows of WINDOW seconds that both far ends have counted."""
    totals, plainly = totals_of(far), totals_of(plain.far)
    found, at = [], 0
    for start, first, pause in totals:
        while at < len(totals) and totals[at][0] < start + WINDOW:
            at += 1
        if at == len(totals) or totals[at][0] > plainly[-1][0]:
            break
        end, last, _ = totals[at]
        if start >= far.first + BEGINNING:
            parts = [(last - first) / (end - start + more) / rate for more in (pause, 0)]
            beside = (bytes_at(plainly, end) - bytes_at(plainly, start)) / (end - start) / rate
            found.append(Window(start, *parts, beside))
    return found


def is_kept_for_long(windows):
    """Whether all windows of the last KEPT seconds keep to the rate."""
    since = windows[-1].start - (KEPT - WINDOW)
    return windows[0].start <= since and all(window.is_kept() for window in windows if window.start >= since)


def check_rate(far, plain, rate, began):
    """Wants that a gateway whose tenants flood it from a time on sends at a rate, never at a greater one, and that no
    more than 20 ms of it were saved up before."""
    windows, end = [], time.monotonic() + MOST_SECONDS
    while time.monotonic() < end and not (windows and is_kept_for_long(windows)):
        far.wait(max(BEGINNING + KEPT, far.seconds()) + 0.5)
        windows = windows_of(far, plain, rate)
    expect(windows, "no window was counted")
    print(f"rate: {statistics.mean(window.found for window in windows):.4f} of it, from "
          f"{min(window.found for window in windows):.4f} to {max(window.found for window in windows):.4f} in "
          f"{len(windows)} windows; a plain program {statistics.mean(window.plain for window in windows):.4f}")
    check_most(far, windows, rate, began)
    if not is_kept_for_long(windows):
        judge_rate(windows)


def check_most(far, windows, rate, began):
    """Wants that no window has more than the rate, and the first seconds no more than was saved up."""
    most = max(window.most for window in windows)
    expect(most <= 1 + RATE_ERROR, f"a rate is {100 * (most - 1):.2f} percent too much")
    for instant, count, _ in totals_of(far):
        may = rate * (instant - began + SAVED) + LONGEST_FRAME
        expect(instant > began + 1 or count <= may, f"{count} bytes come in the first {instant - began:.3f} s, "
               f"which is more than the {may:.0f} that a rate and what is saved up allow")


def judge_rate(windows):
    """Wants of a rate that was not kept for long enough that the machine is why: the plain program keeps it in few
    windows, or the gateway sends as much as it in some, and nearly half as much in all."""
    kept = [window for window in windows if window.plain >= 1 - RATE_ERROR]
    part = statistics.mean(window.found for window in windows) / statistics.mean(window.plain for window in windows)
    print(f"rate: not kept for {KEPT:.0f} s: the plain program keeps it in {len(kept)} of {len(windows)} windows; the "
          f"gateway sends {part:.4f} of what it sends")
    near = sum(window.found >= (1 - RATE_ERROR) * min(1, window.plain) for window in windows)
    expect(len(kept) <= len(windows) / 4 or near >= len(windows) / 20,
           "a rate is not kept, though a plain program keeps it")
    expect(part >= LEAST_BESIDE, f"a gateway sends {part:.4f} of what a plain program sends at the same rate")
    print("rate: the machine was too busy to measure it: the gateway kept to bounds relative to a plain program")
