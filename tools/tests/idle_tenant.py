#!/usr/bin/env python3
"""Prints the audit of the picture in docs: two tenants share a currency, and one of them is idle for a while.

The currency `team` is backed by 1000 of `base`; acme has 1 ticket of it and bond 2, and cone has 500 of `base`. Each
frame has 100 bytes and is charged 100 units. Of the first 300 frames bond gets four of nine, which are all that it has;
it comes back after 600 frames, and the run ends after 900. The others have something to send all the time.
"""
import sys

FRAME, HEADER = 100, 12
GONE, BACK, FRAMES = 300, 600, 900
PACKETS = {"acme": 400, "bond": GONE * 4 // 9, "cone": 350}
PACKETS_OF_BOND_LATER = 200

FUNDING = ("mkcur team", "mktkt 1000 base", "fund 1 cur team", "mktkt 1 team", "mktkt 2 team", "mktkt 500 base",
           "open acme 1024 1", "open bond 1024 1", "open cone 1024 1", "fund 2 flow acme", "fund 3 flow bond",
           "fund 4 flow cone")

# While bond is there, while it is idle, and while it is there again: the clock, and each tenant's part of the units.
# The team has 1000 of the 1500 tickets that compete all the time.
SPANS = ((0, GONE * FRAME), (GONE * FRAME, BACK * FRAME), (BACK * FRAME, FRAMES * FRAME))
PARTS = {"acme": (2 / 9, 2 / 3, 2 / 9), "bond": (4 / 9, 0, 4 / 9), "cone": (1 / 3, 1 / 3, 1 / 3)}


def script():
    """The text of the audit."""
    sends = {name: "send %s %s" % (name, "00" * (FRAME - HEADER)) for name in PACKETS}
    lines = ["audit 1", *FUNDING]
    for name, count in PACKETS.items():
        lines += [sends[name]] * count
    lines += ["turn %d" % FRAME] * BACK
    lines += [sends["bond"]] * PACKETS_OF_BOND_LATER
    lines += ["turn %d" % FRAME] * (FRAMES - BACK)
    return "\n".join(lines) + "\n"


if __name__ == "__main__":
    sys.stdout.write(script())
