#!/usr/bin/env python3
"""Runs the built program at a terminal: it says on standard error that it reads lines, unless it was given a file."""

import os
import pty
import signal
import subprocess
import sys

HERE = os.path.dirname(os.path.abspath(__file__))
PROGRAM = os.path.join(HERE, "..", "bin", "stridelink")
EXAMPLE = os.path.join(HERE, "..", "examples", "one-packet")
SAYS = b"stridelink: reads the lines of a script; 'stridelink run --help' lists them\n"


def run(words, typed):
    """The output of the program if this is typed, and then the end of the input."""
    ours, theirs = pty.openpty()
    with subprocess.Popen([PROGRAM, *words], stdin=theirs, stdout=subprocess.PIPE, stderr=subprocess.PIPE) as link:
        os.close(theirs)
        os.write(ours, typed + b"\x04")
        told = link.communicate()
    os.close(ours)
    return *told, link.returncode


def main():
    signal.alarm(30)
    with open(EXAMPLE + ".output", "rb") as output:
        answers = output.read()
    rows = [
        (["run"], b"torn\n", (b"idle\nout -\n", SAYS, 0)),
        (["run", "-"], b"torn\n", (b"idle\nout -\n", SAYS, 0)),
        (["run", "--strict"], b"torn\nwalk\n", (b"idle\nno 3 Syntax\n",
                                               SAYS + b"stridelink: line 2, 'walk': no 3 Syntax\n", 1)),
        (["run", EXAMPLE + ".script"], b"", (answers, b"", 0)),
    ]
    wrong = [(words, told) for words, typed, wanted in rows if (told := run(words, typed)) != wanted]
    for words, told in wrong:
        print(f"at a terminal: {words}: {told}", file=sys.stderr)
    return 1 if wrong else 0


sys.exit(main())
