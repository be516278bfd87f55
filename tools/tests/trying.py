"""The tools of the tests of the tools: cases that are tried one by one, each with a limit of time, and the tools."""
import os
import signal
import subprocess
import sys
import time
import traceback

sys.dont_write_bytecode = True

TESTS = os.path.dirname(os.path.abspath(__file__))
TOOLS = os.path.dirname(TESTS)
TOP = os.path.dirname(TOOLS)
for folder in (TOOLS, os.path.join(TOP, "tests")):
    sys.path.insert(0, folder)

from gatewaying import Play  # noqa: E402
from serving import PROGRAM, Failure, expect, expect_equal, limit_time  # noqa: E402

# The program of gateways.
GATEWAY = os.path.abspath(os.environ.get("GATEWAY", os.path.join(TOP, "bin", "stridelink-gateway")))

# Seconds for a case.
LIMIT = 120


def tool(name, *words, program=PROGRAM, standard_input=None):
    """Runs a tool: its status, and what it printed on standard output and on standard error."""
    done = subprocess.run([os.path.join(TOOLS, name), *words], stdout=subprocess.PIPE, stderr=subprocess.PIPE,
                          input=standard_input, env={**os.environ, "STRIDELINK": program}, timeout=LIMIT, check=False)
    return done.returncode, done.stdout.decode(), done.stderr.decode()


def expect_works(name, *words, **further):
    """Wants that a tool ends well and prints nothing on standard error: what it printed."""
    status, printed, told = tool(name, *words, **further)
    expect_equal((status, told), (0, ""), "status and fault of %s" % name)
    return printed


def expect_fails(fault, name, *words, **further):
    """Wants that a tool prints nothing, and ends with status 1 and this fault."""
    expect_equal(tool(name, *words, **further), (1, "", "%s: %s\n" % (name, fault)), "the end of %s" % name)


def write(folder, name, text):
    """Writes a file, and gives its path."""
    path = os.path.join(folder, name)
    with open(path, "wb") as sink:
        sink.write(text if isinstance(text, bytes) else text.encode())
    return path


def audit(*lines, version=1):
    """The text of an audit of a version, from its lines but the first."""
    return "".join(line + "\n" for line in ("audit %d" % version, *lines))


def holds(case, limit):
    """Tries a case for that many seconds at most; whether it holds. Prints why not."""
    start = time.monotonic()
    signal.alarm(limit)
    try:
        with Play() as run:
            case(run)
    except Exception as fault:
        places = ", ".join(str(place.lineno) for place in traceback.extract_tb(fault.__traceback__)
                           if os.path.abspath(place.filename) == os.path.abspath(sys.argv[0]))
        kind = "" if isinstance(fault, Failure) else type(fault).__name__ + ": "
        print("%s: %s%s (lines %s)" % (case.__name__, kind, fault, places), file=sys.stderr)
        return False
    finally:
        signal.alarm(0)
        if os.environ.get("TIMES"):
            print("%-40s %6.2f s" % (case.__name__, time.monotonic() - start), flush=True)
    return True


def try_cases(*cases, limit=LIMIT):
    """Tries all cases, or those that the words name, and ends. Each has that many seconds."""
    names = {case.__name__: case for case in cases}
    if not set(sys.argv[1:]) <= set(names):
        sys.exit("the cases are " + " ".join(names))
    limit_time()
    failed = [case for case in cases if case.__name__ in (sys.argv[1:] or names) and not holds(case, limit)]
    sys.exit(1 if failed else 0)
