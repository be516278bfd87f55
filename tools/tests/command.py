#!/usr/bin/env python3
"""Tries the command stridelink, as 'make install' puts it: which of three programs runs for which words, by which names the
command is found, and what it passes on. The programs are stand-ins that print what they are given."""
import os
import subprocess
import sys

from trying import LIMIT, TOOLS, TOP, expect, expect_equal, try_cases, write

PROGRAMS = ("script", "link", "gateway")
# The shells that stand for sh, of those that are there.
SHELLS = [shell for shell in ("sh", "dash", "bash", "busybox") if subprocess.run(
    ["sh", "-c", "command -v %s" % shell], stdout=subprocess.DEVNULL, check=False).returncode == 0]


def stand_in(folder, name):
    path = write(folder, name, '#!/bin/sh\nprintf "%%s\\n" "%s" "$$" "$@"\nexit 7\n' % name)
    os.chmod(path, 0o755)
    return path


def installed(run):
    """The folder in which the command and the stand-ins are installed. Its name has a space."""
    folder = run.folder()
    for name in PROGRAMS:
        stand_in(folder, "stridelink-" + name)
    subprocess.run(["make", "-s", "install", "DESTDIR=" + folder, "PREFIX=/usr", "PROGRAMS=" + folder], cwd=TOP,
                   timeout=LIMIT, check=True)
    os.rename(os.path.join(folder, "usr"), os.path.join(folder, "a b"))
    return os.path.join(folder, "a b")


def ran(words, program, *given, cwd=None, **settings):
    """Wants that a command runs this program in its own process, with these words, and has its status."""
    process = subprocess.Popen([*words, *given], stdout=subprocess.PIPE, stderr=subprocess.PIPE, cwd=cwd,
                               env={**os.environ, **settings})
    printed, told = process.communicate(timeout=LIMIT)
    wanted = "".join(word + "\n" for word in ("stridelink-" + program, str(process.pid), *given))
    expect_equal((process.returncode, printed.decode(), told), (7, wanted, b""), "%s of %s" % (words, list(given)))


def words(run):
    """The first word says which program runs, and all words are passed on as they are."""
    command = os.path.join(installed(run), "bin", "stridelink")
    for first in ("gateway", "ask", "bill"):
        ran([command], "gateway", first, "a b", "", "--x", "*", "$HOME", "two\nlines")
        ran([command], "gateway", first)
    for given in (("serve",), ("serve", "gateway"), ("serve", "--help")):
        ran([command], "link", *given)
    for given in ((), ("run",), ("run", "serve"), ("bills", "bill"), ("--version",), ("",), ("help", "serve"),
                  ("servers",), ("gateways", "ask"), ("-h", "ask")):
        ran([command], "script", *given)


def names(run):
    """The command finds its programs by each name that it is called by, and in each shell."""
    prefix = installed(run)
    folder = os.path.join(prefix, "bin")
    elsewhere = run.folder()
    os.symlink(os.path.join(folder, "stridelink"), os.path.join(elsewhere, "whole"))
    os.symlink("whole", os.path.join(elsewhere, "next"))
    os.symlink(folder, os.path.join(elsewhere, "folder"))
    os.symlink(os.path.relpath(os.path.join(folder, "stridelink"), elsewhere), os.path.join(elsewhere, "relative"))
    for name in ("whole", "next", "folder/stridelink", "relative"):
        for shell in SHELLS:
            begin = [shell, "sh"] if shell == "busybox" else [shell]
            ran([*begin, os.path.join(elsewhere, name)], "gateway", "ask", "x")
            ran([*begin, "./" + name], "script", "run", cwd=elsewhere)
    ran(["stridelink"], "gateway", "ask", PATH="%s:%s" % (folder, os.environ["PATH"]))
    ran(["sh", "stridelink"], "gateway", "ask", cwd=folder)


def beside(run):
    """The programs may lie beside the command. If they are missing that is a fault."""
    folder = run.folder()
    with open(os.path.join(TOOLS, "stridelink"), "rb") as source:
        command = write(folder, "stridelink", source.read())
    os.chmod(command, 0o755)
    for first, program in (("ask", "gateway"), ("serve", "link"), ("run", "script")):
        done = subprocess.run([command, first], capture_output=True, timeout=LIMIT, check=False)
        fault = "stridelink: cannot find stridelink-%s\n" % program
        expect_equal((done.returncode, done.stdout, done.stderr.decode()), (1, b"", fault), "a missing program")
        stand_in(folder, "stridelink-" + program)
        ran([command], program, first)


def streams(run):
    """Descriptors are passed on, and closed standard streams stay closed."""
    prefix = installed(run)
    program = os.path.join(prefix, "libexec", "stridelink", "stridelink-gateway")
    write(os.path.dirname(program), "stridelink-gateway", '#!/bin/sh\nls /proc/self/fd\n')
    command = os.path.join(prefix, "bin", "stridelink")
    whole = subprocess.run(["sh", "-c", '"$0" ask 5< /dev/null', command], capture_output=True, timeout=LIMIT, check=True)
    expect("5" in whole.stdout.decode().split(), "descriptors: %s" % whole.stdout)
    closed = subprocess.run(["sh", "-c", '"$0" ask <&-', command], capture_output=True, timeout=LIMIT, check=True)
    # ls opens the folder at the least descriptor that is free.
    expect_equal(closed.stdout.decode().split(), ["0", "1", "2"], "descriptors without standard input")


expect(len(SHELLS) >= 2, "only one shell: %s" % SHELLS)
sys.stdout.flush()
try_cases(words, names, beside, streams)
