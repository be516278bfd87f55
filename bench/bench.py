#!/usr/bin/env python3
"""Measures bin/stridelink-script beside a plain Rust program of the same lines, and the crates beside plain loops.

`bench.py scripts` runs the scripts alone, and `bench.py loops` the loops over the ledger and the stride queue;
`bench.py counts` counts the instructions of the first lines of each script, by the line and by the byte that they
write, and `bench.py graphs` those of lines over graphs of currencies that are made in several orders (by valgrind,
whatever else the machine does); without a word all are run. A time is the processor time, user and system, of a whole
run, the median of ROUNDS rounds in which the programs take turns, and a ratio is the median of the rounds' ratios;
machines are noisy, so the ratios of one run are what to read. Nothing is written but a folder of scripts and outputs in
the system's temporary folder, which is removed.
"""
import filecmp
import os
import resource
import shutil
import statistics
import subprocess
import sys
import tempfile
from dataclasses import dataclass

from scripts import SCRIPTS, graphs

ROUNDS = int(os.environ.get("ROUNDS", "15"))
TOP = os.path.dirname(os.path.dirname(os.path.abspath(__file__)))
PROGRAM = os.path.join(TOP, "bin", "stridelink-script")
LINK = os.path.join(TOP, "bin", "stridelink-link")
MEBIBYTE = 1 << 20

# Of how many lines of a script the instructions are counted.
COUNTED_LINES = 40_000


@dataclass
class Run:
    """The processor seconds of a run, and its peak of memory in bytes."""
    seconds: float
    memory: int


def run(command, script, output):
    """Measures one run."""
    with open(script, "rb") as source, open(output, "wb") as sink:
        child = subprocess.Popen(command, stdin=source, stdout=sink)
        _, status, usage = os.wait4(child.pid, 0)
    child.returncode = os.waitstatus_to_exitcode(status)
    if child.returncode != 0:
        sys.exit("%s failed on %s" % (" ".join(command), script))
    return Run(usage.ru_utime + usage.ru_stime, usage.ru_maxrss * 1024)


def build_plain(folder):
    """Builds the yardstick."""
    program = os.path.join(folder, "plain")
    source = os.path.join(TOP, "bench", "plain", "main.rs")
    subprocess.run(["rustc", "--edition", "2024", "-O", "-C", "codegen-units=1", "-o", program, source], check=True)
    return program


def compare(script, plain, folder):
    """Runs both programs ROUNDS times on a script and on twice its lines: {times: [(ours, plain's)]}, and how many
    bytes were written of twice the lines. It stops if the outputs differ."""
    found = {1: [], 2: []}
    path, *outputs = (os.path.join(folder, name) for name in ("script", "ours.output", "plain.output"))
    for times, rounds in found.items():
        script.write(path, times)
        for number in range(ROUNDS):
            rounds.append(tuple(run([program, "run", "--life", str(script.life)], path, output)
                                for program, output in zip((PROGRAM, plain), outputs)))
            if number == 0 and not filecmp.cmp(*outputs, shallow=False):
                sys.exit("the two programs print different answers to '%s'" % script.name)
    return found, written(outputs[0])


def written(output):
    """How many bytes were written on the link, as the last line of an output has them."""
    size = os.path.getsize(output)
    start = 0
    with open(output, "rb") as source:
        for at in range(0, size, 1 << 16):
            place = source.read(1 << 16).rfind(b"\n", 0, size - 1 - at)
            if place >= 0:
                start = at + place + 1
    return (size - start - len("out \n")) // 2


def median(values):
    """The median of some values."""
    return statistics.median(list(values))


HEADINGS = ("script", "lines", "us a line", "plain: us a line", "time beside plain", "of twice the lines",
            "twice the lines take", "peak, MiB", "written, MiB")


def row(script, plain, folder):
    """What is printed of one script. The peak of memory and the bytes written are those of twice the lines."""
    found, size = compare(script, plain, folder)
    seconds = [median(pair[program].seconds for pair in found[1]) for program in (0, 1)]
    ratios = [median(ours.seconds / theirs.seconds for ours, theirs in found[times]) for times in (1, 2)]
    growth = median(pair[0].seconds for pair in found[2]) / seconds[0]
    peak = max(ours.memory for ours, _ in found[2])
    own = resource.getrusage(resource.RUSAGE_SELF).ru_maxrss * 1024
    microseconds = 1e6 / script.length(1)
    return (script.name, str(script.length(1)), "%.3f" % (seconds[0] * microseconds),
            "%.3f" % (seconds[1] * microseconds), "%.2f" % ratios[0], "%.2f" % ratios[1], "%.2f" % growth,
            "%s%.1f" % ("at most " if peak <= own else "", peak / MEBIBYTE), "%.1f" % (size / MEBIBYTE))


def print_row(cells):
    """Prints a row of the table, as a line of Markdown."""
    print("| " + " | ".join(cells) + " |", flush=True)


def measure_scripts():
    """Prints a row for each script."""
    with tempfile.TemporaryDirectory() as folder:
        plain = build_plain(folder)
        print_row(HEADINGS)
        print_row(["---"] * len(HEADINGS))
        for script in SCRIPTS:
            print_row(row(script, plain, folder))


def instructions(command, path, folder):
    """How many instructions a run takes."""
    found = os.path.join(folder, "callgrind.out")
    with open(path, "rb") as source:
        subprocess.run(["valgrind", "--tool=callgrind", "--callgrind-out-file=" + found, *command], stdin=source,
                       stdout=subprocess.DEVNULL, stderr=subprocess.DEVNULL, check=True)
    with open(found) as lines:
        return next(int(line.split()[1]) for line in lines if line.startswith("totals:"))


def instructions_a_line(program, script, folder):
    """Those of the lines that are repeated: twice as many lines, and the difference by line."""
    path = os.path.join(folder, "script")
    counts = []
    for times in (1, 2):
        script.write(path, times)
        counts.append(instructions([program, "run", "--life", str(script.life)], path, folder))
    return (counts[1] - counts[0]) / (script.length(2) - script.length(1))


def measure_counts():
    """Prints a row for each script: the instructions of its first lines."""
    with tempfile.TemporaryDirectory() as folder:
        plain = build_plain(folder)
        path, output = os.path.join(folder, "script"), os.path.join(folder, "output")
        print_row(("script", "instructions a line", "plain", "beside plain", "a byte written", "plain"))
        print_row(["---"] * 6)
        for script in SCRIPTS:
            count = script.write_first(path, COUNTED_LINES)
            commands = [[program, "run", "--life", str(script.life)] for program in (PROGRAM, plain)]
            ours, theirs = (instructions(command, path, folder) for command in commands)
            run(commands[1], path, output)
            size = written(output)
            print_row((script.name, "%.0f" % (ours / count), "%.0f" % (theirs / count), "%.2f" % (ours / theirs),
                       *("%.2f" % (total / size) if size else "" for total in (ours, theirs))))


def measure_graphs():
    """Prints a row for each graph."""
    with tempfile.TemporaryDirectory() as folder:
        plain = build_plain(folder)
        print_row(("lines", "instructions a line", "plain", "beside plain"))
        print_row(["---"] * 4)
        for script in graphs():
            ours, theirs = (instructions_a_line(program, script, folder) for program in (PROGRAM, plain))
            print_row((script.name, "%.0f" % ours, "%.0f" % theirs, "%.2f" % (ours / theirs)))


LEDGER_LOOPS = (
    ("ledger", "set_active and all tickets by number, deep graph"),
    ("places", "set_active and all tickets by place, deep graph"),
    ("wide", "set_active, 1023 tickets on 63 flows"),
    ("still", "set_active of what stands so, 1023 tickets on 63 flows"),
    ("currencies", "a currency made and removed, 1023 tickets on 63 flows"),
    ("funds", "a ticket funds a flow and its end, 1023 tickets on 63 flows"),
)


def build_crate(folder, name, sources, used, also, words):
    """Builds a crate of the bench in a repository of its own over copies of the crates that it uses, and runs it once
    with these words. `also` are the other libraries that it uses. Its specifications and proofs stand beside its
    sources under their paths, with - for /."""
    for crate in used:
        shutil.copytree(os.path.join(TOP, "crates", crate), os.path.join(folder, "crates", crate))
    for part in os.listdir(os.path.join(TOP, "bench", name)):
        if part.endswith(".antt.txt"):
            path = os.path.join(folder, "crates", name, part.removesuffix(".txt").replace("-", "/"))
            os.makedirs(os.path.dirname(path), exist_ok=True)
            shutil.copy(os.path.join(TOP, "bench", name, part), path)
    shutil.copy(os.path.join(TOP, "HANDLES"), folder)
    source = os.path.join(folder, "crates", name, "src")
    os.makedirs(source)
    for part in sources:
        shutil.copy(os.path.join(TOP, "bench", name, part + ".rt.txt"), os.path.join(source, part + ".rt"))
    with open(os.path.join(TOP, "crates.txt")) as lines, open(os.path.join(folder, "crates.txt"), "w") as sink:
        for line in lines:
            if line.split(":")[0] in used:
                sink.write(line)
        sink.write("%s: %s\n" % (name, " ".join([*used, *also])))
    print("building bench/%s" % name, file=sys.stderr)
    done = subprocess.run(["rt", "run", "--", *words], cwd=os.path.dirname(source), stdout=subprocess.PIPE,
                          stderr=subprocess.STDOUT, text=True)
    if done.returncode != 0:
        sys.exit("%sbench/%s is not built" % (done.stdout, name))
    return os.path.join(folder, "crates", name, "out", name)


def per_round(program, kind, size, few, many):
    """Microseconds of processor time of one round: the median difference of many rounds and few."""
    times = []
    for _ in range(ROUNDS):
        spent = [run([program, kind, str(size), str(rounds)], os.devnull, os.devnull).seconds for rounds in (few, many)]
        times.append((spent[1] - spent[0]) / (many - few) * 1e6)
    return median(times)


def measure_loops():
    """Prints what a round of each loop costs."""
    with tempfile.TemporaryDirectory() as folder:
        used = ["share_base", "share_model", "share_ledger", "share_stride"]
        program = build_crate(folder, "loops", ["main", "ledger", "stride"], used, ["anyhow"], ["stride", "8", "1"])
        for flows in (1, 8, 64):
            print("least and charge, %2d flows: %.3f us" % (flows, per_round(program, "stride", flows, 1, 2_000_000)))
        for tickets in (16, 128, 1024):
            print("set_active, %4d tickets: %.3f us" % (tickets, per_round(program, "turns", tickets, 1, 50_000)))
        for kind, what in LEDGER_LOOPS:
            print("%s: %.1f us" % (what, per_round(program, kind, 65, 1, 5_000)))
        for kind in ("level", "change"):
            print("%s of one of 64 flows, after contains: %.3f us" % (kind, per_round(program, kind, 64, 1, 2_000_000)))


def main():
    parts = {"scripts": measure_scripts, "loops": measure_loops, "counts": measure_counts, "graphs": measure_graphs}
    words = sys.argv[1:] or list(parts)
    if not set(words) <= set(parts):
        sys.exit("the words are " + ", ".join(parts))
    for word in words:
        parts[word]()


if __name__ == "__main__":
    main()
