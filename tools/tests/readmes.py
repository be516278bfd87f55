#!/usr/bin/env python3
"""Tries the examples in the READMEs of the crates: each is a program, and prints what its page shows.

    tools/tests/readmes.py [CRATE...]

All examples, or those of these crates, are put into one scratch crate over copies of the crates that they use. An example
that starts threads or waits is a crate of its own, since only the runtime of a `main` does so. `rt try` runs them, and
proves nothing.
"""
import os
import re
import shutil
import subprocess
import sys
import tempfile

TOP = os.path.dirname(os.path.dirname(os.path.dirname(os.path.abspath(__file__))))
CRATES = os.path.join(TOP, "crates")

# Seconds for all examples.
LIMIT = 1800

# The scratch crate, and what is printed before the example of each crate.
SCRATCH = "readmes"
MARK = "== "

# The crates whose examples start threads or wait.
WITH_OWN_MAIN = ("share_control", "share_server", "share_writer")


def listed():
    """The crates of the repository with what each of them uses."""
    with open(os.path.join(TOP, "crates.txt"), encoding="utf-8") as lines:
        rows = (line.partition(":") for line in lines if not line.startswith("#"))
        return {name.strip(): used.split() for name, colon, used in rows if colon}


def block(lines):
    """The next indented block of these lines, without its indent."""
    taken = []
    for line in lines:
        if line.startswith("    "):
            taken.append(line[4:])
        elif not line.strip() and taken:
            taken.append("")
        elif taken:
            break
    return "\n".join(taken).rstrip() + "\n"


def example(crate):
    """The example of a crate and what it prints, if its README has one."""
    with open(os.path.join(CRATES, crate, "README.md"), encoding="utf-8") as page:
        found = re.search(r"^## Example\n(.*?)^It prints:\n(.*?)(?=^## |\Z)", page.read(), re.MULTILINE | re.DOTALL)
    return found and (block(found[1].split("\n")), block(found[2].split("\n")))


def used_by(names, crates):
    """These names, and the crates below them, each after what it uses."""
    found = []

    def add(name):
        for used in crates.get(name, ()):
            add(used)
        if name in crates and name not in found:
            found.append(name)

    for name in names:
        add(name)
    return found


def write(path, text):
    os.makedirs(os.path.dirname(path), exist_ok=True)
    with open(path, "w", encoding="utf-8") as sink:
        sink.write(text)


def make_scratch(folder, examples):
    """Writes a repository with the scratch crate, and copies of the crates that the examples use."""
    crates = listed()
    named = {word for text, _ in examples.values() for word in re.findall(r"^use (\w+)::", text, re.MULTILINE)}
    named.discard("std")
    used = used_by(sorted(named | set(examples)), crates)
    for crate in used:
        shutil.copytree(os.path.join(CRATES, crate), os.path.join(folder, "crates", crate),
                        ignore=shutil.ignore_patterns("out", "edits"))
    shutil.copy(os.path.join(TOP, "HANDLES"), folder)
    rows = ["%s: %s" % (crate, " ".join(crates[crate])) for crate in used]
    rows.append("%s: %s" % (SCRATCH, " ".join(sorted(named))))
    write(os.path.join(folder, "crates.txt"), "\n".join(rows) + "\n")
    write_sources(os.path.join(folder, "crates", SCRATCH, "src"), examples)
    return os.path.join(folder, "crates", SCRATCH)


def write_sources(source, examples):
    """Writes the sources of the scratch crate. Its main runs each example, or is the only one."""
    only = next(iter(examples))
    if only in WITH_OWN_MAIN:
        write(os.path.join(source, "main.rt"), "//! An example.\n#![tactic(auto)]\n\n" + examples[only][0])
        return
    for crate, (text, _) in examples.items():
        write(os.path.join(source, crate + "_example.rt"),
              "//! An example.\n\n" + text.replace("fn main(rt: HostRuntime)", "pub fn example(rt: &HostRuntime)"))
    calls = "".join('    println!(rt; "%s%s")?;\n    %s_example::example(&rt)?;\n' % (MARK, crate, crate)
                    for crate in examples)
    modules = "".join("mod %s_example;\n" % crate for crate in sorted(examples))
    write(os.path.join(source, "main.rt"), "//! The examples.\n#![tactic(auto)]\n\n%s\nuse anyhow::Result;\n\n"
          "fn main(rt: HostRuntime) -> Result<()> {\n%s    Ok(())\n}\n" % (modules, calls))


def output_of(examples):
    """All that the scratch crate of these examples prints."""
    with tempfile.TemporaryDirectory() as folder:
        done = subprocess.run(["rt", "try"], cwd=make_scratch(folder, examples),
                              stdout=subprocess.PIPE, stderr=subprocess.PIPE, text=True, timeout=LIMIT, check=False)
    if done.returncode:
        sys.exit(done.stdout + done.stderr + "the examples do not run: " + ", ".join(examples))
    return done.stdout


def printed_by(examples):
    """The output of each example."""
    printed = {name: output_of({name: found}) for name, found in examples.items() if name in WITH_OWN_MAIN}
    others = {name: found for name, found in examples.items() if name not in WITH_OWN_MAIN}
    if others:
        parts = re.split("^" + MARK, output_of(others), flags=re.MULTILINE)[1:]
        printed.update(part.split("\n", 1) for part in parts)
    return printed


def main():
    names = sys.argv[1:] or sorted(os.listdir(CRATES))
    examples = {name: found for name in names for found in [example(name)] if found}
    missing = set(sys.argv[1:]) - set(examples)
    if missing or not examples:
        sys.exit("no example in the README of " + ", ".join(sorted(missing) or ["any crate"]))
    printed = printed_by(examples)
    wrong = [name for name, (_, wanted) in examples.items() if printed.get(name) != wanted]
    for name in wrong:
        print("crates/%s/README.md: the example prints\n%s" % (name, printed.get(name, "")), file=sys.stderr)
    sys.exit(1 if wrong else 0)


if __name__ == "__main__":
    main()
