#!/usr/bin/env python3
"""Processor seconds of the gate, crate by crate. See README.md beside this file.

    python3 bench/gate.py --watch FILE             beside a running `rt ci`: keeps in FILE what its checks take, until it ends
    python3 bench/gate.py --table FILE [--write]   the table of what was seen, or writes it into README.md
    python3 bench/gate.py NAME ..                  the functions of these crates that take longest, each crate checked from nothing
"""
import collections
import os
import re
import shutil
import subprocess
import sys
import tempfile
import time

TOP = os.path.dirname(os.path.dirname(os.path.abspath(__file__)))
PAGE = os.path.join(TOP, "bench", "README.md")
BEGIN, END = "<!-- made by gate.py -->\n", "<!-- end of gate.py -->\n"
TICKS = os.sysconf("SC_CLK_TCK")
DEAREST = 12


# ---- what runs


def read(path):
    with open(path, "rb") as file:
        return file.read().decode(errors="replace")


def process(pid):
    """The words, the parent, the start and the processor seconds of a process, or None where it has ended."""
    try:
        words = read(f"/proc/{pid}/cmdline").split("\0")
        fields = read(f"/proc/{pid}/stat").rsplit(")", 1)[1].split()
        return words, int(fields[1]), int(fields[19]), (int(fields[11]) + int(fields[12])) / TICKS
    except OSError:
        return None


def is_gate(words):
    return "ci" in words and any(os.path.basename(word) == "rt" for word in words[: words.index("ci")])


def stands_below_a_gate(pid):
    while pid > 1:
        found = process(pid)
        if not found:
            return False
        if is_gate(found[0]):
            return True
        pid = found[1]
    return False


def checks():
    """The checks of gates that run now: process and start, what part of which crate, and the seconds so far."""
    for pid in filter(str.isdigit, os.listdir("/proc")):
        found = process(int(pid))
        if not found or os.path.basename(found[0][0]) != "rattle" or "--crate-name" not in found[0]:
            continue
        words, parent, start, seconds = found
        if stands_below_a_gate(parent):
            crate = words[words.index("--crate-name") + 1]
            part = "edits" if words[1] == "check" else "tests" if "--test" in words else "proof"
            yield (pid, str(start)), (crate, part, seconds)


def watch(path):
    seen = {}
    while any(found and is_gate(found[0]) for found in map(process, map(int, filter(str.isdigit, os.listdir("/proc"))))):
        seen.update(checks())
        with open(path + ".new", "w") as file:
            file.writelines("\t".join([*key, crate, part, f"{seconds:.2f}"]) + "\n" for key, (crate, part, seconds) in seen.items())
        os.replace(path + ".new", path)
        time.sleep(2)


# ---- tables


def table(path):
    spent, total = collections.defaultdict(collections.Counter), collections.Counter()
    for line in open(path):
        _, _, crate, part, seconds = line.rstrip("\n").split("\t")
        spent[crate][part] += float(seconds)
        total[part] += float(seconds)
    lines = ["| Crate | Proof | Tests | Edits | All |", "|---|---|---|---|---|"]
    for crate, parts in sorted(spent.items(), key=lambda found: -sum(found[1].values())):
        lines.append(f"| `{crate}` | {parts['proof']:.0f} | {parts['tests']:.0f} | {parts['edits']:.0f} | {sum(parts.values()):.0f} |")
    minutes = {part: seconds / 60 for part, seconds in total.items()}
    lines.append(f"\nAll together {sum(minutes.values()):.0f} minutes of one processor: {minutes.get('proof', 0):.0f} for the proofs of crates,")
    lines.append(f"{minutes.get('tests', 0):.0f} for their tests, {minutes.get('edits', 0):.0f} for the edits that must be refused.")
    return "\n".join(lines) + "\n"


def write(made):
    page = read(PAGE)
    before, rest = page.split(BEGIN)
    with open(PAGE, "w") as file:
        file.write(before + BEGIN + made + END + rest.split(END)[1])


# ---- dear functions


def dearest(lines):
    """The functions between whose end and that of the one before most time went, as one job checks them one after the other."""
    found, last = [], None
    for at, line in lines:
        ended = re.match(r"checked (\S+), \d+ of \d+", line)
        if ended:
            if last is not None:
                found.append((at - last, ended.group(1).split("::", 1)[-1]))
            last = at
    return sorted(found, reverse=True)[:DEAREST]


def check(folder):
    lines = []
    with subprocess.Popen(["rt", "check", "--jobs", "1"], cwd=folder, stdout=subprocess.PIPE, stderr=subprocess.STDOUT, text=True) as run:
        for line in run.stdout:
            lines.append((time.monotonic(), line))
    return lines


def tell_dearest(names):
    with tempfile.TemporaryDirectory() as copy:
        for name in ["crates.txt", "HANDLES"]:
            shutil.copy(os.path.join(TOP, name), copy)
        shutil.copytree(os.path.join(TOP, "crates"), os.path.join(copy, "crates"), ignore=shutil.ignore_patterns("out"))
        for name in names:
            print(name + ": " + ", ".join(f"{function} {seconds:.0f}" for seconds, function in dearest(check(os.path.join(copy, "crates", name)))), flush=True)


def main():
    match sys.argv[1:]:
        case ["--watch", path]:
            watch(path)
        case ["--table", path]:
            print(table(path), end="")
        case ["--table", path, "--write"]:
            write(table(path))
        case [_, *_] as names:
            tell_dearest(names)
        case _:
            sys.exit(__doc__)


main()
