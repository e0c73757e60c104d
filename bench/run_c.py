#!/usr/bin/env python3
"""Instructions of `ivoryc crun` for each step of loops of C, as the difference of two runs, and steps in a second of ten million
steps. It prints the table of README.md beside this file, or writes it there with --write."""
import os
import re
import shutil
import subprocess
import sys
import tempfile
import time

TOP = os.path.dirname(os.path.dirname(os.path.abspath(__file__)))
PROGRAM = os.path.join(TOP, "crates", "ivoryc", "out", "ivoryc")
PAGE = os.path.join(TOP, "bench", "README.md")
BEGIN, END = "<!-- made by run_c.py -->\n", "<!-- end of run_c.py -->\n"
HEAD = "#include <stdint.h>\n#include <stdbool.h>\nextern void ivory_stop(uint32_t);\n"
STEPS = 10_000_000

LOOPS = {
    "sum": ("static uint32_t iv_sum = 0;\n", "    iv_sum = ((iv_sum * 31u) + 7u);\n"),
    "sum, index and store": (
        "struct iv_row {\n  uint32_t cells[8];\n};\nstatic struct iv_row iv_row = {0};\nstatic uint32_t iv_at = 0;\n",
        "    iv_row.cells[(iv_at & 7u)] = ((iv_row.cells[((iv_at + 1u) & 7u)] * 31u) + iv_at);\n    iv_at = (iv_at + 1u);\n",
    ),
    "a call in each turn": (
        "static uint32_t iv_sum = 0;\nstatic uint32_t iv_next(uint32_t const a) {\n  return ((a * 31u) + 7u);\n}\n",
        "    uint32_t const next = iv_next(iv_sum);\n    iv_sum = next;\n",
    ),
}


def text(loop):
    before, body = loop
    return HEAD + before + "void iv_go(void) {\n  for (;;) {\n" + body + "  }\n}\n"


def command(folder, steps):
    return [PROGRAM, "crun", os.path.join(folder, "unit.c"), os.path.join(folder, "go.script"), str(steps)]


def instructions(words):
    run = subprocess.run(["valgrind", "--tool=callgrind", "--callgrind-out-file=/dev/null", *words],
                         stdout=subprocess.PIPE, stderr=subprocess.PIPE, check=False)
    if run.stdout != b"going\n":
        sys.exit(f"{words}: {run.stdout!r}")
    return int(re.search(rb"refs:\s+([\d,]+)", run.stderr).group(1).replace(b",", b""))


def row(name, loop):
    with tempfile.TemporaryDirectory() as folder:
        for file, content in [("unit.c", text(loop)), ("go.script", "call go\n")]:
            with open(os.path.join(folder, file), "w") as out:
                out.write(content)
        step = (instructions(command(folder, 60_000)) - instructions(command(folder, 30_000))) / 30_000
        begun = time.monotonic()
        subprocess.run(command(folder, STEPS), stdout=subprocess.DEVNULL, check=True)
        seconds = time.monotonic() - begun
    return f"| {name} | {step:.0f} | {STEPS / seconds / 1e6:.1f} |\n"


def main():
    if not shutil.which("valgrind") or not os.path.exists(PROGRAM):
        sys.exit("valgrind is not installed, or the program is not built (./ivoryc --prove)")
    made = "| Loop | Instructions for each step | Million steps in a second |\n|---|---|---|\n" + "".join(row(*loop) for loop in LOOPS.items())
    if sys.argv[1:] != ["--write"]:
        print(made, end="")
        return
    with open(PAGE) as file:
        page = file.read()
    before, rest = page.split(BEGIN)
    with open(PAGE, "w") as file:
        file.write(before + BEGIN + made + END + rest.split(END)[1])


main()
