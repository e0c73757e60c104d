#!/usr/bin/env python3
"""Instructions per token of the proved program on modules near the largest size, and on some of a tenth of it. See README.md beside this
file. The modules break a rule where their procedure begins, so that reading is nearly all that the program does."""
import os
import re
import shutil
import subprocess
import sys
import tempfile

TOP = os.path.dirname(os.path.dirname(os.path.abspath(__file__)))
PROGRAM = os.path.join(TOP, "crates", "ivoryc", "out", "ivoryc")
LIMIT = 262_144
BROKEN_RULE = 1


def filled(head, piece, tail, size):
    return head + piece * ((size - len(head) - len(tail)) // len(piece)) + tail


def statements(size):
    return filled("module m; proc f(a : uint32_t) { ", "if a < 5 { *p.x[a] = a + 1; } let b = g(a, 2); ", "}", size)


def chains(size):
    return filled("module m; proc f() { ", "let x = a" + " + b" * 2000 + "; ", "}", size)


def nested(size):
    return filled("module m; proc f() { ", "let x = " + "(" * 30 + "a" + ")" * 30 + "; ", "}", size)


TEXTS = {"statements": statements, "chains of 2,000 links": chains, "parentheses to depth 30": nested}


def tokens(text):
    return len(re.findall(r"\w+|->|[^\s\w]", text))


def instructions(text, folder):
    path = os.path.join(folder, "module.iv")
    with open(path, "w") as file:
        file.write(text)
    run = subprocess.run(["valgrind", "--tool=callgrind", "--callgrind-out-file=/dev/null", PROGRAM, "emit", path], stdout=subprocess.DEVNULL,
                         stderr=subprocess.PIPE)
    if run.returncode != BROKEN_RULE or b": rule " not in run.stderr:
        sys.exit(f"status {run.returncode}")
    return int(re.search(rb"refs:\s+([\d,]+)", run.stderr).group(1).replace(b",", b""))


def main():
    if not shutil.which("valgrind") or not os.path.exists(PROGRAM):
        sys.exit("valgrind and the built program are needed: call ./ivoryc first")
    print(f"{'text':<24} {'tokens':>7} {'per token':>10} {'at a tenth':>11} {'growth':>7}")
    with tempfile.TemporaryDirectory() as folder:
        for name, text in TEXTS.items():
            whole, tenth = text(LIMIT), text(LIMIT // 10)
            figure = instructions(whole, folder) / tokens(whole)
            before = instructions(tenth, folder) / tokens(tenth)
            print(f"{name:<24} {tokens(whole):>7} {figure:>10.1f} {before:>11.1f} {figure / before:>7.2f}")


main()
