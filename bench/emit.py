#!/usr/bin/env python3
"""Instructions and memory of `ivoryc emit`, beside `tcc -c` on the C text that comes out. It prints the table of README.md beside this file, or
writes it there with --write."""
import os
import re
import shutil
import subprocess
import sys
import tempfile

TOP = os.path.dirname(os.path.dirname(os.path.abspath(__file__)))
PROGRAM = os.path.join(TOP, "crates", "ivoryc", "out", "ivoryc")
PAGE = os.path.join(TOP, "bench", "README.md")
BEGIN, END = "<!-- made by emit.py -->\n", "<!-- end -->\n"
LIMIT = 262_144


def procedures(count, calls, imports, call, name):
    """A module with so many procedures of so many calls."""
    bodies = ("export proc " + name(n) + "() {" + "".join(call(n * calls + i) for i in range(calls)) + "}\n" for n in range(count))
    return "module bench;\n" + imports + "".join(bodies)


def texts():
    """The compiled texts, each with its name."""
    long = "import tick();\nimport led(on : uint8_t);\nimport color(red : uint8_t, green : uint8_t, blue : uint8_t);\n"
    long_calls = [lambda n: "\n  tick();", lambda n: f"\n  led({n % 256});", lambda n: f"\n  color({n % 256}, {n * 3 % 256}, {n * 5 % 256});"]
    short, short_calls = "import t();import a(x:uint8_t);", [lambda n: "t();", lambda n: f"a({n % 100});"]
    yield "200 procedures of 15 calls", procedures(200, 15, long, lambda n: long_calls[n % 3](n), lambda n: f"procedure{n}")
    yield "2,000 of 15, short names", procedures(2000, 15, short, lambda n: short_calls[n % 2](n), lambda n: f"p{n}")
    yield "8,000 of 1", procedures(8000, 1, short, lambda n: short_calls[0](n), lambda n: f"p{n}")
    imports = "".join(f"import i{n}(a : uint8_t, b : uint8_t);\n" for n in range(5800))
    yield "5,800 imports", "module bench;\n" + imports
    yield "one procedure of 37,000 calls", procedures(1, 37000, short, lambda n: f"a({n % 100});\n", lambda n: "p")


def whole_language():
    """Statements of many forms, which are read and then refused by a rule."""
    piece = "if a < 5 { *p.x[a] = a + 1; } else { let b = g(a, 2); } map i : ix(8) { *q[i] = uint8_t(a % 7) *% 3; } assert(a != 0 && b == c); "
    head, tail = "module m; proc f(a : uint32_t) { ", "}"
    return head + piece * ((LIMIT - len(head) - len(tail)) // len(piece)) + tail


def instructions(command):
    """The instructions of a command, by callgrind."""
    run = subprocess.run(["valgrind", "--tool=callgrind", "--callgrind-out-file=/dev/null", *command], stdout=subprocess.DEVNULL,
                         stderr=subprocess.PIPE, text=True, check=False)
    return int(re.search(r"refs:\s+([\d,]+)", run.stderr).group(1).replace(",", ""))


def peak(command, folder):
    """The greatest number of bytes on the heap of a command, by massif."""
    out = os.path.join(folder, "massif.out")
    subprocess.run(["valgrind", "--tool=massif", f"--massif-out-file={out}", *command], stdout=subprocess.DEVNULL, stderr=subprocess.DEVNULL, check=False)
    with open(out) as file:
        return max(int(held) for held in re.findall(r"mem_heap_B=(\d+)", file.read()))


def row(name, text, folder):
    path, written = os.path.join(folder, "m.iv"), os.path.join(folder, "m.c")
    with open(path, "w") as file:
        file.write(text)
    command = [PROGRAM, "emit", path]
    ours, bytes_held = instructions(command), peak(command, folder)
    with open(written, "wb") as file:
        compiled = subprocess.run(command, stdout=file, stderr=subprocess.DEVNULL, check=False).returncode == 0
    out, theirs, ratio = "", "", ""
    if compiled:
        out = f"{os.path.getsize(written):,}"
        if shutil.which("tcc"):
            other = instructions(["tcc", "-c", written, "-o", os.path.join(folder, "m.o")])
            theirs, ratio = f"{other / 1e6:.1f}", f"{ours / other:.2f}"
    return f"| {name} | {len(text):,} | {out} | {ours / 1e6:.1f} | {ours / len(text):.0f} | {theirs} | {ratio} | {bytes_held / len(text):.0f} |\n"


def table():
    with tempfile.TemporaryDirectory() as folder:
        lines = ["| Text | Bytes in | Bytes out | Instructions, millions | for each byte read | `tcc -c`, millions | ratio | Bytes of heap for each byte read |\n",
                 "|---|---|---|---|---|---|---|---|\n"]
        lines += [row(name, text, folder) for name, text in texts()]
        lines.append(row("statements of the whole language, read alone", whole_language(), folder))
    return "".join(lines)


def main():
    if not shutil.which("valgrind") or not os.path.exists(PROGRAM):
        sys.exit("valgrind and the built program are needed: ./ivoryc --prove builds it")
    made = table()
    if sys.argv[1:] != ["--write"]:
        print(made, end="")
        return
    with open(PAGE) as file:
        page = file.read()
    before, rest = page.split(BEGIN)
    with open(PAGE, "w") as file:
        file.write(before + BEGIN + made + END + rest.split(END)[1])


main()
