#!/usr/bin/env python3
"""Instructions and memory of `ivoryc check` for each node of modules near the largest size, and of a tenth of them. A node is one of the definition in
crates/ivory_tree/specs/Nodes.antt. It prints the table of README.md beside this file, or writes it there with --write."""
import os
import re
import shutil
import subprocess
import sys
import tempfile

from nodes import nodes

TOP = os.path.dirname(os.path.dirname(os.path.abspath(__file__)))
PROGRAM = os.path.join(TOP, "crates", "ivoryc", "out", "ivoryc")
PAGE = os.path.join(TOP, "bench", "README.md")
BEGIN, END = "<!-- made by check.py -->\n", "<!-- end of check.py -->\n"
LIMIT = 262_144
CALLS, LETS = "2,000 procedures that each call the one before", "3,000 lets in one procedure"
# How many pieces a text has at most, where its size is not what ends it.
MOST = {CALLS: 2_000, LETS: 3_000}
STRUCTS = """bitdata Ctrl : uint8_t { on : bool, mode : 3, level : 4 }
struct Uart { head : ix(8); count : uint8_t; ctrl : Ctrl; buf : [8] uint8_t; }
area uart : struct Uart;
"""
BODY = """ {
  let b = a * 2 + *table[toix(4, a % 4)];
  alloc q : [4] uint32_t = {a, b};
  map i : ix(4) { *q[i] = *q[i] *% 31 +% *table[i]; }
  upto k : ix(8) last *u.head { if *u.buf[k] == 0 { break; } else { send(*u.buf[k]); } }
  assert(b != 0 && *u.count <= 8);
  *u.ctrl = set(*u.ctrl, mode, 5);
  let c = p^(uart, b > a ? b : a);
  *q[toix(4, c)] = c;
  if !(*u.ctrl).on { *u.count = uint8_t(c & 255); return *q[toix(4, b)]; }
  noalloc { *u.head = wrapix(8, c); }
  return c;
}
"""
HEADER = "proc p@(u : ref r struct Uart, a : uint32_t) -> uint32_t"

# Each form of text: what stands before its pieces, a piece, and what stands behind them, each with its number of nodes, counted by hand. In a
# piece @ stands for its number, from 1 on, and ^ for that of the piece before it.
FORMS = {
    "procedures of all forms": (
        ("area table : [4] uint32_t = {1, 2, 3, 4};\nimport send(byte : uint8_t);\n" + STRUCTS + HEADER.replace("@", "0") + " { return a; }\n", 46),
        (HEADER + " requires(a < 1000)" + BODY, 135),
        ("", 0),
    ),
    "structs, bit data, areas and procedures of each": (
        ("", 0),
        ("bitdata C@ : uint8_t { on : bool, mode : 3, level : 4 }\nstruct S@ { head : ix(8); ctrl : C@; buf : [8] uint8_t; }\n"
         "area a@ : struct S@;\nproc p@(u : ref r struct S@) { *u.ctrl = set(*a@.ctrl, mode, 5); *u.buf[*u.head] = 7; }\n", 38),
        ("", 0),
    ),
    LETS: (("proc p(x : uint32_t) { let a0 = x; ", 6), ("let a@ = a^ * 3 + x; ", 6), ("}", 0)),
    "chains of 1,000 links": (("proc p(x : uint32_t) { ", 4), ("let a@ = x" + " + x" * 1000 + "; ", 2002), ("}", 0)),
    CALLS: (
        ("area acc : uint32_t;\nproc p0(x : uint32_t) {}\n", 7),
        ("proc p@(x : uint32_t) { let y = x % 97 + @; *acc = *acc *% 31 +% y; p^(x); }\n", 21),
        ("", 0),
    ),
}


def text(form, size, most):
    """A module of no more than so many bytes and so many pieces, and its number of nodes."""
    (head, in_head), (piece, in_piece), (tail, in_tail) = form
    parts, left, count = ["module bench;\n" + head], size - len("module bench;\n" + head + tail), 0
    while count < most:
        next_piece = piece.replace("@", str(count + 1)).replace("^", str(count))
        left -= len(next_piece)
        if left < 0:
            break
        parts.append(next_piece)
        count += 1
    made = "".join(parts) + tail
    wanted = in_head + count * in_piece + in_tail
    if nodes(made) != wanted:
        sys.exit(f"{nodes(made)} nodes, {wanted} by hand: {made[:300]}")
    return made, wanted


def instructions(command, status):
    """The instructions of a command, by callgrind."""
    run = subprocess.run(["valgrind", "--tool=callgrind", "--callgrind-out-file=/dev/null", *command], stdout=subprocess.DEVNULL,
                         stderr=subprocess.PIPE, text=True, check=False)
    if run.returncode != status:
        sys.exit(f"status {run.returncode}: {run.stderr}")
    return int(re.search(r"refs:\s+([\d,]+)", run.stderr).group(1).replace(",", ""))


def peak(command, folder):
    """The greatest number of bytes on the heap of a command, by massif."""
    out = os.path.join(folder, "massif.out")
    subprocess.run(["valgrind", "--tool=massif", f"--massif-out-file={out}", *command], stdout=subprocess.DEVNULL, stderr=subprocess.DEVNULL, check=True)
    with open(out) as file:
        return max(int(held) for held in re.findall(r"mem_heap_B=(\d+)", file.read()))


def saved(name, content, folder):
    path = os.path.join(folder, name)
    with open(path, "w") as file:
        file.write(content)
    return [PROGRAM, "check", path]


def row(name, form, folder):
    most = MOST.get(name, LIMIT)
    (whole, count), (tenth, fewer) = text(form, LIMIT, most), text(form, LIMIT // 10, most // 10)
    command = saved("whole.iv", whole, folder)
    figure = instructions(command, 0) / count
    before = instructions(saved("tenth.iv", tenth, folder), 0) / fewer
    # A last token that no module has there, so that the rules are not asked.
    reading = instructions(saved("unread.iv", whole[:LIMIT - 2] + "\n5", folder), 1) / count
    held = peak(command, folder) / len(whole)
    return f"| {name} | {len(whole):,} | {count:,} | {figure:,.0f} | {reading:,.0f} | {before:,.0f} | {10 * figure / before:.1f} | {held:.0f} |\n"


def main():
    if not shutil.which("valgrind") or not os.path.exists(PROGRAM):
        sys.exit("valgrind and the built program are needed: ./ivoryc --prove builds it")
    made = ("| Text | Bytes | Nodes | Instructions for each node | reading alone | at a tenth | Growth to ten times the nodes | Bytes of heap for each byte read |\n"
            "|---|---|---|---|---|---|---|---|\n")
    with tempfile.TemporaryDirectory() as folder:
        made += "".join(row(name, form, folder) for name, form in FORMS.items())
    if sys.argv[1:] != ["--write"]:
        print(made, end="")
        return
    with open(PAGE) as file:
        page = file.read()
    before, rest = page.split(BEGIN)
    with open(PAGE, "w") as file:
        file.write(before + BEGIN + made + END + rest.split(END)[1])


main()
