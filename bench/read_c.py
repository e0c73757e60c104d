#!/usr/bin/env python3
"""Instructions of `ivoryc crun` for each byte of C texts of about a megabyte, with a script that calls nothing, so that the reading of the text is
nearly all of it; beside `tcc -c` on the same texts. A second table has texts with many names in one place, and what ten times the names take. It prints
both tables of README.md beside this file, or writes them there with --write."""
import os
import re
import shutil
import subprocess
import sys
import tempfile

TOP = os.path.dirname(os.path.dirname(os.path.abspath(__file__)))
PROGRAM = os.path.join(TOP, "crates", "ivoryc", "out", "ivoryc")
PAGE = os.path.join(TOP, "bench", "README.md")
BEGIN, END = "<!-- made by read_c.py -->\n", "<!-- end of read_c.py -->\n"
WANTED = 1_000_000
HEAD = "#include <stdint.h>\n#include <stdbool.h>\nextern void ivory_stop(uint32_t);\n"

def filled(head, piece):
    """A text of pieces, each made of its number, as long as is wanted."""
    pieces, length, n = [HEAD, head], len(HEAD) + len(head), 0
    while length < WANTED:
        pieces.append(piece(n))
        length += len(pieces[-1])
        n += 1
    return "".join(pieces)


IMPORTS = "extern void iv_tick(void);\nextern void iv_led(uint8_t);\nextern void iv_color(uint8_t, uint8_t, uint8_t);\n"
CALLS = ["  iv_tick();\n", "  iv_led({a});\n", "  iv_color({a}, {b}, 7);\n"]


def call(n):
    return CALLS[n % 3].format(a=n % 256, b=n * 3 % 256)


def function_of_calls(n, count):
    return f"void iv_procedure{n}(void) {{\n" + "".join(call(n + i) for i in range(count)) + "}\n"


COMPUTED = """uint32_t iv_sum{n}(uint32_t const a, struct iv_pair *const p) {{
  uint32_t const total = ((a + (*p).first) * {c}u);
  uint32_t index = 0;
  for (;;) {{
    if ((index >= 4)) {{
      break;
    }}
    (*p).cells[index] = ((uint8_t)((total >> (index * 8u)) & 255u));
    index = (index + 1u);
  }}
  if ((((a == {c}u) || (!(*p).first)) && (total != 0))) {{
    iv_led(((uint8_t)total));
    (*p).second = ((int16_t)(-(*p).second));
  }} else {{
    uint32_t const halved = iv_halved((total / 2u));
    return (halved ^ a);
  }}
  return total;
}}
"""
STRUCT = "struct iv_pair {\n  uint32_t first;\n  int16_t second;\n  uint8_t cells[4];\n};\n"
HALVED = STRUCT + IMPORTS + "uint32_t iv_halved(uint32_t const a) {\n  return (a / 2u);\n}\n"


def texts():
    """The texts, each with its name."""
    yield "functions of 15 calls", filled(IMPORTS, lambda n: function_of_calls(n, 15))
    yield "functions of one call", filled(IMPORTS, lambda n: function_of_calls(n, 1))
    yield "one function of calls", filled(IMPORTS + "void iv_main(void) {\n", call) + "}\n"
    yield "externs", filled("", lambda n: f"extern void iv_import{n}(uint8_t, uint8_t);\n")
    yield "functions that compute", filled(HALVED, lambda n: COMPUTED.format(n=n, c=n % 1000))


def many_locals(count):
    """A function of so many locals, each used once."""
    lines = (f"  uint32_t const local{n} = {n}u;\n  iv_led(((uint8_t)local{n}));\n" for n in range(count))
    return HEAD + IMPORTS + "void iv_main(void) {\n" + "".join(lines) + "}\n"


def many_structs(count):
    """So many structs with two members each, and a function for each of them."""
    structs = (f"struct iv_pair{n} {{\n  uint32_t first;\n  uint8_t second[4];\n}};\n" for n in range(count))
    uses = (f"void iv_put{n}(struct iv_pair{n} *const p) {{\n  (*p).first = {n}u;\n  (*p).second[1] = 7u;\n}}\n" for n in range(count))
    return HEAD + "".join(structs) + "".join(uses)


def many_members(count):
    """A struct of so many members, each used once."""
    members = (f"  uint32_t member{n};\n" for n in range(count))
    uses = (f"  (*p).member{n} = {n}u;\n" for n in range(count))
    return HEAD + "struct iv_row {\n" + "".join(members) + "};\nvoid iv_fill(struct iv_row *const p) {\n" + "".join(uses) + "}\n"


NAMES = 2_000
GROWING = [
    ("a function of 2,000 locals, each used once", many_locals),
    ("2,000 structs with members, each used", many_structs),
    ("a struct of 2,000 members, each used once", many_members),
]


def instructions(command):
    """The instructions of a command, by callgrind, which must end well, and what it wrote."""
    run = subprocess.run(["valgrind", "--tool=callgrind", "--callgrind-out-file=/dev/null", *command],
                         stdout=subprocess.PIPE, stderr=subprocess.PIPE, check=False)
    if run.returncode:
        sys.exit(f"status {run.returncode} of {' '.join(command)}: {run.stderr.decode()[:400]}")
    return int(re.search(rb"refs:\s+([\d,]+)", run.stderr).group(1).replace(b",", b"")), run.stdout.decode()


def read(text, folder):
    """The instructions that the program takes for a text, which must read back."""
    unit, script = os.path.join(folder, "unit.c"), os.path.join(folder, "none.script")
    with open(unit, "w") as file:
        file.write(text)
    with open(script, "w") as file:
        file.write("")
    taken, said = instructions([PROGRAM, "crun", unit, script, "0"])
    if said != "end\n":
        sys.exit(f"not read: {text[:200]}")
    return taken


def row(start, name, text, folder):
    ours, theirs, ratio = read(text, folder) - start, "", ""
    if shutil.which("tcc"):
        other, _ = instructions(["tcc", "-c", os.path.join(folder, "unit.c"), "-o", os.path.join(folder, "unit.o")])
        theirs, ratio = f"{other / len(text):.0f}", f"{ours / other:.2f}"
    return f"| {name} | {len(text):,} | {ours / len(text):.0f} | {theirs} | {ratio} |\n"


def growth(start, name, made, folder):
    small, large = made(NAMES // 10), made(NAMES)
    few, many = read(small, folder) - start, read(large, folder) - start
    return f"| {name} | {len(large):,} | {many / len(large):.0f} | {few / len(small):.0f} | {many / few:.1f} |\n"


def table():
    with tempfile.TemporaryDirectory() as folder:
        start = read(HEAD, folder)
        head = "| Text | Bytes | Instructions for each byte | `tcc -c`, for each byte | ratio |\n|---|---|---|---|---|\n"
        more = "\n| Names | Bytes | Instructions for each byte | at a tenth | Growth to ten times the names |\n|---|---|---|---|---|\n"
        rows = [row(start, name, text, folder) for name, text in texts()]
        return head + "".join(rows) + more + "".join(growth(start, name, made, folder) for name, made in GROWING)


def main():
    if not shutil.which("valgrind") or not os.path.exists(PROGRAM):
        sys.exit("valgrind is not installed, or the program is not built (./ivoryc --prove)")
    made = table()
    if sys.argv[1:] != ["--write"]:
        print(made, end="")
        return
    with open(PAGE) as file:
        page = file.read()
    before, rest = page.split(BEGIN)
    with open(PAGE, "w") as file:
        file.write(before + BEGIN + made + END + rest.split(END)[1])


main()
