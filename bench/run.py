#!/usr/bin/env python3
"""Steps in a second of `ivoryc run` on a checked loop of ten million steps, beside the same loop in Lua 5.4 where it is installed, and the seconds of
`big 2000`, and of `check`, `sites` and `run` on its text. Seconds are those of the processor, medians of five. It prints the tables of README.md beside this file, or writes
them there with --write."""
import os
import resource
import shutil
import statistics
import subprocess
import sys
import tempfile

TOP = os.path.dirname(os.path.dirname(os.path.abspath(__file__)))
PROGRAM = os.path.join(TOP, "crates", "ivoryc", "out", "ivoryc")
PAGE = os.path.join(TOP, "bench", "README.md")
BEGIN, END = "<!-- made by run.py -->\n", "<!-- end of run.py -->\n"
STEPS, TIMES, PROCEDURES = 10_000_000, 5, 2000

# The steps of a turn: its start, nine of the store of the sum (*, *, %, toix, [], *, +, % and the store) and six of the other (*, *, %, toix, [] and
# the store). The loop in Lua makes the same turns, with the same checks.
STEPS_OF_TURN = 16
LOOP = """module bench;
area row : [8] uint32_t = {1, 2, 3, 4, 5, 6, 7, 8};
area sum : uint32_t;
export proc go() {
  forever {
    *sum = (*sum + *row[toix(8, *sum % 8)]) % 65521;
    *row[toix(8, *sum % 8)] = *sum;
  }
}
"""
LUA = """local row, sum = {1, 2, 3, 4, 5, 6, 7, 8}, 0
local function at(i)
  if i < 0 or i >= 8 then error("index") end
  return i + 1
end
for _ = 1, TURNS do
  local next = sum + row[at(sum % 8)]
  if next > 4294967295 then error("overflow") end
  sum = next % 65521
  row[at(sum % 8)] = sum
end
print(sum)
"""


def saved(name, content, folder):
    path = os.path.join(folder, name)
    with open(path, "w") as file:
        file.write(content)
    return path


def spent():
    used = resource.getrusage(resource.RUSAGE_CHILDREN)
    return used.ru_utime + used.ru_stime


def seconds(command, wanted):
    """The median of the seconds of a command whose output begins as wanted."""
    def once():
        before = spent()
        run = subprocess.run(command, stdout=subprocess.PIPE, text=True, check=True)
        if not run.stdout.startswith(wanted):
            sys.exit(f"{command}: {run.stdout[:200]}")
        return spent() - before
    return statistics.median(once() for _ in range(TIMES))


def big_text():
    """What crates/generated_module/specs/Generated.antt says of 2,000 procedures."""
    procedures = (f"proc p{i}(x : uint32_t) {{ let y = x % 97 + {i}; *acc = *acc *% 31 +% y; }}\n" for i in range(PROCEDURES))
    calls = (f"  p{i}(x);\n" for i in range(PROCEDURES))
    return ("module big;\narea acc : uint32_t;\n" + "".join(procedures) + "export proc all(x : uint32_t) -> uint32_t {\n" + "".join(calls)
            + "  return *acc;\n}\n")


def loop_rows(folder):
    module, script = saved("loop.iv", LOOP, folder), saved("go.script", "call go\n", folder)
    ours = seconds([PROGRAM, "run", module, script, str(STEPS)], "going")
    rows = f"| `ivoryc run` | {ours:.2f} | {STEPS / ours / 1e6:.1f} | |\n"
    if not shutil.which("lua5.4"):
        return rows + "| Lua 5.4 | not installed | | |\n"
    theirs = seconds(["lua5.4", saved("loop.lua", LUA.replace("TURNS", str(STEPS // STEPS_OF_TURN)), folder)], "")
    return rows + f"| Lua 5.4 | {theirs:.3f} | {STEPS / theirs / 1e6:.1f} | {ours / theirs:.0f} |\n"


def big_rows(folder):
    module, script = saved("big.iv", big_text(), folder), saved("all.script", "call all 5\n", folder)
    commands = {"big 2000": (["big", str(PROCEDURES)], f"big {PROCEDURES}\nbytes {len(big_text())}\n"), "check": (["check", module], "ok\n"),
                "sites": (["sites", module], "site 0 "), "run": (["run", module, script, "100000"], "ret all ")}
    return "".join(f"| `{name}` | {seconds([PROGRAM, *words], wanted):.3f} |\n" for name, (words, wanted) in commands.items())


def main():
    if not os.path.exists(PROGRAM):
        sys.exit("the built program is needed: ./ivoryc --prove builds it")
    with tempfile.TemporaryDirectory() as folder:
        made = "| Ten million steps of the loop | Seconds | Million steps in a second | ratio |\n|---|---|---|---|\n" + loop_rows(folder)
        made += "\n| On the text of `big 2000` | Seconds |\n|---|---|\n" + big_rows(folder)
    if sys.argv[1:] != ["--write"]:
        print(made, end="")
        return
    with open(PAGE) as file:
        page = file.read()
    before, rest = page.split(BEGIN)
    with open(PAGE, "w") as file:
        file.write(before + BEGIN + made + END + rest.split(END)[1])


main()
