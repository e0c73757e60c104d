#!/usr/bin/env python3
"""The files that the program's promise rests on: what a reader must trust to know what is proved. It begins with the record of the promise and
follows each import, to definitions in specs/ and to the types that src/ declares. Without an argument it prints docs/TRUSTED.md; with
--check it says whether the file there is that."""
import os
import re
import sys

TOP = os.path.dirname(os.path.dirname(os.path.abspath(__file__)))
# the promise, the call that has it as its clause, and the traits over which it is stated
FIRST = ["crates/ivoryc/specs/Promise.antt", "crates/ivoryc/src/call.rt", "crates/iv_base/src/sink.rt", "crates/iv_base/src/store.rt"]
PAGE = "docs/TRUSTED.md"


def read(path):
    with open(os.path.join(TOP, path)) as file:
        return file.read()


def sources(crate):
    for at, folders, files in os.walk(os.path.join(TOP, "crates", crate, "src")):
        folders.sort()
        yield from (os.path.relpath(os.path.join(at, file), TOP) for file in sorted(files) if file.endswith(".rt"))


def declares(crate, name):
    """The file of src/ that declares a type."""
    for path in sources(crate):
        if re.search(rf"\b(struct|enum|trait) {name}\b", read(path)):
            return path
    return None


def imported(path):
    """The files of this repository that a file imports from."""
    for crate, place in re.findall(r"\buse Rattle\.(\w+)\.specs\.([\w.]+)", read(path)):
        if not os.path.isdir(os.path.join(TOP, "crates", crate)):
            continue
        parts = [part for part in place.split(".") if part]
        if parts[0] == "declared":
            names = [part for part in parts[1:] if part[0].isupper() and not part.startswith("The")]
            found = declares(crate, names[0]) if names else None
        else:
            found = next((file for length in range(len(parts), 0, -1)
                          for file in [f"crates/{crate}/specs/{'/'.join(parts[:length])}.antt"] if os.path.isfile(os.path.join(TOP, file))), None)
        if found:
            yield found


def cone():
    seen, waiting = set(), list(FIRST)
    while waiting:
        path = waiting.pop()
        if path not in seen:
            seen.add(path)
            waiting.extend(imported(path))
    return seen


def head(path):
    """The first sentence of the comment at a file's head."""
    lines = []
    for line in read(path).splitlines():
        if not line.startswith("--"):
            break
        lines.append(line[2:].strip())
    return re.split(r"(?<=[.:])\s", " ".join(lines) + " ")[0].rstrip(":")


def page():
    files = cone()
    specs = sorted(path for path in files if path.endswith(".antt"))
    types = sorted(path for path in files if path.endswith(".rt"))
    everything = sum(1 for crate in os.listdir(os.path.join(TOP, "crates")) for at, _, found in os.walk(os.path.join(TOP, "crates", crate, "specs"))
                     for file in found if file.endswith(".antt") and "/out/" not in at)
    lines = ["# What the promise rests on", "",
             "Made by `tests/trusted.py`, which the gate compares with this page: the promise of the program's one call, and all that it imports. "
             "Who reads these knows what is proved of the program; every other file of `specs/` and all of `proofs/` are tools, which the prover "
             "checks and nobody needs to believe.", "",
             f"Definitions: {len(specs)} of the {everything} files of `specs/`.", "", "| File | Says |", "|---|---|"]
    lines += [f"| `{path[len('crates/'):]}` | {head(path)} |" for path in specs]
    lines += ["", "And of `src/`: the call with its clause, the traits of stores and sinks, and the types, as far as they are declared in these files:", ""]
    lines += [f"- `{path[len('crates/'):]}`" for path in types]
    return "\n".join(lines) + "\n"


def main():
    if sys.argv[1:] == ["--check"]:
        path = os.path.join(TOP, PAGE)
        same = os.path.isfile(path) and read(PAGE) == page()
        print(f"trusted: {'ok' if same else f'{PAGE} is not what tests/trusted.py prints'}")
        sys.exit(0 if same else 1)
    print(page(), end="")


main()
