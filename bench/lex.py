#!/usr/bin/env python3
"""Instructions per input byte of `ivory_lexer::lex` on the largest texts within its limit. See README.md beside this file.

The lexer has no program of its own yet: this makes one in a temporary copy of the crates, builds it once with `rt run` (which
proves the copies, over what is kept on this machine), and runs it under valgrind."""
import os
import re
import shutil
import subprocess
import sys
import tempfile

TOP = os.path.dirname(os.path.dirname(os.path.abspath(__file__)))
LIMIT = 262_144
TEXTS = {
    "names of three letters": "abc ",
    "names of one letter": "a ",
    "keywords": "true ",
    "symbols": "(",
    "symbols and keywords": "let +%( ",
    "comments": "/* a comment of some words */ -- and one more\n",
    "spaces": " ",
}
MAIN = """//! Lexes standard input, and prints the number of its tokens.
#![tactic(auto)]

use std::io;

fn main(rt: HostRuntime) -> io::Result<()> {
    let text = io::read_to_string(rt.alloc(), rt.stdin())?;
    if text.len() > 262_144 {
        return println!(rt; "too long");
    }
    match ivory_lexer::lex(rt.alloc(), text.as_bytes()) {
        Ok(tokens) => println!(rt; "{}", tokens.len()),
        Err(_) => println!(rt; "fault"),
    }
}
"""


def instructions(program, text):
    run = subprocess.run(["valgrind", "--tool=callgrind", "--callgrind-out-file=/dev/null", program], input=text,
                         stdout=subprocess.DEVNULL, stderr=subprocess.PIPE, check=True)
    return int(re.search(rb"refs:\s+([\d,]+)", run.stderr).group(1).replace(b",", b""))


def main():
    for tool in ("rt", "valgrind"):
        if not shutil.which(tool):
            sys.exit(f"{tool} is not installed")
    with tempfile.TemporaryDirectory() as folder:
        for crate in ("iv_words", "ivory_lexer"):
            shutil.copytree(os.path.join(TOP, "crates", crate), os.path.join(folder, "crates", crate), ignore=shutil.ignore_patterns("out"))
        os.makedirs(os.path.join(folder, "crates", "lex_bench", "src"))
        with open(os.path.join(folder, "crates", "lex_bench", "src", "main.rt"), "w") as file:
            file.write(MAIN)
        shutil.copy(os.path.join(TOP, "HANDLES"), folder)
        with open(os.path.join(TOP, "crates.txt")) as file:
            lines = [line for line in file if re.match(r"(iv_words|ivory_lexer)\b", line)]
        with open(os.path.join(folder, "crates.txt"), "w") as file:
            file.writelines(lines + ["lex_bench: iv_words ivory_lexer\n"])
        built = subprocess.run(["rt", "run"], cwd=os.path.join(folder, "crates", "lex_bench"), stdin=subprocess.DEVNULL,
                               stdout=subprocess.PIPE, stderr=subprocess.STDOUT, text=True)
        program = os.path.join(folder, "crates", "lex_bench", "out", "lex_bench")
        if not os.path.exists(program):
            sys.exit("the program was not built:\n" + built.stdout[-2000:])
        start = instructions(program, b"")
        print(f"{'text':<24} {'bytes':>7} {'per byte':>9}")
        for name, piece in TEXTS.items():
            text = (piece * (LIMIT // len(piece))).encode()
            print(f"{name:<24} {len(text):>7} {(instructions(program, text) - start) / len(text):>9.1f}")


main()
