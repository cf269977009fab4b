#!/usr/bin/env python3
"""Counts the instructions of the lexer on typical statements and on lines of 16,384 and of 65,536 bytes, by valgrind.

Run it at the top of the repository. It builds two programs over a copy of the crate in a temporary folder. Of the
statements in bench/statements.cypher it prints the instructions a byte: what the file takes twice less what it takes
once. More than 70 end the script with status 1. Then it prints for each shape of line both counts, without those of an
empty line, and their ratio. Linear work has a ratio of about 4. A ratio of 4.4 or more ends the script with status 1,
and so does a line that isn't answered as it should be.
"""
import re
import subprocess
import sys
import tempfile

from libraries import built

LIBRARY = "cy_lexer"
LIMIT = 4.4
# Instructions a byte of typical statements.
STATEMENTS_LIMIT = 70
# The tokens of bench/statements.cypher.
STATEMENTS_TOKENS = 1944
# Reads one line, and prints how many tokens it has, or the number and the offset of its fault.
PROGRAM = """#![tactic(auto)]

use std::io;

fn main(rt: HostRuntime) -> io::Result<()> {
    let line = io::read_to_string(rt.alloc(), rt.reader())?;
    match cy_lexer::lex(rt.alloc(), line.as_str()) {
        Ok(tokens) => println!(rt; "{} tokens", tokens.len()),
        Err(fault) => println!(rt; "{} at {}", fault.code(), fault.at().unwrap_or(0)),
    }
}
"""
# Reads lines, and prints how many tokens they have.
STATEMENTS_PROGRAM = """#![tactic(auto)]

use std::io;

fn main(rt: HostRuntime) -> io::Result<()> {
    let lines = io::read_to_string(rt.alloc(), rt.reader())?;
    let mut count: u64 = 0;
    for line in lines.as_str().lines() {
        match cy_lexer::lex(rt.alloc(), line) {
            Ok(tokens) => count = count.wrapping_add(tokens.len() as u64),
            Err(fault) => println!(rt; "{} at {}", fault.code(), fault.at().unwrap_or(0))?,
        }
    }
    println!(rt; "{count} tokens")
}
"""


def tokens(count):
    return f"{count} tokens"


def fault(code, at):
    return f"{code} at {at}"


def filled(front, piece, back, length):
    """The front, so many pieces as there is room for, blanks and the back: a line of so many bytes."""
    room = length - len((front + back).encode())
    count, blanks = divmod(room, len(piece.encode()))
    return front + piece * count + " " * blanks + back


def shapes(n):
    """Names of lines of n bytes, each with its line and its answer."""
    return {
        "one name": (filled("", "x", "", n), tokens(1)),
        "one name of four-byte letters": (filled("", "\U00010400", "", n), tokens(1)),
        "one quoted name": (filled("`", "x", "`", n), tokens(1)),
        "one name of doubled backticks": (filled("`", "``", "`", n), tokens(1)),
        "one unclosed name": (filled("`", "x", "", n), fault(14, 0)),
        "one unclosed name, doubled": (filled("`", "``", "x", n), fault(14, 0)),
        "one text": (filled("'", "x", "'", n), tokens(1)),
        "one text of three-byte characters": (filled("'", "\u20ac", "'", n), tokens(1)),
        "one text full of escapes": (filled("'", "\\n", "'", n), tokens(1)),
        "one text full of long escapes": (filled("'", "\\U0001F600", "'", n), tokens(1)),
        "one unclosed text": (filled("'", "x", "", n), fault(11, 0)),
        "one text with a bad escape": (filled("'", "x", "\\q", n), fault(12, n - 2)),
        "one number": (filled("", "1", "", n), fault(16, 0)),
        "one number of zeros": (filled("", "0", "", n), fault(15, 0)),
        "one number that ends badly": (filled("", "1", "x", n), fault(15, 0)),
        "one comment": (filled("/*", "*", "*/", n), tokens(0)),
        "one unclosed comment": (filled("/*", "*", "", n), fault(13, 0)),
        "one unclosed comment, opened often": (filled("/*", " /*", "", n), fault(13, 0)),
        "one comment of one line": (filled("//", "/", "", n), tokens(0)),
        "white space": (filled("", " ", "", n), tokens(0)),
        "white space and a bad character": (filled("", " ", "#", n), fault(10, n - 1)),
        "names": (filled("", "a ", "", n), tokens(n // 2)),
        "quoted names": (filled("", "`a`+", "", n), tokens(n // 2)),
        "keywords": (filled("", "descending ", "", n), tokens(n // 11)),
        "texts": (filled("", "'a' ", "", n), tokens(n // 4)),
        "empty texts": (filled("", '""', "", n), tokens(n // 2)),
        "numbers": (filled("", "1 ", "", n), tokens(n // 2)),
        "symbols": (filled("", "<", "", n), tokens(n)),
        "symbols of two signs": (filled("", "..", "", n), tokens(n // 2)),
        "slashes": (filled("", "/ ", "", n), tokens(n // 2)),
        "comments": (filled("", "/**/", "", n), tokens(0)),
        "comments of one line": (filled("", "//\n", "", n), tokens(0)),
    }


def instructions(program, line, answer):
    """How many instructions the program takes for the line, which it is to answer so."""
    words = ["valgrind", "--tool=callgrind", "--callgrind-out-file=/dev/null", program]
    run = subprocess.run(words, input=line.encode(), capture_output=True, check=True)
    found = run.stdout.decode().strip()
    if found != answer:
        sys.exit(f"{line[:20]!r}: {found!r} in place of {answer!r}")
    return int(re.search(rb"Collected : (\d+)", run.stderr).group(1))


def of_statements(program):
    """How many instructions a byte of typical statements takes."""
    with open("bench/statements.cypher") as it:
        statements = it.read()
    once, twice = (instructions(program, statements * times, tokens(STATEMENTS_TOKENS * times)) for times in (1, 2))
    return (twice - once) / len(statements.encode())


def main():
    with tempfile.TemporaryDirectory() as folder:
        a_byte = of_statements(built(folder, "statements_cost", STATEMENTS_PROGRAM, LIBRARY))
        print(f"{'typical statements, a byte':36} {a_byte:12.1f}", flush=True)
        program = built(folder, "lexer_cost", PROGRAM, LIBRARY)
        empty = instructions(program, "", tokens(0))
        short, long = shapes(16384), shapes(65536)
        worst = 0.0
        for name in short:
            small, large = (instructions(program, *lines[name]) - empty for lines in (short, long))
            worst = max(worst, large / small)
            print(f"{name:36} {small:12} {large:12} {large / small:6.2f}", flush=True)
        return 0 if worst < LIMIT and a_byte <= STATEMENTS_LIMIT else 1


if __name__ == "__main__":
    sys.exit(main())
