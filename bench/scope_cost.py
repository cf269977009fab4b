#!/usr/bin/env python3
"""Counts the instructions that the test of names and kinds takes, on lines of 16,384 and of 65,536 bytes, by valgrind.

Run it at the top of the repository. It builds a program over a copy of the crates in a temporary folder, with what their
folders `out/` have, if they are there. The program lexes and parses a line, and then tests its statement and whether it is
a view's query, or does not. For each shape of line the script prints both differences, less that of the shortest
statement, and their ratio. Linear work has a ratio of about 4, and look-ups among items and names, which are in order, have
one of up to 6. A larger one ends the script with status 1, and so does a line of 65,536 bytes that takes more than
300,000,000 instructions, or one that isn't answered as it should be.

The C library merges small blocks that were freed all at one time, once a large block is freed, and that happens with the
longer lines alone. So the lines are counted with a setting by which it merges each block when it is freed.
"""
import os
import string
import sys
import tempfile

from lexer_cost import filled, instructions
from libraries import built

LIMIT = 6
# Instructions for a line of 65,536 bytes, beside those of the lexer and the parser.
LINE_LIMIT = 300_000_000
LIBRARIES = "cy_lexer cy_parser cy_scope"
# Reads a word and a line. Prints the number of the fault of the statement or of the query, or 0; where the word is `parse`, the
# statement is not tested.
PROGRAM = """#![tactic(auto)]

use std::alloc::Global;
use std::io;

fn fault(alloc: Global, testing: bool, line: &str) -> u16 {
    let tokens = match cy_lexer::lex(alloc, line) {
        Ok(tokens) => tokens,
        Err(fault) => return fault.code(),
    };
    let statement = match cy_parser::parse(alloc, tokens.as_slice(), line) {
        Ok(statement) => statement,
        Err(fault) => return fault.code(),
    };
    if !testing {
        return 0;
    }
    let checked = match cy_scope::check(alloc, statement) {
        Ok(checked) => checked,
        Err(fault) => return fault.code(),
    };
    match cy_scope::check_view(alloc, checked) {
        Ok(_) => 0,
        Err(fault) => fault.code(),
    }
}

fn main(rt: HostRuntime) -> io::Result<()> {
    let text = io::read_to_string(rt.alloc(), rt.reader())?;
    let mut lines = text.as_str().lines();
    let testing = lines.next() == Some("test");
    for line in lines {
        println!(rt; "{}", fault(rt.alloc(), testing, line))?;
    }
    Ok(())
}
"""
DIGITS = string.digits + string.ascii_lowercase
# The square of the factor of the hash FNV-1a, in 64 bits.
SQUARE = 1_099_511_628_211**2 % 2**64
# The seed and the factor of the toolchain's hash, which its hash maps use.
HASH_SEED = 0x243F_6A88_85A3_08D3
HASH_FACTOR = 0x9E37_79B9_7F4A_7C15


def name(number):
    """A name of four letters and digits for each number below 46,656."""
    return "v" + "".join(DIGITS[number // 36**place % 36] for place in (2, 1, 0))


def numbered(front, piece, between, back, n):
    """The front, so many pieces as there is room for, each with a name of its own for its `@`, and the back."""
    room = n - len(front) - len(back) + len(between)
    count = room // (len(piece) + 3 + len(between))
    text = front + between.join(piece.replace("@", name(i)) for i in range(count)) + back
    return text.ljust(n)


def numbers(first, count):
    return ",".join(str(first + i) for i in range(count))


def keys(first, n):
    """A projection with as many items as keys, each a number; the keys' are those from the first on."""
    count = (n - 17) // 12
    return f"RETURN {numbers(10000, count)} ORDER BY {numbers(first, count)}".ljust(n)


def sums(first, n):
    """The same with sums. A hash that for each word multiplies by FNV's factor and adds gives one number for all of them."""
    count = (n - 17) // 50
    items, others = (
        ",".join(f"{i}+{9_000_000_000_000_000_000 - i * SQUARE}" for i in range(start, start + count)) for start in (1000, first)
    )
    return f"RETURN {items} ORDER BY {others}".ljust(n)


def lists(n):
    """A projection with as many items as keys, each a list that differs from the others in its last element."""
    count = (n - 17) // 256
    items, others = (",".join("[" + "1," * 60 + f"{i}]" for i in range(start, start + count)) for start in (10000, 40000))
    return f"RETURN {items} ORDER BY {others}".ljust(n)


def nested(front, back, n):
    """As many expressions as there is room for, each 62 deep."""
    return filled("RETURN [", front * 62 + "TRUE" + back * 62 + ",", "TRUE] AS x", n)


def folded(a, b):
    """Both halves of the product of 128 bits, joined by exclusive or."""
    product = a * b
    return product % 2**64 ^ product >> 64


def place(name):
    """What hash maps of up to 1,024 groups see of a name of six letters and digits: its group, and a byte of its hash."""
    first, last = (int.from_bytes(name[i : i + 4].encode(), "little") for i in (0, 2))
    state = folded(HASH_SEED ^ first ^ last << 32, HASH_FACTOR ^ 12)
    state = folded(state ^ 0xFFFFFF, HASH_FACTOR ^ 2)
    number = (state ^ state >> 32) % 2**32
    return number % 1024, number >> 24


def colliding(n):
    """A pattern of variables whose names have one place in each such map."""
    with open("bench/colliding_names.txt") as it:
        names = it.read().split()[: (n - 19) // 9]
    if len({place(name) for name in names}) != 1:
        sys.exit("bench/colliding_names.txt: the names have several places")
    return f"MATCH {','.join(f'({name})' for name in names)} RETURN 1 AS x".ljust(n)


def reading(n):
    """A pattern of variables, and an item for each."""
    names = [name(i) for i in range((n - 14) // 12)]
    places, items = ",".join(f"({it})" for it in names), ",".join(names)
    return f"MATCH {places} RETURN {items}".ljust(n)


def shapes(n):
    """Names of lines of n bytes, each with its line and its answer."""
    return {
        "variables": (numbered("MATCH ", "(@)", ",", " RETURN 1 AS x", n), 0),
        "variables, one a clause": (numbered("", "MATCH (@)", " ", " RETURN 1 AS x", n), 0),
        "variables whose hashes collide": (colliding(n), 0),
        "variables that are read": (reading(n), 0),
        "columns of WITH": (numbered("WITH ", "1 AS @", ",", " RETURN 1 AS x", n), 0),
        "columns of RETURN": (("RETURN " + numbers(10000, (n - 7) // 6)).ljust(n), 0),
        "clauses with WITH between them": (filled("MATCH (n) ", "WITH n MATCH (n) ", "RETURN n", n), 0),
        "clauses of WITH": (filled("MATCH (n) ", "WITH n ", "RETURN n", n), 0),
        "keys that repeat an item": (keys(10000, n), 66),
        "keys that repeat none": (keys(40000, n), 66),
        "keys that repeat a sum": (sums(1000, n), 66),
        "keys that repeat no sum": (sums(5000, n), 66),
        "keys that repeat no list": (lists(n), 66),
        "keys of one item": (filled("RETURN 1 ORDER BY 1", ",1", "", n), 66),
        "one path": (numbered("MATCH ()", "--(@)", "", " RETURN 1 AS x", n), 0),
        "one path of relationships": (numbered("MATCH ()", "-[@]-()", "", " RETURN 1 AS x", n), 0),
        "one path to create": (numbered("CREATE ()", "-[:T]->(@)", "", "", n), 62),
        "one path of maps": (filled("MATCH ()", "--({k:1})", " RETURN 1 AS x", n), 0),
        "one map": (filled("MATCH ({", "k:1,", "k:1}) RETURN 1 AS x", n), 0),
        "items of SET": (filled("MATCH (n) SET ", "n.k=1,", "n.k=1", n), 62),
        "variables of DELETE": (filled("MATCH (n) DELETE ", "n,", "n", n), 62),
        "one list": (filled("RETURN [", "1,", "1] AS x", n), 0),
        "one chain of comparisons": (filled("RETURN 1", "<1", " AS x", n), 0),
        "one CASE": (filled("RETURN CASE", " WHEN TRUE THEN 1", " END AS x", n), 0),
        "one call": (filled("RETURN coalesce(", "1,", "1) AS x", n), 0),
        "aggregates": (numbered("RETURN ", "count(*) AS @", ",", "", n), 65),
        "depth 64, of NOT": (nested("NOT ", "", n), 0),
        "depth 64, of coalesce": (nested("coalesce(", ")", n), 0),
        "depth 64, of CASEs": (nested("CASE WHEN TRUE THEN ", " END", n), 0),
        "an unknown name, at the end": (filled("RETURN [", "1,", "x] AS x", n), 30),
    }


def main():
    with tempfile.TemporaryDirectory() as folder:
        program = built(folder, "scope_cost", PROGRAM, LIBRARIES)
        os.environ["GLIBC_TUNABLES"] = "glibc.malloc.mxfast=0"

        def count(line, answer):
            return instructions(program, f"test\n{line}", str(answer)) - instructions(program, f"parse\n{line}", "0")

        least = count("RETURN 1", 0)
        short, long = shapes(16384), shapes(65536)
        worst, most = 0.0, 0
        for shape in short:
            small, large = (count(*lines[shape]) - least for lines in (short, long))
            worst, most = max(worst, large / small), max(most, large)
            print(f"{shape:36} {small:12} {large:12} {large / small:6.2f}", flush=True)
        return 0 if worst < LIMIT and most <= LINE_LIMIT else 1


if __name__ == "__main__":
    sys.exit(main())
