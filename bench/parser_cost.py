#!/usr/bin/env python3
"""Counts the instructions of the lexer and the parser together, on typical statements and on lines of 16,384 and of
65,536 bytes, by valgrind.

Run it at the top of the repository. It builds a program over a copy of the crates in a temporary folder, with what their
folders `out/` have, if they are there. Of the statements in bench/statements.cypher it prints the instructions a
byte: what the file takes twice less what it takes once. More than 160 end the script with status 1. Then it prints for
each shape of line both counts, without those of the shortest statement, and their ratio. Linear work has a ratio of
about 4. A ratio of 4.4 or more ends the script with status 1, and so does a line that isn't answered as it should be.

The C library merges small blocks that were freed all at one time, once a large block is freed, and that happens with the
longer lines alone. So the lines of each shape are counted with a setting by which it merges each block when it is freed.
"""
import os
import sys
import tempfile

from lexer_cost import LIMIT, fault, filled, instructions
from libraries import built

# Instructions a byte of typical statements, of lexer and parser together.
STATEMENTS_LIMIT = 160
# The lines of bench/statements.cypher.
STATEMENTS = 60
LIBRARIES = "cy_lexer cy_parser"
# Prints how many of its lines are statements, after the number and the offset of each fault.
PROGRAM = """#![tactic(auto)]

use std::alloc::Global;
use std::io;

fn fault(alloc: Global, line: &str) -> Option<(u16, usize)> {
    let tokens = match cy_lexer::lex(alloc, line) {
        Ok(tokens) => tokens,
        Err(fault) => return Some((fault.code(), fault.at().unwrap_or(0))),
    };
    match cy_parser::parse(alloc, tokens.as_slice(), line) {
        Ok(_) => None,
        Err(fault) => Some((fault.code(), fault.at().unwrap_or(0))),
    }
}

fn main(rt: HostRuntime) -> io::Result<()> {
    let lines = io::read_to_string(rt.alloc(), rt.reader())?;
    let mut count: u64 = 0;
    for line in lines.as_str().lines() {
        match fault(rt.alloc(), line) {
            None => count = count.wrapping_add(1),
            Some((code, at)) => println!(rt; "{code} at {at}")?,
        }
    }
    println!(rt; "{count} statements")
}
"""


def statements(count):
    return f"{count} statements"


def refused(code, at):
    return f"{fault(code, at)}\n{statements(0)}"


def good_shapes(n):
    """Names of statements of n bytes."""
    return {
        "256 brackets": filled("RETURN ", "(" * 256 + "1" + ")" * 256 + ",", "1", n),
        "depth 64, of lists": filled("RETURN ", "[" * 63 + "1" + "]" * 63 + ",", "1", n),
        "depth 64, of calls": filled("RETURN ", "f(" * 63 + "1" + ")" * 63 + ",", "1", n),
        "depth 64, of NOT": filled("RETURN ", "NOT " * 63 + "x,", "1", n),
        "depth 64, of signs": filled("RETURN ", "-" * 63 + "x,", "1", n),
        "depth 64, of properties": filled("RETURN ", "x" + ".k" * 63 + ",", "1", n),
        "depth 64, of sums": filled("RETURN ", "x" + "+x" * 63 + ",", "1", n),
        "depth 64, of ORs": filled("RETURN ", "x" + " OR x" * 63 + ",", "1", n),
        "depth 64, of tests for null": filled("RETURN ", "x" + " IS NULL" * 63 + ",", "1", n),
        "depth 64, of CASEs": filled("RETURN ", "CASE WHEN " * 63 + "x" + " THEN 1 END" * 63 + ",", "1", n),
        "one chain of comparisons": filled("RETURN 1", "<1", "", n),
        "one chain of long comparisons": filled("RETURN 1", " <> 1", "", n),
        "one list of numbers": filled("RETURN [", "1,", "1]", n),
        "one list of texts": filled("RETURN [", "'',", "'']", n),
        "one list of lists": filled("RETURN [", "[],", "[]]", n),
        "one call": filled("RETURN f(", "x,", "x)", n),
        "one CASE": filled("RETURN CASE", " WHEN a THEN b", " END", n),
        "CASEs": filled("RETURN [", "CASE WHEN a THEN b ELSE c END,", "1]", n),
        "one path": filled("MATCH ()", "--()", " RETURN 1", n),
        "one path of relationships": filled("MATCH ()", "<-[r:T*1..2{}]-()", " RETURN 1", n),
        "paths": filled("MATCH ", "(),", "() RETURN 1", n),
        "paths as conditions": filled("MATCH () WHERE ", "(a)--(b) AND ", "(a)--(b) RETURN 1", n),
        "denied paths in brackets": filled("MATCH () WHERE ", "NOT ((a)-->()) AND ", "(a)--(b) RETURN 1", n),
        "paths as conditions, with maps": filled("MATCH () WHERE ", "()-[{k:((1))}]-() AND ", "(a)--(b) RETURN 1", n),
        "one path as a condition": filled("MATCH () WHERE (a)", "--()", " RETURN 1", n),
        "one condition before a path": filled("MATCH () WHERE x IN [", "(1),", "1] AND (a)--() RETURN 1", n),
        "one condition in brackets": filled("MATCH () WHERE x IN [", "(" * 250 + "1" + ")" * 250 + ",", "1] RETURN 1", n),
        "comparisons of what looks like paths": filled("MATCH () WHERE (a)--(b)", "=(a)--(b)", " RETURN 1", n),
        "queries with UNION between": filled("RETURN 1 AS n", " UNION RETURN 1 AS n", "", n),
        "queries with UNION ALL between": filled("RETURN 1 AS n", " UNION ALL MATCH () RETURN 1 AS n", "", n),
        "labels": filled("MATCH (", ":A", ") RETURN 1", n),
        "tested labels": filled("RETURN x", ":A", "", n),
        "types": filled("MATCH ()-[:A", "|A", "]-() RETURN 1", n),
        "one map": filled("MATCH ({", "k:1,", "k:1}) RETURN 1", n),
        "maps": filled("MATCH ", "({k:1}),", "() RETURN 1", n),
        "clauses": filled("", "SET n:L ", "", n),
        "clauses of patterns": filled("", "MATCH () ", "RETURN 1", n),
        "clauses of projections": filled("", "WITH n ", "RETURN n", n),
        "items": filled("RETURN ", "n,", "n", n),
        "items with columns": filled("RETURN ", "1 AS x,", "n", n),
        "items with long columns": filled("RETURN ", "n" + "+n" * 40 + ",", "n", n),
        "keys": filled("RETURN n ORDER BY ", "n DESC,", "n", n),
        "items of SET": filled("SET ", "n.k=1,", "n.k=1", n),
        "items of REMOVE": filled("REMOVE ", "n.k,", "n.k", n),
        "variables of DELETE": filled("DELETE ", "n,", "n", n),
        "one name": filled("RETURN ", "x", "", n),
        "one function's name": filled("RETURN ", "X", "()", n),
        "one text": filled("RETURN '", "x", "'", n),
    }


def bad_shapes(n):
    """Names of lines of n bytes that are refused, each with its line and its answer."""
    late = n - 1
    return {
        "257 brackets, the last ones": (
            filled("RETURN ", "(" * 256 + "1" + ")" * 256 + ",", "(" * 257, n),
            refused(21, n - 257),
        ),
        "257 brackets, all of them opened": (filled("RETURN ", "(", "", n), refused(21, 7)),
        "64 NOTs, the last ones": (
            filled("RETURN ", "NOT " * 63 + "x,", "NOT " * 64 + "x", n),
            refused(21, n - 257),
        ),
        "one sum": (filled("RETURN x", "+x", "", n), refused(21, 7)),
        "one chain that ends badly": (filled("RETURN 1", "<1", "<", n), refused(20, n)),
        "one list that isn't closed": (filled("RETURN [1", ",1", "", n), refused(20, n)),
        "one list with a large number": (
            filled("RETURN [", "1,", "9223372036854775808]", n),
            refused(16, n - 20),
        ),
        "one CASE without its END": (filled("RETURN CASE", " WHEN a THEN b", ";", n), refused(20, late)),
        "one path that ends badly": (filled("MATCH ()", "--()", "--", n), refused(20, n)),
        "one path with a bad range": (filled("MATCH ()", "--()", "-[*2..1", n), refused(24, late)),
        "paths as conditions, then OR": (
            filled("MATCH () WHERE ", "(a)--(b) AND ", "(a)--(b) OR x RETURN 1", n),
            refused(20, n - 13),
        ),
        "one path as a condition that ends badly": (filled("MATCH () WHERE (a)", "--()", "--", n), refused(20, n)),
        "65 conditions beside a path, and more": (
            filled("MATCH () WHERE (a)--() AND x", " AND x", " RETURN 1", n),
            refused(21, 27),
        ),
        "brackets before a path": (filled("MATCH () WHERE ", "(", "a)--() RETURN 1", n), refused(21, 15)),
        "NOTs before a path": (filled("MATCH () WHERE ", "NOT ", "(a)-->() RETURN 1", n), refused(21, 15)),
        "queries with UNION between, and ALL": (
            filled("RETURN 1 AS n", " UNION RETURN 1 AS n", " UNION ALL", n),
            refused(20, n - 3),
        ),
        "queries with UNION between, and an update": (
            filled("RETURN 1 AS n", " UNION RETURN 1 AS n", " UNION CREATE ()", n),
            refused(22, n - 9),
        ),
        "one map that isn't closed": (filled("MATCH ({k:1", ",k:1", ")", n), refused(20, late)),
        "clauses without an end": (filled("", "MATCH () ", "", n), refused(22, n)),
        "clauses in a bad order": (filled("", "SET n:L ", "UNWIND", n), refused(22, n - 6)),
        "clauses and a bad word": (filled("", "SET n:L ", "x", n), refused(20, late)),
        "items and a bad word": (filled("RETURN n", ",n", " *", n), refused(20, n)),
    }


def shapes(n):
    """Names of lines of n bytes, each with its line and its answer."""
    good = {name: (line, statements(1)) for name, line in good_shapes(n).items()}
    return good | bad_shapes(n)


def of_statements(program):
    """How many instructions a byte of typical statements takes."""
    with open("bench/statements.cypher") as it:
        text = it.read()
    once, twice = (instructions(program, text * times, statements(STATEMENTS * times)) for times in (1, 2))
    return (twice - once) / len(text.encode())


def main():
    with tempfile.TemporaryDirectory() as folder:
        program = built(folder, "parser_cost", PROGRAM, LIBRARIES)
        a_byte = of_statements(program)
        print(f"{'typical statements, a byte':36} {a_byte:12.1f}", flush=True)
        os.environ["GLIBC_TUNABLES"] = "glibc.malloc.mxfast=0"
        least = instructions(program, "RETURN 1", statements(1))
        short, long = shapes(16384), shapes(65536)
        worst = 0.0
        for name in short:
            small, large = (instructions(program, *lines[name]) - least for lines in (short, long))
            worst = max(worst, large / small)
            print(f"{name:36} {small:12} {large:12} {large / small:6.2f}", flush=True)
        return 0 if worst < LIMIT and a_byte <= STATEMENTS_LIMIT else 1


if __name__ == "__main__":
    sys.exit(main())
