#!/usr/bin/env python3
"""Counts the instructions that the plan of a view's query takes, for queries that weigh 64 and 512, by valgrind.

Run it at the top of the repository. It builds a program over a copy of the crates in a temporary folder, with what their
folders `out/` have, if they are there. The program reads a query as far as the test for views, and then plans it, or does
not. For each shape of query the script prints both differences, less that of the lightest query, and their ratio. Linear
work has a ratio of about 8. A larger one than 10 ends the script with status 1, and so does a query that isn't answered as
it should be.

The C library merges small blocks that were freed all at one time, once a large block is freed. So the queries are counted
with a setting by which it merges each block when it is freed.
"""
import os
import sys
import tempfile

from lexer_cost import instructions
from libraries import built

LIMIT = 10
WEIGHTS = 64, 512
LIBRARIES = "cy_lexer cy_parser cy_planner cy_scope"
# Reads a word and a query. Prints the number of the fault of the query, or 0; where the word is `check`, it is not planned.
PROGRAM = """#![tactic(auto)]

use std::alloc::Global;
use std::io;

fn fault(alloc: Global, planning: bool, line: &str) -> u16 {
    let tokens = match cy_lexer::lex(alloc, line) {
        Ok(tokens) => tokens,
        Err(fault) => return fault.code(),
    };
    let statement = match cy_parser::parse(alloc, tokens.as_slice(), line) {
        Ok(statement) => statement,
        Err(fault) => return fault.code(),
    };
    let checked = match cy_scope::check(alloc, statement) {
        Ok(checked) => checked,
        Err(fault) => return fault.code(),
    };
    let query = match cy_scope::check_view(alloc, checked) {
        Ok(query) => query,
        Err(fault) => return fault.code(),
    };
    if !planning {
        return 0;
    }
    match cy_planner::plan(alloc, &query) {
        Ok(_) => 0,
        Err(fault) => fault.code(),
    }
}

fn main(rt: HostRuntime) -> io::Result<()> {
    let text = io::read_to_string(rt.alloc(), rt.reader())?;
    let mut lines = text.as_str().lines();
    let planning = lines.next() == Some("plan");
    for line in lines {
        println!(rt; "{}", fault(rt.alloc(), planning, line))?;
    }
    Ok(())
}
"""


def some(piece, count, between=","):
    """So many pieces, each with its number for its `@`."""
    return between.join(piece.replace("@", str(number)) for number in range(count))


def shapes(weight):
    """Names of queries of this weight."""
    return {
        "items": f"MATCH (n) RETURN {some('1 AS c@', weight - 3)}",
        "items, each of a property": f"MATCH (n) RETURN {some('n.k@ AS c@', weight - 3)}",
        "places of nodes": f"MATCH {some('(v@)', weight - 3)} RETURN 1 AS x",
        "one path": f"MATCH () {some('-->()', (weight - 4) // 2, '')} RETURN 1 AS x",
        "one path, in either direction": f"MATCH () {some('--(v@)', (weight - 4) // 2, '')} RETURN 1 AS x",
        "labels": f"MATCH (n{some(':L@', weight - 4, '')}) RETURN 1 AS x",
        "types": f"MATCH ()-[:{some('T@', weight - 6, '|')}]->() RETURN 1 AS x",
        "entries of a map": f"MATCH (n {{{some('k@: @', weight - 4)}}}) RETURN 1 AS x",
        "entries of a map that read a row": f"MATCH (m) MATCH (n {{{some('k@: m.k@', weight - 6)}}}) RETURN 1 AS x",
        "clauses of MATCH": f"{some('MATCH (v@)', (weight - 2) // 2, ' ')} RETURN 1 AS x",
        "clauses of MATCH, joined": f"MATCH (n) {some('MATCH (n)-->()', (weight - 4) // 4, ' ')} RETURN 1 AS x",
        "clauses of OPTIONAL MATCH": f"MATCH (n) {some('OPTIONAL MATCH (n)-->(v@)', (weight - 4) // 4, ' ')} RETURN 1 AS x",
        "clauses of WITH": f"MATCH (n) {some('WITH n', (weight - 4) // 2, ' ')} RETURN 1 AS x",
        "clauses of WITH, each with WHERE": f"MATCH (n) {some('WITH n WHERE n.k = @', (weight - 4) // 3, ' ')} RETURN 1 AS x",
        "clauses of WITH DISTINCT": f"MATCH (n) {some('WITH DISTINCT n', (weight - 4) // 2, ' ')} RETURN 1 AS x",
        "lengths": f"MATCH () {some('-[*1..5]->()', (weight - 4) // 17, '')} RETURN 1 AS x",
    }


def main():
    with tempfile.TemporaryDirectory() as folder:
        program = built(folder, "planner_cost", PROGRAM, LIBRARIES)
        os.environ["GLIBC_TUNABLES"] = "glibc.malloc.mxfast=0"

        def count(line):
            return instructions(program, f"plan\n{line}", "0") - instructions(program, f"check\n{line}", "0")

        least = count("RETURN 1 AS x")
        light, heavy = (shapes(weight) for weight in WEIGHTS)
        worst = 0.0
        for shape in light:
            small, large = (count(queries[shape]) - least for queries in (light, heavy))
            worst = max(worst, large / small)
            print(f"{shape:36} {small:12} {large:12} {large / small:6.2f}", flush=True)
        return 0 if worst <= LIMIT else 1


if __name__ == "__main__":
    sys.exit(main())
