#!/usr/bin/env python3
"""Counts the instructions that the values of expressions take, by valgrind.

Run it at the top of the repository. It builds a program over a copy of the crates in a temporary folder, with what their
folders `out/` have, if they are there. The program lexes, parses and checks a statement, and evaluates the expression that
it returns, a stated number of times, on a row of one node. For each of twelve typical expressions the script prints the
instructions of one evaluation with their limit, and how often it takes memory. Then it prints for each shape of
expression the instructions of one evaluation in a statement of 16,384 and in one of 65,536 bytes, and their ratio. Linear
work has a ratio of about 4. The script ends with status 1 where a count is above its limit, memory is taken another number
of times than is stated, a ratio is 4.4 or more, or a value isn't the right one.

The C library merges small blocks that were freed all at one time, once a large block is freed, and that happens with the
longer lines alone. And it copies long texts by one instruction that valgrind counts once for each byte. So the statements are
counted with settings by which it merges each block when it is freed, and copies long texts as it copies short ones.
"""
import os
import re
import subprocess
import sys
import tempfile

from lexer_cost import LIMIT, filled, instructions
from libraries import built

FEW, MANY = 10, 30
SETTINGS = "glibc.malloc.mxfast=0:glibc.cpu.x86_rep_movsb_threshold=1000000000"
LIBRARIES = "cy_expr cy_lexer cy_parser cy_scope cy_trees cy_values"
# Reads a number and a statement, and evaluates what the statement returns so many times. Prints the last value.
PROGRAM = """#![tactic(auto)]

ghost use Rattle.std.specs.Prelude.{◌≡◌, List, [], ◌∷◌, Some, None, All, IfOk, codes, if◌then◌else◌};
ghost use Rattle.std.specs.Str.{bytes_eq};
ghost use Rattle.cy_expr.specs.Lookups.{IsNumbered};

use cy_expr::{EvalFault, Lookups, eval};
use cy_trees::{Clause, Expr, Statement};
use cy_values::{Cell, Entity, Fault, NodeId, RelId, Row, Scalar, Sequence, Text, Value};
use std::alloc::Global;
use std::io;

// A graph in which each node has the labels `A` and `B` and the properties `k` and `m`.
#[derive(Drop)]
struct Graph {
    text: Value,
    number: Value,
}

impl Lookups for Graph {
    ghost lookups = { λ g. record { property_of = λ e key. if bytes_eq key (codes "k") then Some g.text else (if bytes_eq key (codes "m") then Some g.number else None); labels_of = λ n. codes "A" ∷ codes "B" ∷ []; type_of = λ r. codes "T" } };

    fn property(&self, _entity: Entity, key: &str) -> Option<&Value> {
        if key == "k" {
            Some(&self.text)
        } else if key == "m" {
            Some(&self.number)
        } else {
            None
        }
    }

    fn has_label(&self, _node: NodeId, label: &str) -> bool {
        label == "A" || label == "B"
    }

    fn labels(&self, alloc: Global, _node: NodeId) -> Result<Vec<Scalar>, Fault> {
        let mut labels = Vec::new(alloc);
        labels.push(Scalar::Text(Text::from_str(alloc, "A")?))?;
        labels.push(Scalar::Text(Text::from_str(alloc, "B")?))?;
        Ok(labels)
    }

    fn type_of(&self, _rel: RelId) -> &str {
        "T"
    }
}

fn row(alloc: Global) -> Result<Row, EvalFault>
    ensures { IfOk result (λ row. All IsNumbered row) }
{
    let mut cells = Vec::new(alloc);
    cells.push(Cell::Node(NodeId(5)))?;
    Ok(Sequence::new(cells))
}

fn returned(statement: &Statement) -> Option<&Expr> {
    match statement.queries.first()?.clauses.last()? {
        Clause::Return(projection) => Some(&projection.items.first()?.expression),
        _ => None,
    }
}

fn evaluated(alloc: Global, times: u64, expression: &Expr) -> Result<Cell, EvalFault> {
    let row = row(alloc)?;
    let graph = Graph {
        text: Value::Text(Text::from_str(alloc, "abc")?),
        number: Value::Int(7),
    };
    let mut last = Cell::Value(Value::Null);
    for _ in 0..times {
        last = eval(alloc, expression, &row, &graph)?;
    }
    Ok(last)
}

fn answer(alloc: Global, times: u64, line: &str) -> Option<Result<Cell, EvalFault>> {
    let tokens = cy_lexer::lex(alloc, line).ok()?;
    let statement = cy_parser::parse(alloc, tokens.as_slice(), line).ok()?;
    let checked = cy_scope::check(alloc, statement).ok()?;
    Some(evaluated(alloc, times, returned(checked.statement())?))
}

fn main(rt: HostRuntime) -> io::Result<()> {
    let text = io::read_to_string(rt.alloc(), rt.reader())?;
    let Some((times, line)) = text.as_str().split_once('\\n') else {
        return Ok(());
    };
    let times = times.parse::<u64>().unwrap_or(0);
    match answer(rt.alloc(), times, line) {
        Some(Ok(Cell::Value(Value::Bool(truth)))) => println!(rt; "{truth}"),
        Some(Ok(Cell::Value(Value::Int(number)))) => println!(rt; "{number}"),
        Some(Ok(Cell::Value(Value::Text(text)))) => println!(rt; "'{}'", text.as_str()),
        Some(Ok(Cell::Value(Value::Null))) => println!(rt; "null"),
        Some(Ok(_)) => println!(rt; "another cell"),
        Some(Err(fault)) => println!(rt; "fault {}", fault.code()),
        None => println!(rt; "no expression"),
    }
}
"""
# Typical expressions of a node n, whose property k is 'abc' and whose property m is 7. Each has its value, the limit of its
# instructions, and how often it takes memory: once for a text in the answer.
TYPICAL = [
    ("n.k = 'abc'", "true", 700, 0),
    ("n.m < 40", "true", 300, 0),
    ("1 <= n.m < 5", "false", 1050, 0),
    ("n.m IN [1, 2, 3]", "false", 1100, 0),
    ("n.k IN ['x', 'y', 'abc']", "true", 1150, 0),
    ("n.k STARTS WITH 'ab'", "true", 600, 0),
    ("n.k ENDS WITH 'bc'", "true", 600, 0),
    ("n.k CONTAINS 'b'", "true", 700, 0),
    ("n:A:B", "true", 350, 0),
    ("n.z IS NULL AND n.m > 3", "true", 1200, 0),
    ("coalesce(n.z, n.m) + 1", "8", 1100, 0),
    ("CASE WHEN n.m < 5 THEN 'few' ELSE 'many' END", "'many'", 1150, 2),
]


def statement(expression):
    return f"MATCH (n) RETURN {expression} AS x"


def one(front, piece, back, n):
    """A statement of n bytes that returns an expression with so many pieces."""
    return statement(filled(front, piece, back, n - len(statement(""))))


def two(front, opening, piece, between, closing, back, n):
    """The same with two equal operands, each of so many pieces."""
    room = n - len(statement(front + between + back))
    operand = filled(opening, piece, closing, room // 2)
    return statement(front + operand + between + operand + back)


def shapes(n):
    """Names of statements of n bytes, each with the statement and the value of what it returns."""
    return {
        "texts, =": (two("", "'", "x", " = ", "'", "", n), "true"),
        "texts, <": (two("", "'", "x", " < ", "'", "", n), "false"),
        "texts, STARTS WITH": (two("", "'", "x", " STARTS WITH ", "'", "", n), "true"),
        "texts, ENDS WITH": (two("", "'", "x", " ENDS WITH ", "'", "", n), "true"),
        "texts, CONTAINS of a short one": (one("'", "x", "' CONTAINS 'xxy'", n), "false"),
        "texts, CONTAINS of a long one": (one("'", "x", "' CONTAINS '" + "x" * (n // 8) + "y'", n), "false"),
        "texts, size": (one("size('", "x", "') > 1000", n), "true"),
        "texts, +": (two("size(", "'", "x", " + ", "'", ") > 1000", n), "true"),
        "lists, =": (two("", "[", "1,", " = ", "1]", "", n), "true"),
        "lists, <": (two("", "[", "1,", " < ", "1]", "", n), "false"),
        "lists, size": (one("size([", "1,", "1]) > 1000", n), "true"),
        "lists, +": (two("size(", "[", "1,", " + ", "1]", ") > 1000", n), "true"),
        "IN, of numbers": (one("n.m IN [", "1,", "1]", n), "false"),
        "IN, of texts": (one("n.k IN [", "'abd',", "'abc']", n), "true"),
        "IN, of a list that is made": (one("n.m IN coalesce([", "1,", "1])", n), "false"),
    }


def allocations(program, lines):
    """How often the program takes memory for the lines."""
    words = ["valgrind", "--tool=memcheck", "--leak-check=no", program]
    run = subprocess.run(words, input=lines.encode(), capture_output=True, check=True)
    return int(re.search(rb"([\d,]+) allocs", run.stderr).group(1).replace(b",", b""))


def difference(counts):
    """What one evaluation adds to counts of few and of many."""
    few, many = counts
    return (many - few) / (MANY - FEW)


def of_typical(program):
    """Prints the cost of typical expressions, and whether all are within their limits."""
    is_within = True
    for expression, value, limit, taken in TYPICAL:
        lines = [f"{times}\n{statement(expression)}" for times in (FEW, MANY)]
        count = difference(instructions(program, it, value) for it in lines)
        often = difference(allocations(program, it) for it in lines)
        is_within = is_within and 0 < count <= limit and often == taken
        print(f"{expression:44} {count:8.1f}  of at most {limit}, takes memory {often:.0f} times", flush=True)
    return is_within


def of_shapes(program):
    """Prints the cost of shapes of expressions, and whether all are linear."""
    is_within = True
    short, long = shapes(16384), shapes(65536)
    for name, (_, value) in short.items():
        lines = [it[name][0] for it in (short, long)]
        once, twice = ([instructions(program, f"{times}\n{line}", value) for line in lines] for times in (1, 2))
        small, large = (second - first for first, second in zip(once, twice))
        is_within = is_within and large / small < LIMIT
        print(f"{name:36} {small:12} {large:12} {large / small:6.2f}", flush=True)
    return is_within


def main():
    with tempfile.TemporaryDirectory() as folder:
        program = built(folder, "expression_cost", PROGRAM, LIBRARIES)
        is_within = of_typical(program)
        os.environ["GLIBC_TUNABLES"] = SETTINGS
        is_linear = of_shapes(program)
        return 0 if is_within and is_linear else 1


if __name__ == "__main__":
    sys.exit(main())
