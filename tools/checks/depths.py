"""How deep expressions may be, and how many levels may be open in them."""
import json
from pathlib import Path
from typing import Iterator, Tuple

from checks.program import Failure, run

# How many levels may be open.
OPEN = 256
# A fault's number and its offset; of a line that is read none, whatever is said of its names.
Fault = Tuple[int, int]
READ = (0, 0)
UNEXPECTED, TOO_DEEP = 20, 21
# The numbers of the faults of a line that isn't read.
UNREAD = range(10, 30)
# What stands before and after an expression in one that has one level of depth more.
DEEPER = [
    ("NOT ", ""),
    ("-", ""),
    ("+", ""),
    ("[", "]"),
    ("[1, ", ", 2]"),
    ("f(", ")"),
    ("f(DISTINCT 1, ", ")"),
    ("CASE WHEN ", " THEN 1 END"),
    ("CASE WHEN 1 THEN ", " END"),
    ("CASE WHEN 1 THEN 2 WHEN 3 THEN 4 ELSE ", " END"),
    ("(1 - ", ")"),
    ("(1 = ", ")"),
    ("(", " = 1)"),
    ("(", ":L)"),
    ("", ".k"),
    ("", " * 2"),
    ("", " + 1"),
    ("", " IS NULL"),
    ("", " IS NOT NULL"),
    ("", " IN y"),
    ("", " STARTS WITH y"),
    ("", " AND y"),
    ("", " XOR y"),
    ("", " OR y"),
]
# What opens one level of an expression, and stands before what it opens it for.
OPENINGS = [
    "(",
    "1 + (",
    "[",
    "[1, ",
    "f(",
    "f(DISTINCT 1, ",
    "NOT ",
    "-",
    "+ ",
    "CASE WHEN ",
    "CASE WHEN 1 THEN ",
    "CASE WHEN 1 THEN 2 WHEN ",
    "CASE WHEN 1 THEN 2 ELSE ",
]
# What may stand before an expression.
FRONTS = [
    "RETURN ",
    "RETURN 1 AS a, ",
    "MATCH (n {a: 1, k: ",
    "MATCH (n)-[{k: ",
    "MATCH (n) WHERE ",
    "WITH ",
    "WITH n WHERE ",
    "CREATE (n {k: ",
    "RETURN n ORDER BY ",
    "SET n.k = ",
    "UNWIND ",
]
# Expressions, and in how many brackets each may stand: 256, less one for each level that it opens itself.
LEAVES = [
    ("1", 256),
    ("-5", 256),
    ("x.k:A", 256),
    ("1 + 2 * 3 < 4", 256),
    ("x IS NOT NULL", 256),
    ("[]", 255),
    ("f()", 255),
    ("f(*)", 255),
    ("f(DISTINCT x)", 255),
    ("NOT x", 255),
    ("-x", 255),
    ("+5", 255),
    ("- -5", 255),
    ("CASE WHEN a THEN b END", 255),
    ("[1, [x]]", 254),
    ("NOT -f(x)", 253),
]
# What stands before and after an expression with so many more levels of depth, and the fault: an expression around others may have 64 levels of depth, and not
# one more. It is then refused at its first token, whatever stands after it.
AROUND = [
    ("RETURN ", " AS y", 63, (0, 0)),
    ("RETURN ", " AS y", 64, (21, 7)),
    ("RETURN ", ",,", 64, (21, 7)),
    ("RETURN 1 AS a, [2, ", ",,", 64, (21, 15)),
]
# The same of conditions that AND joins: what stands beside paths after WHERE is one expression.
BESIDE_PATHS = [
    ("MATCH (n) WHERE x", " AND (n)--() RETURN n", 63, (0, 0)),
    ("MATCH (n) WHERE x", " AND (n)--() RETURN n", 64, (21, 16)),
    ("MATCH (n) WHERE (n)--() AND x", " RETURN n", 63, (0, 0)),
    ("MATCH (n) WHERE (n)--() AND x", " RETURN n", 64, (21, 28)),
    ("WITH n WHERE NOT ((n)--()) AND x", " AND (n)--() RETURN n", 64, (21, 31)),
]


def lines() -> Iterator[Tuple[str, Fault]]:
    """Lines, each with its fault."""
    for before, after in DEEPER:
        for front, back, times, fault in AROUND:
            yield front + before * times + "x" + after * times + back, fault
    for front, back, times, fault in BESIDE_PATHS:
        yield front + " AND y" * times + back, fault
    # (levels that are open in the leaf count with those around it, and those that are closed don't, however many there are)
    for front in FRONTS:
        for opening in OPENINGS:
            yield front + opening * OPEN, (UNEXPECTED, len(front) + len(opening) * OPEN)
            yield front + opening * (OPEN + 1), (TOO_DEEP, len(front))
    for leaf, most in LEAVES:
        yield "RETURN " + "(" * most + leaf + ")" * most + " AS x", READ
        yield "RETURN " + "(" * (most + 1) + leaf + ")" * (most + 1) + " AS x", (TOO_DEEP, len("RETURN "))
    yield "RETURN [" + "(NOT x), " * 7_000 + "x]", READ


def test_depths(program: Path) -> str:
    cases = list(lines())
    ended = run(program, given="".join(f"{line}\n" for line, _ in cases).encode())
    replies = [json.loads(it) for it in ended.output.splitlines()]
    if len(replies) != len(cases):
        raise Failure(f"{len(replies)} replies to {len(cases)} lines: {ended.words()}")
    for (line, wanted), reply in zip(cases, replies):
        code = reply.get("code", 0)
        found = (code, reply["at"]) if code in UNREAD else READ
        if found != wanted:
            raise Failure(f"{line[:100]} .. ({len(line)} bytes) has the fault {found}, and not {wanted}")
    return f"{len(cases)} lines as deep as they may be, and deeper"
