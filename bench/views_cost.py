#!/usr/bin/env python3
"""Counts the instructions of what views cost, by valgrind, and the memory of a row of a view.

Run it at the top of the repository. It builds the program by `rt run` in crates/cypher_live, or takes the one that is named
after it. A CREATE is given to a program with no view, with 1, with 100 and with 256 views that it doesn't concern, and with 100
that it fits; what a view adds has a limit. Then lines are given on graphs of 1,000 and of 100,000 nodes with a view over all of
them: what changes one row of it has a limit for its ratio, and so has what `:since` takes for an entry, and `:rows` for a row. A
count, or a ratio, above its limit ends the script with status 1, and so does a line that isn't answered as it should be.
"""
import sys
from statistics import median

from graph_cost import TIMES, built, graph, index, statement
from session import Session, peak, report

VIEWS, FITTING = (1, 100, 256), 100
# Instructions of a line for each view that it doesn't concern, and for each that gets an entry.
QUIET_LIMIT, ENTRY_LIMIT = 500, 5_000
SIZES, LIMIT = (1_000, 100_000), 1.3
# Rows are sorted to be shown, so n rows take n log n: for a hundred times as many, this many times a row.
ROW_LIMIT = 2
ENTRIES, HISTORY = (10, 1_000), 4096


def made(name, columns, tick):
    return f'{{"columns":[{columns}],"tick":{tick},"view":"{name}"}}'


def views(count, label, tick=0):
    """Lines that make so many views of the nodes with a label."""
    return [
        (f":view {label}{i} MATCH (n:{label}) RETURN n.k AS k", made(f"{label}{i}", '"k"', tick + i + 1)) for i in range(count)
    ]


def create(program, count, label):
    """The instructions of `CREATE (:A {k: 1})` with so many views of the nodes with a label."""
    with Session(program, "--history", "1") as session:
        session.give(views(count, label))
        lines = [statement("CREATE (:A {k: 1})", made=1) for _ in range(TIMES)]
        session.give(lines)
        return session.count(lines)


def per_view(program):
    """Names of costs of a view, each with its count and its limit."""
    none = create(program, 0, "B")
    for count in VIEWS:
        yield f"a view that a CREATE doesn't concern, of {count}", (create(program, count, "B") - none) / count, QUIET_LIMIT
    yield f"a view that a CREATE fits, of {FITTING}, with its entry", (create(program, FITTING, "A") - none) / FITTING, ENTRY_LIMIT


def counted(session, lines):
    """The median of the instructions of single lines: in a few of them a table of a view grows."""
    return median(session.each(lines))


def on_graph(program, size):
    """Names of costs with a view over all nodes of a graph, each with its count, and whether the limit is for its ratio."""
    with Session(program) as session:
        session.give(graph(size))
        session.give([index("k")])
        tick = size // 10 + 1
        session.give([(":view v MATCH (n:A) RETURN n.k AS k, n.j AS j", made("v", '"k","j"', tick))])
        session.give([(":view w MATCH (a:A)-[:T]->(b:A) RETURN a.k AS a, b.k AS b", made("w", '"a","b"', tick + 1))])
        some = [size // TIMES * time for time in range(TIMES)]
        lines = [statement(f"MATCH (n:A {{k: {k}}}) SET n.j = 1") for k in some]
        yield "SET of a property of a node with a row", counted(session, lines), True
        lines = [statement(f"MATCH (a:A {{k: {k}}}), (b:A {{k: {k + 3}}}) CREATE (a)-[:T]->(b)", rels_made=1) for k in some]
        yield "CREATE of a relationship with a row", counted(session, lines), True
        lines = [statement(f"MATCH (n:A {{k: {k + 1}}}) DETACH DELETE n", gone=1, rels_gone=5) for k in some]
        yield "DETACH DELETE of a node with six rows", counted(session, lines), True


def shown(program, size):
    """What `:rows` takes for a row of so many."""
    with Session(program) as session:
        session.give(graph(size))
        session.give([(":view v MATCH (n:A) RETURN n.k AS k", made("v", '"k"', size // 10 + 1))])
        yield ":rows, a row", session.count([(":rows v", '{"rows":[[[0],1],')]) / size, True


def since(program, count):
    """What `:since` takes for an entry, where it answers so many of 2,000."""
    with Session(program, "--history", str(HISTORY)) as session:
        session.give([(":view v MATCH (n:A) RETURN n.k AS k", made("v", '"k"', 1))])
        session.give([statement(f"CREATE (:A {{k: {i}}})", made=1) for i in range(2_000)])
        yield ":since, an entry", session.count([(f":since v {2_001 - count}", '{"entries":[{"added":[[[')]) / count, True


def bytes_of_row(program):
    """The memory that a row of a view takes, as the difference of a run with a view of 100,000 rows and one without."""
    lines = graph(100_000)
    view = [(":view v MATCH (n:A) RETURN n.k AS k", "")]
    return (peak([program], lines + view) - peak([program], lines)) / 100_000


def main():
    program = sys.argv[1] if len(sys.argv) > 1 else built()
    is_within = True
    for name, count, limit in per_view(program):
        is_within = is_within and count <= limit
        print(f"{name:56} {count:12,.0f}  of at most {limit:,}", flush=True)
    is_within = report(lambda size: on_graph(program, size), *SIZES, LIMIT) and is_within
    is_within = report(lambda size: shown(program, size), *SIZES, ROW_LIMIT) and is_within
    is_within = report(lambda count: since(program, count), *ENTRIES, LIMIT) and is_within
    print(f"{'memory of a row of a view, in bytes':56} {bytes_of_row(program):12,.0f}", flush=True)
    return 0 if is_within else 1


if __name__ == "__main__":
    sys.exit(main())
