#!/usr/bin/env python3
"""Counts the instructions of updates, by valgrind.

Run it at the top of the repository. It builds the program by `rt run` in crates/cypher_live, or takes the one that is named
after it. First come updates of what an index finds, on graphs of 10,000 and of 100,000 nodes with five relationships each,
two indexes and no view; then updates of all nodes, where there are 1,000 and 10,000 of them. For each cost the script prints
both counts and their ratio, which has a limit. A ratio above it ends the script with status 1, and so does a line that isn't
answered as it should be.
"""
import sys

from graph_cost import GROUP, SIZES, built, graph, index, statement
from session import Session, report

LIMIT, ROWS = 1.3, (1_000, 10_000)
# Rows are taken in canonical order, so n rows take n log n: for ten times as many, this many times a row.
ROW_LIMIT = 1.4
TIMES = 20


def refused(text, code):
    return text, f'{{"at":null,"code":{code},'


def one(text, some, **changed):
    return [statement(text.replace("@", str(k)), **changed) for k in some]


def costs(program, size):
    """Names of costs on a graph of so many nodes, each with its count, and whether the limit is for its ratio."""
    some = [size // TIMES * time // GROUP * GROUP for time in range(TIMES)]
    following = [k + 1 for k in some]
    with Session(program) as session:
        session.give(graph(size))
        session.give([index("k"), index("j")])
        yield "CREATE", session.count(one("CREATE (:A {k: -1, j: 0})", some, made=1)), True
        path = one("MATCH (n:A {k: @}) CREATE (n)-[:T]->(:N {j: 0})", some, made=1, rels_made=1)
        yield "CREATE of a path from a node", session.count(path), True
        yield "SET of a property", session.count(one("MATCH (n:A {k: @}) SET n.j = 1", some)), True
        yield "SET of a label", session.count(one("MATCH (n:A {k: @}) SET n:L", some)), True
        yield "REMOVE of a property", session.count(one("MATCH (n:A {k: @}) REMOVE n.j", some)), True
        yield "REMOVE of a label", session.count(one("MATCH (n:A {k: @}) REMOVE n:L", some)), True
        fault = [refused(f"MATCH (n:A {{k: {k}}}) SET n.j = 5 CREATE ({{x: 1 / 0}})", 43) for k in some]
        yield "a SET that is taken back, since a later clause is refused", session.count(fault), True
        left_over = [refused(f"MATCH (n:A {{k: {k}}}) DELETE n", 50) for k in some]
        yield "DELETE of a node that is still connected", session.count(left_over), True
        rels = one("MATCH (n:A {k: @})-[r:T]->(:N) DELETE r", some, rels_gone=1)
        yield "DELETE of a relationship", session.count(rels), True
        delete = one("MATCH (n:A {k: @}) DETACH DELETE n", following, gone=1, rels_gone=5)
        yield "DETACH DELETE of a node with five relationships", session.count(delete), True


def row_costs(program, rows):
    """The same for updates of all nodes with a label, where there are so many, for each of them."""
    with Session(program) as session:
        session.give(graph(rows))
        create = [statement("MATCH (n:A) CREATE (n)-[:T]->(:B)", made=rows, rels_made=rows)]
        yield "CREATE of a path from each of all nodes, a node", session.count(create) / rows, True
        yield "SET of a property of all nodes, a node", session.count([statement("MATCH (n:A) SET n.j = 1")]) / rows, True
        yield "SET of a label of all nodes, a node", session.count([statement("MATCH (n:A) SET n:L")]) / rows, True
        yield "REMOVE of a property of all nodes, a node", session.count([statement("MATCH (n:A) REMOVE n.j")]) / rows, True
        yield "DELETE of a relationship of each, a node", session.count(
            [statement("MATCH (:A)-[r:T]->(:B) DELETE r", rels_gone=rows)]
        ) / rows, True
        delete = [statement("MATCH (n:A) DETACH DELETE n", gone=rows, rels_gone=5 * rows // 2)]
        yield "DETACH DELETE of all nodes, a node", session.count(delete) / rows, True


def main():
    program = sys.argv[1] if len(sys.argv) > 1 else built()
    is_flat = report(lambda size: costs(program, size), *SIZES, LIMIT)
    is_linear = report(lambda rows: row_costs(program, rows), *ROWS, ROW_LIMIT)
    return 0 if is_flat and is_linear else 1


if __name__ == "__main__":
    sys.exit(main())
