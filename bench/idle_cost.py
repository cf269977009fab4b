#!/usr/bin/env python3
"""Counts the instructions that a view takes of a line that doesn't concern it, by valgrind, and times SETs beside many views.

Run it at the top of the repository. It builds the program by `rt run` in crates/cypher_live, or takes the one that is named
after it. A CREATE and a SET of a node with one label are given to a program with one view and with a hundred, each of a label of
its own: what each of the others adds has a limit. Then SETs that are found by an index, each of which touches one view, are
timed with one, ten and a hundred views: those with a hundred have to be half as fast as those with one at least. A count above
its limit, or slower lines, end the script with status 1, and so does a line that isn't answered as it should be.
"""
import subprocess
import sys
from time import perf_counter

from graph_cost import TIMES, built, statement
from session import AT_ONCE, Session

SHAPES = {
    "by a label": ("MATCH (n:B@) RETURN n.k AS k", '"k"'),
    "with a WHERE": ("MATCH (n:B@) WHERE n.j > 5 RETURN n.k AS k", '"k"'),
    "with a map": ("MATCH (n:B@ {j: 1}) RETURN n.k AS k", '"k"'),
    "of a path": ("MATCH (n:B@)-[:T@]->(m:C@) RETURN n.k AS k, m.k AS j", '"k","j"'),
    "of an OPTIONAL MATCH": ("MATCH (n:B@) OPTIONAL MATCH (n)-[:T@]->(m:C@) RETURN n.k AS k, m.k AS j", '"k","j"'),
}
MANY = 100
# Instructions of a line for each view that it doesn't concern.
LIMIT = 100
NODES, SETS, BESIDE = 1_000, 200_000, (1, 10, 100)


def views(count, shape, columns, tick):
    """Lines that make so many views, each of a label of its own."""
    for i in range(count):
        yield f":view v{i} {shape.replace('@', str(i))}", f'{{"columns":[{columns}],"tick":{tick + i + 1},"view":"v{i}"}}'


def nodes(count):
    """Lines that make nodes, each with a number of its own, and an index of these."""
    for i in range(count):
        yield statement(f"CREATE (:A {{k: {i}, j: 0}})", made=1)
    yield ":index A k", '{"index":["A","k"]}'


def costs(program, count, shape, columns):
    """The instructions of a CREATE, and of a SET, with so many views."""
    with Session(program) as session:
        session.give(list(nodes(TIMES)))
        session.give(list(views(count, shape, columns, TIMES)))
        made = session.count([statement("CREATE (:A {k: -1, j: 7})", made=1) for _ in range(TIMES)])
        changed = session.count([statement(f"MATCH (n:A {{k: {i}}}) SET n.j = 7") for i in range(TIMES)])
        return made, changed


def speed(program, count):
    """How many SETs a second it takes, each of which touches one of so many views."""
    lines = [f"MATCH (n:A {{k: {i % NODES}}}) SET n.j = {i}\n" for i in range(SETS)]
    with subprocess.Popen([program], stdin=subprocess.PIPE, stdout=subprocess.PIPE, text=True) as run:

        def give(part):
            run.stdin.write("".join(part))
            run.stdin.flush()
            for _ in part:
                if run.stdout.readline().startswith('{"error"'):
                    sys.exit("a line was refused")

        give([f"{line}\n" for line, _ in nodes(NODES)])
        give([":view touched MATCH (n:A) RETURN n.j AS j\n"])
        give([f"{line}\n" for line, _ in views(count - 1, *SHAPES["by a label"], NODES + 1)])
        begun = perf_counter()
        for start in range(0, SETS, AT_ONCE):
            give(lines[start : start + AT_ONCE])
        took = perf_counter() - begun
        run.stdin.close()
    return SETS / took


def main():
    program = sys.argv[1] if len(sys.argv) > 1 else built()
    is_within = True
    for name, (shape, columns) in SHAPES.items():
        one, many = (costs(program, count, shape, columns) for count in (1, MANY))
        for line, first, last in zip(("CREATE", "SET"), one, many):
            each = (last - first) / (MANY - 1)
            is_within = is_within and each <= LIMIT
            print(f"{line:7} {name:22} with one {first:10,.0f}  each of the others {each:8,.0f}  of at most {LIMIT}", flush=True)
    speeds = [speed(program, count) for count in BESIDE]
    for count, found in zip(BESIDE, speeds):
        print(f"SETs a second with {count:3} views {found:10,.0f}", flush=True)
    is_within = is_within and speeds[-1] * 2 >= speeds[0]
    return 0 if is_within else 1


if __name__ == "__main__":
    sys.exit(main())
