#!/usr/bin/env python3
"""Counts the instructions of a line on graphs of 10,000 and of 100,000 nodes, by valgrind, and the memory of a node.

Run it at the top of the repository. It builds the program by `rt run` in crates/cypher_live, or takes the one that is named
after it. Each node has five relationships. For each cost the script prints the count at both sizes and their ratio. A cost
that isn't to grow with the graph has the limit after its ratio. A ratio, a count or a number of bytes above its limit ends
the script with status 1, and so does a line that isn't answered as it should be.
"""
import os
import subprocess
import sys

from session import Session, peak, report

LIMIT = 1.3
SIZES = (10_000, 100_000)
# How many nodes a line makes, of which each is joined with five others of them.
GROUP = 10
# How many lines are counted for a cost.
TIMES = 20
# Labels of some nodes, by how far apart these are. Each has as many nodes as lines are counted.
MARKS = ("B", "C", "D", "E")
# How many nodes have the label that a view asks for.
FEW = 10
KEYS = ("k", "j", "h", "g")
CRATE = "crates/cypher_live"
# Bytes of a node with a label and a property, and instructions of a SET above those of one that finds no node.
BYTES_LIMIT, SET_LIMIT = 600, 1500
# Entries of maps in falling order of their keys, and how much more four times as many may take.
ENTRIES, ENTRIES_LIMIT = (1_000, 4_000), 5
# How often a graph is filled and emptied, by two lines each time, and how many bytes may stay each time.
ROUNDS, ROUND_LIMIT = (5_000, 500_000), 1


def statement(text, made=0, gone=0, rels_made=0, rels_gone=0):
    return text, f'{{"changed":[{made},{gone},{rels_made},{rels_gone}],"columns":[],"rows":[]}}'


def index(key):
    return f":index A {key}", f'{{"index":["A","{key}"]}}'


def joined():
    """Pairs of places in a group of ten nodes, so that each of them stands in five pairs."""
    for place in range(GROUP):
        yield place, (place + 1) % GROUP
        yield place, (place + 2) % GROUP
        if place < GROUP // 2:
            yield place, place + GROUP // 2


def group(first, labels):
    """A line that makes ten nodes from this number on. All have one value at `j`, and each its own at `k`."""
    nodes = ",".join(f"(n{i}:A{labels.get(first + i, '')} {{k: {first + i}, j: 0}})" for i in range(GROUP))
    paths = ",".join(f"(n{a})-[:T]->(n{b})" for a, b in joined())
    return statement(f"CREATE {nodes},{paths}", made=GROUP, rels_made=5 * GROUP // 2)


def graph(size):
    """Lines that make a graph of so many nodes. Those with labels of their own stand evenly among the others."""
    labels = {}
    for at, mark in enumerate(MARKS):
        for time in range(TIMES):
            labels[size // TIMES * time + size // 50 + at * GROUP] = f":{mark}{time}"
    for time in range(FEW):
        labels[size // FEW * time + size // 30] = ":Few"
    return [group(first, labels) for first in range(0, size, GROUP)]


def times(text, **changed):
    """The statement, with each of the numbers below `TIMES` for its `@`."""
    return [statement(text.replace("@", str(i)), **changed) for i in range(TIMES)]


def costs(program, size):
    """Names of costs on a graph of so many nodes, each with its count, and whether the limit is for its ratio."""
    with Session(program) as session:
        session.give(graph(size))
        yield "CREATE", session.count(times("CREATE (:A {k: -1, j: 0})", made=1)), True
        yield "CREATE of a path", session.count(times("CREATE (:A)-[:T]->(:A)", made=2, rels_made=1)), True
        yield "SET of no node", session.count(times("MATCH (n:Q@) SET n.k = -1")), True
        yield "SET of one node", session.count(times("MATCH (n:B@) SET n.k = -1")), True
        yield "SET to the value that is there", session.count(times("MATCH (n:B@) SET n.k = -1")), True
        delete = times("MATCH (n:B@) DETACH DELETE n", gone=1, rels_gone=5)
        yield "DETACH DELETE of a node with five relationships", session.count(delete), True
        session.give([index(key) for key in KEYS])
        yield "CREATE, with four indexes", session.count(times("CREATE (:A {k: -1, j: 0})", made=1)), True
        yield "SET of a value of its own, with four indexes", session.count(times("MATCH (n:C@) SET n.k = -1")), True
        yield "SET of a value that all nodes have", session.count(times("MATCH (n:C@) SET n.j = 1")), True
        yield "SET back to it", session.count(times("MATCH (n:C@) SET n.j = 0")), True
        yield "SET of a property that no node had", session.count(times("MATCH (n:C@) SET n.h = 0")), True
        delete = times("MATCH (n:D@) DETACH DELETE n", gone=1, rels_gone=5)
        yield "DETACH DELETE, with four indexes", session.count(delete), True
        view = [(":view few MATCH (n:Few) RETURN n.j", '{"columns":["n.j"],"tick":')]
        yield "a view of ten nodes", session.count(view), True
        yield "CREATE, with a view that it doesn't fit", session.count(times("CREATE (:A {k: -1, j: 0})", made=1)), True
        yield "CREATE, with a view that it fits", session.count(times("CREATE (:Few {j: 0})", made=1)), True
    with Session(program) as session:
        session.give(graph(size))
        yield "SET of all nodes, a node", session.count([statement("MATCH (n:A) SET n.k = -2")]) / size, True
        session.give([index("j")])
        changed = [statement("MATCH (n:A) SET n.j = 1")]
        yield "SET of a value that all nodes have, with an index, a node", session.count(changed) / size, True
        delete = [statement("MATCH (n:A) DETACH DELETE n", gone=size, rels_gone=5 * size // 2)]
        yield "DETACH DELETE of all nodes, a node", session.count(delete) / size, True


def hub(size):
    """Lines that make so many nodes, each with a value of its own, and a hub with a relationship to each of them."""
    for first in range(0, size, GROUP):
        nodes = ",".join(f"(:L {{k: {i}}})" for i in range(first, first + GROUP))
        yield statement(f"CREATE {nodes}", made=GROUP)
    yield statement("CREATE (:Hub)", made=1)
    yield ":index L k", '{"index":["L","k"]}'
    yield statement("MATCH (h:Hub), (n:L) CREATE (h)-[:T]->(n)", rels_made=size)


def hub_costs(program, size):
    """The same at a hub with so many relationships, one at a time and then all at once."""
    some = [size // TIMES * time + size // 50 for time in range(TIMES)]
    with Session(program) as session:
        session.give(list(hub(size)))
        create = [statement(f"MATCH (h:Hub), (n:L {{k: {k}}}) CREATE (h)-[:T]->(n)", rels_made=1) for k in some]
        yield "CREATE of a relationship at a hub", session.count(create), True
        delete = [statement(f"MATCH (:Hub)-[r:T]->(n:L {{k: {k + 1}}}) DELETE r", rels_gone=1) for k in some]
        yield "DELETE of a relationship at a hub", session.count(delete), True
        delete = [statement(f"MATCH (n:L {{k: {k + 2}}}) DETACH DELETE n", gone=1, rels_gone=1) for k in some]
        yield "DETACH DELETE of a node at a hub", session.count(delete), True
    whole = (
        ("DELETE of all relationships at a hub, each", "MATCH (:Hub)-[r:T]->() DELETE r", 0),
        ("DELETE of these and of the hub, each", "MATCH (h:Hub)-[r:T]->() DELETE r, h", 1),
        ("DETACH DELETE of a hub, a relationship", "MATCH (h:Hub) DETACH DELETE h", 1),
        ("DETACH DELETE of all nodes at a hub, each", "MATCH (n:L) DETACH DELETE n", size),
    )
    for name, text, gone in whole:
        with Session(program) as session:
            session.give(list(hub(size)))
            yield name, session.count([statement(text, gone=gone, rels_gone=size)]) / size, True


def falling_keys(count):
    """A line that makes a node with so many properties, in falling order of their keys."""
    entries = ",".join(f"k{i:04}:0" for i in reversed(range(count)))
    return [statement(f"CREATE ({{{entries}}})", made=1)]


def is_within(name, count, limit):
    print(f"{name:56} {count:12,.0f}  of at most {limit:,}", flush=True)
    return 0 < count <= limit


def has_set_cost(program):
    with Session(program) as session:
        session.give(graph(SIZES[0]))
        missed = session.count(times("MATCH (n:Q@) SET n.k = -1"))
        return is_within("SET of one node, above that of none", session.count(times("MATCH (n:B@) SET n.k = -1")) - missed, SET_LIMIT)


def has_map_cost(program):
    with Session(program) as session:
        # Valgrind can be told nothing before the program has begun.
        session.give([statement("CREATE ()", made=1)])
        small, large = (session.count(falling_keys(count)) for count in ENTRIES)
        print(f"{'a map with falling keys, 1,000 and 4,000':56} {small:12,.0f} {large:12,.0f} {large / small:6.2f}  of at most {ENTRIES_LIMIT}")
        return large <= ENTRIES_LIMIT * small


def has_memory(program):
    size = SIZES[-1]
    alone = [statement(f"CREATE (:A {{k: {i}}})", made=1) for i in range(size)]
    least = peak([program], alone[:1])
    node = (peak([program], alone) - least) / (size - 1)
    bare = [(line.split(",(n0)-")[0], "") for line, _ in graph(size)]
    rel = (peak([program], graph(size)) - peak([program], bare)) / (5 * size // 2)
    print(f"{'bytes of a relationship without properties':56} {rel:12,.0f}")
    return is_within("bytes of a node with a label and a property", node, BYTES_LIMIT)


def rounds(count):
    """Lines that make two nodes and a relationship between them, and remove all of them, so many times."""
    for _ in range(count):
        yield statement("CREATE (:A)-[:T]->(:B)", made=2, rels_made=1)
        yield statement("MATCH (n) DETACH DELETE n", gone=2, rels_gone=1)


def keeps_nothing(program):
    """Whether a graph that is empty again keeps no memory of what was in it."""
    few, many = (peak([program], rounds(count)) for count in ROUNDS)
    kept = (many - few) / (ROUNDS[1] - ROUNDS[0])
    print(f"{'bytes that stay of what was made and removed':56} {kept:12,.1f}  of at most {ROUND_LIMIT}", flush=True)
    return kept <= ROUND_LIMIT


def built(crate=CRATE):
    """The program of a crate, by its path."""
    with open(f"{crate}/stdin") as it:
        subprocess.run(["rt", "run"], cwd=crate, stdin=it, stdout=subprocess.DEVNULL, check=True)
    found = [f"{at}/{it}" for at, _, files in os.walk(f"{crate}/out") for it in files]
    programs = [it for it in found if os.access(it, os.X_OK) and open(it, "rb").read(4) == b"\x7fELF"]
    return programs[0]


def main():
    program = sys.argv[1] if len(sys.argv) > 1 else built()
    held = [has_set_cost(program), has_map_cost(program), has_memory(program), keeps_nothing(program)]
    held.append(report(lambda size: costs(program, size), *SIZES, LIMIT))
    held.append(report(lambda size: hub_costs(program, size), *SIZES, LIMIT))
    return 0 if all(held) else 1


if __name__ == "__main__":
    sys.exit(main())
