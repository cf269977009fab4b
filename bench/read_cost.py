#!/usr/bin/env python3
"""Counts the instructions of queries on graphs of 10,000 and of 100,000 nodes, of UNWIND over lists of 3,000 and of 30,000 elements, and
of 700 and 2,800 keys of ORDER BY, by valgrind, and the memory of UNWIND and of lists of relationships.

Run it at the top of the repository. It builds the program by `rt run` in crates/cypher_live, or takes the one that is named
after it. Each node has five relationships, and a value of its own at `k`, which has an index. For each cost the script
prints the count at both sizes and their ratio, of which each has a limit. A ratio above it ends the script with status 1,
and so does a query that isn't answered as it should be.
"""
import sys

from graph_cost import GROUP, SIZES, built, graph, hub, index, joined, statement
from session import Session, peak, report

LIMIT = 1.3
# For ten times the rows, n log n takes less than this many times a row.
SORT_LIMIT = 1.4
# How many lines are counted for a cost.
TIMES = 20
# How many elements a list has: a line has room for the longer one.
ELEMENTS = 3_000, 30_000
# How many relationships a list has at most. In a group of ten nodes a node has 105 lists of up to three, and 20,119 of up to seven.
LENGTHS = 3, 7
# How many keys a line has, and how many items that they repeat.
KEYS = 700, 2_800


def answer(text, columns, *rows):
    """A query with the one line that answers it."""
    names = ",".join(f'"{it}"' for it in columns)
    cells = ",".join(f"[{','.join(map(str, row))}]" for row in rows)
    return text, f'{{"changed":[0,0,0,0],"columns":[{names}],"rows":[{cells}]}}'


def walks(place, length):
    """How many paths of so many different relationships, in either direction, begin at a place of a group of nodes."""
    pairs = list(joined())

    def further(at, left, used):
        if not left:
            return 1
        ends = ((i, b if a == at else a) for i, (a, b) in enumerate(pairs) if at in (a, b) and i not in used)
        return sum(further(end, left - 1, used | {i}) for i, end in ends)

    return further(place, length, frozenset())


def followers(place):
    return sum(source == place for source, _ in joined())


def from_one(size):
    """Names of costs from a node that an index finds, each with the query for a node of this number, and what it counts."""
    two = walks(0, 2)
    yield "two hops from a node that an index finds", "MATCH (a:A {k: @})-[:T]-()-[:T]-(c) RETURN count(*) AS n", two
    yield "the same, with that node last", "MATCH (c)-[:T]-()-[:T]-(a:A {k: @}) RETURN count(*) AS n", two
    yield "the same, with that node between", "MATCH (c)-[:T]-(a:A {k: @})-[:T]-(b) RETURN count(*) AS n", 20
    yield "two hops from a node bound by WITH", "MATCH (a:A {k: @}) WITH a MATCH (a)-[:T]-()-[:T]-(c) RETURN count(*) AS n", two
    yield "the same, with that node last", "MATCH (a:A {k: @}) WITH a MATCH (c)-[:T]-()-[:T]-(a) RETURN count(*) AS n", two
    yield "paths of one to three", "MATCH (a:A {k: @})-[:T*1..3]-(c) RETURN count(*) AS n", sum(walks(0, it) for it in (1, 2, 3))
    yield "OPTIONAL MATCH from one row", "MATCH (a:A {k: @}) OPTIONAL MATCH (a)-[:T]->(b) RETURN count(b) AS n", followers(0)


def of_all(size):
    """Names of costs over all nodes, each with its query, what it answers, and the limit of the ratio for a node."""
    yield "a count of all nodes of a label, a node", "MATCH (n:A) RETURN count(*) AS n", size, LIMIT
    yield "OPTIONAL MATCH from all rows, a row", "MATCH (n:A) OPTIONAL MATCH (n)-[:T]->(m) RETURN count(m) AS n", 5 * size // 2, LIMIT
    yield "groups, one a row, a row", "MATCH (n:A) WITH n.k AS k, count(*) AS c RETURN sum(c) AS n", size, SORT_LIMIT
    yield "ten groups, a row", "MATCH (n:A) WITH n.k % 10 AS k, count(*) AS c RETURN count(*) AS n", 10, SORT_LIMIT
    yield "DISTINCT, a row", "MATCH (n:A) WITH DISTINCT n.k AS k RETURN count(*) AS n", size, SORT_LIMIT
    yield "ORDER BY, a row", "MATCH (n:A) WITH n.k AS k ORDER BY k DESC LIMIT 1 RETURN k AS n", size - 1, SORT_LIMIT


def costs(program, size):
    """Names of costs on a graph of so many nodes, each with its count, and whether the limit is for its ratio."""
    some = [size // TIMES * time // GROUP * GROUP for time in range(TIMES)]
    with Session(program) as session:
        session.give(graph(size))
        session.give([index("k")])
        for name, text, count in from_one(size):
            yield name, session.count([answer(text.replace("@", str(k)), ["n"], [count]) for k in some]), True
        pairs = [
            answer(f"MATCH (a:A {{k: {k}}}), (b:A {{k: {k + 1}}}) RETURN a.k AS a, b.k AS b", ["a", "b"], [k, k + 1]) for k in some
        ]
        yield "two nodes that an index finds", session.count(pairs), True
        # The node with this `k` has the next number.
        numbered = [
            answer(f"MATCH (a), (b) WHERE id(a) = {k + 1} AND id(b) = {k + 2} RETURN a.k AS a, b.k AS b", ["a", "b"], [k, k + 1])
            for k in some
        ]
        yield "two nodes that WHERE gives by their numbers", session.count(numbered), True
        hops = [
            answer(f"MATCH (c)-[:T]-()-[:T]-(a) WHERE id(a) = {k + 1} RETURN count(*) AS n", ["n"], [walks(0, 2)]) for k in some
        ]
        yield "two hops from a node that WHERE gives by its number", session.count(hops), True
        # The next node of a group is joined with the first one and with four others.
        between = [
            answer(f"MATCH (a:A {{k: {k}}})-[:T]-(b)-[:T]-(c) WHERE b.k = {k + 1} RETURN count(*) AS n", ["n"], [4]) for k in some
        ]
        yield "two hops, where WHERE fixes the node between", session.count(between), True
        below = [
            answer(f"MATCH (a:A {{k: {k}}})-[:T]-(b)-[:T]-(c) WHERE b.k < {k + 2} RETURN count(*) AS n", ["n"], [4]) for k in some
        ]
        yield "two hops, where WHERE takes one of the nodes between", session.count(below), True


def hub_costs(program, size):
    """Names of costs of what leads from a hub with a relationship to each node to one of these, where both are found before it, and of
    whether anything does."""
    some = [size // TIMES * time + size // 50 for time in range(TIMES)]
    with Session(program) as session:
        session.give(list(hub(size)))
        for name, step in (
            ("from a hub to a node", "-[:T]->"),
            ("the same in either direction", "-[:T]-"),
            ("a list of one or two from a hub to a node", "-[:T*1..2]->"),
            ("a list of one in either direction", "-[:T*1]-"),
        ):
            text = f"MATCH (h:Hub), (n:L {{k: @}}) MATCH (h){step}(n) RETURN count(*) AS n"
            yield name, session.count([answer(text.replace("@", str(k)), ["n"], [1]) for k in some]), True
        session.give([statement("CREATE (:One)-[:T]->(:Leaf)", made=2, rels_made=1)])
        for name, found, condition, count in (
            ("whether anything leads from a hub", "(h:Hub)", "(h)-[:T]->()", 1),
            ("whether nothing leads from a hub", "(h:Hub)", "NOT (h)-[:T]->()", 0),
            ("the same at a node with a single relationship", "(h:One)", "NOT (h)-[:T]->()", 0),
            ("whether nothing of another type leads from a hub to a node", "(h:Hub), (n:L {k: @})", "NOT (h)-[:U]->(n)", 1),
            ("whether nothing does in either direction", "(h:Hub), (n:L {k: @})", "NOT (n)-[:U]-(h)", 1),
        ):
            text = f"MATCH {found} WHERE {condition} RETURN count(*) AS n"
            yield name, session.count([answer(text.replace("@", str(k)), ["n"], [count]) for k in some]), True


def row_costs(program, size):
    with Session(program) as session:
        session.give(graph(size))
        for name, text, count, _ in of_all(size):
            yield name, session.count([answer(text, ["n"], [count])]) / size, True


def list_costs(program, count):
    """Names of costs of UNWIND over a list of so many elements that stands in the row, each for an element."""
    unwound = f"WITH [{','.join('1' * count)}] AS l UNWIND l AS x"
    first = "CREATE ()", '{"changed":[1,0,0,0],"columns":[],"rows":[]}'
    line = answer(f"{unwound} RETURN count(*) AS n", ["n"], [count])
    created = f"{unwound} CREATE ({{k: x}})", f'{{"changed":[{count},0,0,0],"columns":[],"rows":[]}}'
    with Session(program) as session:
        # Valgrind can be told nothing before the program has begun.
        session.give([first])
        yield "UNWIND over a list that stands in the row, an element", session.count([line]) / count, True
        for name, others, value in (
            ("a key", "RETURN DISTINCT x AS c ORDER BY c", 1),
            ("a key that sees the row", "RETURN x AS c ORDER BY x LIMIT 1", 1),
            ("a MATCH", "MATCH (n) RETURN count(*) AS c", count),
            ("another UNWIND", "UNWIND [1] AS y RETURN count(*) AS c", count),
        ):
            yield f"the same before {name}", session.count([answer(f"{unwound} {others}", ["c"], [value])]) / count, True
        yield "the same before CREATE", session.count([created]) / count, True
    least = peak([program], [first])
    yield "the same without a key, bytes of memory", (peak([program], [line]) - least) / count, True
    yield "the same before CREATE, bytes of memory", (peak([program], [created]) - least) / count, True


def key_costs(program, count):
    """The cost of a query with so many keys, each of which repeats an item, for each of them."""
    items = ",".join(f"{it} AS a{it}" for it in range(count))
    keys = ",".join(str(it) for it in reversed(range(count)))
    line = answer(f"RETURN {items} ORDER BY {keys}", [f"a{it}" for it in range(count)], list(range(count)))
    with Session(program) as session:
        session.give([answer("RETURN 1 AS n", ["n"], [1])])
        yield "keys of ORDER BY that repeat items, a key", session.count([line]) / count, True


def trail_costs(program, length):
    """The memory of a query over all lists of up to so many relationships that begin at a node, where WHERE keeps none of them."""
    lines = [*graph(GROUP), answer(f"MATCH (:A {{k: 0}})-[r:T*1..{length}]-(c) WHERE c.k + size(r) < 0 RETURN count(*) AS n", ["n"], [0])]
    yield "lists of relationships that WHERE drops, bytes of memory", peak([program], lines), True


def main():
    program = sys.argv[1] if len(sys.argv) > 1 else built()
    is_flat = report(lambda size: costs(program, size), *SIZES, LIMIT)
    is_sorted = report(lambda size: row_costs(program, size), *SIZES, SORT_LIMIT)
    is_near = report(lambda size: hub_costs(program, size), *SIZES, LIMIT)
    is_linear = report(lambda count: list_costs(program, count), *ELEMENTS, SORT_LIMIT)
    is_looked_up = report(lambda count: key_costs(program, count), *KEYS, SORT_LIMIT)
    is_dropped = report(lambda length: trail_costs(program, length), *LENGTHS, LIMIT)
    return 0 if is_flat and is_sorted and is_near and is_linear and is_looked_up and is_dropped else 1


if __name__ == "__main__":
    sys.exit(main())
