#!/usr/bin/env python3
"""Counts the instructions of lines with many parts, of changes below views of many properties, of lists of relationships along a chain, and
of views of long paths, by valgrind.

Run it at the top of the repository. It builds the program by `rt run` in crates/cypher_live, or takes the one that is named after
it; words after that name the costs that are counted, where not all are. Each cost is counted at two sizes, a fresh program each, and the
script prints the counts, those by the size, and the ratio of these. What is linear in its size has a ratio of about 1; what takes n log n, or
keeps a map, somewhat more. The size of a line is the number of its parts, and that of a change below a view the number of the view's properties. That of a query for the lists along a chain is the number of
relationships in all lists that it finds: each has to be made, and a relationship that is added is compared with those before it. Of a
view of a path, over two relationships from a node to itself, it is the number of relationships that the path has: no row of it uses one
of the two twice, so nothing else is to be kept. A ratio above its limit ends the script with status 1, and so does a line that isn't
answered as it should be.
"""
import sys
from typing import Callable, List, NamedTuple, Tuple

from graph_cost import built
from session import Session

Line = Tuple[str, str]
# A line that is answered without rows or with them, and one that makes a view.
CHANGED, MADE = '{"changed":[', '{"columns":['


class Cost(NamedTuple):
    # The lines before the one that is counted, and that one, by a number, each with the beginning of its answer.
    lines: Callable[[int], List[Line]]
    numbers: Tuple[int, int]
    size: Callable[[int], int]
    limit: float


def parts(count: int, template: str, between: str) -> str:
    """A template so many times, with `#` as the number of each."""
    return between.join(template.replace("#", str(it)) for it in range(count))


def view(query: str) -> List[Line]:
    """A view of a query over two nodes with a relationship between them."""
    return [("CREATE (:A {k: 1})-[:T {k: 1}]->(:B {k: 2})", CHANGED), (f":view v {query}", MADE)]


def below_union(count: int) -> List[Line]:
    """A node more below a view of a UNION, of whose parts one reads so many properties of each node."""
    return [*view(f"MATCH (a) WHERE {parts(count, 'a.k#', '<')}<1 RETURN a UNION MATCH (b:B) RETURN b AS a"), ("CREATE (:C {k: 1})", CHANGED)]


def changes(count: int, *clauses: Tuple[str, str]) -> List[Line]:
    """A node, and a line for each clause, with an item for each of so many keys."""
    return [("CREATE (:A)", CHANGED), *((f"MATCH (a) {word} {parts(count, item, ',')}", CHANGED) for word, item in clauses)]


def unwinds(count: int) -> List[Line]:
    """So many UNWINDs, each of a list of one, after a line that isn't counted."""
    return [("CREATE ()", CHANGED), (f"{parts(count, 'UNWIND [1] AS x#', ' ')} RETURN 1 AS x", CHANGED)]


def chain(count: int) -> List[Line]:
    """A chain of so many nodes, and all ways along it."""
    answer = f'{{"changed":[0,0,0,0],"columns":["n"],"rows":[[{count * (count - 1) // 2}]]}}'
    return [(f"CREATE (){'-[:T]->()' * (count - 1)}", CHANGED), ("MATCH (a)-[*]->(b) RETURN count(*) AS n", answer)]


def listed(count: int) -> int:
    """The relationships in all lists along a chain of so many nodes."""
    links = count - 1
    return links * (links + 1) * (links + 2) // 6


def loops(count: int) -> List[Line]:
    """A node with two relationships to itself, and a view of a path that has no row."""
    return [("CREATE (a)-[:T]->(a), (a)-[:T]->(a)", CHANGED), (f":view v MATCH (a){'-->()' * count} RETURN a", MADE)]


FEW, MANY = 1_000, 4_000
SET, REMOVE = ("SET", "a.k#=1"), ("REMOVE", "a.k#")
COSTS = {
    "a view, properties in WHERE": Cost(lambda n: view(f"MATCH (a) WHERE {parts(n, 'a.k#', '<')}<1 RETURN a"), (FEW, MANY), int, 1.5),
    "a view, properties in WHERE of OPTIONAL MATCH": Cost(
        lambda n: view(f"MATCH (b) OPTIONAL MATCH (a) WHERE {parts(n, 'a.k#', '<')}<1 RETURN a"), (FEW, MANY), int, 1.5
    ),
    "a change below a UNION, properties in WHERE": Cost(below_union, (FEW, MANY), int, 1.5),
    "UNWINDs, each with a column": Cost(unwinds, (750, 3_000), int, 1.5),
    "items of SET, each of a key of one node": Cost(lambda n: changes(n, SET), (FEW, MANY), int, 1.5),
    "items of REMOVE, each of a key of one node": Cost(lambda n: changes(n, SET, REMOVE), (FEW, MANY), int, 1.5),
    "all lists along a chain": Cost(chain, (60, 240), listed, 1.5),
    "a view of a path, over loops": Cost(loops, (6, 12), int, 1.5),
}


def counted(program: str, lines: List[Line]) -> float:
    """How many instructions the last of the lines takes."""
    with Session(program) as session:
        session.give(lines[:-1])
        return session.count(lines[-1:])


def main() -> int:
    program = sys.argv[1] if len(sys.argv) > 1 else built()
    is_within = True
    for name in sys.argv[2:] or COSTS:
        cost = COSTS[name]
        few, many = (counted(program, cost.lines(number)) for number in cost.numbers)
        each, other = few / cost.size(cost.numbers[0]), many / cost.size(cost.numbers[1])
        is_within = is_within and other <= cost.limit * each
        print(f"{name:48} {few:14,.0f} {many:14,.0f} {each:10,.0f} {other:10,.0f} {other / each:6.2f}  of at most {cost.limit}", flush=True)
    return 0 if is_within else 1


if __name__ == "__main__":
    sys.exit(main())
