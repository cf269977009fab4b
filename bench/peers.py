#!/usr/bin/env python3
"""Counts the instructions of the program and of SQLite on the same data and questions, by valgrind.

Run it at the top of the repository, with Debian's package sqlite3. It builds the program by `rt run` in crates/cypher_live, or
takes the one that is named after it. Both load 100,000 nodes and 300,000 relationships, a line each, and answer the same
questions, some of them with paths as conditions and with UNION; SQLite has its database in memory, with an index for each column that
is looked up. For each part the script prints how many instructions a line takes in both, and their ratio. It has no limit: it says how
things stand. It ends with status 1 where one of them answers otherwise than it should.
"""
import random
import re
import subprocess
import sys
import tempfile

from graph_cost import built
from session import Session

NODES, RELS, TIMES, GROUPS = 100_000, 300_000, 1_000, 100
AT_ONCE = 50
# How many nodes are blocked, and how long a way to one of them may be.
BLOCKED, LONGEST = 100, 3
SCHEMA = """CREATE TABLE node (id INTEGER PRIMARY KEY, k INTEGER, g INTEGER, blocked INTEGER);
CREATE INDEX node_k ON node (k);
CREATE TABLE rel (id INTEGER PRIMARY KEY, source INTEGER, target INTEGER);
CREATE INDEX rel_source ON rel (source);
CREATE INDEX rel_target ON rel (target);
"""
HOPS = (
    "SELECT count(*) FROM node a JOIN rel r ON r.source = a.id JOIN rel s ON s.source = r.target AND s.id <> r.id WHERE a.k = {};"
)


EITHER = (
    "SELECT b.g FROM node a JOIN rel r ON r.source = a.id JOIN node b ON b.id = r.target WHERE a.k = {0} "
    "UNION SELECT b.g FROM node a JOIN rel r ON r.target = a.id JOIN node b ON b.id = r.source WHERE a.k = {0};"
)
WAYS = """SELECT count(*) FROM node a WHERE EXISTS (SELECT 1 FROM rel r JOIN node n ON n.id = r.target WHERE r.source = a.id AND (n.blocked
OR EXISTS (SELECT 1 FROM rel s JOIN node m ON m.id = s.target WHERE s.source = n.id AND s.id <> r.id AND (m.blocked
OR EXISTS (SELECT 1 FROM rel t JOIN node l ON l.id = t.target WHERE t.source = m.id AND t.id <> r.id AND t.id <> s.id AND l.blocked)))));"""


def reaching(out, marked, node):
    """Whether a way leads from a node to one that is marked."""
    ways = [(node, ())]
    for _ in range(LONGEST):
        ways = [(target, (*passed, rel)) for via, passed in ways for rel, target in out[via] if rel not in passed]
        if any(target in marked for target, _ in ways):
            return True
    return False


def listed(rows):
    return ",".join(f"[{row}]" for row in rows)


def counted(number):
    return f'{{"changed":[0,0,0,0],"columns":["n"],"rows":[[{number}]]}}'


def changed(made, gone, rels_made):
    return f'{{"changed":[{made},{gone},{rels_made},'


def parts():
    """Names of parts, each with the lines of the program, each with the beginning of its answer, those of SQLite, and what
    SQLite answers to them."""
    chance = random.Random(1)
    ends = [(chance.randrange(NODES), chance.randrange(NODES)) for _ in range(RELS)]
    some = chance.sample(range(NODES), TIMES)
    out = [[] for _ in range(NODES)]
    for rel, (source, target) in enumerate(ends):
        out[source].append((rel, target))
    into = [set() for _ in range(NODES)]
    for source, target in ends:
        into[target].add(source)
    blocked = set(chance.sample(range(NODES), BLOCKED))
    either = [sorted({via % GROUPS for via in into[k]} | {target % GROUPS for _, target in out[k]}) for k in some]
    hops = [sum(second != first for first, via in out[k] for second, _ in out[via]) for k in some]
    yield (
        "a node made",
        [(f"CREATE (:A {{k: {k}, g: {k % GROUPS}}})", changed(1, 0, 0)) for k in range(NODES)],
        [f"INSERT INTO node (k, g, blocked) VALUES ({k}, {k % GROUPS}, 0);" for k in range(NODES)],
        [],
    )
    yield (
        "a relationship made between two that an index finds",
        [(f"MATCH (a:A {{k: {a}}}), (b:A {{k: {b}}}) CREATE (a)-[:T]->(b)", changed(0, 0, 1)) for a, b in ends],
        [f"INSERT INTO rel (source, target) SELECT a.id, b.id FROM node a, node b WHERE a.k = {a} AND b.k = {b};" for a, b in ends],
        [],
    )
    yield (
        "a look-up",
        [(f"MATCH (n:A {{k: {k}}}) RETURN n.g AS n", counted(k % GROUPS)) for k in some],
        [f"SELECT g FROM node WHERE k = {k};" for k in some],
        [str(k % GROUPS) for k in some],
    )
    yield (
        "two hops",
        [
            (f"MATCH (a:A {{k: {k}}})-[:T]->()-[:T]->(c) RETURN count(*) AS n", counted(n))
            for k, n in zip(some, hops, strict=True)
        ],
        [HOPS.format(k) for k in some],
        [str(n) for n in hops],
    )
    yield (
        "groups of all nodes",
        [
            (
                "MATCH (n:A) RETURN n.g AS g, count(*) AS c",
                '{"changed":[0,0,0,0],"columns":["g","c"],"rows":[' + ",".join(f"[{g},{NODES // GROUPS}]" for g in range(GROUPS)),
            )
        ],
        ["SELECT g, count(*) FROM node GROUP BY g;"],
        [f"{g}|{NODES // GROUPS}" for g in range(GROUPS)],
    )
    yield (
        "nodes that no relationship leads to",
        [("MATCH (a:A) WHERE NOT (a)<-[:T]-(:A) RETURN count(*) AS n", counted(sum(not it for it in into)))],
        ["SELECT count(*) FROM node a WHERE NOT EXISTS (SELECT 1 FROM rel r JOIN node b ON b.id = r.source WHERE r.target = a.id);"],
        [str(sum(not it for it in into))],
    )
    yield (
        "a node blocked, found by its key",
        [(f"MATCH (n:A {{k: {k}}}) SET n:Blocked", changed(0, 0, 0)) for k in blocked],
        [f"UPDATE node SET blocked = 1 WHERE k = {k};" for k in blocked],
        [],
    )
    ways = sum(reaching(out, blocked, node) for node in range(NODES))
    yield (
        "nodes with a way of up to three to one that is blocked",
        [("MATCH (a:A) WHERE (a)-[:T*1..3]->(:Blocked) RETURN count(*) AS n", counted(ways))],
        [WAYS],
        [str(ways)],
    )
    yield (
        "neighbours either way, by UNION",
        [
            (
                f"MATCH (:A {{k: {k}}})-[:T]->(b) RETURN b.g AS g UNION MATCH (:A {{k: {k}}})<-[:T]-(b) RETURN b.g AS g",
                f'{{"changed":[0,0,0,0],"columns":["g"],"rows":[{listed(groups)}]}}',
            )
            for k, groups in zip(some, either, strict=True)
        ],
        [EITHER.format(k) for k in some],
        [str(group) for groups in either for group in groups],
    )
    yield (
        "a property changed, found by its key",
        [(f"MATCH (n:A {{k: {k}}}) SET n.g = 7", changed(0, 0, 0)) for k in some],
        [f"UPDATE node SET g = 7 WHERE k = {k};" for k in some],
        [],
    )
    yield (
        "a node removed with its relationships",
        [(f"MATCH (n:A {{k: {k}}}) DETACH DELETE n", changed(0, 1, 0)) for k in some],
        [
            "BEGIN; "
            f"DELETE FROM rel WHERE source = (SELECT id FROM node WHERE k = {k}); "
            f"DELETE FROM rel WHERE target = (SELECT id FROM node WHERE k = {k}); "
            f"DELETE FROM node WHERE k = {k}; COMMIT;"
            for k in some
        ],
        [],
    )


def ours(program):
    """The mean instructions of a line of each part."""
    with Session(program) as session:
        session.give([(":index A k", '{"index":["A","k"]}')])
        return [session.count(lines, AT_ONCE) for _, lines, _, _ in parts()]


def theirs():
    """The same for SQLite, which runs a command between two parts that has valgrind tell the count so far and begin anew."""
    with tempfile.NamedTemporaryFile("w+") as told:
        tell = f".shell vgdb --pid=$PPID status internal >> {told.name} 2>/dev/null; vgdb --pid=$PPID zero >/dev/null 2>&1\n"
        text = SCHEMA + tell + "".join("".join(f"{line}\n" for line in lines) + tell for _, _, lines, _ in parts())
        words = ["valgrind", "--tool=callgrind", "--callgrind-out-file=/dev/null", "sqlite3", "-batch", ":memory:"]
        run = subprocess.run(words, input=text, capture_output=True, check=True, text=True)
        if run.stdout.splitlines() != [it for _, _, _, answers in parts() for it in answers]:
            sys.exit("SQLite answers otherwise")
        told.seek(0)
        counts = [int(it) for it in re.findall(r"events-1: (\d+)", told.read())]
    return [count / len(lines) for count, (_, _, lines, _) in zip(counts[1:], parts(), strict=True)]


def main():
    program = sys.argv[1] if len(sys.argv) > 1 else built()
    print(f"{'':56} {'here':>12} {'SQLite':>12}")
    for (name, _, _, _), here, there in zip(parts(), ours(program), theirs(), strict=True):
        print(f"{name:56} {here:12,.0f} {there:12,.0f} {here / there:6.2f}", flush=True)


if __name__ == "__main__":
    main()
