#!/usr/bin/env python3
"""Counts the instructions of the program's views and of SQLite's triggers on the same data and changes, by valgrind.

Run it at the top of the repository, with Debian's package sqlite3. It builds the program by `rt run` in crates/cypher_live, or
takes the one that is named after it; words after that name the examples that are run, where not all are. For each of the four examples
of `network_cost.py`, and of three with paths as conditions and with UNION, both load a graph of 1,000 and of 100,000 nodes, and then
make a view of it: the program by `:view`, SQLite by a table that triggers written by hand keep, for the kind of change that follows.
Then both make the same changes, a line each. The first one isn't counted: after it the tables of a view have room for more rows. For
each the script prints how many instructions a change takes in both, as a mean, and their ratio, and compares the rows of the views in
the end. Of the program's changes it also prints the median, whose growth with the graph has a limit of 1.3. It ends with status 1 where
the rows differ or that is more.
"""
import json
import re
import subprocess
import sys
import tempfile
from statistics import mean, median
from typing import NamedTuple

from graph_cost import built
from network_cost import BLOCK, LIMIT, SIZES, VIEWS, blocks, graph
from session import Session

HALF = BLOCK // 2


class Example(NamedTuple):
    """A view, whose graph and changes stand in `GRAPHS`, and the same in SQLite."""

    query: str
    tables: str
    # The statements that fill the tables with a block of the graph that begins at this number.
    rows: object
    # What makes the view of tables that are filled, and keeps it.
    view: str
    # A change, by the numbers of a block and of another one.
    change: object
    # What shows the view's rows with their counts.
    shown: str


def insert(table, rows):
    return f"INSERT INTO {table} VALUES {','.join(rows)};"


def members(first):
    yield insert("member", (f"({first + i}, {first})" for i in range(BLOCK - 11)))
    yield insert("may", (f"({first}, {first + i}, '{'read' if i % 2 else 'write'}')" for i in range(10)))


def needs(first):
    yield insert("needs (a, b)", (f"({first + i}, {first + (i + j) % BLOCK})" for i in range(BLOCK) for j in (1, 2)))


def payments(first):
    yield insert("uses", (f"({first + i}, {first + (i + j) % HALF})" for i in range(HALF) for j in (0, 1)))
    yield insert("pays (a, b, amount)", (f"({first + i}, {first + (i + j) % HALF}, 10)" for i in range(HALF) for j in (1, 2, 3)))


def statuses(first):
    yield insert("host", (f"({first + i}, 'h{first + i}')" for i in range(HALF)))
    yield insert("status", (f"({first + i}, {int(i % 2 == 0)}, 'load')" for i in range(HALF)))
    yield insert("has", (f"({first + i}, {first + i})" for i in range(HALF)))


def owned(first):
    """Accounts, of which each has a person, and every second one an owner, and a few of these a second one."""
    persons = ",".join(f"(a{i}:Account {{k: {first + i}, name: 'a{first + i}'}}),(p{i}:Person {{k: {first + i}}})" for i in range(HALF))
    return f"CREATE {persons},{','.join(f'(p{owner})-[:OWNS]->(a{account})' for owner, account in owners())}"


def owners():
    """Which person of a block owns which account of it."""
    yield from ((i, i) for i in range(1, HALF, 2))
    yield from ((i + 1, i) for i in range(1, HALF - 1, 6))


def owned_rows(first):
    yield insert("account", (f"({first + i}, 'a{first + i}')" for i in range(HALF)))
    yield insert("owns", (f"({first + owner}, {first + account})" for owner, account in owners()))


# The account of a block that is blocked.
BLOCKED = 30


def watched(first):
    """Accounts in a ring, with a relationship to each of the next two; one of them is blocked."""
    nodes = ",".join(f"(a{i}:Account{':Blocked' if i == BLOCKED else ''} {{k: {first + i}, name: 'a{first + i}'}})" for i in range(BLOCK))
    return f"CREATE {nodes},{','.join(f'(a{i})-[:T]->(a{(i + j) % BLOCK})' for i in range(BLOCK) for j in (1, 2))}"


def watched_rows(first):
    yield insert("account", (f"({first + i}, 'a{first + i}', {int(i == BLOCKED)})" for i in range(BLOCK)))
    yield insert("t (a, b)", (f"({first + i}, {first + (i + j) % BLOCK})" for i in range(BLOCK) for j in (1, 2)))


# The files and the users of a group.
FILES, USERS = 5, BLOCK - 6


def shared(first):
    """A group with users and with files that its members may read. Every fifth user owns one of these."""
    users = ",".join(f"(u{i}:User {{k: {first + i}}})-[:IN]->(g)" for i in range(USERS))
    files = ",".join(f"(g)-[:MAY]->(f{i}:File {{k: {first + i}}})" for i in range(FILES))
    owns = ",".join(f"(u{i})-[:OWNS]->(f{i % FILES})" for i in range(0, USERS, 5))
    return f"CREATE (g:Group {{k: {first}}}),{users},{files},{owns}"


def shared_rows(first):
    yield insert("member", (f"({first + i}, {first})" for i in range(USERS)))
    yield insert("may", (f"({first}, {first + i})" for i in range(FILES)))
    yield insert("owns", (f"({first + i}, {first + i % FILES})" for i in range(0, USERS, 5)))


# What makes a block of an example's graph, the labels of its indexes, and a statement that changes it.
GRAPHS = {name: (make, labels, lambda first, other, update=update: update(first, other)[0]) for name, (_, make, labels, update, _) in VIEWS.items()}
GRAPHS |= {
    "accounts without an owner": (
        owned,
        ("Account", "Person"),
        lambda first, _: f"MATCH (a:Account {{k: {first + 4}}}), (p:Person {{k: {first + 7}}}) CREATE (p)-[:OWNS]->(a)",
    ),
    "a way to one that is blocked": (
        watched,
        ("Account",),
        lambda first, _: f"MATCH (a:Account {{k: {first + 5}}}), (b:Account {{k: {first + BLOCKED}}}) CREATE (a)-[:T]->(b)",
    ),
    "either of two ways": (
        shared,
        ("User", "Group"),
        lambda first, other: f"MATCH (u:User {{k: {first}}}), (g:Group {{k: {other}}}) CREATE (u)-[:IN]->(g)",
    ),
}
COUNTED = "ON CONFLICT DO UPDATE SET times = times + excluded.times"
EXAMPLES = {
    "access rules": Example(
        "MATCH (u:User)-[:IN]->(g:Group)-[m:MAY]->(r:Resource) WHERE m.role = 'read' RETURN DISTINCT u.k AS u, r.k AS r",
        """CREATE TABLE member (u INTEGER, g INTEGER); CREATE INDEX member_g ON member (g); CREATE INDEX member_u ON member (u);
CREATE TABLE may (g INTEGER, r INTEGER, role TEXT); CREATE INDEX may_g ON may (g, role);
""",
        members,
        f"""CREATE TABLE seen (u INTEGER, r INTEGER, times INTEGER, PRIMARY KEY (u, r)) WITHOUT ROWID;
INSERT INTO seen SELECT u, r, count(*) FROM member JOIN may USING (g) WHERE role = 'read' GROUP BY u, r;
CREATE TRIGGER member_in AFTER INSERT ON member BEGIN
INSERT INTO seen SELECT new.u, r, count(*) FROM may WHERE g = new.g AND role = 'read' GROUP BY r {COUNTED}; END;
""",
        lambda first, other: f"INSERT INTO member VALUES ({first}, {other});",
        "SELECT u, r, 1 FROM seen",
    ),
    "dependency map": Example(
        "MATCH (a:Service)-[r:NEEDS*1..3]->(b) RETURN a.k AS a, b.k AS b, size(r) AS n",
        """CREATE TABLE needs (id INTEGER PRIMARY KEY, a INTEGER, b INTEGER); CREATE INDEX needs_a ON needs (a); CREATE INDEX needs_b ON needs (b);
""",
        needs,
        f"""CREATE TABLE seen (a INTEGER, b INTEGER, n INTEGER, times INTEGER, PRIMARY KEY (a, b, n)) WITHOUT ROWID;
INSERT INTO seen SELECT a, b, n, count(*) FROM (SELECT a, b, 1 AS n FROM needs
UNION ALL SELECT p.a, q.b, 2 FROM needs p JOIN needs q ON q.a = p.b WHERE p.id <> q.id
UNION ALL SELECT p.a, r.b, 3 FROM needs p JOIN needs q ON q.a = p.b JOIN needs r ON r.a = q.b WHERE p.id <> q.id AND q.id <> r.id AND p.id <> r.id) GROUP BY a, b, n;
CREATE TRIGGER needs_in AFTER INSERT ON needs BEGIN
INSERT INTO seen SELECT a, b, n, count(*) FROM (SELECT new.a AS a, new.b AS b, 1 AS n
UNION ALL SELECT p.a, new.b, 2 FROM needs p WHERE p.b = new.a AND p.id <> new.id
UNION ALL SELECT new.a, q.b, 2 FROM needs q WHERE q.a = new.b AND q.id <> new.id
UNION ALL SELECT o.a, new.b, 3 FROM needs p JOIN needs o ON o.b = p.a WHERE p.b = new.a AND p.id <> new.id AND o.id NOT IN (p.id, new.id)
UNION ALL SELECT p.a, q.b, 3 FROM needs p JOIN needs q ON q.a = new.b WHERE p.b = new.a AND p.id <> new.id AND q.id NOT IN (p.id, new.id)
UNION ALL SELECT new.a, r.b, 3 FROM needs q JOIN needs r ON r.a = q.b WHERE q.a = new.b AND q.id <> new.id AND r.id NOT IN (q.id, new.id))
WHERE true GROUP BY a, b, n {COUNTED}; END;
""",
        lambda first, _: f"INSERT INTO needs (a, b) VALUES ({first + 5}, {first + 30});",
        "SELECT a, b, n, times FROM seen",
    ),
    "fraud pattern": Example(
        "MATCH (a:Account)-[:USES]->(d:Device)<-[:USES]-(b:Account), (a)-[p:PAYS]->(b) WHERE p.amount > 1000"
        " RETURN a.k AS a, b.k AS b, d.k AS d, p.amount AS amount",
        """CREATE TABLE uses (a INTEGER, d INTEGER); CREATE INDEX uses_a ON uses (a, d); CREATE INDEX uses_d ON uses (d);
CREATE TABLE pays (id INTEGER PRIMARY KEY, a INTEGER, b INTEGER, amount INTEGER); CREATE INDEX pays_a ON pays (a);
""",
        payments,
        f"""CREATE TABLE seen (a INTEGER, b INTEGER, d INTEGER, amount INTEGER, times INTEGER, PRIMARY KEY (a, b, d, amount)) WITHOUT ROWID;
INSERT INTO seen SELECT p.a, p.b, u.d, p.amount, count(*) FROM pays p JOIN uses u ON u.a = p.a JOIN uses v ON v.a = p.b AND v.d = u.d
WHERE p.amount > 1000 AND u.rowid <> v.rowid GROUP BY 1, 2, 3, 4;
CREATE TRIGGER pays_in AFTER INSERT ON pays WHEN new.amount > 1000 BEGIN
INSERT INTO seen SELECT new.a, new.b, u.d, new.amount, count(*) FROM uses u JOIN uses v ON v.a = new.b AND v.d = u.d
WHERE u.a = new.a AND u.rowid <> v.rowid GROUP BY u.d {COUNTED}; END;
""",
        lambda first, _: f"INSERT INTO pays (a, b, amount) VALUES ({first + 3}, {first + 4}, 5000);",
        "SELECT a, b, d, amount, times FROM seen",
    ),
    # A host without an open status has an empty text in SQLite.
    "dashboard": Example(
        VIEWS["dashboard"][0],
        """CREATE TABLE host (k INTEGER PRIMARY KEY, name TEXT); CREATE TABLE status (k INTEGER PRIMARY KEY, open INTEGER, text TEXT);
CREATE TABLE has (h INTEGER, s INTEGER); CREATE INDEX has_h ON has (h); CREATE INDEX has_s ON has (s);
""",
        statuses,
        f"""CREATE TABLE seen (host TEXT, status TEXT, times INTEGER, PRIMARY KEY (host, status)) WITHOUT ROWID;
INSERT INTO seen SELECT name, ifnull(text, ''), count(*) FROM host LEFT JOIN (SELECT h, text FROM has JOIN status ON status.k = s WHERE open) ON h = host.k GROUP BY 1, 2;
CREATE TRIGGER status_closed AFTER UPDATE OF open ON status WHEN old.open AND NOT new.open BEGIN
UPDATE seen SET times = times - 1 WHERE status = old.text AND host IN (SELECT name FROM has JOIN host ON host.k = h WHERE s = old.k);
DELETE FROM seen WHERE times = 0 AND status = old.text AND host IN (SELECT name FROM has JOIN host ON host.k = h WHERE s = old.k);
INSERT INTO seen SELECT name, '', 1 FROM has JOIN host ON host.k = h WHERE s = old.k
AND NOT EXISTS (SELECT 1 FROM has o JOIN status ON status.k = o.s WHERE o.h = has.h AND open) {COUNTED}; END;
""",
        lambda first, _: f"UPDATE status SET open = 0 WHERE k = {first};",
        "SELECT host, status, times FROM seen",
    ),
    "accounts without an owner": Example(
        "MATCH (a:Account) WHERE NOT (a)<-[:OWNS]-(:Person) RETURN a.name",
        """CREATE TABLE account (k INTEGER PRIMARY KEY, name TEXT);
CREATE TABLE owns (p INTEGER, a INTEGER); CREATE INDEX owns_a ON owns (a); CREATE INDEX owns_p ON owns (p);
""",
        owned_rows,
        f"""CREATE TABLE seen (name TEXT PRIMARY KEY, times INTEGER) WITHOUT ROWID;
INSERT INTO seen SELECT name, count(*) FROM account WHERE NOT EXISTS (SELECT 1 FROM owns WHERE a = k) GROUP BY name;
CREATE TRIGGER owns_in AFTER INSERT ON owns WHEN NOT EXISTS (SELECT 1 FROM owns WHERE a = new.a AND rowid <> new.rowid) BEGIN
UPDATE seen SET times = times - 1 WHERE name = (SELECT name FROM account WHERE k = new.a);
DELETE FROM seen WHERE times = 0 AND name = (SELECT name FROM account WHERE k = new.a); END;
CREATE TRIGGER owns_out AFTER DELETE ON owns WHEN NOT EXISTS (SELECT 1 FROM owns WHERE a = old.a) BEGIN
INSERT INTO seen SELECT name, 1 FROM account WHERE k = old.a {COUNTED}; END;
""",
        lambda first, _: f"INSERT INTO owns VALUES ({first + 7}, {first + 4});",
        "SELECT name, times FROM seen",
    ),
    "a way to one that is blocked": Example(
        "MATCH (a:Account) WHERE (a)-[:T*1..3]->(:Blocked) RETURN a.name",
        """CREATE TABLE account (k INTEGER PRIMARY KEY, name TEXT, blocked INTEGER);
CREATE TABLE t (id INTEGER PRIMARY KEY, a INTEGER, b INTEGER); CREATE INDEX t_a ON t (a); CREATE INDEX t_b ON t (b);
""",
        watched_rows,
        # The ways from each account to one that is blocked are counted.
        f"""CREATE TABLE seen (a INTEGER PRIMARY KEY, times INTEGER);
INSERT INTO seen SELECT a, count(*) FROM (SELECT p.a, p.b FROM t p
UNION ALL SELECT p.a, q.b FROM t p JOIN t q ON q.a = p.b WHERE p.id <> q.id
UNION ALL SELECT p.a, r.b FROM t p JOIN t q ON q.a = p.b JOIN t r ON r.a = q.b WHERE p.id <> q.id AND q.id <> r.id AND p.id <> r.id)
JOIN account ON k = b WHERE blocked GROUP BY a;
CREATE TRIGGER t_in AFTER INSERT ON t BEGIN
INSERT INTO seen SELECT a, count(*) FROM (SELECT new.a AS a, new.b AS b
UNION ALL SELECT p.a, new.b FROM t p WHERE p.b = new.a AND p.id <> new.id
UNION ALL SELECT new.a, q.b FROM t q WHERE q.a = new.b AND q.id <> new.id
UNION ALL SELECT o.a, new.b FROM t p JOIN t o ON o.b = p.a WHERE p.b = new.a AND p.id <> new.id AND o.id NOT IN (p.id, new.id)
UNION ALL SELECT p.a, q.b FROM t p JOIN t q ON q.a = new.b WHERE p.b = new.a AND p.id <> new.id AND q.id NOT IN (p.id, new.id)
UNION ALL SELECT new.a, r.b FROM t q JOIN t r ON r.a = q.b WHERE q.a = new.b AND q.id <> new.id AND r.id NOT IN (q.id, new.id))
JOIN account ON k = b WHERE blocked GROUP BY a {COUNTED}; END;
""",
        lambda first, _: f"INSERT INTO t (a, b) VALUES ({first + 5}, {first + BLOCKED});",
        "SELECT name, 1 FROM seen JOIN account ON k = a",
    ),
    "either of two ways": Example(
        "MATCH (u:User)-[:OWNS]->(f:File) RETURN u.k AS u, f.k AS f UNION MATCH (u:User)-[:IN]->(:Group)-[:MAY]->(f:File) RETURN u.k AS u, f.k AS f",
        """CREATE TABLE member (u INTEGER, g INTEGER); CREATE INDEX member_g ON member (g); CREATE INDEX member_u ON member (u);
CREATE TABLE may (g INTEGER, f INTEGER); CREATE INDEX may_g ON may (g); CREATE INDEX may_f ON may (f);
CREATE TABLE owns (u INTEGER, f INTEGER); CREATE INDEX owns_u ON owns (u); CREATE INDEX owns_f ON owns (f);
""",
        shared_rows,
        f"""CREATE TABLE seen (u INTEGER, f INTEGER, times INTEGER, PRIMARY KEY (u, f)) WITHOUT ROWID;
INSERT INTO seen SELECT u, f, count(*) FROM (SELECT u, f FROM owns UNION ALL SELECT u, f FROM member JOIN may USING (g)) GROUP BY u, f;
CREATE TRIGGER member_in AFTER INSERT ON member BEGIN
INSERT INTO seen SELECT new.u, f, count(*) FROM may WHERE g = new.g GROUP BY f {COUNTED}; END;
""",
        lambda first, other: f"INSERT INTO member VALUES ({first}, {other});",
        "SELECT u, f, 1 FROM seen",
    ),
}


def changes(name, size):
    """The changes of an example, each with the beginning of its answer, and those of SQLite."""
    update, change = GRAPHS[name][2], EXAMPLES[name].change
    for first, other in blocks(size):
        yield (update(first, other), '{"changed":['), change(first, other)


def ours(program, name, size):
    """The instructions of each change, and the rows of the view in the end."""
    make, labels, _ = GRAPHS[name]
    with Session(program) as session:
        session.give(list(graph(make, labels, size)))
        session.give([(f":view v {EXAMPLES[name].query}", '{"columns":[')])
        first, *others = [line for line, _ in changes(name, size)]
        session.give([first])
        counts = session.each(others)
        session.run.stdin.write(":rows v\n")
        session.run.stdin.flush()
        rows = json.loads(session.run.stdout.readline())["rows"]
    return counts, sorted("|".join("" if cell is None else str(cell) for cell in (*row, times)) for row, times in rows)


def theirs(name, size):
    """The same for SQLite."""
    example = EXAMPLES[name]
    with tempfile.NamedTemporaryFile("w+") as told:
        begin = ".shell vgdb --pid=$PPID instrumentation on >/dev/null 2>&1; vgdb --pid=$PPID zero >/dev/null 2>&1"
        end = f".shell vgdb --pid=$PPID status internal >> {told.name} 2>/dev/null"
        load = [line for first in range(0, size, BLOCK) for line in example.rows(first)]
        first, *others = [line for _, line in changes(name, size)]
        lines = [example.tables, "BEGIN;", *load, "COMMIT;", example.view, first, begin, *others, end, f"{example.shown};"]
        words = ["valgrind", "--tool=callgrind", "--callgrind-out-file=/dev/null", "--instr-atstart=no", "sqlite3", "-batch", ":memory:"]
        run = subprocess.run(words, input="\n".join(lines) + "\n", capture_output=True, check=True, text=True)
        told.seek(0)
        (count,) = re.findall(r"events-1: (\d+)", told.read())
    return int(count) / len(others), sorted(run.stdout.splitlines())


def compare(program, name):
    """Prints what a change of an example takes in both, and tells whether the rows are the same and the growth is within the limit."""
    is_same, medians = True, []
    for size in SIZES:
        (counts, rows), (there, others) = ours(program, name, size), theirs(name, size)
        is_same = is_same and rows == others
        medians.append(median(counts))
        here, word = mean(counts), "" if rows == others else "  rows differ"
        print(f"{name:32} {size:8,} {here:12,.0f} {there:12,.0f} {here / there:6.2f} {medians[-1]:12,.0f}{word}", flush=True)
    growth = medians[1] / medians[0]
    print(f"{'growth of the median':32} {growth:8.2f}  of at most {LIMIT}", flush=True)
    return is_same and growth <= LIMIT


def main():
    program = sys.argv[1] if len(sys.argv) > 1 else built()
    names = sys.argv[2:] or list(EXAMPLES)
    print(f"{'':32} {'nodes':>8} {'here':>12} {'SQLite':>12} {'':6} {'median here':>12}")
    results = [compare(program, name) for name in names]
    return 0 if all(results) else 1


if __name__ == "__main__":
    sys.exit(main())
