#!/usr/bin/env python3
"""Counts what views cost under loads of all kinds of changes, beside SQLite's triggers, and measures their memory.

Run it at the top of the repository, with Debian's package sqlite3. It builds the program by `rt run` in crates/cypher_live, or takes the
one that is named after it; words after that name are the numbers of nodes, in place of 1,000, 10,000 and 100,000. For each of four
examples, an access view, a dependency map, a fraud pattern and a dashboard, on graphs of about five relationships a node, the program
makes a view by `:view`, and SQLite a table of the same rows with their counts, which triggers written by hand keep. Then both make 1,000
changes, a line each: relationships come and go, properties are set, those that the view reads and others, and nodes are removed. The
script prints how many instructions a change takes in both, as a mean, and their ratio, and ends with status 1 where the rows differ in the
end. Then it runs the program without valgrind, and prints the rows of the view, how long it takes to make it, the memory that this takes
for each row, and the longest of 10,000 changes after it.
"""
import json
import random
import re
import subprocess
import sys
import tempfile
import time
from typing import NamedTuple

from graph_cost import built
from session import AT_ONCE, Session

SIZES = (1_000, 10_000, 100_000)
CHANGES, AFTER = 1_000, 10_000
COUNTED = "ON CONFLICT DO UPDATE SET times = times + excluded.times"


class Example(NamedTuple):
    """A view and the same in SQLite. A line for the program stands beside one for SQLite."""

    query: str
    # The labels whose key `k` has an index.
    labels: tuple
    tables: str
    # The lines that make a graph of about so many nodes.
    graph: object
    # What makes the view of tables that are filled, and keeps it.
    view: str
    # The kinds of changes, each as a function of the number of nodes. The last one, which removes a node, is made once in twenty times, and
    # all others as often as one another.
    changes: tuple
    # What shows the view's rows with their counts.
    shown: str


def node(label, k, **properties):
    """A line that makes a node, and the one that puts a row into the table of the label."""
    written = "".join(f", {key}: {json.dumps(value)}" for key, value in properties.items()).replace('"', "'")
    values = "".join(f", {int(value) if isinstance(value, bool) else repr(value)}" for value in properties.values())
    return f"CREATE (:{label} {{k: {k}{written}}})", f"INSERT INTO {label.lower()} VALUES ({k}{values});"


def link(first, kind, second, one, other):
    """A line that makes a relationship between two nodes that an index finds."""
    made = f"MATCH (a:{first} {{k: {one}}}), (b:{second} {{k: {other}}}) CREATE (a)-[:{kind}]->(b)"
    return made, f"INSERT INTO {kind.lower()} (a, b) VALUES ({one}, {other});"


def unlink(first, kind, one):
    """One that removes the relationships of a type that leave a node."""
    return f"MATCH (:{first} {{k: {one}}})-[r:{kind}]->() DELETE r", f"DELETE FROM {kind.lower()} WHERE a = {one};"


def put(label, key, k, value):
    """One that sets a property."""
    written = json.dumps(value).replace('"', "'")
    return f"MATCH (n:{label} {{k: {k}}}) SET n.{key} = {written}", f"UPDATE {label.lower()} SET {key} = {int(value) if isinstance(value, bool) else repr(value)} WHERE k = {k};"


def gone(label, k):
    """One that removes a node with its relationships."""
    return f"MATCH (n:{label} {{k: {k}}}) DETACH DELETE n", f"DELETE FROM {label.lower()} WHERE k = {k};"


def parts(size):
    """Users, groups and documents."""
    return size * 6 // 10, size * 2 // 10, size * 2 // 10


def access(size):
    users, groups, docs = parts(size)
    yield from (node("User", k, name=f"user {k}", seen=0) for k in range(users))
    yield from (node("Grp", k, name=f"group {k}") for k in range(groups))
    yield from (node("Doc", k, name=f"document {k}") for k in range(docs))
    yield from (link("User", "MEMBER", "Grp", k, g) for k in range(users) for g in random.sample(range(groups), 5))
    yield from (link("Grp", "CAN", "Doc", g, d) for g in range(groups) for d in random.sample(range(docs), 10))


def services(size):
    yield from (node("Service", k, name=f"service {k}", state="down" if k % 50 == 0 else "up", load=0) for k in range(size))
    yield from (link("Service", "NEEDS", "Service", k, other) for k in range(size) for other in others(size, k, 5))


def accounts(size):
    yield from (node("Account", k, name=f"account {k}") for k in range(size))
    yield from (link("Account", "PAID", "Account", k, other) for k in range(size) for other in near(size, k, 5))


def machines(size):
    count = size // 6
    yield from (node("Machine", k, name=f"machine {k}", load=0) for k in range(count))
    for alarm in range(5 * count):
        yield node("Alarm", alarm, open=alarm % 3 == 0)
    yield from (link("Machine", "HAS", "Alarm", alarm // 5, alarm) for alarm in range(5 * count))


def others(size, k, count):
    """Some numbers below a size, none of which is this one."""
    return [other + (other >= k) for other in random.sample(range(size - 1), count)]


def near(size, k, count):
    """Some of the five numbers before and after this one, in a circle: so there are rings."""
    return [(k + step) % size for step in random.sample((*range(-5, 0), *range(1, 6)), count)]


def changed(lines, times):
    """The statements of a trigger that add so many times what a SELECT gives to the table `seen`, whose rows go with their last count."""
    return f"INSERT INTO seen {lines.format(times)} {COUNTED}; DELETE FROM seen WHERE times = 0;"


def triggers(table, lines):
    """Triggers that keep `seen` by the rows of a table. In the lines `row` stands for the row that comes or goes."""
    for word, event, times in (("new", "INSERT", ""), ("old", "DELETE", "-")):
        yield f"CREATE TRIGGER {table}_{word} AFTER {event} ON {table} BEGIN {changed(lines, times).replace('row.', word + '.')} END;\n"


def cascade(table, links):
    """A trigger that removes the relationships of a node before it."""
    return f"CREATE TRIGGER {table}_gone BEFORE DELETE ON {table} BEGIN {''.join(f'DELETE FROM {of} WHERE {end} = old.k;' for of, end in links)} END;\n"


# The ways of up to three relationships through one that comes or goes, with the nodes where they begin and end.
THROUGH = """SELECT a, {}count(*) FROM (SELECT row.a AS a, row.b AS b
UNION ALL SELECT p.a, row.b FROM needs p WHERE p.b = row.a AND p.id <> row.id
UNION ALL SELECT row.a, q.b FROM needs q WHERE q.a = row.b AND q.id <> row.id
UNION ALL SELECT o.a, row.b FROM needs p JOIN needs o ON o.b = p.a WHERE p.b = row.a AND p.id <> row.id AND o.id NOT IN (p.id, row.id)
UNION ALL SELECT p.a, q.b FROM needs p JOIN needs q ON q.a = row.b WHERE p.b = row.a AND p.id <> row.id AND q.id NOT IN (p.id, row.id)
UNION ALL SELECT row.a, r.b FROM needs q JOIN needs r ON r.a = q.b WHERE q.a = row.b AND q.id <> row.id AND r.id NOT IN (q.id, row.id))
JOIN service ON k = b WHERE state = 'down' GROUP BY a"""
# The ways of up to three relationships to one node.
TOWARDS = """SELECT a, {}count(*) FROM (SELECT p.a AS a FROM needs p WHERE p.b = new.k
UNION ALL SELECT o.a FROM needs p JOIN needs o ON o.b = p.a WHERE p.b = new.k AND o.id <> p.id
UNION ALL SELECT n.a FROM needs p JOIN needs o ON o.b = p.a JOIN needs n ON n.b = o.a WHERE p.b = new.k AND o.id <> p.id AND n.id NOT IN (p.id, o.id))
WHERE true GROUP BY a"""
# The rings of three relationships with one that comes or goes, once for each node at which they may begin.
RINGS = """SELECT a, {}count(*) FROM (SELECT row.a AS a FROM paid q JOIN paid r ON r.a = q.b WHERE q.a = row.b AND r.b = row.a AND q.id <> row.id AND r.id NOT IN (q.id, row.id)
UNION ALL SELECT row.b FROM paid q JOIN paid r ON r.a = q.b WHERE q.a = row.b AND r.b = row.a AND q.id <> row.id AND r.id NOT IN (q.id, row.id)
UNION ALL SELECT q.b FROM paid q JOIN paid r ON r.a = q.b WHERE q.a = row.b AND r.b = row.a AND q.id <> row.id AND r.id NOT IN (q.id, row.id)) WHERE true GROUP BY a"""
# The rows of some machines; of one without an open alarm, with -1 in place of it.
MACHINES = """SELECT name, alarm.k, 1 FROM machine JOIN has ON has.a = machine.k JOIN alarm ON alarm.k = has.b WHERE open AND machine.k {0}
UNION ALL SELECT name, -1, 1 FROM machine WHERE k {0} AND NOT EXISTS (SELECT 1 FROM has JOIN alarm ON alarm.k = has.b WHERE has.a = machine.k AND open)"""
# The rows of `seen` with no count left are found by an index of their own.
GONE = "CREATE INDEX seen_gone ON seen (times) WHERE times = 0;\n"


def shown_again(table, event, machine):
    """Triggers that take the rows of some machines away before a change, and put them there again after it."""
    name = f"{table}_{re.sub('[^a-z]', '', event.lower())}"
    of = machine.replace("row.", "old." if "INSERT" not in event else "new.")
    yield f"CREATE TRIGGER {name}_before BEFORE {event} ON {table} BEGIN DELETE FROM seen WHERE name IN (SELECT name FROM machine WHERE k {of}); END;\n"
    yield f"CREATE TRIGGER {name}_after AFTER {event} ON {table} BEGIN INSERT INTO seen SELECT * FROM ({MACHINES.format(of)}) WHERE true {COUNTED}; END;\n"


OF_ALARM = "IN (SELECT a FROM has WHERE b = row.k)"
ENDS = "CREATE TABLE {0} (id INTEGER PRIMARY KEY, a INTEGER, b INTEGER); CREATE INDEX {0}_a ON {0} (a); CREATE INDEX {0}_b ON {0} (b);\n"
any_of = random.randrange
EXAMPLES = {
    "access": Example(
        "MATCH (u:User)-[:MEMBER]->(g:Grp)-[:CAN]->(d:Doc) RETURN u.name, d.name",
        ("User", "Grp", "Doc"),
        "CREATE TABLE user (k INTEGER PRIMARY KEY, name TEXT, seen INTEGER); CREATE TABLE grp (k INTEGER PRIMARY KEY, name TEXT);"
        "CREATE TABLE doc (k INTEGER PRIMARY KEY, name TEXT);\n" + ENDS.format("member") + ENDS.format("can"),
        access,
        "CREATE TABLE seen (u TEXT, d TEXT, times INTEGER, PRIMARY KEY (u, d)) WITHOUT ROWID; CREATE INDEX seen_d ON seen (d);\n"
        + GONE
        + "INSERT INTO seen SELECT user.name, doc.name, count(*) FROM member JOIN can ON can.a = member.b JOIN user ON user.k = member.a JOIN doc ON doc.k = can.b GROUP BY 1, 2;\n"
        + "".join(
            triggers(
                "member",
                "SELECT user.name, doc.name, {}count(*) FROM can JOIN doc ON doc.k = can.b JOIN user ON user.k = row.a WHERE can.a = row.b GROUP BY 1, 2",
            )
        )
        + "".join(
            triggers(
                "can",
                "SELECT user.name, doc.name, {}count(*) FROM member JOIN user ON user.k = member.a JOIN doc ON doc.k = row.b WHERE member.b = row.a GROUP BY 1, 2",
            )
        )
        + "CREATE TRIGGER user_named AFTER UPDATE OF name ON user BEGIN UPDATE seen SET u = new.name WHERE u = old.name; END;\n"
        "CREATE TRIGGER doc_named AFTER UPDATE OF name ON doc BEGIN UPDATE seen SET d = new.name WHERE d = old.name; END;\n"
        + cascade("user", [("member", "a")])
        + cascade("doc", [("can", "b")]),
        (
            lambda size: link("User", "MEMBER", "Grp", any_of(parts(size)[0]), any_of(parts(size)[1])),
            lambda size: unlink("User", "MEMBER", any_of(parts(size)[0])),
            lambda size: put("User", "name", k := any_of(parts(size)[0]), f"user {k} named {any_of(10**9)}"),
            lambda size: put("User", "seen", any_of(parts(size)[0]), any_of(10**9)),
            lambda size: gone("User", any_of(parts(size)[0])),
        ),
        "SELECT u, d, times FROM seen",
    ),
    "dependencies": Example(
        "MATCH (a:Service)-[:NEEDS*1..3]->(b:Service) WHERE b.state = 'down' RETURN DISTINCT a.name",
        ("Service",),
        "CREATE TABLE service (k INTEGER PRIMARY KEY, name TEXT, state TEXT, load INTEGER);\n" + ENDS.format("needs"),
        services,
        # The ways from each service to one that is down are counted.
        "CREATE TABLE seen (a INTEGER PRIMARY KEY, times INTEGER);\n"
        + GONE
        + "INSERT INTO seen SELECT a, count(*) FROM (SELECT p.a, p.b FROM needs p UNION ALL SELECT p.a, q.b FROM needs p JOIN needs q ON q.a = p.b WHERE p.id <> q.id"
        " UNION ALL SELECT p.a, r.b FROM needs p JOIN needs q ON q.a = p.b JOIN needs r ON r.a = q.b WHERE p.id <> q.id AND q.id <> r.id AND p.id <> r.id)"
        " JOIN service ON k = b WHERE state = 'down' GROUP BY a;\n"
        + "".join(triggers("needs", THROUGH))
        + f"CREATE TRIGGER down AFTER UPDATE OF state ON service WHEN new.state = 'down' AND old.state <> 'down' BEGIN INSERT INTO seen {TOWARDS.format('')} {COUNTED}; END;\n"
        + f"CREATE TRIGGER up AFTER UPDATE OF state ON service WHEN new.state <> 'down' AND old.state = 'down' BEGIN {changed(TOWARDS, '-')} END;\n"
        + cascade("service", [("needs", "a"), ("needs", "b")]),
        (
            lambda size: link("Service", "NEEDS", "Service", k := any_of(size), others(size, k, 1)[0]),
            lambda size: unlink("Service", "NEEDS", any_of(size)),
            lambda size: put("Service", "state", any_of(size), random.choice(("up", "down"))),
            lambda size: put("Service", "load", any_of(size), any_of(10**9)),
            lambda size: gone("Service", any_of(size)),
        ),
        "SELECT name, 1 FROM seen JOIN service ON k = a",
    ),
    "fraud": Example(
        "MATCH (a:Account)-[:PAID]->(b:Account)-[:PAID]->(c:Account)-[:PAID]->(a) RETURN a.k",
        ("Account",),
        "CREATE TABLE account (k INTEGER PRIMARY KEY, name TEXT);\n" + ENDS.format("paid"),
        accounts,
        "CREATE TABLE seen (a INTEGER PRIMARY KEY, times INTEGER);\n"
        + GONE
        + "INSERT INTO seen SELECT p.a, count(*) FROM paid p JOIN paid q ON q.a = p.b JOIN paid r ON r.a = q.b AND r.b = p.a WHERE p.id <> q.id AND q.id <> r.id AND p.id <> r.id GROUP BY p.a;\n"
        + "".join(triggers("paid", RINGS))
        + cascade("account", [("paid", "a"), ("paid", "b")]),
        (
            lambda size: link("Account", "PAID", "Account", k := any_of(size), near(size, k, 1)[0]),
            lambda size: unlink("Account", "PAID", any_of(size)),
            lambda size: put("Account", "name", any_of(size), f"named {any_of(10**9)}"),
            lambda size: gone("Account", any_of(size)),
        ),
        "SELECT a, times FROM seen",
    ),
    "dashboard": Example(
        "MATCH (m:Machine) OPTIONAL MATCH (m)-[:HAS]->(al:Alarm {open: true}) RETURN m.name, al.k",
        ("Machine", "Alarm"),
        "CREATE TABLE machine (k INTEGER PRIMARY KEY, name TEXT, load INTEGER); CREATE TABLE alarm (k INTEGER PRIMARY KEY, open INTEGER);\n" + ENDS.format("has"),
        machines,
        "CREATE TABLE seen (name TEXT, alarm INTEGER, times INTEGER, PRIMARY KEY (name, alarm)) WITHOUT ROWID;\n"
        + f"INSERT INTO seen SELECT * FROM ({MACHINES.format('IS NOT NULL')}) WHERE true {COUNTED};\n"
        + "".join(shown_again("alarm", "UPDATE OF open", OF_ALARM))
        + "".join(shown_again("has", "INSERT", "= row.a"))
        + "".join(shown_again("has", "DELETE", "= row.a"))
        + "CREATE TRIGGER named AFTER UPDATE OF name ON machine BEGIN UPDATE seen SET name = new.name WHERE name = old.name; END;\n"
        + "CREATE TRIGGER machine_gone BEFORE DELETE ON machine BEGIN DELETE FROM has WHERE a = old.k; DELETE FROM seen WHERE name = old.name; END;\n"
        + cascade("alarm", [("has", "b")]),
        (
            lambda size: put("Alarm", "open", any_of(size // 6 * 5), random.choice((True, False))),
            lambda size: link("Machine", "HAS", "Alarm", any_of(size // 6), any_of(size // 6 * 5)),
            lambda size: put("Machine", "name", k := any_of(size // 6), f"machine {k} named {any_of(10**9)}"),
            lambda size: put("Machine", "load", any_of(size // 6), any_of(10**9)),
            lambda size: gone("Machine", any_of(size // 6)),
        ),
        "SELECT name, nullif(alarm, -1), times FROM seen",
    ),
}


def made(name, size, count):
    """The lines that make the graph of an example, and those of so many changes, each beside SQLite's."""
    random.seed(size)
    example = EXAMPLES[name]
    *kinds, removal = example.changes
    return list(example.graph(size)), [(removal if any_of(20) == 0 else random.choice(kinds))(size) for _ in range(count)]


def prepared(name, graph):
    """What the program is given before the changes, each line with the beginning of its answer."""
    example = EXAMPLES[name]
    yield from ((f":index {label} k", '{"index":') for label in example.labels)
    yield from ((line, '{"changed":[') for line, _ in graph)


def texts(rows):
    return sorted("|".join("" if cell is None else str(cell) for cell in (*row, times)) for row, times in rows)


def ours(program, name, graph, changes):
    """The instructions of a change, and the rows of the view in the end."""
    with Session(program) as session:
        session.give([*prepared(name, graph), (f":view v {EXAMPLES[name].query}", '{"columns":[')])
        count = session.count([(line, '{"changed":[') for line, _ in changes], AT_ONCE)
        session.run.stdin.write(":rows v\n")
        session.run.stdin.flush()
        return count, texts(json.loads(session.run.stdout.readline())["rows"])


def theirs(name, graph, changes):
    """The same for SQLite."""
    example = EXAMPLES[name]
    with tempfile.NamedTemporaryFile("w+") as told:
        begin = ".shell vgdb --pid=$PPID instrumentation on >/dev/null 2>&1; vgdb --pid=$PPID zero >/dev/null 2>&1"
        end = f".shell vgdb --pid=$PPID status internal >> {told.name} 2>/dev/null"
        lines = [example.tables, "BEGIN;", *(line for _, line in graph), "COMMIT;", example.view, begin, *(line for _, line in changes), end, f"{example.shown};"]
        words = ["valgrind", "--tool=callgrind", "--callgrind-out-file=/dev/null", "--instr-atstart=no", "sqlite3", "-batch", ":memory:"]
        run = subprocess.run(words, input="\n".join(lines) + "\n", capture_output=True, check=True, text=True)
        told.seek(0)
        (count,) = re.findall(r"events-1: (\d+)", told.read())
    return int(count) / len(changes), sorted(run.stdout.splitlines())


def compare(program, name, size):
    """Prints what a change takes in both, and tells whether the rows are the same."""
    graph, changes = made(name, size, CHANGES)
    (here, rows), (there, others) = ours(program, name, graph, changes), theirs(name, graph, changes)
    word = "" if rows == others else "  rows differ"
    print(f"{name:14} {size:8,} {here:12,.0f} {there:12,.0f} {here / there:6.2f}{word}", flush=True)
    return rows == others


def resident(run):
    with open(f"/proc/{run.pid}/status", encoding="ascii") as it:
        return int(re.search(r"VmRSS:\s+(\d+) kB", it.read()).group(1)) * 1024


def measure(program, name, size):
    """Prints the rows of a view, the seconds in which it is made, its memory, and the longest line of those after it.

    The first change isn't told: after it the tables of a view have room for more rows."""
    graph, changes = made(name, size, AFTER)
    with subprocess.Popen([program], stdin=subprocess.PIPE, stdout=subprocess.PIPE, text=True) as run:

        def tell(line):
            run.stdin.write(f"{line}\n")
            run.stdin.flush()
            return run.stdout.readline()

        for line, _ in prepared(name, graph):
            tell(line)
        before, start = resident(run), time.monotonic()
        tell(f":view v {EXAMPLES[name].query}")
        seconds, memory = time.monotonic() - start, resident(run) - before
        rows = len(json.loads(tell(":rows v"))["rows"])
        longest, (first, *others) = 0.0, [line for line, _ in changes]
        tell(first)
        for line in others:
            start = time.monotonic()
            tell(line)
            longest = max(longest, time.monotonic() - start)
        run.stdin.close()
    print(f"{name:14} {size:8,} {rows:10,} {seconds:8.2f} {memory / 1e6:8.1f} {memory / max(rows, 1):8.0f} {longest * 1e3:8.1f}", flush=True)


def main():
    program, *sizes = sys.argv[1:] or [built()]
    sizes = [int(size) for size in sizes] or SIZES
    print(f"{'':14} {'nodes':>8} {'here':>12} {'SQLite':>12}")
    results = [compare(program, name, size) for name in EXAMPLES for size in sizes]
    print(f"\n{'':14} {'nodes':>8} {'rows':>10} {'seconds':>8} {'MB':>8} {'a row':>8} {'longest, ms':>12}")
    for name in EXAMPLES:
        for size in sizes:
            measure(program, name, size)
    return 0 if all(results) else 1


if __name__ == "__main__":
    sys.exit(main())
