#!/usr/bin/env python3
"""Counts the instructions of the upkeep of views by networks, by valgrind, and the memory of rows in both kinds of memories.

Run it at the top of the repository. It builds the program by `rt run` in crates/cypher_live, or takes the one that is named after
it. There are four views, such as people would have, on graphs of 1,000 and of 100,000 nodes. A view is made when the graph is
there, and then it is changed by statements, of which each is counted by itself. What the same statement takes without a view is
subtracted, so what is counted is the upkeep, with the entry of the view's feed. A statement that concerns no part of a view is counted
so too. The script prints the medians of both sizes with their ratio, what the dearest statement takes, in which a table of the view
grows, and the most steps of a statement. Beside these stands what the contract of a network allows the first statement at the smaller
size, worked out from the plan that crates/cypher_plan prints. Then it builds a program over a copy of the crates of memories in a
temporary folder, which puts rows into a memory and looks them up, and prints what a look-up takes at both sizes, and the bytes of a row
in each kind. A ratio or a count above its limit ends the script with status 1, and so does a line that isn't answered as it should be.
"""
import json
import subprocess
import sys
import tempfile
from statistics import median

import graph_cost
from libraries import built
from plan_bound import Graph, bound
from session import Session, peak

LIMIT = 1.3
SIZES = (1_000, 100_000)
# How many statements change a graph.
TIMES = 20
# Instructions of a statement that concerns no part of a view.
IDLE_LIMIT = 500
# The nodes that one statement makes, and what is made among them.
BLOCK = 50
# Memories whose bytes are measured have so many rows, of which some have the same key.
ROWS = (1_000, 101_000)
# So many rows have one key where look-ups are counted, and so many look-ups are.
DEGREE, LOOK_UPS = 5, 100
# Bytes that a row of a keyed memory may take: its cells three times, one of a node and one of an integer, and so much more.
KEYED_LIMIT = 3 * 2 * 16 + 64
# Reads the kind of memory, a number of nodes and one of rows, and puts so many rows for each node into a memory whose key is the node. Then it
# reads numbers of nodes, looks up the rows of each, and prints how many there are.
PROGRAM = """#![tactic(auto)]

use cy_network_memory::{KeyedMemory, ListMemory, Made, Memory, MemoryFault};
use cy_values::{Cell, NodeId, Row, Sequence, Value};
use std::alloc::{AllocError, Global};
use std::io::{self, BufRead, BufReader};

fn key_of(alloc: Global, node: u32) -> Result<Row, AllocError> {
    let mut cells = Vec::with_capacity(alloc, 1)?;
    cells.push(Cell::Node(NodeId(u64::from(node))))?;
    Ok(Sequence::new(cells))
}

fn row_of(alloc: Global, node: u32, number: u32) -> Result<Row, AllocError> {
    let mut cells = Vec::with_capacity(alloc, 2)?;
    cells.push(Cell::Node(NodeId(u64::from(node))))?;
    cells.push(Cell::Value(Value::Int(i64::from(number))))?;
    Ok(Sequence::new(cells))
}

fn filled<M: Made>(alloc: Global, nodes: u32, degree: u32) -> Result<M, MemoryFault> {
    let mut memory = M::new(alloc, Vec::from_array(alloc, [0])?);
    for node in 0..nodes {
        for number in 0..degree {
            memory.stage(alloc, &row_of(alloc, node, number)?, 1)?;
        }
        memory.settle();
    }
    Ok(memory)
}

fn rows_at<M: Memory>(alloc: Global, memory: &mut M, node: u32) -> Result<u32, MemoryFault> {
    let mut cursor = memory.look(alloc, &key_of(alloc, node)?)?;
    let mut rows = 0u32;
    for _ in 0..u32::MAX {
        if memory.take(alloc, &mut cursor)?.is_none() {
            break;
        }
        rows = rows.saturating_add(1);
    }
    Ok(rows)
}

fn answered<M: Memory>(alloc: Global, memory: &mut M, line: &str) -> Result<u32, MemoryFault> {
    match line.trim().parse::<u32>() {
        Ok(node) => rows_at(alloc, memory, node),
        Err(_) => Ok(0),
    }
}

fn serve<M: Made>(rt: &HostRuntime, lines: &mut impl BufRead, nodes: u32, degree: u32) -> io::Result<()> {
    let alloc = rt.alloc();
    let Ok(mut memory) = filled::<M>(alloc, nodes, degree) else {
        return println!(rt; "refused");
    };
    println!(rt; "{nodes}")?;
    let mut line = String::new(alloc);
    for _ in 0..u64::MAX {
        line.clear();
        if lines.read_line(&mut line)? == 0 {
            break;
        }
        match answered(alloc, &mut memory, line.as_str()) {
            Ok(rows) => println!(rt; "{rows}")?,
            Err(_) => println!(rt; "refused")?,
        }
    }
    Ok(())
}

fn main(rt: HostRuntime) -> io::Result<()> {
    let alloc = rt.alloc();
    let mut lines = BufReader::new(alloc, rt.reader())?;
    let mut line = String::new(alloc);
    lines.read_line(&mut line)?;
    let words: Vec<&str> = line.as_str().split_whitespace().collect(alloc)?;
    let [kind, nodes, degree] = *words.as_slice() else {
        return Ok(());
    };
    let (Ok(nodes), Ok(degree)) = (nodes.parse::<u32>(), degree.parse::<u32>()) else {
        return Ok(());
    };
    if kind == "list" {
        serve::<ListMemory>(&rt, &mut lines, nodes, degree)
    } else {
        serve::<KeyedMemory>(&rt, &mut lines, nodes, degree)
    }
}
"""

# Prints the plans of queries.
PLANS = "crates/cypher_plan"
# The properties of the graphs, and what shows all nodes and relationships with them.
KEYS = ("k", "name", "open", "text", "role", "amount")
NODES = f"MATCH (n) RETURN n, labels(n) AS l, {', '.join(f'n.{key} AS {key}' for key in KEYS)}"
RELS = f"MATCH (a)-[r]->(b) RETURN r, a, b, type(r) AS t, {', '.join(f'r.{key} AS {key}' for key in KEYS)}"


def names(letter, count):
    return [f"{letter}{i}" for i in range(count)]


def access(first):
    """A group with users and with resources that it may read or write."""
    users = ",".join(f"(u{i}:User {{k: {first + i}}})-[:IN]->(g)" for i in range(BLOCK - 11))
    resources = ",".join(f"(g)-[:MAY {{role: '{'read' if i % 2 else 'write'}'}}]->(:Resource {{k: {first + i}}})" for i in range(10))
    return f"CREATE (g:Group {{k: {first}}}),{users},{resources}"


def services(first):
    """Services in a ring, of which each needs the next two."""
    nodes = ",".join(f"(s{i}:Service {{k: {first + i}}})" for i in range(BLOCK))
    needs = ",".join(f"(s{i})-[:NEEDS]->(s{(i + j) % BLOCK})" for i in range(BLOCK) for j in (1, 2))
    return f"CREATE {nodes},{needs}"


def accounts(first):
    """Accounts, of which each uses two devices, and small payments between neighbours."""
    half = BLOCK // 2
    nodes = ",".join(f"(a{i}:Account {{k: {first + i}}}),(d{i}:Device {{k: {first + i}}})" for i in range(half))
    uses = ",".join(f"(a{i})-[:USES]->(d{(i + j) % half})" for i in range(half) for j in (0, 1))
    pays = ",".join(f"(a{i})-[:PAYS {{amount: 10}}]->(a{(i + j) % half})" for i in range(half) for j in (1, 2, 3))
    return f"CREATE {nodes},{uses},{pays}"


def hosts(first):
    """Hosts, of which every second one has a status that is open."""
    half = BLOCK // 2
    nodes = ",".join(f"(h{i}:Host {{k: {first + i}, name: 'h{first + i}'}}),(s{i}:Status {{k: {first + i}, open: {str(i % 2 == 0).lower()}, text: 'load'}})" for i in range(half))
    has = ",".join(f"(h{i})-[:HAS]->(s{i})" for i in range(half))
    return f"CREATE {nodes},{has}"


# The view, what makes a block of its graph, the labels of its indexes, a statement with the rows that it removes and adds, and the
# most instructions that its upkeep may take at the larger size.
VIEWS = {
    "access rules": (
        "MATCH (u:User)-[:IN]->(g:Group)-[m:MAY]->(r:Resource) WHERE m.role = 'read' RETURN DISTINCT u, r",
        access,
        ("User", "Group"),
        lambda first, other: (f"MATCH (u:User {{k: {first}}}), (g:Group {{k: {other}}}) CREATE (u)-[:IN]->(g)", 0, 5),
        300_000,
    ),
    "dependency map": (
        "MATCH (a:Service)-[r:NEEDS*1..3]->(b) RETURN a, b, size(r) AS n",
        services,
        ("Service",),
        lambda first, other: (f"MATCH (a:Service {{k: {first + 5}}}), (b:Service {{k: {first + 30}}}) CREATE (a)-[:NEEDS]->(b)", 0, 17),
        200_000,
    ),
    "fraud pattern": (
        "MATCH (a:Account)-[:USES]->(d:Device)<-[:USES]-(b:Account), (a)-[p:PAYS]->(b) WHERE p.amount > 1000 RETURN a, b, d, p",
        accounts,
        ("Account",),
        lambda first, other: (f"MATCH (a:Account {{k: {first + 3}}}), (b:Account {{k: {first + 4}}}) CREATE (a)-[:PAYS {{amount: 5000}}]->(b)", 0, 1),
        40_000,
    ),
    "dashboard": (
        "MATCH (h:Host) OPTIONAL MATCH (h)-[:HAS]->(s:Status) WHERE s.open = true RETURN h.name AS host, s.text AS status",
        hosts,
        ("Status",),
        lambda first, other: (f"MATCH (s:Status {{k: {first}}}) SET s.open = false", 1, 1),
        35_000,
    ),
}


def graph(make, labels, size):
    """Lines that make a graph of so many nodes, each with the beginning of its answer."""
    for label in labels:
        yield f":index {label} k", "{"
    for first in range(0, size, BLOCK):
        yield make(first), "{"


def blocks(size):
    """The first numbers of the blocks that the statements change, each with that of another one."""
    step = max(size // BLOCK // TIMES, 1)
    return [(time * step * BLOCK, (time * step + 1) * BLOCK % size) for time in range(TIMES)]


def statements(name, size):
    """The statements that change a view, each with the number of rows that it removes and adds."""
    update = VIEWS[name][3]
    return [update(first, other) for first, other in blocks(size)]


def counted(program, queries, lines, texts):
    """The instructions of each of the statements on a graph, with a view of each query."""
    with Session(program) as session:
        session.give(list(lines))
        session.give([(f":view v{place} {query}", '{"columns":') for place, query in enumerate(queries)])
        return session.each([(text, '{"changed":[') for text in texts])


def upkeep(program, name, size):
    """How many instructions the upkeep of a view takes for a statement: the median, and the most, for that in which its tables grow."""
    query, make, labels, _, _ = VIEWS[name]
    texts = [text for text, _, _ in statements(name, size)]
    found = more(*(counted(program, it, graph(make, labels, size), texts) for it in ([], [query])))
    return median(found), max(found)


def more(few, many):
    """How many instructions each statement takes more in the second case than in the first one."""
    return [with_view - without for without, with_view in zip(few, many, strict=True)]


def answers(program, lines):
    """What the program answers to each line."""
    run = subprocess.run([program], input="".join(f"{line}\n" for line in lines), capture_output=True, check=True, text=True)
    return [json.loads(line) for line in run.stdout.splitlines()]


def most_steps(program, name, size):
    """The most steps that one of the statements took. Each has to change as many rows as it should, by their counts."""
    query, make, labels, _, _ = VIEWS[name]
    made = [line for line, _ in graph(make, labels, size)]
    texts = statements(name, size)
    asked = [line for text, _, _ in texts for line in (text, ":steps")]
    ticks = len(made) - len(labels)
    found = answers(program, [*made, f":view v {query}", *asked, f":since v {ticks + 1}"])
    entries = [tuple(sum(count for _, count in entry[side]) for side in ("removed", "added")) for entry in found[-1]["entries"]]
    if entries != [(removed, added) for _, removed, added in texts]:
        sys.exit(f"{name}: {entries}")
    return max(answer["steps"][0][1] for answer in found if "steps" in answer)


def graph_of(nodes, rels):
    """A graph by what `NODES` and `RELS` are answered."""
    return Graph(
        {n["node"]: (tuple(labels), dict(zip(KEYS, values))) for n, labels, *values in nodes["rows"]},
        {r["rel"]: (a["node"], b["node"], of_type, dict(zip(KEYS, values))) for r, a, b, of_type, *values in rels["rows"]},
    )


def plan_of(plans, query):
    """The text of the plan of a query, which is printed after its weight."""
    printed = subprocess.run([plans], input=query, capture_output=True, check=True, text=True).stdout
    return printed.partition("\n")[2].split("\n\n")[0]


def most_steps_allowed(program, plans, name, size):
    """The bound on the steps of the first statement."""
    query, make, labels, _, _ = VIEWS[name]
    made = [line for line, _ in graph(make, labels, size)]
    text, removed, added = statements(name, size)[0]
    *_, nodes, rels, _, nodes_after, rels_after = answers(program, [*made, NODES, RELS, text, NODES, RELS])
    allowed, *changes = bound(plan_of(plans, query), graph_of(nodes, rels), graph_of(nodes_after, rels_after))
    if changes != [removed, added]:
        sys.exit(f"{name}: {changes} by the plan")
    return allowed


def idle(program, size):
    """How many instructions a statement takes more with a view of which it concerns no part, and with another one beside it."""
    texts = [f"MATCH (a:Account {{k: {first}}}) SET a.j = 1" for first, _ in blocks(size)]
    query = VIEWS["fraud pattern"][0]
    none, one, two = (counted(program, [query] * many, graph(accounts, ("Account",), size), texts) for many in range(3))
    return median(more(none, one)), median(more(one, two))


def bytes_a_row(program, kind, degree):
    """How many bytes a memory has for a row of a node and an integer, where so many rows have one node."""
    few, many = (peak([program], [(f"{kind} {rows // degree} {degree}", "")]) for rows in ROWS)
    return (many - few) / (ROWS[1] - ROWS[0])


def look_up(program, nodes):
    """How many instructions a keyed memory of so many nodes takes to look up the rows of one, and to take each."""
    asked = [(f"{place * nodes // LOOK_UPS}", f"{DEGREE}") for place in range(LOOK_UPS)]
    with Session(program) as session:
        session.give([(f"keyed {nodes} {DEGREE}", f"{nodes}")])
        return session.count(asked) - session.count([("-", "0") for _ in asked])


def memory_program(folder):
    """The program that puts rows into memories, built in a folder."""
    return built(folder, "memory_cost", PROGRAM, "cy_network_memory cy_values")


def all_upkeep(program, plans):
    """Prints what the upkeep of each view takes, and tells whether it is within its limits."""
    is_within = True
    for name in VIEWS:
        most = VIEWS[name][4]
        (few, few_most), (many, many_most) = (upkeep(program, name, size) for size in SIZES)
        is_within = is_within and many <= LIMIT * few and many <= most
        print(f"{name:56} {few:12,.0f} {many:12,.0f} {many / few:6.2f}  of at most {LIMIT} and {most:,}", flush=True)
        print(f"{'its dearest statement':56} {few_most:12,.0f} {many_most:12,.0f}", flush=True)
        steps, allowed = [most_steps(program, name, size) for size in SIZES], most_steps_allowed(program, plans, name, SIZES[0])
        is_within = is_within and steps[0] <= allowed
        print(f"{'its steps':56} {steps[0]:12,} {steps[1]:12,}  of at most {allowed:,}", flush=True)
    return is_within


def main():
    program = sys.argv[1] if len(sys.argv) > 1 else graph_cost.built()
    is_within = all_upkeep(program, graph_cost.built(PLANS))
    for size in SIZES:
        for name, count in zip(("a statement that concerns no part", "the same, for a second view"), idle(program, size)):
            is_within = is_within and count <= IDLE_LIMIT
            print(f"{name + ', at ' + format(size, ','):56} {count:12,.0f}  of at most {IDLE_LIMIT}", flush=True)
    with tempfile.TemporaryDirectory() as folder:
        memories = memory_program(folder)
        few, many = (look_up(memories, size) for size in SIZES)
        is_within = is_within and many <= LIMIT * few
        print(f"{'a look-up of ' + str(DEGREE) + ' rows':56} {few:12,.0f} {many:12,.0f} {many / few:6.2f}  of at most {LIMIT}", flush=True)
        for kind, degree, limit in (("keyed", 1, KEYED_LIMIT), ("keyed", DEGREE, KEYED_LIMIT), ("list", 1, None)):
            count = bytes_a_row(memories, kind, degree)
            is_within = is_within and (limit is None or count <= limit)
            print(f"{f'bytes a row, {kind}, {degree} with a key':56} {count:12,.0f}{f'  of at most {limit}' if limit else ''}", flush=True)
    return 0 if is_within else 1


if __name__ == "__main__":
    sys.exit(main())
