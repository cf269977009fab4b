#!/usr/bin/env python3
"""Counts the instructions of changes and look-ups of a store that lines can't ask for yet, by valgrind.

Run it at the top of the repository. It builds a program over a copy of the crates in a temporary folder, with what their
folders `out/` have, if they are there. The program has a store, and reads lines that each name a step, or a look-up. The
store has 10,000 or 100,000 nodes, and a hub with a relationship to each of them. For each cost the script prints the count at
both sizes and their ratio. A ratio above 1.3 ends it with status 1, and so does a property whose change takes more than its
limit above one that finds no node, memory that stays of what was made and removed, or a line that isn't answered as it should
be. What a change touched is asked for before it ends, as the engine does.
"""
import os
import sys
import tempfile

from libraries import built
from session import Session, peak, report

LIMIT = 1.3
SIZES = (10_000, 100_000)
# How many lines are counted for a cost, and how many nodes a look-up is to find.
TIMES, FEW = 20, 10
# How many look-ups are counted in a change of all nodes, which takes much more than each of them.
MANY = 5000
# Instructions of a property that is set, above those of one that is to be set where no node is.
SET_LIMIT = 1500
# How often a store is filled and emptied, by six lines or so each time, and how many bytes may stay each time.
ROUNDS, ROUND_LIMIT = (1_700, 180_000), 1
LIBRARIES = "cy_graph cy_index cy_values"
# Each line is a step after `keep` or `undo`, which says how its change ends, or a look-up. It is answered by the number of what
# was found, by 0 after a step, or by a fault's number.
PROGRAM = """#![tactic(auto)]

ghost use Rattle.std.specs.Prelude.{◌≡◌, true, IfOk, IsNone, IsSome, IsTrue};
ghost use Rattle.cy_graph.specs.Stored.{is_storable, IsStorable};

use cy_graph::{GraphFault, Labels, Props, TextMap};
use cy_index::Store;
use cy_values::{Entity, Fault, NodeId, RelId, Text, Value};
use std::alloc::Global;
use std::io::{self, BufRead, BufReader};

fn labels_of(alloc: Global, label: &str) -> Result<Labels, Fault> {
    let mut labels = TextMap::new(alloc);
    labels.insert(Text::from_str(alloc, label)?, ())?;
    Ok(labels)
}

fn props_of(alloc: Global, number: i64) -> Result<Props, Fault>
    ensures { IfOk result (λ props. IsStorable props) }
{
    let mut props = TextMap::new(alloc);
    props.insert(Text::from_str(alloc, "k")?, Value::Int(number))?;
    Ok(props)
}

fn add_node(alloc: Global, store: &mut Store, label: &str, number: i64) -> Result<(), GraphFault>
    requires { IsSome store.old.graph.was }
    ensures { IsSome store.new.graph.was }
{
    let labels = labels_of(alloc, label)?;
    let props = props_of(alloc, number)?;
    store.add_node(labels, props)?;
    Ok(())
}

fn add_rel(alloc: Global, store: &mut Store, source: NodeId, target: NodeId) -> Result<(), GraphFault>
    requires { IsSome store.old.graph.was }
    ensures { IsSome store.new.graph.was }
{
    if store.node(source).is_none() || store.node(target).is_none() {
        return Ok(());
    }
    let kind = Text::from_str(alloc, "T")?;
    store.add_rel(source, target, kind, TextMap::new(alloc))?;
    Ok(())
}

fn set(alloc: Global, store: &mut Store, id: NodeId, number: i64) -> Result<(), GraphFault>
    requires { IsSome store.old.graph.was }
    ensures { IsSome store.new.graph.was }
{
    if store.node(id).is_none() {
        return Ok(());
    }
    store.set_prop(Entity::Node(id), Text::from_str(alloc, "k")?, Some(Value::Int(number)))
}

fn remove_rel(store: &mut Store, id: RelId) -> Result<(), GraphFault>
    requires { IsSome store.old.graph.was }
    ensures { IsSome store.new.graph.was }
{
    if store.rel(id).is_none() {
        return Ok(());
    }
    store.remove_rel(id)
}

fn remove_node(store: &mut Store, id: NodeId) -> Result<(), GraphFault>
    requires { IsSome store.old.graph.was }
    ensures { IsSome store.new.graph.was }
{
    if store.node(id).is_none() {
        return Ok(());
    }
    store.remove_node(id)
}

fn number(word: &str) -> u64 {
    word.parse::<u64>().unwrap_or(0)
}

fn take(alloc: Global, store: &mut Store, words: &[&str]) -> Result<(), GraphFault>
    requires { IsSome store.old.graph.was }
    ensures { IsSome store.new.graph.was }
{
    match *words {
        ["node", label, value] => add_node(alloc, store, label, (number(value) % 1000) as i64),
        ["rel", source, target] => add_rel(alloc, store, NodeId(number(source)), NodeId(number(target))),
        ["set", id, value] => set(alloc, store, NodeId(number(id)), (number(value) % 1000) as i64),
        ["remove", id] => remove_rel(store, RelId(number(id))),
        ["drop", id] => remove_node(store, NodeId(number(id))),
        _ => Ok(()),
    }
}

fn change(alloc: Global, store: &mut Store, words: &[&str]) -> Result<(), GraphFault>
    requires { IsSome store.old.graph.was }
    ensures { IsSome store.new.graph.was }
{
    take(alloc, store, words)?;
    store.touched(alloc)?;
    Ok(())
}

fn keep(alloc: Global, store: &mut Store, words: &[&str]) -> Result<usize, u16>
    requires { IsNone store.old.graph.was }
    ensures { IsNone store.new.graph.was }
{
    store.begin();
    let done = change(alloc, store, words);
    store.commit();
    match done {
        Ok(()) => Ok(0),
        Err(fault) => Err(fault.code()),
    }
}

fn undo(alloc: Global, store: &mut Store, words: &[&str]) -> Result<usize, u16>
    requires { IsNone store.old.graph.was }
    ensures { IsNone store.new.graph.was }
{
    store.begin();
    let done = change(alloc, store, words);
    store.rollback();
    match done {
        Ok(()) => Ok(0),
        Err(fault) => Err(fault.code()),
    }
}

fn add_index(alloc: Global, store: &mut Store, label: &str) -> Result<usize, u16>
    requires { IsNone store.old.graph.was }
    ensures { IsNone store.new.graph.was }
{
    let (Ok(label), Ok(key)) = (Text::from_str(alloc, label), Text::from_str(alloc, "k")) else {
        return Err(90);
    };
    match store.add_index(label, key) {
        Ok(()) => Ok(0),
        Err(fault) => Err(fault.code()),
    }
}

fn labelled(alloc: Global, store: &Store, label: &str) -> Result<usize, u16> {
    match store.labelled(alloc, label) {
        Ok(found) => Ok(found.len()),
        Err(_) => Err(90),
    }
}

fn find(alloc: Global, store: &Store, label: &str, value: &str) -> Result<usize, u16> {
    match store.find(alloc, label, "k", &Value::Int((number(value) % 1000) as i64)) {
        Ok(found) => Ok(found.len()),
        Err(_) => Err(90),
    }
}

// Sets the property of so many nodes, from number 2 on.
fn set_each(alloc: Global, store: &mut Store, count: u64) -> Result<(), GraphFault>
    requires { IsSome store.old.graph.was }
    ensures { IsSome store.new.graph.was }
{
    for i in 0..count {
        set(alloc, store, NodeId(i.saturating_add(2)), (i % 2) as i64)?;
    }
    Ok(())
}

// How many nodes of a label have a value. They are looked up so many times.
fn find_often(alloc: Global, store: &Store, label: &str, value: &str, times: u64) -> Result<usize, u16> {
    let mut found = 0;
    for _time in 0..times {
        found = find(alloc, store, label, value)?;
    }
    Ok(found)
}

// Looks up nodes in a change of so many of them, which is taken back.
fn find_inside(alloc: Global, store: &mut Store, count: u64, label: &str, value: &str, times: u64) -> Result<usize, u16>
    requires { IsNone store.old.graph.was }
    ensures { IsNone store.new.graph.was }
{
    store.begin();
    let changed = set_each(alloc, store, count);
    let found = find_often(alloc, store, label, value, times);
    store.rollback();
    match changed {
        Ok(()) => found,
        Err(fault) => Err(fault.code()),
    }
}

fn answer_words(alloc: Global, store: &mut Store, words: &[&str]) -> Result<usize, u16>
    requires { IsNone store.old.graph.was }
    ensures { IsNone store.new.graph.was }
{
    match *words {
        ["keep", step, one] => keep(alloc, store, &[step, one]),
        ["keep", step, one, two] => keep(alloc, store, &[step, one, two]),
        ["undo", step, one] => undo(alloc, store, &[step, one]),
        ["undo", step, one, two] => undo(alloc, store, &[step, one, two]),
        ["index", label] => add_index(alloc, store, label),
        ["inside", count, label, value, times] => find_inside(alloc, store, number(count), label, value, number(times)),
        ["labelled", label] => labelled(alloc, store, label),
        ["find", label, value] => find(alloc, store, label, value),
        _ => Err(20),
    }
}

fn answer(alloc: Global, store: &mut Store, line: &str) -> Result<usize, u16>
    requires { IsNone store.old.graph.was }
    ensures { IsNone store.new.graph.was }
{
    let words: Vec<&str> = match line.split_whitespace().collect(alloc) {
        Ok(words) => words,
        Err(_) => return Err(90),
    };
    answer_words(alloc, store, words.as_slice())
}

fn serve(rt: &HostRuntime, store: &mut Store) -> io::Result<()>
    requires { IsNone store.old.graph.was }
{
    let alloc = rt.alloc();
    for line in BufReader::new(alloc, rt.reader())?.lines(alloc) {
        let line = line?;
        match answer(alloc, store, line.as_str()) {
            Ok(count) => println!(rt; "{count}")?,
            Err(code) => println!(rt; "fault {code}")?,
        }
    }
    Ok(())
}

fn main(rt: HostRuntime) -> io::Result<()> {
    let mut store = Store::new(rt.alloc());
    serve(&rt, &mut store)
}
"""
# No change is open between the lines, and one is at each node that is changed in it.
INVARIANTS = {
    "serve": """use Rattle.std.proofs.Common.{IsNone}
use Rattle.store_cost.proofs.serve.Given as goal

abbrev pub invariant-loop-line : goal.invariant-loop-line
invariant-loop-line l = IsNone l.store.graph.was
""",
    "set_each": """use Rattle.std.proofs.Common.{IsSome}
use Rattle.store_cost.proofs.set_each.Given as goal

abbrev pub invariant-loop-i : goal.invariant-loop-i
invariant-loop-i l = IsSome l.store.graph.was
""",
}


def steps(*texts):
    return [(text, "0") for text in texts]


def store(size):
    """Lines that make a store: the hub, so many nodes, some of which have a label or a value of their own, and a relationship
    from the hub to each of them. All but those have one value."""
    yield "keep node Hub 1", "0"
    for i in range(size):
        is_few = i % (size // FEW) == size // FEW // 2
        is_rare = i % (size // FEW) == size // FEW // 3
        yield f"keep node {'Few' if is_few else 'A'} {5 if is_rare else 7}", "0"
    for i in range(size):
        yield f"keep rel 1 {i + 2}", "0"


def rounds(count):
    """Lines that make two nodes and a relationship between them, and remove all of them, so many times. Each second time the
    relationship is taken back instead."""
    for time in range(count):
        source, target = 2 * time + 1, 2 * time + 2
        yield from steps("keep node A 7", "keep node A 7")
        if time % 2:
            yield from steps(f"undo rel {source} {target}")
        else:
            yield from steps(f"keep rel {source} {target}", f"keep remove {time // 2 + 1}")
        yield from steps(f"keep drop {source}", f"keep drop {target}")


def costs(program, size):
    """Names of costs on a store of so many nodes, each with its count, and whether the limit is for its ratio."""
    some = [size // TIMES * time + size // 40 for time in range(TIMES)]
    with Session(program) as session:
        session.give(list(store(size)))
        yield "a value of no node", session.count(steps(*(f"keep set {size + i} 8" for i in some))), True
        yield "a value set to another, without an index", session.count(steps(*(f"keep set {i + 2} 9" for i in some))), True
        session.give(steps(*(f"keep set {i + 2} 7" for i in some), "index A"))
        yield "labelled, for ten nodes", session.count([("labelled Few", str(FEW))] * TIMES), True
        yield "find with an index, for ten nodes", session.count([("find A 5", str(FEW))] * TIMES), True
        yield "a node", session.count(steps(*("keep node A 7" for _ in some))), True
        yield "a relationship at the hub", session.count(steps(*(f"keep rel 1 {i + 2}" for i in some))), True
        yield "the same, taken back", session.count(steps(*(f"undo rel 1 {i + 2}" for i in some))), True
        yield "a value that all nodes have, set to another", session.count(steps(*(f"keep set {i + 2} 8" for i in some))), True
        yield "the same value again", session.count(steps(*(f"keep set {i + 2} 8" for i in some))), True
        yield "another value, taken back", session.count(steps(*(f"undo set {i + 3} 8" for i in some))), True
        yield "a relationship removed at the hub", session.count(steps(*(f"keep remove {i + 1}" for i in some))), True
        yield "a removal at the hub, taken back", session.count(steps(*(f"undo remove {i + 2}" for i in some))), True
    with Session(program) as session:
        session.give([*store(size), ("index A", "0")])
        yield "find in a change of all nodes, for ten nodes", in_a_change(session, size, "Few 0", FEW, MANY), True
        yield "find of what all were before the change, for no node", in_a_change(session, size, "A 7", 0, TIMES), False


def in_a_change(session, size, sought, found, times):
    """How many instructions a look-up takes in an open change of all nodes: what so many look-ups take more than one."""
    few, many = (session.count([(f"inside {size} {sought} {count}", str(found))] * 2) for count in (1, 1 + times))
    return (many - few) / times


def set_is_cheap(found):
    """Whether a property that is set takes at most so many instructions above one of no node."""
    costs = {name: count for name, count, _ in found}
    above = costs["a value set to another, without an index"] - costs["a value of no node"]
    print(f"{'a value set to another, above one of no node':56} {above:12,.0f}  of at most {SET_LIMIT:,}", flush=True)
    return 0 < above <= SET_LIMIT


def keeps_nothing(program):
    """Whether a store that is empty again keeps no memory of what was in it."""
    few, many = (peak([program], rounds(count)) for count in ROUNDS)
    kept = (many - few) / (ROUNDS[1] - ROUNDS[0])
    print(f"{'bytes that stay of what was made and removed':56} {kept:12,.1f}  of at most {ROUND_LIMIT}", flush=True)
    return kept <= ROUND_LIMIT


def main():
    with tempfile.TemporaryDirectory() as folder:
        for function, invariant in INVARIANTS.items():
            os.makedirs(f"{folder}/crates/store_cost/proofs/{function}")
            with open(f"{folder}/crates/store_cost/proofs/{function}/Invariants.antt", "w") as it:
                it.write(invariant)
        program = built(folder, "store_cost", PROGRAM, LIBRARIES)
        is_empty = keeps_nothing(program)
        found = {size: list(costs(program, size)) for size in SIZES}
    is_within = report(found.get, *SIZES, LIMIT)
    held = [is_empty, is_within, set_is_cheap(found[SIZES[0]])]
    return 0 if all(held) else 1


if __name__ == "__main__":
    sys.exit(main())
