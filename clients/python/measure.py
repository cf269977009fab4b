#!/usr/bin/env python3
"""Measures what the program takes from a client: python3 clients/python/measure.py [PROGRAM]

It prints lines a second, sent one at a time and in a pipeline, straight to the program and through serve.py, and the memory of graphs.
Times depend on the machine and on what else it does.
"""
import os
import sys
import tempfile
import threading
import time
from pathlib import Path
from typing import Callable, List

from cypher_live import Fault, Live, quote
from test_serve import Served

LINES = 5000
KINDS = {
    "`RETURN 1 AS x`": lambda number: "RETURN 1 AS x",
    "a node is made": lambda number: f"CREATE (:N {{k: {number}}})",
    "a node is found by an index": lambda number: f"MATCH (p:Person {{k: {number % 1000}}}) RETURN p.name AS name",
    "a property is set, and a view changes": lambda number: f"MATCH (p:Person {{k: {number % 1000}}}) SET p.age = {number}",
}


def prepare(live: Live) -> None:
    live.execute(":index Person k")
    live.view("ages", "MATCH (p:Person) RETURN p.name AS name, p.age AS age")
    live.execute(f"UNWIND {quote(list(range(1000)))} AS k CREATE (:Person {{k: k, name: 'person ' + toString(k)}})")


def rate(call: Callable[[], int]) -> str:
    best = 0.0
    for _ in range(3):
        begun = time.perf_counter()
        count = call()
        best = max(best, count / (time.perf_counter() - begun))
    return f"{round(best, -2):,.0f}"


def one_at_a_time(live: Live, line: Callable[[int], str]) -> int:
    for number in range(LINES):
        live.execute(line(number))
    return LINES


def pipelined(live: Live, line: Callable[[int], str]) -> int:
    faults = [it for it in live.pipeline(map(line, range(LINES))) if isinstance(it, Fault)]
    assert not faults, faults[0]
    return LINES


def fifty(served: Served, line: Callable[[int], str]) -> int:
    clients = [served.client() for _ in range(50)]

    def send(live: Live, own: int) -> None:
        for number in range(own, LINES, 50):
            live.execute(line(number))

    threads = [threading.Thread(target=send, args=(live, own)) for own, live in enumerate(clients)]
    for it in threads:
        it.start()
    for it in threads:
        it.join()
    for live in clients:
        live.close()
    return LINES


def memory_of(number: int) -> int:
    """The bytes that a process has in memory."""
    return int(Path(f"/proc/{number}/statm").read_text().split()[1]) * os.sysconf("SC_PAGE_SIZE")


def print_rates() -> None:
    print("| Line | one at a time | pipelined | `serve.py`, one at a time | `serve.py`, pipelined | `serve.py`, 50 clients |")
    print("|---|---|---|---|---|---|")
    with tempfile.TemporaryDirectory() as folder, Live.start() as live, Served(folder) as served, served.client() as client:
        prepare(live)
        prepare(client)
        for words, line in KINDS.items():
            cells: List[str] = []
            for to in (live, client):
                cells += [rate(lambda: one_at_a_time(to, line)), rate(lambda: pipelined(to, line))]
            cells.append(rate(lambda: fifty(served, line)))
            print(f"| {words} | {' | '.join(cells)} |", flush=True)


def print_journal() -> None:
    for words in (("--journal", "{}/journal"), ("--journal", "{}/journal", "--fsync")):
        # Where /tmp is memory, an fsync costs nothing.
        with tempfile.TemporaryDirectory(dir=".") as folder, Served(folder, *words) as served, served.client() as client:
            prepare(client)
            cells = [rate(lambda: one_at_a_time(client, KINDS["a node is made"])), rate(lambda: fifty(served, KINDS["a node is made"]))]
            print(" ".join(words[::2]), "a node is made: one at a time, 50 clients:", *cells, flush=True)


def print_memory() -> None:
    with Live.start() as live:
        assert live._process
        before = memory_of(live._process.pid)
        print(f"at the start: {before / 2**20:.1f} MB")
        for words, lines in (
            ("200,000 nodes with a label, an integer and a text of 10", [
                f"UNWIND {quote(list(range(start, start + 2000)))} AS k CREATE (:Person {{k: k, name: 'person ' + toString(100 + k % 900)}})"
                for start in range(0, 200000, 2000)]),
            ("an index of them", [":index Person k"]),
            ("200,000 relationships", [
                f"UNWIND {quote(list(range(start, start + 2000)))} AS k MATCH (a:Person {{k: k}}), (b:Person {{k: (k + 7) % 200000}}) CREATE (a)-[:KNOWS]->(b)"
                for start in range(0, 200000, 2000)]),
            ("a view of 200,000 rows of two texts", [":view v MATCH (a:Person)-[:KNOWS]->(b:Person) RETURN a.name AS a, b.k AS b"]),
        ):
            begun = time.perf_counter()
            for reply in live.pipeline(lines):
                assert not isinstance(reply, Fault), reply
            now = memory_of(live._process.pid)
            print(f"{words}: {(now - before) / 200000:.0f} bytes each, in {time.perf_counter() - begun:.1f} s", flush=True)
            before = now


if __name__ == "__main__":
    if len(sys.argv) > 1:
        os.environ["CYPHER_LIVE"] = os.path.abspath(sys.argv[1])
    print_memory()
    print_rates()
    print_journal()
