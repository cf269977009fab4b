#!/usr/bin/env python3
"""Tests the client against the program: python3 clients/python/test_cypher_live.py [PROGRAM]"""
import os
import random
import re
import signal
import sys
import unittest
from contextlib import suppress
from typing import Any, Callable, Dict, Iterator, List
from unittest import mock

import cypher_live
from cypher_live import Copy, Ended, Fault, Live, counted, has_reply, quote, quote_name

PATIENCE = 60.0


def started(**more: Any) -> Live:
    return Live.start(timeout=PATIENCE, **more)


def every_character() -> Iterator[str]:
    """Texts that have each character once, the surrogates left out, which are none."""
    for start in range(0, 0x110000, 4000):
        yield "".join(chr(code) for code in range(start, min(start + 4000, 0x110000)) if not 0xD800 <= code < 0xE000)


class Quoting(unittest.TestCase):
    def test_texts(self) -> None:
        """A text of any characters comes back as it was."""
        texts = [it for it in every_character() if it]
        with started() as live:
            for text, reply in zip(texts, live.pipeline(f"RETURN {quote(text)} AS x" for text in texts)):
                self.assertEqual(reply["rows"], [[text]])  # type: ignore[index]

    def test_single_characters(self) -> None:
        """A character is stored and found alone, doubled, and between others that are quoted."""
        characters = [chr(code) for code in range(256)] + list("\u2028\u2029\ufeff\ufffe\uffff😀\U0010ffff")
        with started() as live:
            for one in characters:
                for text in (one, one + one, f"\\{one}'", f"'{one}\\", f"\\u0041{one}\n"):
                    live.execute(f"CREATE (:T {{text: {quote(text)}}})")
                    found = live.execute(f"MATCH (t:T {{text: {quote(text)}}}) RETURN DISTINCT t.text AS text")
                    self.assertEqual(found["rows"], [[text]])

    def test_names(self) -> None:
        """A name of any characters but LF comes back as it was."""
        names = [it.replace("\n", "") for it in every_character() if it]
        with started() as live:
            for name, reply in zip(names, live.pipeline(f"RETURN 1 AS {quote_name(name)}" for name in names)):
                self.assertEqual(reply["columns"], [name])  # type: ignore[index]

    def test_views_with_any_name(self) -> None:
        with started() as live:
            for name in ("v", "match", "a view", "`", "``", "a`b", "'", '"', "\\", "//", "/*", "ä\r", ";", ":"):
                self.assertEqual(live.view(name, "MATCH (n) RETURN n.k AS k"), ["k"])
                self.assertEqual(live.rows(name), [])
                self.assertEqual([it.lagged for it in live.follow(name)], [True])

    def test_values(self) -> None:
        values: List[Any] = [None, True, False, 0, 1, -1, 2**63 - 1, -(2**63), "", "null", [], [1, "a", None, True]]
        with started() as live:
            for value in values:
                self.assertEqual(live.execute(f"RETURN {quote(value)} AS x")["rows"], [[value]])
                self.assertIs(type(live.execute(f"RETURN {quote(value)} AS x")["rows"][0][0]), type(value))

    def test_what_has_no_literal(self) -> None:
        for value in (1.5, 2**63, -(2**63) - 1, {}, b"a", object()):
            with self.assertRaises(ValueError):
                quote(value)
        for name in ("", "a\nb"):
            with self.assertRaises(ValueError):
                quote_name(name)

    def test_no_injection(self) -> None:
        """What is quoted is one text, whatever it tries."""
        with started() as live:
            live.execute("CREATE (:Kept)")
            for text in ("'}) DETACH DELETE n //", "\\'}) MATCH (k:Kept) DELETE k //", "\nMATCH (k:Kept) DELETE k\n", "` //"):
                live.execute(f"CREATE (:T {{text: {quote(text)}}})")
                self.assertEqual(live.execute("MATCH (k:Kept) RETURN count(*) AS n")["rows"], [[1]])


class Lines(unittest.TestCase):
    def test_faults(self) -> None:
        with started() as live:
            with self.assertRaises(Fault) as caught:
                live.execute("MATCH (n RETURN n")
            self.assertEqual((caught.exception.code, caught.exception.error, caught.exception.at), (20, "Unexpected", 9))
            with self.assertRaises(Fault) as caught:
                live.rows("nothing")
            self.assertEqual((caught.exception.code, caught.exception.at), (61, None))
            with self.assertRaises(Fault) as caught:
                live.execute("RETURN '" + "a" * 65536)
            self.assertEqual((caught.exception.code, caught.exception.at), (17, 65536))
            self.assertEqual(live.execute("RETURN 1 AS x")["rows"], [[1]])

    def test_what_is_no_line(self) -> None:
        with started() as live:
            for line in ("RETURN 1\nRETURN 2", "RETURN '\ud800'"):
                with self.assertRaises(ValueError):
                    live.execute(line)
            self.assertEqual(live.execute("RETURN 1 AS x")["rows"], [[1]])

    def test_which_lines_are_answered(self) -> None:
        """Lines of white space and comments have no reply, and all others have one."""
        pieces = [*" \t\r\v\f\x00\x1c\x1f\x85\xa0\u180e\u2000\u200b\u2028\u3000\ufeff", "/", "*", "//", "/*", "*/", "/*/", ";", ":", "'", "`", "a"]
        chance = random.Random(1)
        lines = ["".join(chance.choices(pieces, k=chance.randint(0, 7))) for _ in range(20000)]
        lines += [" " * 65536, " " * 65537, "//" + "x" * 65534, "//" + "x" * 65535, "/*" + "é" * 32766 + "*/", "/**/" * 16384]
        expected = sum(map(has_reply, lines))
        self.assertTrue(5000 < expected < 19000)
        with started() as live:
            # Each line is sent as it is, and a last one shows that no reply was owed or too much.
            last = "RETURN 'the last' AS x"
            live._channel.sendall("".join(f"{line}\n" for line in [*lines, last]).encode())
            replies = [live._answers.get(timeout=PATIENCE) for _ in range(expected + 1)]
            self.assertEqual(replies[-1]["rows"], [["the last"]])  # type: ignore[index]

    def test_empty_lines(self) -> None:
        with started() as live:
            for line in ("", "  ", "// RETURN 1", "/* a */ /* b */"):
                self.assertEqual(live.execute(line), {})
            self.assertEqual([len(it) for it in live.pipeline(["", "RETURN 1 AS x", "//"])], [0, 3, 0])  # type: ignore[arg-type]


class Pipelines(unittest.TestCase):
    def test_ten_thousand_lines(self) -> None:
        """Many lines with long texts and long answers come through, each with its own answer."""
        def line(number: int) -> str:
            if number % 100 == 7:
                return f"RETURN {number} + 'a' AS x"
            return f"RETURN {number} AS n, {quote('x' * (number % 5000))} AS x, {quote('y' * (60000 if number % 1000 == 3 else 1))} AS y"

        with started() as live:
            for ahead in (1000, 100000):
                for number, reply in enumerate(live.pipeline(map(line, range(10000)), ahead)):
                    if number % 100 == 7:
                        self.assertEqual(reply.code, 41)  # type: ignore[union-attr]
                    else:
                        self.assertEqual(reply["rows"][0][:2], [number, "x" * (number % 5000)])  # type: ignore[index]
                self.assertEqual(number, 9999)

    def test_long_answers(self) -> None:
        """Answers of more than what any pipe holds, while more lines are being sent."""
        with started() as live:
            live.execute(f"UNWIND {quote(list(range(2000)))} AS k CREATE (:N {{k: k, text: {quote('z' * 100)}}})")
            replies = list(live.pipeline(["MATCH (n:N) RETURN n.k AS k, n.text AS text"] * 200))
            self.assertEqual([len(it["rows"]) for it in replies], [2000] * 200)  # type: ignore[index]

    def test_left_before_the_end(self) -> None:
        with started() as live:
            for reply in live.pipeline(f"RETURN {n} AS n" for n in range(5000)):
                if reply["rows"] == [[10]]:  # type: ignore[index]
                    break
            self.assertEqual(live.execute("RETURN 'next' AS x")["rows"], [["next"]])

    def test_two_at_once(self) -> None:
        with started() as live:
            first = live.pipeline(f"RETURN {n} AS n" for n in range(5000))
            next(first)
            self.assertEqual(live.execute("RETURN 'next' AS x")["rows"], [["next"]])
            with self.assertRaises(RuntimeError):
                list(first)


VIEWS = {
    "nodes": "MATCH (n:A) RETURN n.k AS k",
    "distinct": "MATCH (n) RETURN DISTINCT n.k AS k",
    "pairs": "MATCH (a:A)-[r]->(b) RETURN a, r, b.k AS k",
    "optional": "MATCH (a:A) OPTIONAL MATCH (a)-[:T]->(b:B) WHERE b.k > 2 RETURN a.k AS a, b AS b",
    "trails": "MATCH (a:A)-[r*1..3]->(b:B) RETURN a, size(r) AS n, b",
    "labels": "MATCH (n) RETURN labels(n) AS l, n.k = 1 AS one",
}


def random_line(chance: random.Random) -> str:
    """A line that may change something, or is refused, or is a question."""
    value = quote(chance.choice([1, True, False, "1", "true", 2, 3, "ä", [1], [True], -(2**63), 2**63 - 1]))
    label, kind, number = chance.choice("AB"), chance.choice("TU"), chance.randint(1, 60)
    node = f"MATCH (n) WHERE id(n) % {chance.randint(5, 40)} = {chance.randint(0, 5)}"
    return chance.choice([
        f"CREATE (:{label} {{k: {value}}})",
        f"CREATE (:A {{k: {value}}})-[:{kind}]->(:B {{k: {number}}})",
        f"{node} MATCH (m:B) WHERE id(m) = {number} CREATE (n)-[:{kind}]->(m)",
        f"{node} SET n.k = {value}",
        f"{node} SET n:{label}, n.j = {number}",
        f"{node} REMOVE n:{label}",
        f"{node} SET n.k = null",
        f"{node} DETACH DELETE n",
        f"{node} DELETE n",
        f"MATCH ()-[r:{kind}]->() WHERE id(r) % 7 = {number % 7} DELETE r",
        f"{node} SET n.k = 1 / (id(n) - {number})",
        "MATCH (n) RETURN count(*) AS n",
        "RETURN nothing",
        "// nothing",
    ])


class Following(unittest.TestCase):
    def follow(self, live: Live, lines: int, is_asking: Callable[[int], bool]) -> Dict[str, int]:
        """Compares each copy with the rows of its view whenever it was brought up to date, and counts what came."""
        chance, came = random.Random(lines), {"entries": 0, "lags": 0}
        copies: Dict[str, Copy] = {}
        for number in range(lines):
            list(live.pipeline([random_line(chance)]))
            if number % 97 == 0:
                # A view goes and comes, and its followers go on.
                name = chance.choice(list(VIEWS))
                list(live.pipeline([f":drop {name}", f":view {name} {VIEWS[name]}"]))
                copies.setdefault(name, Copy())
            for name, copy in copies.items():
                if is_asking(number):
                    for entry in live.follow(name, copy):
                        came["lags" if entry.lagged else "entries"] += 1
                        self.assertFalse(set(entry.added) & set(entry.removed))
                        self.assertTrue(all(it > 0 for it in [*entry.added.values(), *entry.removed.values()]))
                    self.assertEqual(copy, counted(live.rows(name)))
                    self.assertEqual(copy.tick, live.execute(f":since {name} {copy.tick}")["tick"])
        return came

    def test_after_each_line(self) -> None:
        with started() as live:
            came = self.follow(live, 2000, lambda number: True)
        self.assertGreater(came["entries"], 1000)
        self.assertGreater(came["lags"], 10)

    def test_now_and_then(self) -> None:
        with started(history=4) as live:
            came = self.follow(live, 1500, lambda number: number % 13 == 0)
        self.assertGreater(came["entries"], 50)
        self.assertGreater(came["lags"], 50)

    def test_entries_add_up(self) -> None:
        """Whoever adds up entries alone has the rows too, also across a lag."""
        with started(history=2) as live:
            live.view("v", "MATCH (n) RETURN n.k AS k")
            copy, sum_of = Copy(), Copy()
            for number in range(200):
                live.execute(f"CREATE ({{k: {number % 7}}})")
                if number % 5 == 0:
                    live.execute(f"MATCH (n {{k: {number % 3}}}) DELETE n")
                if number % 11 < 6:
                    for entry in live.follow("v", copy):
                        sum_of.update(entry.added)
                        sum_of.subtract(entry.removed)
            list(live.follow("v", copy))
            self.assertEqual(copy, counted(live.rows("v")))

    def test_a_view_that_is_gone(self) -> None:
        with started() as live:
            live.view("v", "MATCH (n) RETURN n")
            copy = Copy()
            list(live.follow("v", copy))
            live.execute(":drop v")
            with self.assertRaises(Fault) as caught:
                list(live.follow("v", copy))
            self.assertEqual((caught.exception.code, copy.tick), (61, 1))

    def test_goes_on(self) -> None:
        with started() as live:
            live.view("v", "MATCH (n) RETURN n.k AS k")
            entries = live.follow("v", every=0.001)
            next(entries)
            for number in range(3):
                live.execute(f"CREATE ({{k: {number}}})")
                self.assertEqual(next(entries).added, {f"[{number}]": 1})


class Ends(unittest.TestCase):
    def test_killed(self) -> None:
        """A program that dies is an exception, at once and from then on."""
        with started() as live:
            assert live._process
            live.execute("RETURN 1 AS x")
            live._process.kill()
            for _ in range(3):
                with self.assertRaisesRegex(Ended, "status -9"):
                    live.execute("RETURN 1 AS x")

    def test_killed_at_work(self) -> None:
        """So is one that dies while it executes a line."""
        with started() as live:
            assert live._process
            live.execute(f"UNWIND {quote(list(range(400)))} AS k CREATE (:N)")
            answers = live.pipeline(["RETURN 1 AS x", "MATCH (a:N), (b:N), (c:N), (d:N) RETURN count(*) AS n"])
            next(answers)
            live._process.kill()
            with self.assertRaises(Ended):
                next(answers)

    def test_killed_in_a_pipeline(self) -> None:
        """The answers that came before it died are all given."""
        with started() as live:
            assert live._process
            came = 0
            with self.assertRaises(Ended):
                for _ in live.pipeline(f"RETURN {quote('x' * 20000)} AS x" for _ in range(100000)):
                    came += 1
                    if came == 500:
                        live._process.kill()
            self.assertTrue(500 <= came < 100000)

    def test_not_started(self) -> None:
        with self.assertRaises(FileNotFoundError):
            Live.start("/nowhere/cypher_live")
        with Live.start(history=5000, timeout=PATIENCE) as live:
            with self.assertRaisesRegex(Ended, "status 2"):
                live.execute("RETURN 1")

    def test_copied_elsewhere(self) -> None:
        """A copy of the client may lie in any folder, which needn't have others above it."""
        with mock.patch.object(cypher_live, "__file__", "/cypher_live.py"), mock.patch.dict(os.environ):
            os.environ.pop("CYPHER_LIVE", None)
            with suppress(FileNotFoundError):
                cypher_live.find_program()

    def test_too_late(self) -> None:
        """A late answer is no answer to the next line."""
        with Live.start(timeout=0.3) as live:
            assert live._process
            live.execute("RETURN 1 AS x")
            live._process.send_signal(signal.SIGSTOP)
            with self.assertRaises(TimeoutError):
                live.execute("RETURN 2 AS x")
            live._process.send_signal(signal.SIGCONT)
            live._timeout = PATIENCE
            self.assertEqual(live.execute("RETURN 3 AS x")["rows"], [[3]])

    def test_closed(self) -> None:
        live = started()
        live.close()
        live.close()
        with self.assertRaises(Ended):
            live.execute("RETURN 1")


def main(words: List[str]) -> None:
    if len(words) > 1 and not re.match(r"-|[A-Z]\w*(\.|$)", words[1]):
        os.environ["CYPHER_LIVE"] = os.path.abspath(words.pop(1))
    unittest.main(argv=words)


if __name__ == "__main__":
    main(sys.argv)
