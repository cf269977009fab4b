#!/usr/bin/env python3
"""Runs the clients and the sessions of docs/CLIENTS.md: python3 clients/python/test_documents.py [PROGRAM]

A client is left out where its compiler isn't there.
"""
import os
import re
import shutil
import subprocess
import sys
import tempfile
import unittest
from pathlib import Path
from typing import Dict, List

from cypher_live import find_program
from test_cypher_live import PATIENCE, main

FOLDER = Path(__file__).resolve().parent
TEXT = (FOLDER.parents[1] / "docs" / "CLIENTS.md").read_text(encoding="utf-8")


def blocks(kind: str) -> List[str]:
    fenced = re.findall(r"^```(\w*)\n(.*?)^```$", TEXT, re.MULTILINE | re.DOTALL)
    return [text for name, text in fenced if name == kind]


def ran(words: List[str], given: str = "", **more: str) -> str:
    environment: Dict[str, str] = {**os.environ, **more}
    done = subprocess.run(
        words, input=given, stdout=subprocess.PIPE, stderr=subprocess.PIPE, text=True, env=environment, timeout=5 * PATIENCE
    )
    if done.returncode:
        raise AssertionError(f"{words[0]} ended with status {done.returncode}: {done.stderr[-2000:]}")
    return done.stdout


class Clients(unittest.TestCase):
    def setUp(self) -> None:
        folder = tempfile.TemporaryDirectory(prefix="cypher_live-")
        self.addCleanup(folder.cleanup)
        self.folder = folder.name
        self.program = find_program()

    def source(self, kind: str, name: str) -> str:
        (text,) = [it for it in blocks(kind) if "cy_engine" not in it]
        path = f"{self.folder}/{name}"
        Path(path).write_text(text, encoding="utf-8")
        return path

    def needs(self, tool: str) -> None:
        if not shutil.which(tool):
            self.skipTest(f"{tool} isn't there")

    def check(self, said: str) -> None:
        self.assertRegex(said, r"10\W+9223372036854775807(?!\d)")
        self.assertIn("UnknownVariable", said)

    def test_go(self) -> None:
        self.needs("go")
        source = self.source("go", "live.go")
        self.check(ran(["go", "run", source, self.program], GOCACHE=f"{self.folder}/cache", HOME=self.folder))

    def test_node(self) -> None:
        self.needs("node")
        self.check(ran(["node", self.source("js", "live.mjs"), self.program]))

    def test_rust(self) -> None:
        self.needs("rustc")
        ran(["rustc", "--edition", "2021", self.source("rust", "live.rs"), "-o", f"{self.folder}/live"])
        self.check(ran([f"{self.folder}/live", self.program]))

    def test_python(self) -> None:
        (text,) = [it for it in blocks("python") if "import" in it]
        said = ran([sys.executable, "-c", text], PYTHONPATH=str(FOLDER), CYPHER_LIVE=self.program)
        self.assertIn("DETACH DELETE u //", said)
        self.assertIn("""{'["Anne"]': 1} {'["Ann"]': 1}""", said)
        self.assertTrue(said.endswith("30 UnknownVariable\n"))


class Sessions(unittest.TestCase):
    def test_entries(self) -> None:
        """The session that shows how one knows that all entries have come."""
        (session,) = [it for it in blocks("") if '"code":70' in it]
        lines = [it for it in session.splitlines() if not it.startswith("{")]
        answers = [it for it in session.splitlines() if it.startswith("{")]
        given = "\n".join([":view names MATCH (p:Person) RETURN p.name AS name", *lines]) + "\n"
        self.assertEqual(ran([find_program(), "--feed"], given).splitlines()[1:], answers)

    def test_injection(self) -> None:
        """The line that a name makes where it isn't quoted does what the page says."""
        (line,) = [it for it in blocks("") if "DETACH DELETE u //'" in it]
        said = ran([find_program()], f"CREATE (:User {{name: 'x'}})\n{line}").splitlines()
        self.assertEqual(said[1], '{"changed":[0,1,0,0],"columns":[],"rows":[]}')

    def test_view_of_the_page(self) -> None:
        page = (FOLDER.parents[1] / "examples" / "dashboard" / "README.md").read_text(encoding="utf-8")
        (line,) = re.findall(r"^:view .*$", page, re.MULTILINE)
        self.assertIn('"columns":["source","type","target"]', ran([find_program()], line + "\n"))

    def test_read_and_write(self) -> None:
        (line,) = [it for it in blocks("") if "a.sum" in it]
        said = ran([find_program()], f"CREATE (:Account {{id: 7, sum: 15}})\n{line}{line}").splitlines()
        self.assertEqual([it.partition('"rows":')[2] for it in said[1:]], ["[[5]]}", "[]}"])


if __name__ == "__main__":
    main(sys.argv)
