#!/usr/bin/env python3
"""Tests the server against the program: python3 clients/python/test_serve.py [PROGRAM]"""
import http.client
import json
import os
import queue
import random
import resource
import signal
import socket
import stat
import subprocess
import sys
import tempfile
import threading
import time
import unittest
from contextlib import suppress
from pathlib import Path
from typing import Any, Callable, Dict, List, Optional, Tuple

from cypher_live import Copy, Ended, Fault, Live, counted, find_program, quote
from serve import is_answered, may_change
from test_cypher_live import PATIENCE, VIEWS, main, random_line

SERVE = str(Path(__file__).resolve().parent / "serve.py")
ANYWHERE = ["--unix", "{}/socket"]


class Served:
    """A server in a folder of its own."""

    def __init__(self, folder: str, *words: str, before: Optional[List[str]] = None, **more: Any) -> None:
        self.path = f"{folder}/socket"
        asked = [it.format(folder) for it in (words if "--tcp" in words or "--http" in words else (*ANYWHERE, *words))]
        self.complaints = open(f"{folder}/complaints", "a+b")
        self.process = subprocess.Popen(
            [*(before or []), sys.executable, SERVE, *asked], stdout=subprocess.PIPE, stderr=self.complaints, text=True, **more
        )
        self.ports: Dict[str, Tuple[str, int]] = {}
        assert self.process.stdout
        for _ in range(sum(it in asked for it in ("--unix", "--tcp", "--http"))):
            kind, *where = self.process.stdout.readline().split() or ["none"]
            if kind in ("tcp", "http"):
                self.ports[kind] = (where[0], int(where[1]))

    def client(self) -> Live:
        return Live.connect(self.ports.get("tcp", self.path), PATIENCE)

    def raw(self) -> socket.socket:
        channel = socket.socket(socket.AF_UNIX)
        channel.settimeout(PATIENCE)
        channel.connect(self.path)
        return channel

    def engine(self) -> int:
        """The number of the program's process."""
        children = Path(f"/proc/{self.process.pid}/task/{self.process.pid}/children")
        return int(children.read_text().split()[-1])

    def end(self, number: int = signal.SIGTERM) -> int:
        self.process.send_signal(number)
        return self.process.wait(PATIENCE)

    def said(self) -> str:
        self.complaints.seek(0)
        return self.complaints.read().decode()

    def __enter__(self) -> "Served":
        return self

    def __exit__(self, *_: Any) -> None:
        if self.process.poll() is None:
            self.end()
        self.complaints.close()
        assert self.process.stdout
        self.process.stdout.close()


def lines_of(channel: socket.socket) -> List[Dict[str, Any]]:
    """All that comes until the other side ends the connection."""
    with channel.makefile("rb") as answers, suppress(ConnectionError):
        return [json.loads(line) for line in answers]
    return []


class Case(unittest.TestCase):
    def setUp(self) -> None:
        folder = tempfile.TemporaryDirectory(prefix="cypher_live-")
        self.addCleanup(folder.cleanup)
        self.folder = folder.name
        self.journal = f"{self.folder}/journal"

    def served(self, *words: str, **more: Any) -> Served:
        return Served(self.folder, *words, **more)

    def kept(self, **more: Any) -> Served:
        return Served(self.folder, "--journal", "{}/journal", **more)

    def is_fault(self, code: int, call: Callable[[], Any]) -> None:
        with self.assertRaises(Fault) as caught:
            call()
        self.assertEqual(caught.exception.code, code)


class Many(Case):
    def test_fifty_clients(self) -> None:
        """Each gets its own answers, in order; followers have the rows; all of it is there again after a restart."""
        wrong: List[str] = []

        def write(served: Served, own: int) -> None:
            with served.client() as live:
                numbers = []
                for step in range(20):
                    made = live.execute(f"CREATE (n:N {{own: {own}, step: {step}}}) RETURN n, n.own AS own, n.step AS step")
                    if made["rows"][0][1:] != [own, step]:
                        wrong.append(f"{own} was answered {made}")
                    numbers.append(made["rows"][0][0]["node"])
                for number, reply in enumerate(live.pipeline(f"RETURN '{own}-{it}' AS x, 1 / ({it} % 5) AS y" for it in range(50))):
                    if isinstance(reply, Fault) != (number % 5 == 0):
                        wrong.append(f"{own} was answered {reply}")
                    elif not isinstance(reply, Fault) and reply["rows"][0][0] != f"{own}-{number}":
                        wrong.append(f"{own} was answered {reply}")
                if numbers != sorted(set(numbers)):
                    wrong.append(f"{own} has nodes {numbers}")

        def follow(served: Served, ready: threading.Event, done: threading.Event) -> None:
            with served.client() as live:
                copy = counted(live.execute(":follow own")["rows"])
                ready.set()
                while not done.is_set() or live.pushes.qsize():
                    with suppress(queue.Empty):
                        entry = live.pushes.get(timeout=0.05)
                        assert entry
                        copy.update(counted(entry["added"]))
                        copy.subtract(counted(entry["removed"]))
                if +copy != counted(live.rows("own")) or live.pushes.qsize():
                    wrong.append("a follower has other rows")

        with self.kept() as served, served.client() as live:
            live.view("own", "MATCH (n:N) RETURN n.own AS own")
            done, ready = threading.Event(), [threading.Event() for _ in range(5)]
            followers = [threading.Thread(target=follow, args=(served, it, done)) for it in ready]
            writers = [threading.Thread(target=write, args=(served, it)) for it in range(50)]
            for it in followers:
                it.start()
            for event in ready:
                self.assertTrue(event.wait(PATIENCE))
            for it in writers:
                it.start()
            for it in writers:
                it.join()
            # The entries of a line are pushed before the next line is answered.
            live.execute("RETURN 1")
            done.set()
            for it in followers:
                it.join()
            self.assertEqual(wrong, [])
            rows = live.execute("MATCH (n:N) RETURN n, n.own AS own, n.step AS step")
            self.assertEqual(len(rows["rows"]), 1000)
            views = live.execute(":views")
        with self.kept() as served, served.client() as live:
            self.assertEqual(live.execute("MATCH (n:N) RETURN n, n.own AS own, n.step AS step"), rows)
            self.assertEqual(live.execute(":views"), views)
            self.assertEqual(live.execute("CREATE (n) RETURN n")["rows"], [[{"node": 1001}]])

    def test_killed_client(self) -> None:
        """Half a line of a client that is gone isn't executed, and nobody else notices."""
        with self.served() as served, served.client() as live:
            for _ in range(20):
                gone = served.raw()
                gone.sendall(b"CREATE (:Whole)\nCREATE (:Half)")
                gone.recv(1000)
                gone.close()
                eager = served.raw()
                eager.sendall(b"RETURN 1\n" * 3000 + b"CREATE (:Half")
                eager.setsockopt(socket.SOL_SOCKET, socket.SO_LINGER, b"\1\0\0\0\0\0\0\0")
                eager.close()
            self.assertEqual(live.execute("MATCH (n) RETURN labels(n) AS l, count(*) AS n")["rows"], [[["Whole"], 20]])

    def test_closed_for_sending(self) -> None:
        """A client that has sent all its lines gets all answers."""
        with self.served() as served, served.raw() as channel:
            channel.sendall(b"".join(b"RETURN %d AS n\n" % it for it in range(500)))
            channel.shutdown(socket.SHUT_WR)
            self.assertEqual([it["rows"] for it in lines_of(channel)], [[[it]] for it in range(500)])

    def test_who_reads_late(self) -> None:
        """A client that reads its answers late holds up nobody, and has all of them."""
        with self.served() as served, served.client() as live, served.raw() as late:
            live.execute(f"UNWIND {quote(list(range(3000)))} AS k CREATE (:N {{k: k, text: {quote('x' * 200)}}})")
            thread = threading.Thread(target=late.sendall, args=(b"MATCH (n:N) RETURN n.text AS text\n" * 100,))
            thread.start()
            for number in range(200):
                self.assertEqual(live.execute(f"RETURN {number} AS n")["rows"], [[number]])
            with late.makefile("rb") as answers:
                self.assertEqual([len(json.loads(answers.readline())["rows"]) for _ in range(100)], [3000] * 100)
            thread.join()


class Lines(Case):
    def test_limit(self) -> None:
        with self.served() as served, served.raw() as channel:
            for more in (0, 1, 65536, 300000, 5000000):
                channel.sendall(b"RETURN '%s' AS y\nRETURN 1 AS x\n" % (b"x" * (65536 - 14 + more)))
            channel.shutdown(socket.SHUT_WR)
            answers = lines_of(channel)
            self.assertEqual([it.get("code") for it in answers], [None, None] + [17, None] * 4)
            self.assertEqual(answers[2], {"at": 65536, "code": 17, "error": "LineTooLong"})

    def test_lines_of_all_kinds(self) -> None:
        """What the program answers the server answers, and nothing more."""
        lines = [b"", b" ", b"// a", b"/* a", b"/**/", b"\xff", b"// \xff", b"/* \xff */", b":", b":undo", b"RETURN 1 AS x\r", b"\0"]
        with self.served() as served, served.raw() as channel:
            channel.sendall(b"\n".join(lines) + b"\n")
            channel.shutdown(socket.SHUT_WR)
            answers = lines_of(channel)
        ran = subprocess.run([find_program()], input=b"\n".join(lines) + b"\n", stdout=subprocess.PIPE, timeout=PATIENCE)
        self.assertEqual(answers, [json.loads(it) for it in ran.stdout.splitlines()])
        self.assertEqual(len(answers), sum(map(is_answered, lines)))

    def test_which_lines_change(self) -> None:
        yes = ["CREATE ()", "match (n) set n.k = 1", "MATCH (n) DETACH DELETE n", "MATCH (n) REMOVE n:A", ":view v MATCH (n) RETURN n",
               ": DROP v", "/* a */ :/**/index A k", "MATCH (`a`) SET`a`.k = 'set'", 'MATCH (n {k: "\\""}) DELETE n',
               "MATCH (n:A)SET n:B", "UNWIND ['CREATE', '\\''] AS x CREATE ({k: x})"]
        no = ["MATCH (n) RETURN n", "RETURN 'CREATE ()' AS x", 'RETURN "\\"SET" AS x', "MATCH (n:Set) RETURN n.delete", "RETURN `create` // SET",
              "/* DELETE */ RETURN 1", ":views", ":rows view", ":since v 1", ":steps", "// CREATE ()", "MATCH (n)-[:REMOVE]->() RETURN n"]
        for line in yes + no:
            self.assertEqual(may_change(line.encode()), line in yes, line)
        begun = time.monotonic()
        for shape in ("/* ", "//", "'\\", "\\'", "`", "'\"`", ":", ": ", ". ", "a.", "set", "\xe9"):
            for line in (shape * 65536, "'" + shape * 65536, "/*" + shape * 65536):
                may_change(line.encode()[:65536])
        self.assertLess(time.monotonic() - begun, 20)

    def test_all_that_changes_is_kept(self) -> None:
        """Whatever makes the tick rise may change."""
        chance = random.Random(5)
        with Live.start(timeout=PATIENCE) as live:
            live.view("all", "MATCH (n) OPTIONAL MATCH (n)-[r]->() RETURN n, n.k AS k, n.j AS j, labels(n) AS l, r")
            tick = 1
            for _ in range(1500):
                line = random_line(chance)
                list(live.pipeline([line]))
                now = live.execute(":rows all")["tick"] if may_change(line.encode()) else live.execute(":since all 0")["tick"]
                self.assertTrue(now == tick or may_change(line.encode()), line)
                tick = now


class Following(Case):
    def test_follow(self) -> None:
        with self.served() as served, served.client() as writer, served.client() as reader:
            writer.view("a view", "MATCH (n) RETURN n.k AS k")
            writer.view("other", "MATCH (n) RETURN n")
            writer.execute("CREATE ({k: 1})")
            self.assertEqual(reader.execute(":follow `a view`;"), {"rows": [[[1], 1]], "tick": 3, "view": "a view"})
            writer.execute("CREATE ({k: 2})")
            entry = {"added": [[[2], 1]], "removed": [], "tick": 4, "view": "a view"}
            self.assertEqual(reader.pushes.get(timeout=PATIENCE), entry)
            reader.execute("MATCH (n {k: 2}) SET n.k = 3")
            self.assertEqual(reader.pushes.get(timeout=PATIENCE)["added"], [[[3], 1]])  # type: ignore[index]
            self.assertEqual(reader.execute(":unfollow"), {"unfollowed": ["a view"]})
            writer.execute("CREATE ({k: 4})")
            reader.execute(":Follow `a view`")
            writer.execute(":drop `a view`")
            self.assertEqual(reader.pushes.get(timeout=PATIENCE), {"ended": "a view", "why": "dropped"})
            self.is_fault(61, lambda: reader.execute(":follow `a view`"))
            self.is_fault(72, lambda: reader.execute(":follow"))
            self.is_fault(72, lambda: reader.execute(":follow other other"))
            self.assertEqual(reader.execute(":unfollow"), {"unfollowed": []})
            self.assertTrue(reader.pushes.empty() and writer.pushes.empty())

    def test_random_lines(self) -> None:
        """What is pushed keeps copies equal to the rows of all views, over many lines of several clients."""
        chance = random.Random(3)
        with self.served("--history", "4") as served, served.client() as reader:
            writers = [served.client() for _ in range(4)]
            for name, query in VIEWS.items():
                writers[0].view(name, query)
            copies = {name: counted(reader.execute(f":follow {name}")["rows"]) for name in VIEWS}
            for number in range(600):
                list(chance.choice(writers).pipeline([random_line(chance)]))
                if number % 10 == 0:
                    rows = {name: reader.rows(name) for name in VIEWS}
                    while reader.pushes.qsize():
                        entry = reader.pushes.get()
                        assert entry
                        copy = copies[entry["view"]]
                        copy.update(counted(entry["added"]))
                        copy.subtract(counted(entry["removed"]))
                        self.assertGreaterEqual(min(copy.values(), default=0), 0)
                    self.assertEqual({name: +copy for name, copy in copies.items()}, {name: counted(it) for name, it in rows.items()})
            for it in writers:
                it.close()

    def test_slow_reader(self) -> None:
        """Who doesn't read is dropped, and reads so after what came before."""
        with self.served("--buffer", "100000") as served, served.client() as writer, served.client() as other, served.raw() as slow:
            writer.view("v", "MATCH (n) RETURN n.k AS k, n.text AS text")
            slow.sendall(b":follow v\n")
            other.execute(":follow v")
            for number in range(200):
                writer.execute(f"CREATE ({{k: {number}, text: {quote('x' * 10000)}}})")
            came = lines_of(slow)
            self.assertEqual(came[-1], {"at": None, "code": 102, "error": "SlowReader"})
            self.assertEqual([it["added"][0][0][0] for it in came[1:-1]], list(range(len(came) - 2)))
            self.assertLess(len(came), 150)
            for number in range(200):
                self.assertEqual(other.pushes.get(timeout=PATIENCE)["added"][0][0][0], number)  # type: ignore[index]
            self.assertEqual(len(writer.rows("v")), 200)

    def test_long_reply(self) -> None:
        """Who is just reading a long reply isn't dropped for it."""
        with self.served("--buffer", "100000") as served, served.client() as writer, served.raw() as reader:
            writer.execute(f"UNWIND {quote(list(range(2000)))} AS k CREATE (:N {{k: k, text: {quote('x' * 2000)}}})")
            writer.view("v", "MATCH (n:N) RETURN n.k AS k, n.text AS text")
            reader.sendall(b":follow v\n")
            with reader.makefile("rb") as answers:
                began = answers.read(10)
                for number in range(5):
                    writer.execute(f"CREATE (:N {{k: 'after {number}'}})")
                self.assertEqual(len(json.loads(began + answers.readline())["rows"]), 2000)
                came = [json.loads(answers.readline()) for _ in range(5)]
                self.assertEqual([it["added"][0][0][0] for it in came], [f"after {number}" for number in range(5)])

    def test_lost_entries(self) -> None:
        """Where the text of an entry found no memory each follower is told to begin again. The program is played here."""
        program = Path(self.folder) / "program"
        answers = {
            ":rows v": ['{"rows":[],"tick":1,"view":"v"}'],
            ":": ['{"at":null,"code":70,"error":"UnknownCommand"}'],
            "entry": ['{"changed":[1,0,0,0],"columns":[],"rows":[]}', '{"added":[[[1],1]],"removed":[],"tick":2,"view":"v"}'],
            "no entry": ['{"changed":[1,0,0,0],"columns":[],"rows":[]}', '{"at":null,"code":91,"error":"ReplyLost"}'],
            "no reply": ['{"at":null,"code":91,"error":"ReplyLost"}'],
            ":drop v": ['{"at":null,"code":91,"error":"ReplyLost"}'],
        }
        program.write_text(
            f"#!{sys.executable}\nimport sys\nanswers, marks = {answers!r}, 0\nfor line in sys.stdin:\n"
            "    marks += line == ':\\n'\n    said = answers[line.rstrip()]\n"
            "    if line == ':\\n' and marks % 3 == 0:\n"
            "        said = ['{\"at\":null,\"code\":90,\"error\":\"NoMemory\"}']\n"
            "    print(*said, sep='\\n', flush=True)\n"
        )
        program.chmod(0o755)
        lost = {"ended": "v", "why": "lost"}
        with self.served("--program", str(program)) as served, served.client() as reader, served.client() as writer:
            reader.execute(":follow v")
            writer.execute("entry")
            self.assertEqual(reader.pushes.get(timeout=PATIENCE)["tick"], 2)  # type: ignore[index]
            self.is_fault(91, lambda: writer.execute("no reply"))
            writer.execute("entry")
            self.assertEqual(reader.pushes.get(timeout=PATIENCE)["tick"], 2)  # type: ignore[index]
            writer.execute("no entry")
            self.assertEqual(reader.pushes.get(timeout=PATIENCE), lost)
            reader.execute(":follow v")
            self.is_fault(91, lambda: writer.execute(":drop v"))
            self.assertEqual(reader.pushes.get(timeout=PATIENCE), lost)
            self.assertEqual([len(writer.execute("entry")) for _ in range(5)], [3] * 5)
            self.assertTrue(reader.pushes.empty())


class Journals(Case):
    def lines(self) -> List[str]:
        return Path(self.journal).read_text().splitlines()

    def test_what_is_kept(self) -> None:
        with self.kept() as served, served.client() as live:
            for line in ("CREATE (:A {k: 1})", ":view v MATCH (n:A) RETURN n.k AS k", "MATCH (n) RETURN n", ":rows v", ":views",
                         "CREATE (", "MATCH (n) SET n.k = 1 / 0", ":drop w", "// CREATE ()", ":index A k", "MATCH (n) SET n.k = 2"):
                list(live.pipeline([line]))
            last = live.execute(":since v 2")
        kept = ["CREATE (:A {k: 1})", ":view v MATCH (n:A) RETURN n.k AS k", ":index A k", "MATCH (n) SET n.k = 2"]
        self.assertEqual(self.lines(), kept)
        self.assertEqual(stat.S_IMODE(os.stat(self.journal).st_mode), 0o600)
        with self.kept() as served, served.client() as live:
            self.assertEqual(live.execute(":since v 2"), last)
            self.is_fault(71, lambda: live.execute(":index A k"))
        self.assertEqual(self.lines(), kept)

    def test_random_lines(self) -> None:
        """After any lines the graph, its numbers, the views and the tick come back."""
        chance, asked = random.Random(9), [f":rows {name}" for name in VIEWS] + [":views", "MATCH (n) RETURN n, n.k AS k, n.j AS j, labels(n) AS l"]
        asked += ["MATCH (a)-[r]->(b) RETURN a, r, type(r) AS t, b"]
        for _ in range(3):
            with self.kept() as served, served.client() as live:
                list(live.pipeline([f":view {name} {query}" for name, query in VIEWS.items()]))
                list(live.pipeline(random_line(chance) for _ in range(400)))
                before = list(live.pipeline(asked))
            with self.kept() as served, served.client() as live:
                self.assertEqual(list(live.pipeline(asked)), before)

    def test_half_a_line(self) -> None:
        Path(self.journal).write_bytes(b"CREATE (:A)\n// by hand\n\nCREATE (:B)\nCREATE (:C {k: 'x")
        with self.kept() as served, served.client() as live:
            self.assertIn("half a line of 17 bytes, which was cut off", served.said())
            self.assertEqual(live.execute("MATCH (n) RETURN labels(n) AS l")["rows"], [[["A"]], [["B"]]])
            live.execute("CREATE (:D)")
        self.assertEqual(self.lines()[-2:], ["CREATE (:B)", "CREATE (:D)"])

    def test_half_of_much(self) -> None:
        Path(self.journal).write_bytes(b"CREATE (:A)\n" + b"\0" * 300000)
        with self.kept() as served, served.client() as live:
            self.assertEqual(live.execute("MATCH (n) RETURN count(*) AS n")["rows"], [[1]])
        self.assertEqual(self.lines(), ["CREATE (:A)"])

    def test_last_line_refused(self) -> None:
        """It was written and not answered when the server ended."""
        Path(self.journal).write_text("CREATE (:A)\nMATCH (n) SET n.k = 1 / 0\n")
        with self.kept() as served, served.client() as live:
            self.assertIn("the last line of the journal was cut off", served.said())
            live.execute("CREATE (:B)")
        self.assertEqual(self.lines(), ["CREATE (:A)", "CREATE (:B)"])

    def test_only_line_refused(self) -> None:
        Path(self.journal).write_text("CREATE (\n")
        with self.kept() as served, served.client() as live:
            live.execute("CREATE (:B)")
        self.assertEqual(self.lines(), ["CREATE (:B)"])

    def test_another_line_refused(self) -> None:
        for last in ("CREATE (:B)\n", "// CREATE (\n"):
            Path(self.journal).write_text(f"CREATE (:A)\nCREATE (\n{last}")
            with self.kept() as served:
                self.assertEqual(served.process.wait(PATIENCE), 1)
                self.assertIn("its line 2 is answered", served.said())
            self.assertEqual(len(self.lines()), 3)

    def test_taken(self) -> None:
        with self.kept(), Served(self.folder, "--tcp", "0", "--journal", "{}/journal") as other:
            self.assertEqual(other.process.wait(PATIENCE), 1)
            self.assertIn("another server has the journal", other.said())

    def test_no_folder(self) -> None:
        with self.served("--journal", "{}/nowhere/journal") as served:
            self.assertEqual(served.process.wait(PATIENCE), 1)
            self.assertIn("No such file or directory", served.said())

    def test_no_file(self) -> None:
        """What keeps nothing, or has no end, is no journal."""
        for path in ("/dev/null", "/dev/full"):
            with self.served("--journal", path) as served:
                self.assertEqual(served.process.wait(PATIENCE), 1)
                self.assertIn("is no file that lines can be kept in", served.said())

    def test_fsync(self) -> None:
        with self.served("--journal", "{}/journal", "--fsync") as served, served.client() as live:
            live.execute("CREATE (:A)")
            self.assertEqual(self.lines(), ["CREATE (:A)"])
            self.assertEqual(served.end(signal.SIGKILL), -9)
        with self.kept() as served, served.client() as live:
            self.assertEqual(live.execute("MATCH (n) RETURN n")["rows"], [[{"node": 1}]])

    def test_killed_server(self) -> None:
        """What was answered is there after the server was killed."""
        answered = 0
        with self.kept() as served, served.client() as live:
            threading.Timer(0.7, served.process.kill).start()
            with self.assertRaises(Ended):
                while True:
                    live.execute(f"CREATE (:N {{k: {answered}}})")
                    answered += 1
        with self.kept() as served, served.client() as live:
            kept = live.execute("MATCH (n:N) RETURN n.k AS k")["rows"]
            self.assertIn([[it] for it in range(answered)], (kept, kept[:-1]))
            self.assertGreater(answered, 10)

    def full_disk(self, served: Served, room: Callable[[], Any]) -> None:
        with served, served.client() as live:
            live.view("v", "MATCH (n:N) RETURN n.k AS k")
            made, refused = 0, 0
            for number in range(40):
                line = f"CREATE (:N {{k: {number}, text: {quote('x' * 4000)}}})"
                try:
                    live.execute(line)
                    made += 1
                except Fault as fault:
                    self.assertEqual((fault.code, fault.error), (100, "NotKept"))
                    refused += 1
            self.assertTrue(made > 5 and refused > 5)
            self.assertIn("a line was not executed", served.said())
            self.assertEqual(len(live.rows("v")), made)
            room()
            live.execute("CREATE (:N {k: 'after'})")
            rows = live.execute("MATCH (n) RETURN n, n.k AS k")
            self.assertEqual(len(rows["rows"]), made + 1)
            copied = "".join(f"{it}\n" for it in self.read_journal(served))
        Path(self.journal).write_text(copied)
        with self.kept() as served, served.client() as live:
            self.assertEqual(live.execute("MATCH (n) RETURN n, n.k AS k"), rows)

    def read_journal(self, served: Served) -> List[str]:
        """The lines of the journal as the server sees its disk."""
        return Path(f"/proc/{served.process.pid}/root{self.disk}/journal").read_text().splitlines()

    def test_full_disk(self) -> None:
        """On a disk that is full lines that change are refused, and all else goes on."""
        self.disk = f"{self.folder}/disk"
        os.mkdir(self.disk)
        alone = ["unshare", *(["-Ur"] if os.geteuid() else []), "-m"]
        mount = [*alone, "sh", "-c", f'mount -t tmpfs -o size=96k none {self.disk} && exec "$@"', "sh"]
        with suppress(FileNotFoundError):
            if subprocess.run([*mount, "true"], stderr=subprocess.DEVNULL).returncode == 0:
                filler = f"head -c 8192 /dev/zero > {self.disk}/filler"
                mount[-2] = mount[-2].replace("exec", f"{filler} && exec")
                served = Served(self.folder, "--journal", "{}/disk/journal", before=mount)
                return self.full_disk(served, lambda: os.remove(f"/proc/{served.process.pid}/root{self.disk}/filler"))
        self.skipTest("no disk can be mounted here")

    def test_full_quota(self) -> None:
        """The same where a file may have no more bytes."""
        self.disk = self.folder
        limit = resource.RLIM_INFINITY

        def lower() -> None:
            resource.setrlimit(resource.RLIMIT_FSIZE, (70000, limit))

        served = Served(self.folder, "--journal", "{}/journal", preexec_fn=lower)
        self.full_disk(served, lambda: resource.prlimit(served.process.pid, resource.RLIMIT_FSIZE, (limit, limit)))


class Ends(Case):
    def test_killed_program(self) -> None:
        """Everyone is told; what was being executed isn't kept, and what was answered is."""
        with self.kept() as served, served.client() as idle, served.client() as busy:
            busy.execute(f"UNWIND {quote(list(range(300)))} AS k CREATE (:N {{k: k}})")
            long = busy.pipeline(["MATCH (a:N), (b:N), (c:N), (d:N) WITH count(*) AS n CREATE (:Late {n: n})"])
            threading.Timer(0.5, os.kill, (served.engine(), signal.SIGKILL)).start()
            self.assertEqual(getattr(next(long), "code", None), 101)
            self.is_fault(101, lambda: idle.execute("RETURN 1"))
            with self.assertRaises(Ended):
                idle.execute("RETURN 1")
            self.assertEqual(served.process.wait(PATIENCE), 3)
            self.assertIn("the program ended by signal 9", served.said())
        with self.kept() as served, served.client() as live:
            self.assertEqual(live.execute("MATCH (n) RETURN labels(n) AS l, count(*) AS n")["rows"], [[["N"], 300]])

    def test_killed_while_idle(self) -> None:
        with self.served() as served, served.client() as live:
            live.execute("CREATE ()")
            os.kill(served.engine(), signal.SIGKILL)
            self.assertEqual(served.process.wait(PATIENCE), 3)
            self.is_fault(101, lambda: live.execute("RETURN 1"))

    def test_stopped(self) -> None:
        for number in (signal.SIGTERM, signal.SIGINT):
            with self.served() as served, served.client() as live:
                live.execute("CREATE ()")
                self.assertEqual(served.end(number), 0)
                self.is_fault(101, lambda: live.execute("RETURN 1"))
                self.assertFalse(os.path.exists(served.path))
                self.assertEqual(served.said(), "")

    def test_no_program(self) -> None:
        with self.served("--program", "/nowhere/cypher_live") as served:
            self.assertEqual(served.process.wait(PATIENCE), 1)
            self.assertIn("there is no program /nowhere/cypher_live", served.said())

    def test_another_program(self) -> None:
        other = Path(self.folder) / "program"
        for script, words in (("read line; echo hello; read line", "isn't cypher_live"), ("exit 7", "ended with status 7")):
            other.write_text(f"#!/bin/sh\n{script}\n")
            other.chmod(0o755)
            with self.served("--program", str(other)) as served:
                self.assertEqual(served.process.wait(PATIENCE), 1)
                self.assertIn(words, served.said())

    def test_arguments(self) -> None:
        wrong = ["", "--tcp x", "--tcp 99999", "--unix a --history 0", "--unix a --fsync", "--unix a --buffer -1", "--other"]
        for words in map(str.split, wrong):
            ran = subprocess.run([sys.executable, SERVE, *words], stdout=subprocess.PIPE, stderr=subprocess.PIPE, timeout=PATIENCE)
            self.assertEqual(ran.returncode, 2)
            self.assertIn(b"error: ", ran.stderr)


class Places(Case):
    def test_unix(self) -> None:
        with self.served() as served:
            self.assertEqual(stat.S_IMODE(os.stat(served.path).st_mode), 0o600)
            with self.served() as other:
                self.assertEqual(other.process.wait(PATIENCE), 1)
                self.assertIn("another server listens at", other.said())
            with served.client() as live:
                live.execute("RETURN 1")
            served.end(signal.SIGKILL)
            with self.served() as after, after.client() as live:
                live.execute("RETURN 1")

    def test_no_socket(self) -> None:
        Path(self.folder, "socket").write_text("mine")
        with self.served() as served:
            self.assertEqual(served.process.wait(PATIENCE), 1)
            self.assertIn("is there and is no socket", served.said())
        self.assertEqual(Path(self.folder, "socket").read_text(), "mine")

    def test_tcp(self) -> None:
        with self.served("--tcp", "0") as served, served.client() as live:
            self.assertEqual(served.ports["tcp"][0], "127.0.0.1")
            self.assertEqual(live.execute("RETURN 1 AS x")["rows"], [[1]])
            with self.served("--tcp", str(served.ports["tcp"][1])) as other:
                self.assertEqual(other.process.wait(PATIENCE), 1)
                self.assertIn("it can't listen there", other.said())

    def test_http_for_lines(self) -> None:
        """What a browser sends to the port of lines isn't executed."""
        with self.served("--tcp", "0") as served, served.client() as live:
            browser = http.client.HTTPConnection(*served.ports["tcp"], timeout=PATIENCE)
            with self.assertRaises(http.client.BadStatusLine):
                browser.request("POST", "/", "CREATE (:Bad)\n")
                browser.getresponse()
            browser.close()
            self.assertEqual(live.execute("MATCH (n) RETURN n")["rows"], [])


class Pages(Case):
    def ask(self, served: Served, path: str, method: str = "GET", **headers: str) -> http.client.HTTPResponse:
        browser = http.client.HTTPConnection(*served.ports["http"], timeout=PATIENCE)
        self.addCleanup(browser.close)
        browser.request(method, path, headers=headers)
        return browser.getresponse()

    def event(self, answer: http.client.HTTPResponse) -> Any:
        while True:
            line = answer.readline()
            if not line:
                return None
            if line.startswith(b"data: "):
                return json.loads(line[6:])

    def test_page(self) -> None:
        with self.served("--tcp", "0", "--http", "0") as served, served.client() as live:
            page = self.ask(served, "/?view=v")
            self.assertEqual((page.status, page.getheader("Content-Type")), (200, "text/html; charset=utf-8"))
            text = page.read().decode()
            self.assertIn("<!doctype html>", text)
            # It loads nothing: the only address in it names the format of drawings.
            self.assertEqual(text.replace("http://www.w3.org/2000/svg", "").count("://"), 0)
            live.view("a&b", "MATCH (n) RETURN n.k AS k")
            self.assertEqual(json.loads(self.ask(served, "/views").read())["views"][0]["name"], "a&b")
            self.assertEqual([self.ask(served, it).status for it in ("/other", "/../serve.py", "/follow", "/follow?view=")], [404] * 4)
            self.assertEqual([self.ask(served, "/", it).status for it in ("POST", "PUT", "DELETE")], [405] * 3)
            self.assertEqual([self.ask(served, "/views", Host=it).status for it in ("evil.example", "127.0.0.1.evil.example")], [403] * 2)
            self.assertEqual([self.ask(served, "/views", Host=it).status for it in ("localhost:80", "[::1]:80")], [200] * 2)

    def test_events(self) -> None:
        with self.served("--tcp", "0", "--http", "0") as served, served.client() as live:
            live.view("a&b", "MATCH (n) RETURN n.k AS k")
            live.execute("CREATE ({k: 9223372036854775807})")
            answer = self.ask(served, "/follow?view=a%26b")
            self.assertEqual(answer.getheader("Content-Type"), "text/event-stream")
            self.assertEqual(self.event(answer), {"rows": [[[2**63 - 1], 1]], "tick": 2, "view": "a&b"})
            live.execute(f"CREATE ({{k: {quote(chr(10) + 'data: x')}}})")
            self.assertEqual(self.event(answer)["added"], [[["\ndata: x"], 1]])
            live.execute(":drop `a&b`")
            self.assertEqual(self.event(answer), {"ended": "a&b", "why": "dropped"})
            self.assertIsNone(self.event(answer))
            self.assertEqual(self.event(self.ask(served, "/follow?view=none"))["code"], 61)
            live.view("v", "MATCH (n) RETURN n")
            answer = self.ask(served, "/follow?view=v")
            self.event(answer)
            served.end()
            self.assertEqual(self.event(answer)["code"], 101)
            self.assertIsNone(self.event(answer))

    def test_demonstration(self) -> None:
        """The demonstration makes its views and changes them, and ends with its server."""
        demo = str(Path(SERVE).parents[2] / "examples" / "dashboard" / "demo.py")
        words = [sys.executable, demo, "0"]
        environment = {**os.environ, "CYPHER_LIVE": find_program()}
        with subprocess.Popen(words, stdout=subprocess.PIPE, text=True, env=environment, start_new_session=True) as ran:
            assert ran.stdout
            port = int(ran.stdout.readline().split("/")[2].partition(":")[2])
            browser = http.client.HTTPConnection("127.0.0.1", port, timeout=PATIENCE)
            browser.request("GET", "/follow?view=parts")
            answer = browser.getresponse()
            self.assertEqual(len(self.event(answer)["rows"]), 9)
            os.killpg(ran.pid, signal.SIGINT)
            self.assertEqual(ran.wait(PATIENCE), 0)
            while self.event(answer):
                pass
            browser.close()

    def test_what_is_no_request(self) -> None:
        with self.served("--tcp", "0", "--http", "0") as served:
            for sent in (b"\r\n\r\n", b"GET\r\n\r\n", b"x" * 200000 + b"\r\n\r\n", b"GET / HTTP/1.1\r\nHost: [\r\n\r\n", b"GET / HT"):
                # The server may hang up at any of these, and a shutdown is then refused as not connected.
                with socket.create_connection(served.ports["http"], PATIENCE) as channel, suppress(OSError):
                    channel.sendall(sent)
                    channel.shutdown(socket.SHUT_WR)
                    channel.recv(1000)
            self.assertEqual(self.ask(served, "/views").status, 200)
            self.assertEqual(served.said(), "")


if __name__ == "__main__":
    main(sys.argv)
