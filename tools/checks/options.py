"""The options of the program, and the statuses with which it ends."""
from pathlib import Path

from checks.program import Ended, Failure, expect, run

BAD = Ended(2, b"", b"cypher_live: bad arguments\n")
# What is good, with how many entries of a view it keeps and whether it has a feed.
GOOD = [
    ("", 64, False),
    ("--feed", 64, True),
    ("--history 1", 1, False),
    ("--history=4096", 4096, False),
    ("--history 4096 --feed", 4096, True),
    ("--feed --history 1", 1, True),
    ("--history=5", 5, False),
    ("--history +7", 7, False),
    ("--history=+5 --feed", 5, True),
    ("--history 007", 7, False),
    ("--history=+0064", 64, False),
    ("--", 64, False),
    ("--feed --", 64, True),
]
# What is bad, whatever the input.
WRONG = [
    "--feed --feed",
    "--feed=1",
    "--feed=true",
    "--fee",
    "--history",
    "--history=",
    "--history --feed",
    "--history 0",
    "--history=0",
    "--history 4097",
    "--history=4097",
    "--history -1",
    "--history=-1",
    "--history 2.0",
    "--history two",
    "--history 2x",
    "--history 18446744073709551617",
    "--history 99999999999999999999999",
    "--history 2 3",
    "--history 2 --history 2",
    "--hist 2",
    "--histry 2",
    "--History 2",
    "-feed 2",
    "--Feed",
    "--none",
    "-f",
    "-",
    "word",
    "--feed word",
    "-- --feed",
    "--none --help",
    "--feed --feed --help",
    "--help=me",
]
# What shows the options.
HELP = ["--help", "-h", "--feed --help", "--help --none", "--help --histry", "--history 3 -h"]
# A view and a change of it.
VIEW = b":view v MATCH (n) RETURN n\n"
CHANGE = b"CREATE ()\n"
ENTRY = b'{"added"'


def test_good_options(program: Path) -> str:
    """A view changes once more often than it keeps entries. Asked for all changes it shows its rows, asked for those after the first its entries."""
    for words, history, feed in GOOD:
        ended = run(program, words.split(), VIEW + CHANGE * (history + 1) + b":since v 1\n:since v 2\n")
        lines = ended.output.splitlines()
        entries = sum(it.startswith(ENTRY) for it in lines)
        is_kept = len(lines) > 2 and lines[-2].startswith(b'{"rows"') and lines[-1].startswith(b'{"entries"')
        if ended.status != 0 or ended.errors or not is_kept or entries != (history + 1 if feed else 0):
            raise Failure(f"cypher_live {words}: {ended.words()}")
    return f"{len(GOOD)} that are good: what --history keeps, and whether there is a feed"


def test_bad_options(program: Path) -> str:
    cases = [it.split() for it in WRONG]
    cases += [[""], ["--history", ""], [b"\xff"], ["--history", b"\xff"], ["--feed", b"--feed\xff"]]
    for words in cases:
        expect(run(program, words, b"RETURN 1\n"), BAD, f"cypher_live {words}")
    return f"{len(cases)} that are bad: status 2, words on standard error, and no output"


def test_help(program: Path) -> str:
    for words in HELP:
        ended = run(program, words.split(), b"RETURN 1\n")
        text = ended.output.decode(errors="replace")
        if ended.status != 0 or ended.errors or not all(it in text for it in ("Usage:", "--history <N>", "--feed", "--help")):
            raise Failure(f"cypher_live {words}: {ended.words()}")
    return f"help, asked for in {len(HELP)} ways"


def test_feed(program: Path) -> str:
    reply = b'{"columns":["n"],"tick":1,"view":"v"}\n{"changed":[1,0,0,0],"columns":[],"rows":[]}\n'
    entry = b'{"added":[[[{"node":1}],1]],"removed":[],"tick":2,"view":"v"}\n'
    expect(run(program, [], VIEW + CHANGE), Ended(0, reply, b""), "cypher_live")
    expect(run(program, ["--feed"], VIEW + CHANGE), Ended(0, reply + entry, b""), "cypher_live --feed")
    return "what --feed adds"
