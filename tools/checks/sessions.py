"""The sessions of examples/: what each line of them is answered."""
import json
import re
from collections import Counter
from dataclasses import dataclass, field
from pathlib import Path
from typing import Dict, Iterator, List, Tuple

from checks.program import TOP, Failure, run, shown

# How many entries of a view are kept in a file's sessions, where it isn't as many as without the option.
HISTORY = {"history.session": 2}
# The pages with sessions, and the options with which these may be run.
PAGES = ["README.md", "docs/COMMANDS.md"]
OPTIONS = [[], ["--feed"], ["--history=2"]]
# How an entry and a fault begin.
ENTRY = '{"added"'
FAULT = '{"at"'
# What stands before the query in a line that makes a view: the command, a gap, and a name, which may be quoted.
BEFORE_QUERY = re.compile(r"\s*:\s*view\s+(?:`(?:[^`]|``)*`|\w+)\s+", re.I)


@dataclass
class Exchange:
    """A line that is sent, with its number in the file and what is answered: the reply, and then the entries that it makes."""

    place: int
    line: str
    answers: List[str] = field(default_factory=list)

    def is_refused(self) -> bool:
        return bool(self.answers) and self.answers[0].startswith(FAULT)

    def without_entries(self) -> "Exchange":
        return Exchange(self.place, self.line, [it for it in self.answers if not it.startswith(ENTRY)])


def read_sessions(name: str, text: str, first: int = 1) -> Iterator[List[Exchange]]:
    """The sessions of a text, whose first line has a number. A line that begins with a brace is an answer, each other one is sent, and an
    empty line ends a session."""
    session: List[Exchange] = []
    # (split at line feeds alone: a line may hold other characters that end a line elsewhere)
    for place, line in enumerate(text.split("\n"), first):
        if line.startswith("{"):
            if not session:
                raise Failure(f"{name}, line {place}: an answer to no line")
            session[-1].answers.append(line)
        elif line:
            session.append(Exchange(place, line))
        elif session:
            yield session
            session = []
    if session:
        yield session


def differs(found: List[str], session: List[Exchange]) -> str:
    """Where what was written differs from a session, in words, or nothing."""
    at = 0
    for exchange in session:
        part = found[at : at + len(exchange.answers)]
        at += len(exchange.answers)
        if part != exchange.answers:
            wanted, got = " ".join(exchange.answers).encode(), " ".join(part).encode()
            return f"line {exchange.place}, {shown(exchange.line.encode())}: answered {shown(got)}, and not {shown(wanted)}"
    return f"after the last answer comes {found[at][:200]!r}" if found[at:] else ""


def try_session(program: Path, words: List[str], session: List[Exchange], what: str) -> None:
    """Sends a session to a fresh program, and fails where what it writes is something else."""
    sent = "".join(f"{it.line}\n" for it in session).encode()
    ended = run(program, words, sent)
    found = ended.output.decode(errors="backslashreplace").split("\n")
    difference = differs(found[:-1], session)
    if difference or found[-1]:
        raise Failure(f"{what}, {difference or 'the last line of the output has no end'}")
    if ended.status != 0 or ended.errors:
        raise Failure(f"{what}: {ended.words()}")


def try_file(program: Path, file: Path) -> int:
    """Tries the sessions of a file, each as it stands, without its refused lines, and without entries."""
    options = [f"--history={HISTORY[file.name]}"] if file.name in HISTORY else []
    sessions = list(read_sessions(file.name, file.read_bytes().decode()))
    feed = ["--feed"] if any(it.startswith(ENTRY) for session in sessions for one in session for it in one.answers) else []
    for session in sessions:
        try_session(program, options + feed, session, f"{file.name}, as it stands")
        others = [it for it in session if not it.is_refused()]
        try_session(program, options + feed, others, f"{file.name}, without its refused lines")
        if feed:
            plain = [it.without_entries() for it in session]
            try_session(program, options, plain, f"{file.name}, without --feed")
    return len(sessions)


def test_sessions(program: Path) -> str:
    files = sorted((TOP / "examples").glob("*.session"))
    if not files:
        raise Failure("examples/ has no sessions")
    count = sum(try_file(program, file) for file in files)
    return f"{count} sessions of {len(files)} files as they stand, without their refused lines and without entries"


def standing(session: List[Exchange]) -> Iterator[Tuple[Exchange, Dict[str, str]]]:
    """Each line of a session, with the views that stand after it and their queries."""
    views: Dict[str, str] = {}
    for exchange in session:
        reply = json.loads(exchange.answers[0]) if exchange.answers else {}
        if {*reply} == {"columns", "tick", "view"}:
            before = BEFORE_QUERY.match(exchange.line)
            if not before:
                raise Failure(f"line {exchange.place} makes a view, and its query wasn't found")
            views[reply["view"]] = exchange.line[before.end() :]
        elif {*reply} == {"dropped"}:
            del views[reply["dropped"]]
        yield exchange, dict(views)


def compare_views(program: Path, options: List[str], session: List[Exchange], what: str) -> int:
    """Asks after each line for the rows of each view that stands, and sends its query. Fails where the two differ, and returns how often they were compared."""
    lines, asked = [], []
    replies = 0
    for exchange, views in standing(session):
        lines.append(exchange.line)
        replies += bool(exchange.answers)
        for name, query in views.items():
            quoted = name.replace("`", "``")
            lines += [f":rows `{quoted}`", query]
            asked.append((replies, exchange.place, name))
            replies += 2
    found = run(program, options, "".join(f"{it}\n" for it in lines).encode()).output.decode(errors="backslashreplace").split("\n")[:-1]
    for at, place, name in asked:
        kept, queried = json.loads(found[at]), json.loads(found[at + 1])
        counted = Counter({json.dumps(row): count for row, count in kept["rows"]})
        if counted != Counter(json.dumps(row) for row in queried["rows"]):
            raise Failure(f"{what}, after line {place}: the view {name} has other rows than its query gives")
    return len(asked)


def test_views(program: Path) -> str:
    count = 0
    for file in sorted((TOP / "examples").glob("*.session")):
        options = [f"--history={HISTORY[file.name]}"] if file.name in HISTORY else []
        for session in read_sessions(file.name, file.read_bytes().decode()):
            count += compare_views(program, options, session, file.name)
    return f"{count} times the rows of a view and of its query, after each line of each session"


def page_sessions() -> Iterator[Tuple[str, List[Exchange]]]:
    """The sessions in the pages: each block that begins with a line that is sent, and in which an answer stands."""
    for page in PAGES:
        text = (TOP / page).read_text(encoding="utf-8")
        for block in re.finditer(r"^```(\w*)\n(.*?)^```$", text, re.M | re.S):
            word, lines = block.groups()
            if not word and not lines.startswith("{") and "\n{" in lines:
                for session in read_sessions(page, lines, text[: block.start(2)].count("\n") + 1):
                    yield page, session


def test_pages(program: Path) -> str:
    count = 0
    for page, session in page_sessions():
        failures = []
        for words in OPTIONS:
            try:
                try_session(program, words, session, page)
            except Failure as why:
                failures.append(why)
        if len(failures) == len(OPTIONS):
            raise failures[0]
        count += 1
    return f"{count} sessions of {' and '.join(PAGES)}"
