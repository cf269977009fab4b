"""A client of cypher_live in Python's standard library, 3.8 or later. It is tested, and nothing of it is proved."""
import json
import os
import queue
import re
import shutil
import socket
import subprocess
import threading
import time
from collections import deque
from contextlib import suppress
from itertools import islice
from pathlib import Path
from typing import Any, ContextManager, Counter, Deque, Dict, Iterable, Iterator, List, NamedTuple, Optional, Tuple, Union

Reply = Dict[str, Any]
ESCAPES = {**{code: f"\\u{code:04X}" for code in range(32)}, 39: "\\'", 92: "\\\\"}
# What may stand between tokens: white space, which isn't quite that of \s, and comments.
BLANK = re.compile(r"[\t-\r \x85\xa0\u1680\u2000-\u200a\u2028\u2029\u202f\u205f\u3000]+|//.*|/\*.*?\*/", re.DOTALL)


class Ended(Exception):
    """The program ended, or the connection. A line that wasn't answered may have been executed or not."""


class Fault(Exception):
    """A line was refused and changed nothing; or, with code 91, it was executed and its answer is lost."""
    def __init__(self, line: str, at: Optional[int], code: int, error: str) -> None:
        super().__init__(f"{code} {error}{'' if at is None else f' at byte {at}'}: {line:.200}")
        self.line, self.at, self.code, self.error = line, at, code, error


class Copy(Counter[str]):
    """A view's rows at a tick, by their JSON texts, since Python takes True and 1 for the same, with their counts."""
    tick = 0


class Entry(NamedTuple):
    """What changed in a view's rows; where the copy lagged, how it differs from all rows, which were asked for."""
    added: Counter[str]
    removed: Counter[str]
    tick: int
    lagged: bool


def counted(rows: List[List[Any]]) -> Counter[str]:
    return Counter({json.dumps(row, ensure_ascii=False): count for row, count in rows})


def quote(value: Any) -> str:
    """Writes None, a boolean, an integer of 64 bits, a text, or a list of these as a literal."""
    if isinstance(value, str):
        return f"'{value.translate(ESCAPES)}'"
    if isinstance(value, (list, tuple)):
        return f"[{', '.join(map(quote, value))}]"
    if value is None or isinstance(value, int) and -(2**63) <= value < 2**63:
        return json.dumps(value)
    raise ValueError(f"there is no literal for {value!r:.100}")


def quote_name(name: str) -> str:
    """Writes the name of a view, variable, label, type or key. It has no escapes, so no name has an LF."""
    if not name or "\n" in name:
        raise ValueError(f"this is no name: {name!r:.100}")
    return "`" + name.replace("`", "``") + "`"


def has_reply(line: str) -> bool:
    """Whether a line is answered: it has a token, or is too long."""
    blank = BLANK.match(line)
    while blank and blank.end() < len(line):
        blank = BLANK.match(line, blank.end())
    return bool(line) and not blank or len(line.encode()) > 65536


def find_program(program: Optional[str] = None) -> str:
    """The program of this name, else of CYPHER_LIVE, else at the top of the repository, else in PATH."""
    name, top = program or os.environ.get("CYPHER_LIVE"), Path(__file__).resolve().parent.parent.parent / "cypher_live"
    found = shutil.which(name or str(top)) or shutil.which(name or "cypher_live")
    if found:
        return found
    raise FileNotFoundError(f"there is no program {name or top}: tools/build makes it, or CYPHER_LIVE names it")


class Live(ContextManager["Live"]):
    """A program, or serve.py by the path of its socket or its host and port; for one thread. `timeout` is in seconds."""

    def __init__(self, channel: socket.socket, process: Optional[Any], timeout: Optional[float]) -> None:
        self._channel, self._process, self._timeout = channel, process, timeout
        self._owed, self._turn = 0, 0
        self._answers: "queue.SimpleQueue[Optional[Reply]]" = queue.SimpleQueue()
        self.pushes: "queue.SimpleQueue[Optional[Reply]]" = queue.SimpleQueue()  # from serve.py, and None at the end
        # It reads all the time, so that the program never waits for a reader, and writing to it ends.
        threading.Thread(target=self._read, daemon=True).start()

    @classmethod
    def start(cls, program: Optional[str] = None, history: int = 64, timeout: Optional[float] = None) -> "Live":
        words = [find_program(program), f"--history={history}"]
        ours, its = socket.socketpair()
        with its:
            return cls(ours, subprocess.Popen(words, stdin=its.fileno(), stdout=its.fileno()), timeout)

    @classmethod
    def connect(cls, address: Union[str, Tuple[str, int]], timeout: Optional[float] = None) -> "Live":
        channel = socket.socket(socket.AF_UNIX if isinstance(address, str) else socket.AF_INET)
        channel.connect(address)
        return cls(channel, None, timeout)

    def execute(self, line: str) -> Reply:
        """Sends a line and gives its reply, which is empty where the line has no token; or raises its Fault."""
        (reply,) = self.pipeline([line])
        if isinstance(reply, Fault):
            raise reply
        return reply

    def pipeline(self, lines: Iterable[str], ahead: int = 1000) -> Iterator[Union[Reply, Fault]]:
        """Sends so many lines ahead of their answers, and gives the reply or the Fault of each in turn."""
        while self._owed:
            self._answer("")  # of a pipeline that was left before its end
        self._turn = turn = self._turn + 1
        todo, sent = iter(lines), deque()  # type: Iterator[str], Deque[Tuple[str, bool]]
        while True:
            sent.extend((line, self._send(line)) for line in islice(todo, ahead - len(sent)))
            if not sent:
                return
            line, is_answered = sent.popleft()
            yield self._answer(line) if is_answered else {}
            if turn != self._turn:
                raise RuntimeError("another line was sent before this pipeline had all its answers")

    def view(self, name: str, query: str) -> List[str]:
        """Makes a view and gives its columns."""
        return self.execute(f":view {quote_name(name)} {query}")["columns"]

    def rows(self, name: str) -> List[List[Any]]:
        """Gives each row of a view with its count, in canonical order."""
        return self.execute(f":rows {quote_name(name)}")["rows"]

    def follow(self, name: str, copy: Optional[Copy] = None, every: Optional[float] = None) -> Iterator[Entry]:
        """Brings a copy up to date and gives the entries that this takes, at first one with all rows. Then it ends, or
        goes on every so many seconds. After a restart begin with a new copy."""
        copy = Copy() if copy is None else copy
        while True:
            reply = self.execute(f":since {quote_name(name)} {copy.tick}")
            changes = [(counted(it["added"]), counted(it["removed"]), it["tick"]) for it in reply.get("entries", ())]
            if "rows" in reply:
                now = counted(reply["rows"])
                changes = [(now - copy, copy - now, reply["tick"])]
            for added, removed, tick in changes:
                copy.update(added)
                copy.subtract(removed)
                for row in [row for row in removed if not copy[row]]:
                    del copy[row]
                copy.tick = tick
                yield Entry(added, removed, tick, "rows" in reply)
            copy.tick = reply["tick"]
            if every is None:
                return
            time.sleep(every)

    def close(self, *_: Any) -> None:
        """Ends the connection; or the program, and with it all that it holds."""
        with suppress(OSError):
            self._channel.shutdown(socket.SHUT_RDWR)
        self._channel.close()
        if self._process:
            self._process.kill()
            self._process.wait()

    __exit__ = close

    def _send(self, line: str) -> bool:
        if "\n" in line:
            raise ValueError(f"a line has no LF, and a text has it as \\n: {line!r:.200}")
        if not has_reply(line):
            return False
        with suppress(OSError):  # where it ended, what it wrote before that is still read
            self._channel.sendall(line.encode() + b"\n")
        self._owed += 1
        return True

    def _answer(self, line: str) -> Union[Reply, Fault]:
        with suppress(queue.Empty):
            reply = self._answers.get(timeout=self._timeout)
            if reply is not None:
                self._owed -= 1
                return Fault(line, **reply) if "code" in reply else reply
            self._answers.put(None)
            raise Ended(f"the program ended with status {self._process.wait(10)}" if self._process else "the connection ended")
        raise TimeoutError(f"no answer in {self._timeout} seconds: {line:.200}")

    def _read(self) -> None:
        with suppress(OSError, ValueError), self._channel.makefile("rb") as answers:
            for text in answers:
                reply = json.loads(text)
                (self.pushes if "added" in reply or "ended" in reply else self._answers).put(reply)
        self._answers.put(None)
        self.pushes.put(None)
