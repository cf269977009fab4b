#!/usr/bin/env python3
"""Serves one cypher_live to many clients, over a Unix socket or TCP, and views to a browser.

The lines of all clients become one list. Each reply goes to its asker, and the entries of a view to those who follow it. With a
journal the accepted lines are kept in a file, and sent again at the next start. docs/CLIENTS.md says what a client has to
know. There are no users and no rights: whoever reaches the socket or the port can read and change everything.

All of this is tested, and nothing of it proved.
"""
import argparse
import asyncio
import fcntl
import json
import os
import re
import signal
import socket
import stat
import sys
from contextlib import suppress
from pathlib import Path
from typing import Callable, Dict, Iterator, List, NamedTuple, Optional
from urllib.parse import parse_qs, urlsplit

from cypher_live import BLANK, find_program, has_reply, quote_name

LINE_LIMIT = 65_536
PAGE = Path(__file__).resolve().parent.parent.parent / "examples" / "dashboard" / "index.html"
LOOPBACK = ("127.0.0.1", "localhost", "::1")
# So many seconds the answers of an ended connection wait to be taken, and so long a request of HTTP may take to come.
GRACE = 10.0


def fault(code: int, word: str, at: Optional[int] = None) -> bytes:
    return b'{"at":%s,"code":%d,"error":"%s"}\n' % (json.dumps(at).encode(), code, word.encode())


# Answers of the program. A line `:` follows each line: it is always refused, so it shows that all entries have come.
MARK = fault(70, "UnknownCommand")
NO_MEMORY = fault(90, "NoMemory")
LOST = fault(91, "ReplyLost")
TOO_LONG = fault(17, "LineTooLong", LINE_LIMIT)
# Answers of this server. After the last three the connection ends.
NOT_KEPT = fault(100, "NotKept")
SERVICE_ENDED = fault(101, "ServiceEnded")
SLOW_READER = fault(102, "SlowReader")
LINES_ONLY = fault(103, "LinesOnly")

FOLLOW = re.compile(rb"\s*:\s*follow(?:\s+(.*))?", re.IGNORECASE | re.DOTALL)
UNFOLLOW = re.compile(rb"\s*:\s*unfollow\s*;?\s*", re.IGNORECASE)
HTTP = re.compile(rb"[A-Z]+ \S+ HTTP/[0-9.]+\r?")
# Texts, quoted names, comments, and words that are names after a colon or a point; or else a word that changes the graph. What isn't
# closed goes to the end: such a line is refused.
WORDS = re.compile(
    r"'(?:[^'\\]|\\.?)*(?:'|\Z)|\"(?:[^\"\\]|\\.?)*(?:\"|\Z)|`[^`]*(?:`|\Z)|//.*|/\*.*?(?:\*/|\Z)"
    r"|[:.]\s*\w+|\b(create|set|remove|delete)\b",
    re.IGNORECASE | re.DOTALL,
)
CHANGES = re.compile(r"(?:view|drop|index)\b", re.IGNORECASE)


class Stop(Exception):
    """Why the server doesn't start, or ends."""


def say(words: str) -> None:
    print(f"serve.py: {words}", file=sys.stderr, flush=True)


def after_blank(line: str, at: int) -> int:
    """Where the next token of a line begins."""
    blank = BLANK.match(line, at)
    while blank:
        at = blank.end()
        blank = BLANK.match(line, at)
    return at


def is_answered(line: bytes) -> bool:
    """Whether the program answers a line. What isn't UTF-8 is refused, also where it is in a comment."""
    try:
        return has_reply(line.decode())
    except UnicodeDecodeError:
        return True


def may_change(line: bytes) -> bool:
    """Whether a line may change the graph, the views or the indexes. Where it doesn't, it surely changes nothing."""
    text = line.decode(errors="replace")
    at = after_blank(text, 0)
    if text[at : at + 1] == ":":
        return CHANGES.match(text, after_blank(text, at + 1)) is not None
    return any(found[1] for found in WORDS.finditer(text))


def is_refused(reply: bytes) -> bool:
    return reply.startswith(b'{"at":') and reply != LOST


def view_of(reply: bytes) -> bytes:
    """The name of a view, as JSON, at the end of an entry or of rows."""
    return reply.rpartition(b',"view":')[2][:-2]


class Answer(NamedTuple):
    reply: bytes
    entries: List[bytes]
    # Whether there was no memory for the text of an entry.
    lacks_entry: bool


class Engine:
    """The program, which takes one line at a time."""

    def __init__(self, process: asyncio.subprocess.Process) -> None:
        self.process = process
        assert process.stdin and process.stdout
        self.stdin, self.stdout = process.stdin, process.stdout

    @classmethod
    async def start(cls, program: str, history: int) -> "Engine":
        # In a session of its own it isn't reached by the Ctrl-C that ends the server.
        words = [program, "--feed", f"--history={history}"]
        pipe = asyncio.subprocess.PIPE
        return cls(
            await asyncio.create_subprocess_exec(*words, stdin=pipe, stdout=pipe, limit=1 << 60, start_new_session=True)
        )

    async def check(self) -> None:
        """Finds out whether it answers."""
        self.stdin.write(b":\n")
        if await self.read() != MARK:
            raise Stop("the program isn't cypher_live: it answers something else")

    async def read(self) -> bytes:
        answer = await self.stdout.readline()
        if not answer.endswith(b"\n"):
            raise Stop(await self.end())
        return answer

    async def answer(self, line: bytes) -> Answer:
        """Sends a line that is answered, and returns all that it gives. Nobody may ask for another one meanwhile."""
        self.stdin.write(line + b"\n:\n")
        reply = await self.read()
        entries: List[bytes] = []
        while True:
            entry = await self.read()
            if entry in (MARK, NO_MEMORY):
                return Answer(reply, [it for it in entries if it != LOST], LOST in entries)
            entries.append(entry)

    async def replies(self, lines: List[bytes]) -> List[bytes]:
        """Sends lines that are answered, and returns the reply of each."""
        self.stdin.write(b"".join(line + b"\n" for line in [*lines, b":"]))
        replies: List[bytes] = []
        while len(replies) <= len(lines):
            answer = await self.read()
            if not answer.startswith(b'{"added":'):
                replies.append(answer)
        return replies[:-1]

    async def end(self) -> str:
        """Waits for the end of the program and says how it ended."""
        status = await self.process.wait()
        return f"the program ended by signal {-status}" if status < 0 else f"the program ended with status {status}"


class Journal:
    """A file of the lines that were accepted. A line is written before it is executed, and cut off again where it is refused."""

    def __init__(self, path: str, fsync: bool) -> None:
        self.path, self.fsync = path, fsync
        try:
            self.file = os.open(path, os.O_RDWR | os.O_CREAT | os.O_APPEND | os.O_CLOEXEC, 0o600)
            fcntl.flock(self.file, fcntl.LOCK_EX | fcntl.LOCK_NB)
        except BlockingIOError:
            raise Stop(f"another server has the journal {path}") from None
        except OSError as error:
            raise Stop(f"the journal {path}: {error.strerror}") from None
        if not stat.S_ISREG(os.fstat(self.file).st_mode):
            raise Stop(f"the journal {path} is no file that lines can be kept in")
        # So many bytes are lines that were accepted.
        self.size = self.whole()
        half = os.fstat(self.file).st_size - self.size
        if half:
            say(f"the journal ended in half a line of {half} bytes, which was cut off")
            self.cut()
        if fsync:
            self.sync_folder()

    def whole(self) -> int:
        """Where the last whole line ends."""
        end = os.fstat(self.file).st_size
        while end:
            start = max(0, end - LINE_LIMIT)
            at = os.pread(self.file, end - start, start).rfind(b"\n")
            if at >= 0:
                return start + at + 1
            end = start
        return 0

    def sync_folder(self) -> None:
        folder = os.open(os.path.dirname(os.path.abspath(self.path)), os.O_RDONLY | os.O_DIRECTORY)
        os.fsync(folder)
        os.close(folder)

    def lines(self) -> Iterator[bytes]:
        with open(self.path, "rb") as file:
            for line in file:
                yield line[:-1]

    def write(self, line: bytes) -> None:
        """Writes a line after those that are kept; where it can't all is as before."""
        rest = line + b"\n"
        try:
            while rest:
                rest = rest[os.write(self.file, rest) :]
            if self.fsync:
                os.fsync(self.file)
        except OSError:
            self.cut()
            raise

    def keep(self, line: bytes) -> None:
        """Keeps the line that was just written."""
        self.size += len(line) + 1

    def drop(self, line: bytes) -> bool:
        """Cuts off this line, where it is the last one."""
        last = b"\n" + line + b"\n"
        start = self.size - len(last)
        # Before the first line there is no LF.
        found = os.pread(self.file, len(last), start) if start >= 0 else b"\n" + os.pread(self.file, len(last), 0)
        if found != last:
            return False
        self.size = start + 1
        self.cut()
        return True

    def cut(self) -> None:
        """Cuts off what isn't kept."""
        try:
            os.ftruncate(self.file, self.size)
        except OSError as error:
            raise Stop(f"the journal {self.path} can't be cut off after {self.size} bytes: {error.strerror}") from None


def as_line(answer: bytes) -> bytes:
    return answer


def as_event(answer: bytes) -> bytes:
    """An answer as a server-sent event."""
    return b"data: " + answer + b"\n"


class Client:
    """Who asks and follows. What it doesn't take waits here; of what is pushed only so many bytes."""

    def __init__(self, writer: asyncio.StreamWriter, limit: int, frame: Callable[[bytes], bytes] = as_line) -> None:
        self.writer, self.limit, self.frame = writer, limit, frame
        self.allowed = limit
        self.is_over = False

    def waiting(self) -> int:
        return self.writer.transport.get_write_buffer_size()

    def write(self, answer: bytes) -> None:
        if not self.is_over and not self.writer.is_closing():
            self.writer.write(self.frame(answer))

    def reply(self, answer: bytes) -> None:
        self.write(answer)
        # A long reply that is on its way isn't counted.
        self.allowed = self.waiting() + self.limit

    async def taken(self) -> None:
        """Waits until the client has taken its replies."""
        try:
            await self.writer.drain()
        except ConnectionError:
            self.finish()
        self.allowed = self.limit

    def push(self, answer: bytes) -> None:
        if self.waiting() > self.allowed:
            self.finish(SLOW_READER)
        self.write(answer)

    def finish(self, last: Optional[bytes] = None) -> None:
        """Ends the connection, with these last words, once all was taken or after a while."""
        if last:
            self.write(last)
        if not self.is_over:
            self.is_over = True
            self.writer.close()
            asyncio.get_running_loop().call_later(GRACE, self.writer.transport.abort)


class Server:
    """One engine, its journal, and those who ask and follow."""

    def __init__(self, engine: Engine, journal: Optional[Journal], settings: argparse.Namespace) -> None:
        self.engine, self.journal, self.settings = engine, journal, settings
        # Who has it may send a line. It goes round in the order in which it is asked for.
        self.turn = asyncio.Lock()
        self.page = read_page(settings.page) if settings.http is not None else b""
        self.clients: Dict[Client, None] = {}
        self.followers: Dict[bytes, Dict[Client, None]] = {}
        self.ending: "asyncio.Future[str]" = asyncio.get_running_loop().create_future()

    async def read_journal(self) -> int:
        """Sends the lines of the journal, and returns how many they are. The last one may be refused: then it was just
        written when the server ended, and nobody was answered."""
        assert self.journal
        count, batch, last = 0, [], b""
        refusal = ""
        lines = filter(is_answered, self.journal.lines())
        while True:
            batch = [line for _, line in zip(range(1000), lines)]
            if not batch:
                break
            for line, reply in zip(batch, await self.engine.replies(batch)):
                if refusal:
                    raise Stop(f"the journal doesn't fit this program: {refusal}")
                count, last = count + 1, line
                if reply.startswith(b'{"at":'):
                    refusal = f"its line {count} is answered {reply.decode().strip()}: {line[:200].decode(errors='replace')}"
                if reply in (NO_MEMORY, LOST):
                    raise Stop(f"there is too little memory for the journal: {refusal}")
        if refusal:
            if not self.journal.drop(last):
                raise Stop(f"the journal doesn't fit this program: {refusal}")
            say(f"the last line of the journal was cut off: {refusal}")
            count -= 1
        return count

    async def execute(self, client: Client, line: bytes) -> None:
        """Takes a client's line into the list of lines, and answers it."""
        async with self.turn:
            if client.is_over or self.ending.done():
                return
            try:
                await self.execute_next(client, line)
            except Stop as stop:
                self.end(str(stop))
            except Exception as error:
                # Where it stands isn't known then.
                self.end(f"an error of the server: {error!r}")
                raise

    async def execute_next(self, client: Client, line: bytes) -> None:
        if UNFOLLOW.fullmatch(line):
            client.reply(b'{"unfollowed":[%s]}\n' % b",".join(self.unfollow(client)))
            return
        follow = FOLLOW.fullmatch(line)
        keeps = self.journal if not follow and may_change(line) else None
        if keeps and not self.write(keeps, line):
            client.reply(NOT_KEPT)
            return
        try:
            answer = await self.engine.answer(b":rows " + (follow[1] or b"") if follow else line)
        except BaseException:
            if keeps:
                keeps.cut()
            raise
        if keeps:
            if is_refused(answer.reply):
                keeps.cut()
            else:
                keeps.keep(line)
        client.reply(answer.reply)
        if follow and answer.reply.startswith(b'{"rows":'):
            self.followers.setdefault(view_of(answer.reply), {})[client] = None
        # Without its reply it isn't known which view a `:drop` dropped.
        self.hand_on(answer, answer.lacks_entry or answer.reply == LOST and may_change(line))

    def write(self, journal: Journal, line: bytes) -> bool:
        try:
            journal.write(line)
        except OSError as error:
            say(f"a line was not executed, since the journal {journal.path} can't be written: {error.strerror}")
            return False
        return True

    def hand_on(self, answer: Answer, is_lost: bool) -> None:
        """Pushes entries to those who follow, and ends what can't be followed any more."""
        for entry in answer.entries:
            self.push(view_of(entry), entry)
        if answer.reply.startswith(b'{"dropped":'):
            self.end_view(answer.reply[len(b'{"dropped":') : -2], b"dropped")
        if is_lost:
            for view in list(self.followers):
                self.end_view(view, b"lost")

    def push(self, view: bytes, answer: bytes) -> None:
        for client in list(self.followers.get(view, ())):
            client.push(answer)

    def end_view(self, view: bytes, why: bytes) -> None:
        self.push(view, b'{"ended":%s,"why":"%s"}\n' % (view, why))
        for client in self.followers.pop(view, ()):
            if client.frame is as_event:
                # A browser asks again by itself.
                client.finish()

    def unfollow(self, client: Client) -> List[bytes]:
        views = [view for view, clients in self.followers.items() if client in clients]
        for view in views:
            del self.followers[view][client]
            if not self.followers[view]:
                del self.followers[view]
        return views

    def end(self, why: str) -> None:
        if not self.ending.done():
            self.ending.set_result(why)

    async def finish(self) -> None:
        """Ends all connections, after the line that is being executed, or without it where that takes long."""
        try:
            await asyncio.wait_for(self.turn.acquire(), GRACE)
        except asyncio.TimeoutError:
            self.engine.process.kill()
            await self.turn.acquire()
        for client in list(self.clients):
            client.finish(SERVICE_ENDED)
        for _ in range(int(GRACE * 20)):
            if not self.clients:
                break
            await asyncio.sleep(0.05)

    async def serve_lines(self, reader: asyncio.StreamReader, writer: asyncio.StreamWriter) -> None:
        client = Client(writer, self.settings.buffer)
        self.clients[client] = None
        try:
            while not client.is_over:
                line = await read_line(reader)
                if line is None or HTTP.fullmatch(line):
                    # A browser that is led here by another page sends lines of HTTP, and then what that page wants.
                    client.finish(LINES_ONLY if line else None)
                elif len(line) > LINE_LIMIT:
                    client.reply(TOO_LONG)
                elif is_answered(line):
                    await self.execute(client, line)
                await client.taken()
        finally:
            self.forget(client)

    def forget(self, client: Client) -> None:
        self.unfollow(client)
        self.clients.pop(client, None)
        client.finish()

    async def serve_http(self, reader: asyncio.StreamReader, writer: asyncio.StreamWriter) -> None:
        client = Client(writer, self.settings.buffer, as_event)
        self.clients[client] = None
        try:
            await self.answer_http(client, reader)
        except (ConnectionError, asyncio.IncompleteReadError, asyncio.LimitOverrunError, asyncio.TimeoutError, ValueError):
            # What is no request is not answered.
            pass
        finally:
            self.forget(client)

    async def answer_http(self, client: Client, reader: asyncio.StreamReader) -> None:
        head = (await asyncio.wait_for(reader.readuntil(b"\r\n\r\n"), GRACE)).decode("latin-1").split("\r\n")
        method, target, _ = head[0].split(" ", 2)
        named = [line.partition(":")[2].strip() for line in head[1:] if line.lower().startswith("host:")]
        where, asked = urlsplit(target), parse_qs(urlsplit(target).query)
        if self.settings.host in LOOPBACK and urlsplit(f"//{''.join(named)}").hostname not in LOOPBACK:
            # A name that was made to lead here would let another page read the views.
            self.send(client, "403 Forbidden", "text/plain", b"this is served to localhost alone\n")
        elif method != "GET":
            self.send(client, "405 Method Not Allowed", "text/plain", b"views are read by GET\n")
        elif where.path == "/":
            self.send(client, "200 OK", "text/html", self.page)
        elif where.path == "/views":
            client.frame = lambda answer: http_head("200 OK", "application/json", len(answer)) + answer
            await self.execute(client, b":views")
        elif where.path == "/follow" and asked.get("view"):
            client.writer.write(http_head("200 OK", "text/event-stream", None) + b"retry: 1000\n\n")
            await self.execute(client, b":follow " + quote_name(asked["view"][0]).encode())
            while any(client in clients for clients in self.followers.values()) and await reader.read(LINE_LIMIT):
                pass
        else:
            self.send(client, "404 Not Found", "text/plain", b"there are /, /views and /follow?view=NAME\n")

    def send(self, client: Client, status: str, kind: str, body: bytes) -> None:
        client.writer.write(http_head(status, f"{kind}; charset=utf-8", len(body)) + body)


def http_head(status: str, kind: str, length: Optional[int]) -> bytes:
    """The head of an HTTP response. The page may load nothing and ask nobody else."""
    lines = [
        f"HTTP/1.1 {status}",
        f"Content-Type: {kind}",
        "Cache-Control: no-store",
        "X-Content-Type-Options: nosniff",
        "Content-Security-Policy: default-src 'none'; script-src 'unsafe-inline'; style-src 'unsafe-inline'; connect-src 'self'; "
        "img-src data:",
        "Connection: close",
    ]
    if length is not None:
        lines.append(f"Content-Length: {length}")
    return "\r\n".join([*lines, "", ""]).encode()


async def read_line(reader: asyncio.StreamReader) -> Optional[bytes]:
    """The next line without its LF; of one that is too long something else as long; None at the end. Half a line is none."""
    is_too_long = False
    while True:
        try:
            line = await reader.readuntil(b"\n")
            return b"." * (LINE_LIMIT + 1) if is_too_long else line[:-1]
        except asyncio.LimitOverrunError as error:
            await reader.readexactly(error.consumed)
            is_too_long = True
        except (asyncio.IncompleteReadError, ConnectionError):
            return None


def read_page(path: str) -> bytes:
    try:
        return Path(path).read_bytes()
    except OSError as error:
        raise Stop(f"the page {path}: {error.strerror}") from None


def make_way(path: str) -> None:
    """Removes the socket that a server which is gone left."""
    try:
        if not stat.S_ISSOCK(os.lstat(path).st_mode):
            raise Stop(f"{path} is there and is no socket")
        with socket.socket(socket.AF_UNIX) as other:
            other.connect(path)
        raise Stop(f"another server listens at {path}")
    except FileNotFoundError:
        pass
    except ConnectionRefusedError:
        os.unlink(path)


async def listen(server: Server, settings: argparse.Namespace) -> List[asyncio.AbstractServer]:
    """Begins to listen, and says where."""
    listeners: List[asyncio.AbstractServer] = []
    try:
        if settings.unix:
            make_way(settings.unix)
            # The socket is for its owner alone.
            mask = os.umask(0o177)
            try:
                listeners.append(await asyncio.start_unix_server(server.serve_lines, settings.unix, limit=LINE_LIMIT))
            finally:
                os.umask(mask)
            print(f"unix {settings.unix}", flush=True)
        for kind, port, serve in (("tcp", settings.tcp, server.serve_lines), ("http", settings.http, server.serve_http)):
            if port is not None:
                listener = await asyncio.start_server(serve, settings.host, port, limit=LINE_LIMIT)
                listeners.append(listener)
                print(kind, settings.host, listener.sockets[0].getsockname()[1], flush=True)
    except OSError as error:
        raise Stop(f"it can't listen there: {error.strerror or error}") from None
    return listeners


async def serve(settings: argparse.Namespace) -> str:
    """Serves until it is stopped or can't go on, and returns why."""
    journal = Journal(settings.journal, settings.fsync) if settings.journal else None
    engine = await Engine.start(find_program(settings.program), settings.history)
    try:
        server = Server(engine, journal, settings)
        await engine.check()
        if journal:
            say(f"{await server.read_journal()} lines of the journal were executed")
        for number in (signal.SIGINT, signal.SIGTERM):
            asyncio.get_running_loop().add_signal_handler(number, server.end, "")
        watch = asyncio.ensure_future(engine.end())
        watch.add_done_callback(lambda ended: None if ended.cancelled() else server.end(ended.result()))
        listeners = await listen(server, settings)
        why = await server.ending
        for listener in listeners:
            listener.close()
        if settings.unix:
            with suppress(FileNotFoundError):
                os.unlink(settings.unix)
        await server.finish()
        return why
    finally:
        engine.stdin.close()
        with suppress(ProcessLookupError):
            engine.process.kill()
        await engine.process.wait()


def read_settings() -> argparse.Namespace:
    parser = argparse.ArgumentParser(description="Serves one cypher_live to many clients.", allow_abbrev=False)
    where = parser.add_argument_group("where it listens, at one place at least")
    where.add_argument("--unix", metavar="PATH", help="a Unix socket, for its owner alone")
    where.add_argument("--tcp", metavar="PORT", type=int, help="a TCP port; 0 takes a free one, which is printed")
    where.add_argument("--http", metavar="PORT", type=int, help="a port for the page that shows views; 0 as above")
    where.add_argument("--host", default="127.0.0.1", help="the address of these ports. Any but the loopback gives all that is "
                       "there to whoever reaches it: there are no users and no rights (default: %(default)s)")
    keep = parser.add_argument_group("what is kept")
    keep.add_argument("--journal", metavar="FILE", help="keeps accepted lines in this file, and begins with those that it has")
    keep.add_argument("--fsync", action="store_true", help="waits with each line until it is on the disk")
    parser.add_argument("--program", metavar="FILE", help="the program; else CYPHER_LIVE, ./cypher_live at the top, or in PATH")
    parser.add_argument("--history", metavar="N", type=int, default=64, help="how many entries of a view are kept, 1 to 4096")
    parser.add_argument("--buffer", metavar="BYTES", type=int, default=8 << 20, help="how much that was pushed may wait for a "
                        "client before it is dropped (default: %(default)s)")
    parser.add_argument("--page", metavar="FILE", default=str(PAGE), help="another page")
    settings = parser.parse_args()
    if not settings.unix and settings.tcp is None and settings.http is None:
        parser.error("give --unix, --tcp or --http")
    if settings.fsync and not settings.journal:
        parser.error("--fsync goes with --journal")
    if not 1 <= settings.history <= 4096:
        parser.error("--history is 1 to 4096")
    if settings.buffer < 0:
        parser.error("--buffer is 0 or more")
    if any(port is not None and not 0 <= port < 65536 for port in (settings.tcp, settings.http)):
        parser.error("a port is 0 to 65535")
    return settings


def main() -> int:
    settings = read_settings()
    try:
        why = asyncio.run(serve(settings))
    except Stop as stop:
        say(str(stop))
        return 1
    except OSError as error:
        say(f"{error.filename}: {error.strerror}" if error.filename else str(error))
        return 1
    if why:
        say(why)
    return 3 if why else 0


if __name__ == "__main__":
    sys.exit(main())
