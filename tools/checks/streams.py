"""What the program does where its input or its output is odd, ends or fails, and at signals."""
import os
import select
import signal
import subprocess
import tempfile
import time
from contextlib import contextmanager
from pathlib import Path
from typing import Iterator, List

from checks.program import LIMIT, Ended, Failure, expect, run, shown

LINE = b"RETURN 1 AS x\n"
ANSWER = b'{"changed":[0,0,0,0],"columns":["x"],"rows":[[1]]}\n'
NOTHING = Ended(0, b"", b"")
FAILED = Ended(3, b"", b"")
LONGEST = 65536
TOO_LONG = b'{"at":65536,"code":17,"error":"LineTooLong"}\n'
# What the system says of a process that was stopped (os.CLD_STOPPED, which Python 3.8 lacks).
STOPPED = 5
# As many lines as have answers that fill a pipe several times over.
MANY = 20000


def as_by_default() -> None:
    """Undoes what a shell may have set for the signals that the tests send."""
    for number in (signal.SIGINT, signal.SIGHUP, signal.SIGTERM, signal.SIGPIPE):
        signal.signal(number, signal.SIG_DFL)


@contextmanager
def started(program: Path, stdin: int = subprocess.PIPE, stdout: int = subprocess.PIPE) -> Iterator["subprocess.Popen[bytes]"]:
    """The program as it runs. It is ended in any case."""
    with tempfile.TemporaryFile() as errors:
        process = subprocess.Popen([str(program)], stdin=stdin, stdout=stdout, stderr=errors, bufsize=0, preexec_fn=as_by_default)
        try:
            yield process
        finally:
            process.kill()
            process.wait()
            for stream in (process.stdin, process.stdout):
                if stream is not None:
                    stream.close()
        errors.seek(0)
        said = errors.read()
    if said:
        raise Failure(f"standard error has {shown(said)}")


def ends(process: "subprocess.Popen[bytes]", status: int, what: str) -> None:
    """Fails where the program doesn't end, or ends otherwise."""
    try:
        found = process.wait(LIMIT)
    except subprocess.TimeoutExpired:
        raise Failure(f"{what}: it doesn't end") from None
    if found != status:
        raise Failure(f"{what}: status {found}, and not {status}")


def read_line(process: "subprocess.Popen[bytes]", what: str) -> bytes:
    """The next line of the output, which has to come within the limit."""
    assert process.stdout is not None
    if not select.select([process.stdout], [], [], LIMIT)[0]:
        raise Failure(f"{what}: no answer comes")
    return process.stdout.readline()


def asks(process: "subprocess.Popen[bytes]", what: str) -> None:
    """Sends a line, and fails where another answer than its own comes."""
    assert process.stdin is not None
    process.stdin.write(LINE)
    answer = read_line(process, what)
    if answer != ANSWER:
        raise Failure(f"{what}: answered {shown(answer)}")


def test_lines(program: Path) -> str:
    """Where lines end, and how long they may be."""
    cases = [
        (b"", b""),
        (b"\n\n \n// nothing\n/* nothing */\n\t\r\n", b""),
        (LINE.rstrip(b"\n"), ANSWER),
        (LINE.replace(b"\n", b"\r\n"), ANSWER),
        (b"\n" + LINE + b"\n" + LINE + b" ", ANSWER + ANSWER),
        (b" " * LONGEST + b"\n" + LINE, ANSWER),
        (b" " * (LONGEST + 1) + b"\n" + LINE, TOO_LONG + ANSWER),
        (b" " * (LONGEST + 1), TOO_LONG),
        (b" " * (LONGEST - 1) + b"\r\n" + LINE, ANSWER),
        (b" " * LONGEST + b"\r\n" + LINE, TOO_LONG + ANSWER),
        (b"RETURN 'x" * 100000 + b"\n" + LINE, TOO_LONG + ANSWER),
        (b"RETURN 1 // \xff\n" + LINE, b'{"at":12,"code":18,"error":"NotUtf8"}\n' + ANSWER),
        (b"RETURN 1 AS x\x00\n" + LINE, b'{"at":13,"code":10,"error":"BadCharacter"}\n' + ANSWER),
        (LINE * MANY, ANSWER * MANY),
    ]
    for given, wanted in cases:
        expect(run(program, [], given), Ended(0, wanted, b""), f"input {shown(given)}")
    return f"{len(cases)} inputs: where lines end, and how long they are"


def test_full_disk(program: Path) -> str:
    """A write that finds no room ends the program with 3, and what was written before stands."""
    full = 'exec "$@" > /dev/full'
    expect(run(program, [], LINE, full), FAILED, "a line, with a full disk")
    expect(run(program, [], b"", full), NOTHING, "no line, with a full disk")
    expect(run(program, ["--help"], b"", full), FAILED, "--help, with a full disk")
    expect(run(program, ["--none"], b"", 'exec "$@" 2> /dev/full'), Ended(2, b"", b""), "bad arguments, with a full disk")
    with tempfile.TemporaryDirectory() as folder:
        file = Path(folder) / "output"
        # (blocks of 512 bytes; without the trap a signal would end the program)
        small = f"trap '' XFSZ; ulimit -f 1; exec \"$@\" > {file}"
        expect(run(program, [], LINE * 100, small), FAILED, "a hundred lines, with room for ten")
        if file.read_bytes() != (ANSWER * 100)[:512]:
            raise Failure(f"a disk with room for 512 bytes has {shown(file.read_bytes())}")
    return "a full disk: status 3 after what there was room for"


def test_closed_ends(program: Path) -> str:
    """What is closed when the program begins, or can't be read."""
    expect(run(program, [], LINE, 'exec "$@" <&-'), FAILED, "standard input closed")
    expect(run(program, [], LINE, 'exec "$@" < /'), FAILED, "a folder as standard input")
    expect(run(program, [], LINE, 'exec "$@" >&-'), FAILED, "standard output closed")
    expect(run(program, [], b"\n", 'exec "$@" >&-'), NOTHING, "standard output closed, and nothing to answer")
    expect(run(program, [], LINE, 'exec "$@" 2>&-'), Ended(0, ANSWER, b""), "standard error closed")
    expect(run(program, ["--none"], LINE, 'exec "$@" 2>&-'), Ended(2, b"", b""), "bad arguments, standard error closed")
    return "closed ends: status 3"


def test_broken_pipe(program: Path) -> str:
    """Whoever reads the answers goes away, at the beginning and in the middle."""
    reader, writer = os.pipe()
    os.close(reader)
    with os.fdopen(writer, "wb") as output, started(program, stdout=output.fileno()) as process:
        output.close()
        assert process.stdin is not None
        process.stdin.write(LINE)
        ends(process, 3, "no reader")
    with started(program) as process:
        asks(process, "a reader that goes away")
        assert process.stdin is not None and process.stdout is not None
        process.stdout.close()
        process.stdin.write(LINE)
        ends(process, 3, "a reader that went away")
    return "a reader that goes away: status 3, and no signal"


def test_answers_at_once(program: Path) -> str:
    """Each answer comes before the next line is sent, also where a line comes in pieces."""
    with started(program) as process:
        assert process.stdin is not None and process.stdout is not None
        for _ in range(200):
            asks(process, "a line at a time")
        for byte in LINE[:-1]:
            process.stdin.write(bytes([byte]))
        if select.select([process.stdout], [], [], 0.1)[0]:
            raise Failure("a line is answered before its end")
        process.stdin.write(b"\n" + LINE)
        for _ in range(2):
            if read_line(process, "a line in pieces") != ANSWER:
                raise Failure("a line in pieces is answered otherwise")
        process.stdin.close()
        ends(process, 0, "the end of the input")
    return "each answer comes before the next line is sent"


def test_non_blocking(program: Path) -> str:
    """A read or a write that would have to wait, at an end that doesn't let it, is a failure."""
    reader, writer = os.pipe()
    os.set_blocking(reader, False)
    with os.fdopen(reader, "rb") as source, os.fdopen(writer, "wb"), started(program, stdin=source.fileno()) as process:
        ends(process, 3, "nothing to read at a non-blocking end")
    reader, writer = os.pipe()
    os.set_blocking(writer, False)
    with tempfile.TemporaryFile() as lines, os.fdopen(reader, "rb") as answers, os.fdopen(writer, "wb") as output:
        lines.write(LINE * MANY)
        lines.seek(0)
        with started(program, stdin=lines.fileno(), stdout=output.fileno()) as process:
            output.close()
            ends(process, 3, "a full pipe at a non-blocking end")
        written = answers.read()
    if not written or not (ANSWER * MANY).startswith(written):
        raise Failure(f"a full pipe at a non-blocking end: it had {shown(written)}")
    return "non-blocking ends: status 3 where a read or a write would have to wait"


def stop_and_go_on(process: "subprocess.Popen[bytes]") -> None:
    """Stops the program, and lets it go on once it is seen to have stopped."""
    process.send_signal(signal.SIGSTOP)
    found = os.waitid(os.P_PID, process.pid, os.WSTOPPED | os.WEXITED | os.WNOWAIT)
    if found is None or found.si_code != STOPPED:
        raise Failure("it ends, and doesn't stop, at SIGSTOP")
    process.send_signal(signal.SIGCONT)


def test_stops(program: Path) -> str:
    """A program that is stopped goes on where it was: while it waits for a line, and while it waits to write."""
    with started(program) as process:
        for _ in range(20):
            stop_and_go_on(process)
            asks(process, "after a stop")
        for number in (signal.SIGCHLD, signal.SIGWINCH, signal.SIGURG, signal.SIGCONT, signal.SIGPIPE):
            process.send_signal(number)
            asks(process, f"after {signal.Signals(number).name}")
    with tempfile.TemporaryFile() as lines:
        lines.write(LINE * MANY)
        lines.seek(0)
        with started(program, stdin=lines.fileno()) as process:
            assert process.stdout is not None
            written = b""
            for _ in range(20):
                time.sleep(0.01)
                stop_and_go_on(process)
                written += os.read(process.stdout.fileno(), 1000)
            written += b"".join(iter(lambda: os.read(process.stdout.fileno(), 1 << 16), b""))
            ends(process, 0, "stops in the middle of a write")
        if written != ANSWER * MANY:
            raise Failure(f"stops in the middle of a write: {len(written)} bytes were written, and not {len(ANSWER) * MANY}")
    return "stopped and continued: nothing is lost; signals that are ignored by default, and SIGPIPE, do nothing"


def test_ending_signals(program: Path) -> str:
    """A signal that ends a program by default ends this one. What was answered before was written."""
    numbers: List[signal.Signals] = [signal.SIGTERM, signal.SIGINT, signal.SIGHUP, signal.SIGKILL]
    for number in numbers:
        with started(program) as process:
            asks(process, f"before {number.name}")
            process.send_signal(number)
            ends(process, -number, number.name)
    return f"{', '.join(it.name for it in numbers)} end it"
