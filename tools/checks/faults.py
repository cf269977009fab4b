"""Reads, writes and growths that fail: faults.c, which makes them fail, is laid between the program and the C library."""
import errno
import shutil
import subprocess
import tempfile
from contextlib import contextmanager
from pathlib import Path
from typing import Dict, Iterator, List

from checks.program import TOP, Ended, Failure, NotRun, expect, run

SOURCE = Path(__file__).resolve().parent / "faults.c"
# As many calls as come without an end.
ENDLESS = 1 << 40
# A call that is interrupted so often, one time after another, has failed.
MOST_INTERRUPTIONS = 1000


def compilers() -> List[List[List[str]]]:
    """The ways to make a library of faults.c, each a list of commands: the toolchain's own compiler, and the system's."""
    ways = []
    rt = shutil.which("rt")
    if rt is not None:
        tools = Path(rt).resolve().parent.parent / "toolchain" / "bin"
        compile_it = [str(tools / "clang"), "--target=x86_64-unknown-linux-gnu", "--no-default-config", "-O1", "-fPIC", "-c"]
        link_it = [str(tools / "ld.lld"), "-m", "elf_x86_64", "-shared", "-o", "faults.so", "faults.o"]
        ways.append([[*compile_it, "-o", "faults.o", str(SOURCE)], link_it])
    if shutil.which("cc"):
        ways.append([["cc", "-O1", "-fPIC", "-shared", "-o", "faults.so", str(SOURCE)]])
    return ways


@contextmanager
def library() -> Iterator[Path]:
    """The library of faults, for as long as it is used."""
    with tempfile.TemporaryDirectory(prefix="faults-") as folder:
        for way in compilers():
            how = {"cwd": folder, "stdout": subprocess.DEVNULL, "stderr": subprocess.DEVNULL}
            try:
                if all(subprocess.run(words, **how).returncode == 0 for words in way):
                    yield Path(folder) / "faults.so"
                    return
            except OSError:
                continue
        raise NotRun("there is no C compiler: neither the toolchain's, by rt in the PATH, nor cc")


def run_with(faults: Path, program: Path, given: bytes, words: List[str], **settings: str) -> Ended:
    """Runs the program with faults."""
    return run(program, words, given, settings={"LD_PRELOAD": str(faults), **settings})


def count(faults: Path, program: Path, given: bytes, words: List[str]) -> Dict[str, int]:
    """How many reads, writes and growths an undisturbed run has."""
    counts = faults.parent / "counts"
    run_with(faults, program, given, words, FAULT_COUNTS=str(counts))
    numbers = counts.read_text().split()
    return dict(zip(("reads", "writes", "growths"), map(int, numbers)))


def session() -> bytes:
    """The lines of a session that is answered with many entries."""
    lines = (TOP / "examples" / "start.session").read_bytes().splitlines(True)
    return b"".join(it for it in lines if not it.startswith(b"{"))


def test_short_moves(program: Path) -> str:
    """One byte a read, and one byte a write."""
    given = session()
    wanted = run(program, ["--feed"], given)
    with library() as faults:
        expect(run_with(faults, program, given, ["--feed"], FAULT_SHORT="1"), wanted, "one byte a read and a write")
    return "one byte a read and one a write: the same output"


def fail_each(faults: Path, program: Path, given: bytes, wanted: Ended, name: str, error: int) -> int:
    """Has each read or write fail in turn by an error, and returns how many they were."""
    total = count(faults, program, given, ["--feed"])[f"{name.lower()}s"]
    for number in range(1, total + 1):
        ended = run_with(faults, program, given, ["--feed"], **{f"FAULT_{name}": f"{number} 1 {error}"})
        if ended.status != 3 or ended.errors or not wanted.output.startswith(ended.output):
            raise Failure(f"{name.lower()} {number} fails by {errno.errorcode[error]}: {ended.words()}")
        if name == "WRITE" and ended.output == wanted.output:
            raise Failure(f"write {number} fails by {errno.errorcode[error]}, and was tried again")
    return total


def test_failing_moves(program: Path) -> str:
    """Each read fails in turn, and each write: what was written is a beginning, and nothing is tried again."""
    given = session()
    wanted = run(program, ["--feed"], given)
    tried = 0
    with library() as faults:
        for name, error in ("READ", errno.EIO), ("WRITE", errno.ENOSPC), ("WRITE", errno.EPIPE), ("READ", errno.EAGAIN):
            tried += fail_each(faults, program, given, wanted, name, error)
    return f"{tried} runs in which a read or a write fails: status 3 after a beginning of the output"


def test_interrupted_moves(program: Path) -> str:
    """A read or a write that is interrupted is made again. One that is interrupted 1,000 times, one after another, has failed."""
    given = session()
    wanted = run(program, ["--feed"], given)
    tried = 0
    with library() as faults:
        totals = count(faults, program, given, ["--feed"])
        for name in "READ", "WRITE":
            cases = [(number, 1) for number in range(1, totals[f"{name.lower()}s"] + 1)] + [(1, MOST_INTERRUPTIONS - 1)]
            for number, times in cases:
                settings = {f"FAULT_{name}": f"{number} {times} {errno.EINTR}"}
                what = f"{name.lower()} {number} is interrupted {times} times"
                expect(run_with(faults, program, given, ["--feed"], **settings), wanted, what)
                tried += 1
            for times in MOST_INTERRUPTIONS, ENDLESS:
                settings = {f"FAULT_{name}": f"1 {times} {errno.EINTR}"}
                ended = run_with(faults, program, given, ["--feed"], **settings)
                expect(ended, Ended(3, b"", b""), f"the first {name.lower()} is interrupted {times} times")
    return f"{tried} runs in which a read or a write is interrupted: the same output; at {MOST_INTERRUPTIONS} times it has failed"
