"""Growths of memory that are refused, each in turn: lines that are answered with out of memory are sent again, and no other answer may differ."""
import os
import subprocess
import threading
from concurrent.futures import ThreadPoolExecutor
from pathlib import Path
from subprocess import PIPE
from typing import List, Tuple

from checks.faults import library
from checks.program import LIMIT, TOP, Ended, Failure, expect
from checks.sessions import Exchange, read_sessions

SESSIONS = ["script.session", "start.session"]
NO_MEMORY = b'{"at":null,"code":90,"error":"NoMemory"}\n'
LOST = b'{"at":null,"code":91,"error":"ReplyLost"}\n'
# How a run ends that was refused memory at the start.
AT_START = Ended(4, b"", b"")


def first_session(name: str) -> List[Exchange]:
    """The lines of a file's first session, each with its reply alone."""
    session = next(read_sessions(name, (TOP / "examples" / name).read_bytes().decode()))
    return [it.without_entries() for it in session if it.answers]


def send_lines(program: Path, lines: List[bytes], faults: Path, growth: int) -> Tuple[Ended, int, int]:
    """Sends lines one by one, and one that is answered with out of memory once more at once, while the growth of that number is refused.
    Answers how the run ended, with the answers but for those, how many these were, and how many growths there were."""
    counts = faults.parent / f"counts-{growth}"
    settings = {"LD_PRELOAD": str(faults), "FAULT_GROWTH": str(growth), "FAULT_COUNTS": str(counts)}
    answers, again = [], 0
    with subprocess.Popen([str(program)], stdin=PIPE, stdout=PIPE, stderr=PIPE, env={**os.environ, **settings}) as ran:
        watch = threading.Timer(LIMIT, ran.kill)
        watch.start()
        try:
            left = list(reversed(lines))
            while left:
                ran.stdin.write(left[-1] + b"\n")
                ran.stdin.flush()
                answer = ran.stdout.readline()
                if answer == NO_MEMORY and again == 0:
                    again = 1
                elif answer:
                    answers.append(answer)
                    left.pop()
                else:
                    break
        except BrokenPipeError:
            pass
        finally:
            rest, errors = ran.communicate()
            watch.cancel()
    growths = int(counts.read_text().split()[2])
    counts.unlink()
    return Ended(ran.returncode, b"".join(answers) + rest, errors), again, growths


def refuse_each(program: Path, name: str, faults: Path) -> Tuple[int, int, int, int]:
    """Refuses each growth of a session, and returns how many there are, at how many the program doesn't start, how many lines were sent again,
    and how many answers were lost."""
    session = first_session(name)
    lines, wanted = [it.line.encode() for it in session], [f"{it.answers[0]}\n".encode() for it in session]
    undisturbed, again, total = send_lines(program, lines, faults, 0)
    expect(undisturbed, Ended(0, b"".join(wanted), b""), f"{name}, with no growth refused")
    at_start = sent_again = lost = 0
    with ThreadPoolExecutor(os.cpu_count()) as workers:
        numbers = range(1, total + 1)
        for number, (ended, again, _) in zip(numbers, workers.map(lambda it: send_lines(program, lines, faults, it), numbers)):
            if ended == AT_START:
                at_start += 1
                continue
            sent_again += again
            found = ended.output.splitlines(True)
            gone = sum(it == LOST for it in found)
            lost += gone
            as_wanted = [other if it == LOST else it for it, other in zip(found, wanted)] + found[len(wanted) :]
            expect(Ended(ended.status, b"".join(as_wanted), ended.errors), undisturbed, f"{name}, with growth {number} of {total} refused")
            if again + gone > 1:
                raise Failure(f"{name}: growth {number} alone is refused, and {again + gone} answers lack memory")
    return total, at_start, sent_again, lost


def test_refused_growths(program: Path) -> str:
    """At the start nothing is read or written, and the status is 4. Later the line is answered with out of memory, and sent again, or was executed
    and its answer is lost, or nothing shows."""
    with library() as faults:
        found = [refuse_each(program, it, faults) for it in SESSIONS]
    total, at_start, again, lost = map(sum, zip(*found))
    if 0 in (at_start, again, lost):
        raise Failure(f"of {total} growths {at_start} are at the start, {again} had a line sent again, and {lost} had an answer lost")
    return f"each of {total} growths refused: {at_start} at the start, {again} lines sent again, {lost} answers lost, and all others as they are"
