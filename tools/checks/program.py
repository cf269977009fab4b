"""Runs of the program, and what is expected of one."""
import os
import subprocess
from dataclasses import dataclass
from pathlib import Path
from typing import Dict, Optional, Sequence

TOP = Path(__file__).resolve().parent.parent.parent
# Seconds after which a run counts as hanging. The longest that is tried takes some seconds.
LIMIT = 60


class Failure(Exception):
    """Something isn't as it should be. The text says what."""


class NotRun(Exception):
    """A test that couldn't be run. The text says why."""


@dataclass(frozen=True)
class Ended:
    """How a run ended, and what it wrote. The status is negative where a signal ended it."""

    status: int
    output: bytes
    errors: bytes

    def words(self) -> str:
        how = f"status {self.status}" if self.status >= 0 else f"signal {-self.status}"
        return f"{how}, output {shown(self.output)}, standard error {shown(self.errors)}"


def shown(text: bytes) -> str:
    """The beginning of a text, for a message."""
    return repr(text[:300].decode(errors="backslashreplace")) + (" .." if len(text) > 300 else "")


def run(
    program: Path,
    words: Sequence["str | bytes"] = (),
    given: bytes = b"",
    shell: str = "",
    settings: Optional[Dict[str, str]] = None,
) -> Ended:
    """Runs the program on an input to its end. `shell` is what a shell does with it, as in 'ulimit -s 1024; exec "$@"'."""
    command = [str(program), *words]
    if shell:
        command = ["sh", "-c", shell, "sh", *command]
    environment = {**os.environ, **(settings or {})}
    try:
        ran = subprocess.run(command, input=given, stdout=subprocess.PIPE, stderr=subprocess.PIPE, env=environment, timeout=LIMIT)
    except subprocess.TimeoutExpired:
        raise Failure(f"{' '.join(map(str, words)) or 'a run'} had not ended after {LIMIT} seconds") from None
    return Ended(ran.returncode, ran.stdout, ran.stderr)


def expect(found: Ended, wanted: Ended, what: str) -> None:
    """Fails where a run ended otherwise than is wanted."""
    if found != wanted:
        raise Failure(f"{what}: {found.words()}; wanted: {wanted.words()}")


def find_program(words: Sequence[str]) -> Path:
    """The program that a script is to try: the one that is named, or the one at the top."""
    program = Path(words[0]).resolve() if words else TOP / "cypher_live"
    if not program.is_file() or not os.access(program, os.X_OK):
        raise Failure(f"{program} is no program" if words else "there is no ./cypher_live: tools/build makes it")
    return program
