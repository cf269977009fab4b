#!/usr/bin/env python3
"""Counts the instructions that the text of an answer takes, by valgrind.

Run it at the top of the repository. It builds the program by `rt run` in crates/cypher_live, and counts what is done in the
one function that makes texts. It prints the count for each kind of answer with its limit. A count above the limit ends the
script with status 1, and so does a line that isn't answered as it should be.
"""
import os
import re
import subprocess
import sys

CRATE = "crates/cypher_live"
WRITER = "cy_shell::printing::write_line*"
CREATED = '{"changed":[1,0,0,0],"columns":[],"rows":[]}'
UNEXPECTED = '{"at":0,"code":20,"error":"Unexpected"}'
FEW, MANY = 100, 300


def creates(count):
    return [("CREATE (:A {k: 1})", CREATED)] * count


def errors(count):
    return [("foo", UNEXPECTED)] * count


def view_of(count):
    """Lines that make so many nodes with different values, a view of them, and its rows."""
    lines = [(f"CREATE (:A {{k: {1000 + i}}})", CREATED) for i in range(count)]
    lines.append((":view v MATCH (n:A) RETURN n.k", f'{{"columns":["n.k"],"tick":{count + 1},"view":"v"}}'))
    listed = ",".join(f"[[{1000 + i}],1]" for i in range(count))
    lines.append((":rows v", f'{{"rows":[{listed}],"tick":{count + 1},"view":"v"}}'))
    return lines


def instructions(program, lines):
    """How many instructions the texts of the answers take, which are to be these."""
    words = ["valgrind", "--tool=callgrind", "--callgrind-out-file=/dev/null", f"--toggle-collect={WRITER}", program]
    text = "".join(f"{line}\n" for line, _ in lines)
    run = subprocess.run(words, input=text, capture_output=True, check=True, text=True)
    for (line, answer), found in zip(lines, run.stdout.splitlines(), strict=True):
        if found != answer:
            sys.exit(f"{line!r}: {found!r} in place of {answer!r}")
    return int(re.search(r"Collected : (\d+)", run.stderr).group(1))


def each(program, lines_of):
    """What one more of the lines takes."""
    return (instructions(program, lines_of(MANY)) - instructions(program, lines_of(FEW))) / (MANY - FEW)


def costs(program):
    """Names of costs, each with its count and its limit."""
    created = each(program, creates)
    yield "the reply of a CREATE", created, 1200
    yield "the text of a fault", each(program, errors), 1200
    yield "the text of a row of one value", each(program, view_of) - created, 300


def built():
    with open(f"{CRATE}/stdin") as it:
        subprocess.run(["rt", "run"], cwd=CRATE, stdin=it, stdout=subprocess.DEVNULL, check=True)
    found = [f"{at}/{it}" for at, _, files in os.walk(f"{CRATE}/out") for it in files]
    programs = [it for it in found if os.access(it, os.X_OK) and open(it, "rb").read(4) == b"\x7fELF"]
    return programs[0]


def main():
    program = built()
    is_within = True
    for name, count, limit in costs(program):
        is_within = is_within and 0 < count <= limit
        print(f"{name:32} {count:8.1f}  of at most {limit}", flush=True)
    return 0 if is_within else 1


if __name__ == "__main__":
    sys.exit(main())
