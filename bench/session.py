"""A program that is given lines, and whose instructions for some of them are counted by valgrind."""
import re
import subprocess
import sys

# As many lines as are given before their answers are read. Neither they nor the answers fill a pipe.
AT_ONCE = 50


class Session:
    """A program that runs under callgrind. Each line stands with the beginning of its answer. One that isn't answered so ends the
    script."""

    def __init__(self, *words):
        options = ["--tool=callgrind", "--callgrind-out-file=/dev/null", "--instr-atstart=no"]
        self.run = subprocess.Popen(
            ["valgrind", *options, *words],
            stdin=subprocess.PIPE,
            stdout=subprocess.PIPE,
            stderr=subprocess.DEVNULL,
            text=True,
        )
        self.is_counting = False

    def __enter__(self):
        return self

    def __exit__(self, *_):
        self.run.stdin.close()
        self.run.stdout.read()
        self.run.wait()

    def give(self, lines, at_once=AT_ONCE):
        """Gives the program lines."""
        for start in range(0, len(lines), at_once):
            part = lines[start : start + at_once]
            self.run.stdin.write("".join(f"{line}\n" for line, _ in part))
            self.run.stdin.flush()
            for line, answer in part:
                found = self.run.stdout.readline().rstrip("\n")
                if not found.startswith(answer):
                    sys.exit(f"{line[:200]!r}: {found!r} in place of {answer!r}")

    def count(self, lines, at_once=1):
        """Gives the program lines, and tells how many instructions each of them takes, as a mean."""
        if not self.is_counting:
            self.tell("instrumentation", "on")
            self.is_counting = True
        self.tell("zero")
        self.give(lines, at_once)
        return int(re.search(r"events-1: (\d+)", self.tell("status", "internal")).group(1)) / len(lines)

    def each(self, lines):
        """Gives the program lines, and tells how many instructions each single one takes."""
        return [self.count([line]) for line in lines]

    def tell(self, *words):
        """Tells valgrind something, and gives its answer."""
        told = subprocess.run(["vgdb", f"--pid={self.run.pid}", *words], capture_output=True, check=True, text=True)
        return told.stdout


def peak(words, lines):
    """The most memory, in bytes, that was resident while a program took the lines, without valgrind. With no line it might
    not have begun."""
    with subprocess.Popen(words, stdin=subprocess.PIPE, stdout=subprocess.PIPE, text=True) as run:
        for line, _ in lines:
            run.stdin.write(f"{line}\n")
            run.stdin.flush()
            run.stdout.readline()
        with open(f"/proc/{run.pid}/status") as it:
            kilobytes = re.search(r"VmHWM:\s+(\d+) kB", it.read()).group(1)
        run.stdin.close()
    return int(kilobytes) * 1024


def report(costs_of, small, large, limit):
    """Prints each cost at both sizes, with its ratio. A cost is its name, its count, and whether the limit is for its ratio.
    Tells whether each ratio is within the limit."""
    is_within = True
    for (name, few, limited), (_, many, _) in zip(costs_of(small), costs_of(large), strict=True):
        is_within = is_within and (not limited or 0 < many <= limit * few)
        of = f"  of at most {limit}" if limited else ""
        print(f"{name:56} {few:12,.0f} {many:12,.0f} {many / few:6.2f}{of}", flush=True)
    return is_within
