"""What bench/sets, bench/lookups and bench/passes share: the program set_bench is built, and its steps are measured.

The program writes a line of a name and a number after each step. Imported by them, and not run by itself.
"""
import os
import subprocess
import sys
import time
from dataclasses import dataclass
from pathlib import Path

TOP = Path(__file__).resolve().parent.parent
PROGRAM = TOP / "crates/set_bench/out/set_bench"


@dataclass
class Step:
    """A step: the name and the number of its line, its seconds, and the KiB that are resident then and at most."""
    name: str
    number: int
    seconds: float
    now: int
    most: int


def build():
    """Proves and builds the program."""
    subprocess.run(["rt", "run"], cwd=PROGRAM.parent.parent, stdin=subprocess.DEVNULL, capture_output=True, check=False)
    if not PROGRAM.exists():
        sys.exit("bench: set_bench is not built")


def resident(process, before):
    """The memory in KiB that is resident now, and the most that was; what it was before, if the process is gone."""
    status = Path(f"/proc/{process.pid}/status").read_text()
    lines = dict(line.split(":", 1) for line in status.splitlines())
    if "VmRSS" not in lines:
        return before
    return int(lines["VmRSS"].split()[0]), int(lines["VmHWM"].split()[0])


def forget_most(process):
    """Makes the most memory that was resident that of now."""
    Path(f"/proc/{process.pid}/clear_refs").write_text("5")


def measured(words, forgets=None, settings=None):
    """The steps of the program with these words, and these settings of the environment beside those of now.

    After the first step of the name forgets the most memory that was resident is counted anew."""
    process = subprocess.Popen([PROGRAM, *map(str, words)], stdout=subprocess.PIPE, text=True,
                               env={**os.environ, **(settings or {})})
    # A line is read as soon as it is written, while the program goes on.
    steps, before, memory = [], None, (0, 0)
    for line in process.stdout:
        now = time.monotonic()
        name, number = line.split()
        memory = resident(process, memory)
        if name == forgets:
            forget_most(process)
            forgets = None
        steps.append(Step(name, int(number), 0 if before is None else now - before, *memory))
        before = now
    if process.wait() != 0:
        sys.exit(f"bench: set_bench {words} failed")
    return steps
