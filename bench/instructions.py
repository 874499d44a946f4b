"""Counts a program's instructions on days of several shapes and on a mixed session, by valgrind, and times it beside that.

usage: instructions.py PROGRAM MIXED_SESSION

Instructions of a day are those of 200 days more of it. A fill or a copy of memory is counted as a loop, as the processor
takes it for small ones, and not as an instruction for each of its bytes.
"""
import os
import re
import statistics
import subprocess
import sys
import tempfile
import time

HERE = os.path.dirname(os.path.abspath(__file__))
TUNABLES = "glibc.cpu.x86_rep_stosb_threshold=1000000000:glibc.cpu.x86_rep_movsb_threshold=1000000000"
DAYS = 200
TIMED = 2000
SHAPES = {
    "nothing allotted, 12 parties": (12, 0),
    "one hour allotted, 12 parties": (12, 1),
    "24 hours allotted, 2 parties": (2, 24),
    "24 hours allotted, 6 parties": (6, 24),
    "24 hours allotted, 12 parties": (12, 24),
}


def instructions(program, file):
    """What callgrind counts of a run."""
    told = subprocess.run(
        ["valgrind", "--tool=callgrind", "--callgrind-out-file=/dev/null", program, file],
        stdin=subprocess.DEVNULL,
        stdout=subprocess.DEVNULL,
        stderr=subprocess.PIPE,
        env={**os.environ, "GLIBC_TUNABLES": TUNABLES},
        check=True,
        text=True,
    ).stderr
    return int(re.search(r"Collected : (\d+)", told).group(1))


def seconds(program, file):
    """The median of five runs."""
    runs = []
    for _ in range(5):
        begun = time.perf_counter()
        subprocess.run([program, file], stdin=subprocess.DEVNULL, stdout=subprocess.DEVNULL, check=True)
        runs.append(time.perf_counter() - begun)
    return statistics.median(runs)


def days(room, count, parties, hours):
    """The file of a session of so many days."""
    name = os.path.join(room, f"{count}-{parties}-{hours}")
    with open(name, "wb") as out:
        subprocess.run(
            [sys.executable, os.path.join(HERE, "days.py"), *map(str, (count, parties, hours))], stdout=out, check=True
        )
    return name


def main():
    program, mixed = sys.argv[1:]
    print(f"mixed session: {instructions(program, mixed) / 1e6:.1f} million instructions, {seconds(program, mixed):.3f} s")
    with tempfile.TemporaryDirectory() as room:
        for shape, (parties, hours) in SHAPES.items():
            some, more = (instructions(program, days(room, count, parties, hours)) for count in (DAYS, 2 * DAYS))
            elapsed = seconds(program, days(room, TIMED, parties, hours)) - seconds(program, days(room, 1, parties, hours))
            print(
                f"a day, {shape}: {(more - some) / DAYS / 1e3:,.1f} thousand instructions, "
                f"{elapsed / TIMED * 1e6:.1f} microseconds"
            )


main()
