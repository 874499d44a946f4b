"""Measures holdbook beside awk and wc on one session, and alone on a longer one and on a long line, and prints that.

usage: measure.py HOLDBOOK SESSION LONGER LONG_LINE
"""
import os
import statistics
import subprocess
import sys
import time

RUNS = 5
MOST_MEGABYTES = 20


def start(command, file):
    return subprocess.Popen([*command, file], stdin=subprocess.DEVNULL, stdout=subprocess.DEVNULL)


def end_well(command, status):
    if status:
        sys.exit(f"{command[0]} ended with status {status}")


def seconds(command, file):
    """How long a run takes from start to end, and how much processor time it uses."""
    begun = time.perf_counter()
    ran = start(command, file)
    _, status, used = os.wait4(ran.pid, 0)
    ended = time.perf_counter()
    ran.returncode = os.waitstatus_to_exitcode(status)
    end_well(command, ran.returncode)
    return ended - begun, used.ru_utime + used.ru_stime


def peak_of_run(command, file):
    """The peak memory of a run in megabytes. The kernel keeps it while a process runs: it is read over and over."""
    ran = start(command, file)
    most = 0
    while ran.poll() is None:
        try:
            with open(f"/proc/{ran.pid}/status", encoding="ascii") as it:
                most = max([most, *(int(line.split()[1]) for line in it if line.startswith("VmHWM:"))])
        except OSError:
            pass
        time.sleep(0.0005)
    end_well(command, ran.returncode)
    return most * 1024 / 1e6


def peak(command, file, runs=1):
    """The greatest of some runs: a short one may end before it is seen at its peak."""
    return max(peak_of_run(command, file) for _ in range(runs))


def times(part, whole):
    return f"{part / whole:.2f}" if whole else "unknown"


def count_lines(file):
    with open(file, "rb") as it:
        return sum(part.count(b"\n") for part in iter(lambda: it.read(1 << 20), b""))


def count_answers(command, file):
    """How many lines of a session are accepted, and how many refused."""
    answers = subprocess.run([*command, file], stdin=subprocess.DEVNULL, stdout=subprocess.PIPE, check=True).stdout
    signs = [line[:1] for line in answers.split(b"\n")]
    return signs.count(b"+"), signs.count(b"!")


def beside_others(holdbook, session):
    """Prints speed and memory of each tool and their ratios, and returns the program's peak memory."""
    lines = count_lines(session)
    accepted, refused = count_answers(holdbook, session)
    if accepted + refused != lines:
        sys.exit(f"{lines} lines have {accepted + refused} answers")
    print(f"session: {lines:,} lines, {os.path.getsize(session):,} bytes; {accepted:,} accepted, {refused:,} refused")

    tools = {
        "holdbook": holdbook,
        "awk -F'\\t'": ["awk", "-F\t", "{ fields += NF } END { print fields }"],
        "wc -l": ["wc", "-l"],
    }
    runs = {name: [] for name in tools}
    for _ in range(RUNS):
        for name, command in tools.items():
            runs[name].append(seconds(command, session))
    elapsed = {name: statistics.median(run[0] for run in runs[name]) for name in tools}
    used = {name: statistics.median(run[1] for run in runs[name]) for name in tools}
    memory = {name: peak(command, session, RUNS) for name, command in tools.items()}
    for name in tools:
        print(
            f"{name}: {elapsed[name]:.3f} s (median of {RUNS}), {lines / elapsed[name]:,.0f} lines a second, "
            f"{used[name]:.3f} s of a processor, peak memory {memory[name]:.1f} MB"
        )
    for name in list(tools)[1:]:
        print(
            f"holdbook / {name}: {elapsed[name] / elapsed['holdbook']:.3f} of its lines a second, "
            f"{times(used['holdbook'], used[name])} of its processor time, "
            f"{times(memory['holdbook'], memory[name])} of its memory"
        )
    return memory["holdbook"]


def main():
    holdbook, session, longer, long_line = [sys.argv[1]], *sys.argv[2:]
    memory = beside_others(holdbook, session)
    most = memory
    for file in longer, long_line:
        size, lines = os.path.getsize(file), max(1, count_lines(file))
        elapsed, _ = seconds(holdbook, file)
        of_this = peak(holdbook, file)
        most = max(most, of_this)
        print(
            f"holdbook, {lines:,} line{'s' if lines > 1 else ''} of {size:,} bytes: {elapsed:.3f} s, "
            f"{size / elapsed / 1e6:,.0f} MB a second, "
            f"peak memory {of_this:.1f} MB, {times(of_this, memory)} of the session's"
        )
    if most > MOST_MEGABYTES:
        sys.exit(f"holdbook's memory passes {MOST_MEGABYTES} MB")


main()
