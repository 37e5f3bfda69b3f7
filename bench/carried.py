"""Times `kremlin carried` beside `kremlin run`, and prints docs/PERFORMANCE.md's table.

    (cd crates/kremlin && rt run)
    taskset -c 3 python3 bench/carried.py crates/kremlin/out/kremlin /tmp/carried [NAME..]

The programs are those of `machine.py`. For each, or each of those named: its operations; the seconds of processor time of `run` and of `carried`, the
least of three turns in which the two follow one another; their ratio; instructions of both for an operation, counted by callgrind as there, and their
ratio; and the largest memory of `carried` where the run of a large size is stopped after a million operations, and after a hundred million. How many
pairs of places a program's loops carry together stands last.
"""

import os
import re
import sys

import machine

COMMANDS = ("run", "carried")


def timed(kremlin, source):
    """Seconds of both, the operations of the run, and the pairs of all loops."""
    least, printed = {command: [] for command in COMMANDS}, {}
    for _ in range(machine.TURNS):
        for command in COMMANDS:
            printed[command], _, seconds, _ = machine.run(machine.profiled(kremlin, source, command=command))
            least[command].append(seconds)
    if not printed["carried"].startswith("== carried ==\n"):
        sys.exit(f"{source}: carried prints {printed['carried'][:100]!r}")
    pairs = sum(map(int, re.findall(r"(?m)^loop \S+ \S+ pairs (\d+)$", printed["carried"])))
    return [min(least[command]) for command in COMMANDS], machine.parted(printed["run"])[1], pairs


def for_an_operation(kremlin, smaller, greater):
    """Instructions of both for an operation, by two sizes of a program."""
    counts, made = {}, []
    for source in (smaller, greater):
        for command in COMMANDS:
            counts[command, source], printed = machine.instructions(machine.profiled(kremlin, source, command=command))
            if command == "run":
                made.append(machine.parted(printed)[1])
    return [(counts[command, greater] - counts[command, smaller]) / (made[1] - made[0]) for command in COMMANDS]


def row(kremlin, name, folder):
    """The cells of a program."""
    smaller, greater, size, large = (machine.source_of(name, it, folder) for it in machine.SIZES[name])
    (run, carried), made, pairs = timed(kremlin, size)
    counts = for_an_operation(kremlin, smaller, greater)
    memories = [machine.memory_at(kremlin, large, budget, "carried") for budget in machine.BUDGETS]
    times = [f"{run:.2f}", f"{carried:.2f}", f"{carried / run:.2f}"]
    return [name, f"{made:,}", *times, *(f"{it:.0f}" for it in counts), f"{counts[1] / counts[0]:.2f}", *memories, str(pairs)]


def main(kremlin, folder, *names):
    os.makedirs(folder, exist_ok=True)
    for name in names or machine.SIZES:
        print("|", " | ".join(row(kremlin, name, folder)), "|", flush=True)


if __name__ == "__main__":
    main(*sys.argv[1:])
