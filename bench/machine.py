"""Times `kremlin run` beside callgrind, and prints docs/PERFORMANCE.md's table.

    (cd crates/kremlin && rt run)
    taskset -c 3 python3 bench/machine.py crates/kremlin/out/kremlin /tmp/machine [NAME..]

The programs stand in bench/machine, each with its size in a line `#define N`. For each, or each of those named: its operations; the seconds of
processor time of `kremlin run`, and of `valgrind --tool=callgrind` over the same program as gcc -O0 builds it, the least of three turns in which the
two follow one another; their ratio; millions of operations a second; instructions of `kremlin` for an operation, counted by callgrind, which are
those of two smaller sizes, the less from the greater, so that the reading of the source and the report are not in them; and the largest memory where
the run of a large size is stopped after a million operations, and after a hundred million. What both print is compared. With `-` in place of the
program, gcc's and callgrind's columns alone.
"""

import atexit
import os
import re
import shutil
import subprocess
import sys
import tempfile

PEAK = []
TURNS = 3
CALLGRIND = ["valgrind", "--tool=callgrind", f"--callgrind-out-file={os.devnull}"]
HERE = os.path.join(os.path.dirname(os.path.abspath(__file__)), "machine")
BUDGETS = (1_000_000, 100_000_000)
WHOLE = 1_000_000_000

# the sizes that instructions are counted at, that is timed, and that memory is measured at
SIZES = {
    "product": (16, 32, 128, 210),
    "stencil": (10, 30, 800, 4500),
    "sort": (100, 300, 2400, 5500),
    "sieve": (1, 2, 9, 60),
    "common": (60, 150, 850, 2000),
    "calls": (12, 18, 31, 35),
    "nest": (2, 3, 5, 6),
    "search": (20, 60, 2500, 14000),
}


def source_of(name, size, folder):
    """The file of a program of this size."""
    with open(f"{HERE}/{name}.c") as file:
        text, changed = re.subn(r"(?m)^#define N .*$", f"#define N {size}", file.read())
    if changed != 1:
        sys.exit(f"{name}.c has {changed} lines that define N")
    path = f"{folder}/{name}{size}.c"
    with open(path, "w") as file:
        file.write(text)
    return path


def built(source):
    """The program that gcc makes of a source without optimising."""
    path = source.removesuffix(".c")
    subprocess.run(["gcc", "-O0", "-w", "-o", path, source], check=True)
    return path


def peak_of():
    """A program that notes the largest memory of another, and where it does: what a process had before it became the other counts to the system."""
    if not PEAK:
        folder = tempfile.mkdtemp(prefix="kremlin-peak-")
        atexit.register(shutil.rmtree, folder)
        PEAK.extend([f"{folder}/peak_of", f"{folder}/peak"])
        subprocess.run(["gcc", "-O1", "-o", PEAK[0], os.path.join(HERE, "..", "..", "tests", "peak.c")], check=True)
    return PEAK


def run(command, statuses=(0,)):
    """What a command prints and tells on standard error, its seconds of processor time and its largest memory in bytes."""
    program, *words = command
    process = subprocess.Popen([*peak_of(), shutil.which(program) or program, *words], stdout=subprocess.PIPE, stderr=subprocess.PIPE, text=True)
    # what is told is short, so it never fills its pipe while the output is read
    printed = process.stdout.read()
    told = process.stderr.read()
    _, status, usage = os.wait4(process.pid, 0)
    process.returncode = os.waitstatus_to_exitcode(status)
    if process.returncode not in statuses:
        sys.exit(f"{command} ended with {process.returncode}: {told}")
    with open(PEAK[1]) as file:
        return printed, told, usage.ru_utime + usage.ru_stime, int(file.read()) * 1024


def instructions(command):
    """How many instructions a command takes, and what it prints."""
    printed, told, _, _ = run([*CALLGRIND, *command])
    return int(told.partition("Collected :")[2].split()[0]), printed


def profiled(kremlin, source, budget=WHOLE, command="run"):
    return [kremlin, command, source, f"--steps={budget}"]


def parted(printed):
    """A program's output, and how many operations its run made."""
    output, _, report = printed.partition("== kremlin ==\n")
    return output, int(re.search(r"(?m)^ops (\d+)$", report)[1])


def for_an_operation(kremlin, smaller, greater):
    """Instructions for an operation, by two sizes of a program."""
    few, printed = instructions(profiled(kremlin, smaller))
    many, more = instructions(profiled(kremlin, greater))
    return (many - few) / (parted(more)[1] - parted(printed)[1])


def memory_at(kremlin, source, budget, command="run"):
    """The largest memory of a run that is stopped after so many operations."""
    _, told, _, memory = run(profiled(kremlin, source, budget, command), statuses=(0, 2))
    return f"{memory / 1e6:.0f} MB" + ("" if "out of steps" in told else " (whole)")


def timed(kremlin, source, program):
    """Seconds of both, and the operations of the run."""
    least, peer, made = [], [], 0
    wanted, _, _, _ = run([program])
    for _ in range(TURNS):
        peer.append(run([*CALLGRIND, program])[2])
        if kremlin is not None:
            printed, _, seconds, _ = run(profiled(kremlin, source))
            output, made = parted(printed)
            if output != wanted:
                sys.exit(f"{source}: gcc's program prints {wanted!r}, and kremlin {output!r}")
            least.append(seconds)
    return min(least, default=None), min(peer), made


def row(kremlin, name, folder):
    """The cells of a program."""
    smaller, greater, size, large = (source_of(name, it, folder) for it in SIZES[name])
    seconds, peer, made = timed(kremlin, size, built(size))
    if kremlin is None:
        return [name, f"{peer:.2f}"]
    memories = [memory_at(kremlin, large, budget) for budget in BUDGETS]
    count = for_an_operation(kremlin, smaller, greater)
    ratio = f"{seconds / peer:.2f}"
    return [name, f"{made:,}", f"{seconds:.2f}", f"{peer:.2f}", ratio, f"{made / seconds / 1e6:.1f}", f"{count:.0f}", *memories]


def main(kremlin, folder, *names):
    os.makedirs(folder, exist_ok=True)
    for name in names or SIZES:
        cells = row(None if kremlin == "-" else kremlin, name, folder)
        print("|", " | ".join(cells), "|", flush=True)


if __name__ == "__main__":
    main(*sys.argv[1:])
