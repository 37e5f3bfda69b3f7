"""Makes three sources and prints bench/README.md's tables of the time by stage of `kremlin run`.

    (cd crates/kremlin && rt run)
    python3 bench/stages.py crates/kremlin/out/kremlin /tmp/stages

The sources are written into the folder: one of 400,000 tokens without a loop, and products of matrices of some 10 and 28 million operations. The
program runs under gdb, which notes when the first function of each stage is entered, and lets it go on: a stop takes less than a millisecond.
"""

import os
import subprocess
import sys

from runs import PRODUCT

STAGES = [
    ("tokens", "k_lex_pieces::pieces::piece_at"),
    ("tree", "k_parse::parser::read"),
    ("types", "k_types::item::File::new"),
    ("marks", "k_marks_jumps::walk::list_stmt"),
    ("flat code", "k_lower::program::lower"),
    ("run", "k_hcpa::machine::Machine::start"),
    ("rows", "k_selfpar::tree_rows::rows"),
    ("contexts", "k_selfpar::grouping::add_contexts"),
    ("plan", "k_plan::planning::plan"),
    ("text", "k_report::report_lines::report"),
]

GDB = r"""
import gdb, time
seen = {}
class Entry(gdb.Breakpoint):
    def stop(self):
        if self.name not in seen:
            seen[self.name] = time.monotonic()
        self.enabled = False
        return False
gdb.execute("starti", to_string=True)
base = min(int(line.split()[0], 16) for line in gdb.execute("info proc mappings", to_string=True).splitlines() if line.strip().endswith(PROGRAM))
for name, place in STAGES:
    Entry("*" + hex(base + place), internal=True).name = name
begun = time.monotonic()
gdb.execute("continue", to_string=True)
ended = time.monotonic()
marks = [("start", begun)] + [(name, seen[name]) for name, _ in STAGES if name in seen] + [("end", ended)]
for (name, at), (_, next_at) in zip(marks, marks[1:]):
    print("STAGE", name, "%.3f" % (next_at - at))
print("STAGE", "all", "%.3f" % (ended - begun))
"""

FIRST = "ABCDEFGHIJKLMNOPQRSTUVWXYZ"
LATER = FIRST + "0123456789"


def name(number):
    """A name of four bytes, which is no keyword."""
    return FIRST[number % 26] + LATER[number // 26 % 36] + LATER[number // 936 % 36] + LATER[number // 33_696]


def declarators():
    """One declaration of 199,993 variables, with 400,000 tokens in all."""
    return "int main(void){int " + ",".join(name(it) for it in range(199_993)) + ";return 0;}"


def places(program):
    """Where the first function of each stage is."""
    found = {}
    for line in subprocess.run(["nm", program], capture_output=True, text=True, check=True).stdout.splitlines():
        at, _, symbol = line.partition(" ")
        if at:
            found[symbol[2:].partition("::<#")[0]] = int(at, 16)
    lacking = [symbol for _, symbol in STAGES if symbol not in found]
    if lacking:
        print("no symbol in this build, so its stage is part of the one before:", *lacking)
    return [(stage, found[symbol]) for stage, symbol in STAGES if symbol in found]


def main(program, folder):
    os.makedirs(folder, exist_ok=True)
    script = f"{folder}/stages.gdb.py"
    with open(script, "w") as file:
        file.write(f"STAGES = {places(program)!r}\nPROGRAM = {os.path.realpath(program)!r}\n" + GDB)
    for stem, text in (("declarators", declarators()), ("product91", PRODUCT % 91), ("product128", PRODUCT % 128)):
        source = f"{folder}/{stem}.c"
        with open(source, "w") as file:
            file.write(text)
        words = f"set args run {source} --steps=1000000000 > /dev/null"
        command = ["gdb", "-q", "-batch", "-ex", words, "-ex", f"source {script}", program]
        ran = subprocess.run(command, capture_output=True, text=True)
        print(stem)
        if "STAGE" not in ran.stdout:
            sys.exit(ran.stdout + ran.stderr)
        for line in ran.stdout.splitlines():
            if line.startswith("STAGE "):
                print("   ", line[6:])


main(*sys.argv[1:])
