"""Times the reading of sources of 400,000 tokens by the built program, and prints bench/README.md's table.

    (cd crates/kremlin && rt run)
    python3 bench/reading.py crates/kremlin/out/kremlin FOLDER [TURNS]

Writes each source into FOLDER, in two forms: one ends in a byte that begins no token, so that the program answers behind
the tokens, and one in a token that can't stand there, so that it answers behind the tree. Each time is the least of the
turns, of the whole program, in seconds of processor time.
"""

import os
import re
import subprocess
import sys

TOKENS = 400_000
DEPTH = 190
PIECE = re.compile(r"[A-Za-z_]\w*|\d+|\S")


def tokens(text):
    return len(PIECE.findall(text))


def nested(opening, inner, closing, depth=DEPTH):
    return opening * depth + inner + closing * depth


MAIN = "int main(void){"

# name: what stands before, what is repeated, a token that can't stand behind it
KINDS = {
    "empty statements": (MAIN, ";", ")"),
    "expression statements": (MAIN, "x;", ")"),
    "arguments of a call": (MAIN + "f(x", ",x", ";"),
    "sums of 190 operands": (MAIN, "x" + "+x" * (DEPTH - 1) + ";", ")"),
    "assignments of 190 operands": (MAIN, "x" + "=x" * (DEPTH - 1) + ";", ")"),
    "conditionals, 90 deep": (MAIN, "x?x:" * 90 + "x;", ")"),
    "parentheses, 190 deep": (MAIN, nested("(", "x", ")") + ";", ")"),
    "signs, 190 deep": (MAIN, "- " * DEPTH + "x;", ")"),
    "casts, 190 deep": (MAIN, "(int)" * DEPTH + "x;", ")"),
    "indexes, 190 deep": (MAIN, nested("x[", "x", "]") + ";", ")"),
    "calls, 190 deep": (MAIN, nested("f(", "x", ")") + ";", ")"),
    "declarations in a file": ("", "int x;", ")"),
    "declarations in a block": (MAIN, "int x;", ")"),
    "declarators": ("int x", ",x", ")"),
    "dimensions": ("int x", "[1]", ")"),
    "initialisers": ("int x[]={1", ",1", ";"),
    "initialisers, 180 deep": ("int x[]={1", "," + nested("{", "1", "}", 180), ";"),
    "parameters": ("int f(int x", ",int x", ";"),
    "prototypes": ("", "int f(void);", ")"),
    "functions": ("", "int f(void){}", ")"),
    "blocks": (MAIN, "{}", ")"),
    "blocks, 190 deep": (MAIN, nested("{", "", "}"), ")"),
    "`if` with `else`": (MAIN, "if(x);else;", ")"),
    "`if`s, 190 deep": (MAIN, "if(x)" * DEPTH + ";", ")"),
    "`else if`s, 190 deep": (MAIN, "if(x);else " * DEPTH + ";", ")"),
    "`while`s": (MAIN, "while(x);", ")"),
    "`do`s": (MAIN, "do;while(x);", ")"),
    "`for`s": (MAIN, "for(x;x;x);", ")"),
    "`for`s with declarations": (MAIN, "for(int x;x;x);", ")"),
    "`switch`es": (MAIN, "switch(x){case 1:;default:}", ")"),
    "labels of a `switch`": (MAIN + "switch(x){", "case 1:", ")"),
    "statements of a `switch`": (MAIN + "switch(x){case 1:", ";", ")"),
    "`switch`es, 190 deep": (MAIN, "switch(x){case 1:" * DEPTH + "}" * DEPTH, ")"),
}


def source(before, unit, last):
    room = TOKENS - 2 - tokens(before)
    return before + unit * (room // tokens(unit)) + last


def run(program, path, turns):
    least = None
    for _ in range(turns):
        child = subprocess.Popen([program, "run", path], stdout=subprocess.DEVNULL, stderr=subprocess.PIPE, text=True)
        line = child.stderr.read().strip()
        _, _, usage = os.wait4(child.pid, 0)
        spent = usage.ru_utime + usage.ru_stime
        if least is None or spent < least[0]:
            least = (spent, usage.ru_maxrss // 1024, line)
    return least


def main(program, folder, turns):
    os.sched_setaffinity(0, {max(os.sched_getaffinity(0))})
    os.makedirs(folder, exist_ok=True)
    print("| source | tokens | tokens alone | with the reading | memory | answer |")
    print("|---|---|---|---|---|---|")
    for number, (kind, (before, unit, wrong)) in enumerate(KINDS.items()):
        results = []
        for form, last in (("tokens", "@"), ("tree", wrong)):
            text = source(before, unit, last)
            path = os.path.join(folder, f"{number:02}-{form}.c")
            with open(path, "w") as file:
                file.write(text + "\n")
            results.append(run(program, path, turns))
        (alone, _, _), (whole, memory, line) = results
        shown = line.split(":", 1)[-1].strip() if line else ""
        print(f"| {kind} | {tokens(text):,} | {alone:.2f} | {whole:.2f} | {memory} MB | {shown} |", flush=True)


if __name__ == "__main__":
    main(sys.argv[1], sys.argv[2], int(sys.argv[3]) if len(sys.argv) > 3 else 3)
