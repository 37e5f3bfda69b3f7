"""Makes sources to time the program with, and prints bench/README.md's tables of reading and checking.

    (cd crates/kremlin && rt run)
    python3 bench/sources.py crates/kremlin/out/kremlin /tmp/sources

The sources are written into the folder. An unknown name stands at the end of each, so each is refused at the end of its check. For each: the processor
time in seconds of the run (the least of five), the same with one token too many at its end, so that it is refused before it is
checked, the difference of the two, and the largest memory of the run. Behind them, for sources that are nested 200 deep: the
least stack in KiB, a multiple of 16, with which the program comes to its answer.
"""

import os
import resource
import subprocess
import sys

TURNS = 5
CHECKED = "kremlin: source refused: Unknown(unknown)"
LAST = "int last=unknown;\n"
NESTING = 200


def function(*statements):
    return "int main(void){" + "".join(statements) + "return 0;}\n"


def many_nodes():
    """65,532 assignments of a number, each of four nodes: 262,136 nodes."""
    return function("int x;", "x=1;" * 65_532, "if(x) ;")


def many_names():
    """60,000 variables in one scope."""
    return function("int ", ",".join(f"a{name}" for name in range(60_000)), ";", "if(a0) ;")


def many_functions():
    """10,000 functions, of which each calls the one before."""
    first = "int f0(int n){return n;}\n"
    return first + "".join(f"int f{name}(int n){{return f{name - 1}(n);}}\n" for name in range(1, 10_000)) + function("f9999(1);")


def large_array():
    """An array of 4,194,304 elements, of which three are given."""
    return "int a[4194304]={1,2,3};\n" + function()


def deep_parentheses():
    return function("if(0) ;", "return ", "(" * (NESTING - 2), "1", ")" * (NESTING - 2), ";")


def deep_signs():
    return function("int x=1;", "return ", "- " * (NESTING - 2), "x;")


def deep_sums():
    return function("int x=1;", "if(x) ;", "return x", "+x" * (NESTING - 2), ";")


def deep_calls():
    """(an argument is one level, and a call takes one)"""
    return "int f(int n){return n;}\n" + function("return ", "f(" * (NESTING - 2), "1", ")" * (NESTING - 2), ";")


def deep_blocks():
    return function("{" * (NESTING - 1), ";", "}" * (NESTING - 1))


def deep_loops():
    """(the operands of the innermost assignment are two levels below its loop)"""
    return function("int i;", "for(i=0;i<2;i++)" * (NESTING - 2), ";")


def deep_braces():
    dims = "[1]" * (NESTING - 2)
    return f"int a{dims}=" + "{" * (NESTING - 2) + "1" + "}" * (NESTING - 2) + ";\n" + function()


LARGE = (many_nodes, many_names, many_functions, large_array)
DEEP = (deep_parentheses, deep_signs, deep_sums, deep_calls, deep_blocks, deep_loops, deep_braces)


def run(program, name, stack=None):
    """What the program says of a source, its seconds of processor time, and its largest memory in MB; nothing where it is cut off."""

    def limit():
        if stack is not None:
            resource.setrlimit(resource.RLIMIT_STACK, (stack * 1024, stack * 1024))

    process = subprocess.Popen([program, "run", name], stderr=subprocess.PIPE, text=True, preexec_fn=limit)
    said = process.stderr.read().strip()
    _, status, usage = os.wait4(process.pid, 0)
    if not os.WIFEXITED(status):
        return None
    return said, usage.ru_utime + usage.ru_stime, usage.ru_maxrss / 1024


def least(program, name, wanted):
    """The run that took least of some, each of which has to say this."""
    runs = [run(program, name) for _ in range(TURNS)]
    if any(it is None or not it[0].startswith(wanted) for it in runs):
        sys.exit(f"{name}: {runs}")
    return min(runs, key=lambda it: it[1])


def least_stack(program, name):
    for stack in range(32, 8192, 16):
        if run(program, name, stack) is not None:
            return stack
    return None


def write(name, text):
    with open(name, "w") as file:
        file.write(text)
    return name


def main(program, folder):
    os.makedirs(folder, exist_ok=True)
    for make in LARGE:
        source = make()
        _, whole, memory = least(program, write(f"{folder}/{make.__name__}.c", source + LAST), CHECKED)
        _, parsed, _ = least(program, write(f"{folder}/{make.__name__}-refused.c", source + ")"), "kremlin: source refused: Syntax")
        cells = [make.__name__, f"{len(source) / 1e3:.0f} KB", f"{whole:.3f}", f"{parsed:.3f}", f"{whole - parsed:.3f}", f"{memory:.0f} MB"]
        print("|", " | ".join(cells), "|", flush=True)
    for make in DEEP:
        name = write(f"{folder}/{make.__name__}.c", make() + LAST)
        least(program, name, CHECKED)
        print("|", make.__name__, "|", f"{least_stack(program, name)} KiB", "|", flush=True)


main(*sys.argv[1:])
