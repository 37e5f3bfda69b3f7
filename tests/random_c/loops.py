#!/usr/bin/env python3
"""Random programs of loops for `annotate`: tests/random_c/loops.py SEED writes that of a seed, and what is known of its loops.

A program has a few functions, each with a loop: a random head (heads.py) over a random body (bodies.py), whose variables are declared one by one, by macros or as
parameters, in a statement of some sort. None makes C undefined, and each prints what its loops have made. Of a loop these are known: whether `annotate` gives it
a line of OpenMP where the plan picks it as doall, and with which clauses.
"""

import random
import sys
from dataclasses import dataclass

from bodies import SIZE, Body, both
from heads import STYLES, Heads, number

HERE = ("direct",) * 10 + ("if", "else", "block", "while", "for", "twice", "twice", "nest", "case")
KIND_OF = {"long": "I64", "unsigned long": "U64"}
BEYOND = 30  # so many calls within one another have loops that are not tracked
BEGIN = """#include <stdio.h>
int scratch[4], shared;
int pure(int one, int other)
{
    return (one * 3 + other) & 1023;
}
int same(int value)
{
    return value;
}
int next(int value)
{
    shared = shared + 1;
    return value;
}
void put(int *to, int at, int value)
{
    to[at] = value;
}
int total(int from)
{
    int sum = 0, at;
    for (at = 0; at < 8; at++) sum += base[from + at];
    return sum;
}
"""


@dataclass
class Loop:
    """What is known of a loop: whether it is marked where it is picked, without and with --strict (None: that isn't said), and by which clauses."""

    shape: str
    plain: bool | None
    strict: bool | None
    clauses: str
    line: int = 0


class Function:
    """A function with its loop, what calls it has, and its lines; the line of a loop is a pair of its text and the loop."""

    def __init__(self, rand, at):
        self.random, self.at = rand, at
        self.deep = self.random.choice([6, 11, 32, 41]) if self.chance(7) else 0
        self.heads = Heads(rand, at, 12, 16) if self.deep else Heads(rand, at)
        style = "canonical" if self.deep else self.random.choices(list(STYLES), STYLES.values())[0]
        self.head = self.heads.head(style, 1 if self.deep else self.random.choice([2, 3] if style.endswith("-bound") else [1, 2, 2, 3]))
        self.body = Body(rand, self.head, at)
        self.body.made(self.random.choice([1, 1, 2, 2, 3]))
        self.carries = self.deep and self.chance(60)
        self.where = "direct" if self.deep else self.random.choice(HERE)
        self.macros, self.lines, self.order = list(self.head.macros), [], []
        self.parameters = list(self.head.parameters) + [("int", it, [self.random.randrange(1, 50) for _ in self.head.calls]) for it in "pq"]
        self.own = self.has_own()

    def chance(self, percent):
        return self.random.randrange(100) < percent

    def has_own(self):
        """A line of #pragma of its own that stands before the loop, or nothing."""
        known = (self.head.is_canonical(), self.body.fits, self.body.shares) == (True, True, False)
        if self.chance(7) and known and not self.deep:
            return "omp parallel for"
        return "GCC unroll 4" if self.chance(3) else ""

    def written(self):
        """The function's lines."""
        declared = self.declared()
        self.lines = ["unsigned r = 1;", *declared, *self.body.before]
        self.placed()
        for it in self.body.behind:
            if isinstance(it, tuple):
                self.lines.append(f"{it[0]} = {it[1]};")
            self.lines.append(f"r = r * 7 + (unsigned){it[0] if isinstance(it, tuple) else it};")
        if self.deep:
            # (a variable of the loop must not be read behind it: where it is a parameter, it is given what the first call gives)
            own = {it[1] for it in self.head.declared + self.body.declared}
            given = [number(it[2][0], KIND_OF.get(it[0], "I32")) if it[1] in own else it[1] for it in self.parameters]
            self.lines.append(f"if (d > 0) r = r * 3 + (unsigned)f{self.at}({', '.join([*given, 'd - 1'])});")
        self.lines.append("return (int)(r & 65535);")
        arguments = ", ".join(f"{kind} {name}" for kind, name, _ in self.parameters) + (", int d" if self.deep else "")
        if self.chance(25):
            self.macros.append(f"#define ARGS{self.at} {arguments}")
            arguments = f"ARGS{self.at}"
        begin = [f"int {self.body.array}[{SIZE}], {self.body.grid}[{SIZE}][4];", *self.macros, f"int f{self.at}({arguments})", "{"]
        return begin + [(f"    {it[0]}", it[1]) if isinstance(it, tuple) else f"    {it}" for it in self.lines] + ["}"]

    # Declarations

    def declared(self):
        """The lines that declare the variables: one by one, by a macro, or as parameters; their order is kept."""
        left = []
        for kind, name, value in self.head.declared + self.body.declared:
            if "*" not in kind and self.chance(12):
                given = [it["first"] if name == "i" else int(value or 4) for it in self.head.calls]
                self.parameters.insert(self.random.randrange(len(self.parameters) + 1), (kind, name, [max(it, 0) for it in given] if kind.startswith("un") else given))
            else:
                left.append((kind, name, value))
        self.random.shuffle(left)
        lines = self.by_macros(left) if self.chance(40) else [f"{kind} {name}{f' = {value}' if value else ''};" for kind, name, value in left]
        self.order = [it[1] for it in self.parameters + left]
        return lines

    def by_macros(self, left):
        """Declares variables by macros: all that have one kind in turn stand in one."""
        lines, at = [], 0
        while at < len(left):
            kind, end = left[at][0].rstrip(" *"), at + 1
            while end < len(left) and left[end][0].rstrip(" *") == kind:
                end += 1
            several = ", ".join(f"{'*' if '*' in of else ''}{name}{f' = {value}' if value else ''}" for of, name, value in left[at:end])
            name = f"LOCALS{self.at}_{at}"
            if self.chance(30):
                self.macros.append(f"#define {name} {several}")
                lines.append(f"{kind} {name};")
            else:
                self.macros.append(f"#define {name} {kind} {several}")
                lines.append(f"{name};")
            at = end
        return lines

    # Loops

    def clauses(self):
        found = []
        for op in "+*&|^":
            names = sorted((name for of, name in self.body.reductions if of == op), key=self.order.index)
            found += [f"reduction({op}:{','.join(names)})"] if names else []
        names = sorted(self.body.privates, key=self.order.index)
        return " ".join(found + ([f"private({','.join(names)})"] if names else []))

    def known(self):
        """What is known of the loop."""
        fits, shares = both(self.head.is_canonical(), self.body.fits, False), self.body.shares
        if self.own or self.where == "nest":
            fits = False if self.own else None
        strict = both(fits, None if shares is None else not shares, False)
        if self.deep >= BEYOND:
            strict, fits = False, None if self.carries else fits
        elif self.carries:
            strict = fits = both(fits, None if self.body.skips else False, False)
        shape = f"{self.head.style} over {self.head.kind}, {' '.join(self.body.pieces)}, {self.where}{f' at depth {self.deep}' if self.deep else ''}"
        return Loop(shape, fits, strict, self.clauses())

    def loop(self):
        """The lines of the loop, with what has to stand before it."""
        head = self.head
        lines = list(head.before)
        if self.own:
            lines.append(f"#pragma {self.own}{' ' + self.clauses() if self.own.startswith('omp') else ''}".rstrip())
            lines += ["/* as it is */"] if self.chance(20) else []
        lines.append((f"for ({head.first}; {head.test}; {head.step}) {{", self.known()))
        lines += [f"    {it}" for it in self.body.lines]
        if self.carries:
            by = head.by
            before = f"{self.body.array}[(i {'-' if by > 0 else '+'} {abs(by)}) & {SIZE - 1}]"
            lines.append(f"    if (d == 0) {self.body.at} = ({before} & 1023) + x;")
        return lines + ["}"]

    def placed(self):
        """Puts the loop where it stands."""
        where, lines = self.where, self.loop()
        inner = [(f"    {it[0]}", it[1]) if isinstance(it, tuple) else f"    {it}" for it in lines]
        if where == "if":
            lines = ["if (p >= 0) {", *inner, "}"]
        elif where == "else":
            bare = self.chance(50) and not self.head.before
            lines = ["if (p < 0) r = 2;", *(["else", *inner] if bare else ["else {", *inner, "}"])]
        elif where == "block":
            lines = ["{", *inner, "}"]
        elif where == "while":
            lines = ["int k = 0;", "while (k < 2) {", *inner, "    k = k + 1;", "}"]
        elif where == "for":
            lines = ["int k;", "for (k = 0; k < 3; k++) {", *inner, "}"]
        elif where == "nest":
            lines = ["int k;", f"for (k = 0; k < {self.random.choice([6, 9])}; k++) {{", *inner, "}"]
        elif where == "twice":
            lines = lines + self.loop()
        elif where == "case":
            lines = ["switch (p > 0) {", "case 0: r = 3; break;", "default:", "{", *inner, "}", "}"]
        self.lines += lines

    def calls(self):
        for at in range(len(self.head.calls)):
            given = [number(it[2][at], KIND_OF.get(it[0], "I32")) for it in self.parameters] + ([str(self.deep)] if self.deep else [])
            yield f"f{self.at}({', '.join(given)})"


def program(seed, functions=4):
    """The program of a seed, and what is known of its loops."""
    rand = random.Random(seed)
    made = [Function(rand, at) for at in range(1, functions + 1)]
    base = ", ".join(str(0 if not at else rand.randrange(100)) for at in range(64))
    lines = [f"int base[64] = {{{base}}};", *BEGIN.split("\n")[:-1]]
    for it in made:
        lines += it.written()
    lines += ["int main(void)", "{", "    unsigned check = 1;", "    int at = 0;"]
    for it in made:
        lines += [f'    printf("%d\\n", {call});' for call in it.calls()]
    sums = " + ".join(f"(unsigned)({it.body.array}[at] + {it.body.grid}[at][at & 3]) * {2 * it.at + 1}u" for it in made)
    lines += [f"    while (at < {SIZE}) {{", f"        check = check * 31 + {sums};", "        at = at + 1;", "    }"]
    lines += ['    printf("%u %d\\n", check, shared + scratch[0] + scratch[3]);', "    return (int)(check & 127);", "}"]
    loops = []
    for line, it in enumerate(lines, 1):
        if isinstance(it, tuple):
            it[1].line = line
            loops.append(it[1])
    return "".join(f"{it[0] if isinstance(it, tuple) else it}\n" for it in lines), loops


if __name__ == "__main__":
    text, loops = program(int(sys.argv[1]))
    print(text, end="")
    for it in loops:
        print(it, file=sys.stderr)
