"""Bodies of random loops over a counter `i`, made of pieces, with what is known of each: what a line of OpenMP has to say of it, and what its turns share.

What a piece adds to a body is told by `fits`, whether its variables and what it carries let the loop be marked, and `shares`, whether two turns access one element
that one of them writes. Either is None where that isn't known.
"""

from heads import SPELLINGS

SIZE = 128
PIECES = {
    "store": 14,
    "store-at-times": 4,
    "add": 5,
    "sum": 18,
    "two-sums": 4,
    "temporary": 9,
    "two-temporaries": 3,
    "pointer": 3,
    "inner-for": 8,
    "inner-while": 3,
    "inner-sum": 4,
    "switch": 3,
    "call": 4,
    "call-with-loop": 2,
    "own-array": 2,
    "own-place": 2,
    "scratch": 3,
    "outer-place": 2,
    "ahead": 3,
    "chain": 2,
    "late": 3,
    "mixed-sums": 1,
    "sum-read": 1,
    "kept": 2,
    "read-behind": 2,
    "leave": 1,
    "print": 1,
    "memory-sum": 1,
}
SUMS = {"+": ["I32", "U32", "I64", "U8", "I16", "U64"], "*": ["U32", "U64", "U8"], "&": ["I32", "U32", "I64", "U8"]}
SUMS |= {"|": ["I32", "U32", "U16"], "^": ["I32", "U64", "I16"]}
BEGINS = {"+": "0", "*": "1", "&": "-1", "|": "0", "^": "5"}


def both(left, right, strong):
    """Two answers put together: the strong one where either is it, None where one isn't known."""
    if strong in (left, right):
        return strong
    return None if None in (left, right) else not strong


class Body:
    """The statements of a loop's body, what they ask to be declared, and what is known of them."""

    def __init__(self, random, head, number):
        self.random, self.head, self.number = random, head, number
        self.array, self.grid = f"a{number}", f"c{number}"
        self.lines, self.declared, self.before, self.behind = [], [], [], []
        self.reductions, self.privates, self.pieces = [], [], []
        self.fits, self.shares, self.skips, self.names = True, False, False, int(bool(head.sum))
        self.distinct = all(len({it & SIZE - 1 for it in turn}) == len(turn) for turn in head.turns)
        self.most = max(map(len, head.turns))
        self.at = f"{self.array}[i & {SIZE - 1}]"

    def chance(self, percent):
        return self.random.randrange(100) < percent

    def name(self, letter):
        self.names += 1
        return letter if self.names == 1 else f"{letter}{self.names}"

    def put(self, *lines):
        self.lines += lines

    def put_known(self, fits=True, shares=False):
        self.fits, self.shares = both(self.fits, fits, False), both(self.shares, shares, True)

    def stored(self):
        """A store of each turn at its own element, if the counter's values tell them apart."""
        self.put_known(shares=False if self.distinct else None if self.skips else True)

    def reduced(self, op, name):
        self.reductions.append((op, name))

    # Numbers: those of a turn, of any kind and between -2,000 and 2,000.

    def atom(self):
        return self.random.choice(["(int)(i & 63)", "x", "p", "q", "base[i & 63]", str(self.random.randrange(1, 99)), "(x + 3)"])

    def value(self):
        one, two = self.atom(), self.atom()
        return self.random.choice([
            f"{one} * {self.random.randrange(2, 9)} + {two}", f"({one} ^ {two})", f"{one} + {two}", f"{one} - {two}", f"pure({one}, {two})",
            f"(x > 30 ? {one} : {two})", f"({one} & 31) * 3", f"{one} % 7 + {two}", f"({one} | 5) + {two}",
        ])

    def made(self, count):
        """Puts so many pieces."""
        self.put("int x = (int)(i & 63);")
        if self.chance(10):
            self.put(f"if (x == {self.random.randrange(64)}) continue;")
            self.skips = True
        if self.head.sum:
            self.sum(self.head.sum, "+", "I32")
            self.pieces.append("sum")
        for _ in range(count):
            which = self.random.choices(list(PIECES), PIECES.values())[0]
            self.pieces.append(which)
            getattr(self, which.replace("-", "_"))()
        if self.head.sum:
            self.fits = False

    # What lets a loop be marked.

    def store(self):
        self.put(f"{self.at} = {self.value()};")
        self.stored()

    def store_at_times(self):
        self.put(f"if (x {self.random.choice(['< 40', '!= 7', '% 2'])}) {self.at} = {self.value()};")
        self.put_known(shares=False if self.distinct else None)

    def add(self):
        self.put(f"{self.at} {self.random.choice(['+=', '-=', '^='])} {self.value()};")
        self.put_known(True if self.distinct else None if self.skips else False, not self.distinct)

    def sum(self, name=None, op=None, kind=None):
        name = name or self.name("s")
        op = op or self.random.choice("++++*&|^")
        kind = kind or self.random.choice(SUMS[op])
        self.declared.append((SPELLINGS[kind], name, BEGINS[op]))
        for _ in range(self.random.choice([1, 1, 1, 2])):
            self.added(name, op, kind)
        self.reduced(op, name)
        self.behind.append(name)

    def added(self, name, op, kind):
        by = {"*": f"(({self.value()}) | 1)", "&": f"(({self.value()}) | 960)"}.get(op, f"({self.value()})")
        if kind[0] == "U":
            by = f"({SPELLINGS[kind]}){by}"
        sign = self.random.choice("++-") if op == "+" else op
        text = self.random.choice([f"{name} {sign}= {by};", f"{name} {sign}= {by};", f"{name} = {name} {sign} {by};"])
        self.put(f"if (x & 1) {text}" if self.chance(20) else text)

    def two_sums(self):
        self.sum()
        self.sum()

    def temporary(self):
        """A variable that each turn sets anew; it may be set outside too, and be read there where it was set behind the loop."""
        name, kind = self.name("t"), self.random.choice(["I32", "I32", "I64", "I16"])
        self.declared.append((SPELLINGS[kind], name, self.random.choice([None, None, "3"])))
        self.put(f"{name} = {self.value()};")
        if self.chance(30):
            self.put(f"{name} += x;")
        self.put(f"if (x > 9) {{ {self.at} = (int){name}; }} else {{ {self.at} = (int){name} + 1; }}" if self.chance(30) else f"{self.at} = (int){name} + x;")
        self.privates.append(name)
        self.stored()
        if self.chance(15):
            self.behind.append((name, self.random.randrange(9)))

    def two_temporaries(self):
        one, two = self.name("t"), self.name("u")
        self.declared += [("int", two, None), ("int", one, None)] if self.chance(50) else [("int", one, None), ("int", two, None)]
        self.put(f"{one} = {self.value()};", f"{two} = {one} * 2;", f"{self.at} = {two} - {one};")
        self.privates += [one, two]
        self.stored()

    def pointer(self):
        name = self.name("at")
        self.declared.append(("int *", name, None))
        self.put(f"{name} = {self.array} + (i & {SIZE - 1});", f"*{name} = {self.value()};")
        self.privates.append(name)
        self.stored()

    def inner(self):
        """The counter of an inner loop, and whether the loop declares it."""
        own = self.chance(35)
        name = self.name("j")
        if not own:
            self.declared.append(("int", name, None))
            self.privates.append(name)
        return name, "int " if own else ""

    def inner_for(self):
        name, own = self.inner()
        if self.chance(15):
            self.put("#pragma GCC unroll 4")
        self.put(f"for ({own}{name} = 0; {name} < {self.random.choice(['3', '4', '(p & 3)'])}; {name}++)",
                 f"    {self.grid}[i & {SIZE - 1}][{name}] = {self.value()};")
        self.stored()

    def inner_while(self):
        name = self.name("j")
        self.declared.append(("int", name, None))
        self.privates.append(name)
        self.put(f"{name} = 0;")
        one = f"{{ {self.grid}[i & {SIZE - 1}][{name}] = {self.value()}; {name} += 1; }}"
        self.put(f"do {one} while ({name} < 3);" if self.chance(40) else f"while ({name} < 4) {one}")
        self.stored()

    def inner_sum(self):
        total, (name, own) = self.name("t"), self.inner()
        self.declared.append(("int", total, None))
        self.privates.append(total)
        added = f"base[(x + {name}) & 63] * {self.random.randrange(1, 5)}"
        self.put(f"{total} = x;", f"for ({own}{name} = 3; {name} >= 0; {name}--) {total} += {added};", f"{self.at} = {total};")
        self.stored()

    def switch(self):
        self.put("switch (x & 3) {", f"case 0: {self.at} = {self.value()}; break;", f"case 1: {self.at} = {self.value()};", f"default: {self.at} = x;", "}")
        self.stored()

    def call(self):
        self.put(self.random.choice([f"put({self.array}, (int)(i & {SIZE - 1}), {self.value()});", f"{self.at} = pure(x, {self.value()});"]))
        self.stored()

    def call_with_loop(self):
        self.put(f"{self.at} = total(x & 31);")
        self.stored()

    def own_array(self):
        name = self.name("u")
        self.put(f"int {name}[4];", f"{name}[0] = {self.value()};", f"{name}[1] = {name}[0] + 1;", f"{self.at} = {name}[1] - {name}[0] * 2;")
        self.stored()

    def own_place(self):
        name = self.name("w")
        self.put(f"int {name}, *to{name} = &{name};", f"*to{name} = {self.value()};", f"{self.at} = {name};")
        self.stored()

    # What turns share, and what each turn overwrites before it reads it.

    def shared(self):
        self.put_known(shares=None if self.skips else self.most > 1)

    def scratch(self):
        place = self.random.choice(["scratch[0]", "scratch[3]", "shared"])
        self.put(f"{place} = {self.value()};", f"{self.at} = {place} + x;")
        self.shared()
        self.stored()

    def outer_place(self):
        name = self.name("w")
        self.declared += [("int", name, None), ("int *", f"to{name}", None)]
        self.put(f"to{name} = &{name};", f"*to{name} = {self.value()};", f"{self.at} = {name};")
        self.privates.append(f"to{name}")
        self.shared()
        self.stored()

    def ahead(self):
        """What a later turn writes is read before."""
        if not self.distinct or any(abs(it) > 1 << 30 for turn in self.head.turns for it in turn):
            return self.store()
        by = self.head.by
        step = f"{'+' if by > 0 else '-'} {abs(by)}"
        self.put(f"{self.at} = {self.array}[(i {step}) & {SIZE - 1}] / 2 + {self.value()};")
        self.put_known(None if self.skips else True, None if self.skips else True)

    # What keeps a loop from being marked.

    def chain(self):
        """What the turn before wrote is read."""
        by = self.head.by
        if any(abs(it) > 1 << 30 for turn in self.head.turns for it in turn):
            return self.memory_sum()
        step = f"{'-' if by > 0 else '+'} {abs(by)}"
        self.put(f"{self.at} = ({self.array}[(i {step}) & {SIZE - 1}] & 1023) + {self.value()};")
        self.put_known(None if self.skips else False, None)

    def late(self):
        """One turn reads what one much earlier has written."""
        one = self.head.turns[0]
        if not self.distinct or len(one) < 8 or self.skips:
            return self.store()
        early, late = (it & SIZE - 1 for it in (one[1], one[-2]))
        self.put(f"if ((i & {SIZE - 1}) == {late}) {self.at} = {self.array}[{early}] + 1; else {self.at} = {self.value()};")
        self.put_known(False, None)

    def mixed_sums(self):
        name = self.name("s")
        self.declared.append(("unsigned", name, "1"))
        self.put(f"{name} += (unsigned)({self.value()});", f"{name} ^= 3u;")
        self.behind.append(name)
        self.put_known(None if self.skips else False)

    def sum_read(self):
        name = self.name("s")
        self.declared.append(("int", name, "0"))
        self.put(f"{name} += {self.value()};", f"{self.at} = {name};")
        self.behind.append(name)
        self.put_known(False, None)

    def kept(self):
        """A turn may read what an earlier one set."""
        name = self.name("t")
        self.declared.append(("int", name, "2"))
        self.put(f"if (x & 1) {name} = {self.value()};", f"{self.at} = {name};")
        self.put_known(False, None)

    def read_behind(self):
        name = self.name("t")
        self.declared.append(("int", name, None))
        self.before.append(f"{name} = 7;")
        self.put(f"{name} = {self.value()};", f"{self.at} = {name};")
        self.behind.append(name)
        self.put_known(False, None)

    def leave(self):
        self.put(self.random.choice(["if (x == 77) break;", "if (x == 77) return 3;"]))
        self.put_known(False, None)

    def print(self):
        self.put("if (x == 33) putchar(65 + (x & 15));")
        self.put_known(None, None)

    def memory_sum(self):
        self.put(f"shared += ({self.value()}) & 15;")
        self.put_known(None if self.skips else False, None)
