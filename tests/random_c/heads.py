"""Heads of random loops: `for (FIRST; TEST; STEP)` over a counter of any kind, with the values that the counter takes, found by C's rules.

A head of the style `canonical` is one that OpenMP gives C's meaning. Each other style departs from that in one way, and some departures are seen only where a call
of the loop's function has its bounds so that C makes no turn.
"""

from dataclasses import dataclass, field

from expressions import KINDS, common, fits, greatest, least, promoted

SPELLINGS = {"I8": "signed char", "U8": "unsigned char", "I16": "short", "U16": "unsigned short"}
SPELLINGS |= {"I32": "int", "U32": "unsigned", "I64": "long", "U64": "unsigned long"}
NARROW = ("I8", "U8", "I16", "U16")
FEWEST_TURNS, MOST_TURNS = 12, 400
# How often each style comes.
STYLES = {
    "canonical": 50,
    "no-first": 4,
    "two-firsts": 3,
    "comma-first": 3,
    "first-in-brackets": 3,
    "first-of-itself": 3,
    "first-of-two": 2,
    "first-of-a-sum": 3,
    "first-with-effect": 3,
    "unequal-by-more": 4,
    "narrow": 7,
    "turned": 4,
    "wrapping": 3,
    "unsigned-by-more": 2,
    "long-bound": 3,
    "unsigned-bound": 4,
    "other-bound": 3,
    "brackets": 2,
    "uncounted": 3,
}
# Of these nothing is said: gcc takes the loop, and keeps C's meaning. `first-by-a-call`, also one by a load, is drawn among the canonical ones.
UNSAID = ("other-bound", "brackets", "first-by-a-call")


class Unfit(Exception):
    """The head that was begun has no turns, too many, or an overflow."""


@dataclass
class Term:
    """What stands in a head: its text, the value that it has for the value of its variable (itself where it has none), and that variable's value for a wanted one."""

    text: str
    name: str = ""
    kind: str = "I32"
    plus: int = 0

    def solved(self, value):
        return value - self.plus


@dataclass
class Head:
    """A loop's head, what stands before it, and for each call of its function the values of what it names and of the counter."""

    style: str
    kind: str
    first: str
    test: str
    step: str
    name: str = "i"
    own: bool = False
    before: list = field(default_factory=list)
    declared: list = field(default_factory=list)
    parameters: list = field(default_factory=list)
    macros: list = field(default_factory=list)
    calls: list = field(default_factory=list)
    turns: list = field(default_factory=list)
    by: int = 1
    sum: str = ""

    def is_canonical(self):
        """Whether OpenMP gives it C's meaning; None where that isn't said."""
        return None if self.style in UNSAID else self.style == "canonical"


def wrapped(value, kind):
    bits, signed, _ = KINDS[kind]
    value &= (1 << bits) - 1
    return value - (1 << bits) if signed and value >> bits - 1 else value


def stepped(value, by, kind):
    """A counter's next value: a sum in the promoted kind, converted back."""
    wide = promoted(kind)
    if KINDS[wide][1] and not fits(value + by, value + by, wide):
        raise Unfit
    return wrapped(value + by, kind)


def holds(left, op, right):
    return {"<": left < right, "<=": left <= right, ">": left > right, ">=": left >= right, "!=": left != right}[op]


def turns(kind, first, op, bound, of, by):
    """The values that a counter takes, of a kind, where the bound has the kind `of`."""
    compared = common(promoted(kind), promoted(of))
    value, found = wrapped(first, kind), []
    while holds(wrapped(value, compared), op, wrapped(bound, compared)):
        found.append(value)
        if len(found) > MOST_TURNS:
            raise Unfit
        value = stepped(value, by, kind)
    return found


def number(value, kind):
    """A number of a kind, as it may be written."""
    suffix = {"I64": "L", "U64": "UL", "U32": "u"}.get(kind, "")
    return f"{value}{suffix if abs(value) > 9 and value % 3 or value < 0 or value > greatest('I32') else ''}"


class Heads:
    """Makes heads for one function, whose macros bear its number."""

    def __init__(self, random, number, least_turns=16, most_turns=50):
        self.random, self.number, self.few, self.many = random, number, least_turns, most_turns

    def chance(self, percent):
        return self.random.randrange(100) < percent

    def head(self, style, count):
        """A head for so many calls."""
        while True:
            try:
                return self.begun(style, count)
            except Unfit:
                pass

    def begun(self, style, count):
        kind, op, by, of = self.drawn(style)
        bound, first = self.bound(of, style), self.first_term(kind, style)
        head = Head(style, kind, "", "", self.step(by, style), by=by)
        fixed = self.start(kind, style, by)
        for at in range(count):
            lacks = at == count - 1 and style in ("long-bound", "unsigned-bound") and count > 1
            begin = fixed + (self.random.randrange(6) if first.name and bound.name and style != "wrapping" else 0)
            start, end = self.lacking(kind, style) if lacks else self.ends(style, kind, op, by, begin)
            if not first.name:
                start = fixed
            if not bound.name and at:
                end = head.calls[0]["end"]
            self.called(head, kind, op, by, of, start, end, lacks)
        self.written(head, first, op, bound, fixed)
        return head

    def drawn(self, style):
        """The counter's kind, the test's operator, the step, and the bound's kind."""
        kind = self.random.choice(["I32"] * 6 + ["U32"] * 3 + ["I64"] * 3 + ["U64"])
        up = self.chance(60)
        by = 1 if style == "canonical" and kind[0] == "U" else self.random.choice([1, 1, 1, 1, 2, 3, 5])
        op = self.random.choice(["<", "<", "<=", "!="] if up else [">", ">=", "!="])
        if style == "narrow":
            kind = self.random.choice(NARROW)
        elif style == "unequal-by-more":
            kind, op, by = self.random.choice(["I32", "I64"]), "!=", self.random.choice([2, 3, 4])
        elif style == "unsigned-by-more":
            kind, op, by = self.random.choice(["U32", "U64"]), self.random.choice(["<", "<="]) if up else ">", self.random.choice([2, 3])
        elif style == "turned":
            kind, by = self.random.choice(["U32", "U64", "U8"]), self.random.choice([1, 1, 2, 3])
            op = self.random.choice([">", ">="]) if up else self.random.choice(["<", "<="])
        elif style == "wrapping":
            kind, op, by, up = self.random.choice(["U32", "U64"]), "<", 0, True
            by = (1 << KINDS[kind][0]) // 3 + 1
        elif style == "long-bound":
            kind, of = self.random.choice([("U32", "I64"), ("I32", "I64")])
            return kind, self.random.choice(["<", "<="]), by, of
        elif style == "unsigned-bound":
            return "I32", self.random.choice(["<", "<="]), by, self.random.choice(["U32", "U64"])
        if op == "!=" and style != "unequal-by-more":
            by = 1
        of = kind
        if style == "other-bound":
            kind, of = self.random.choice([("I32", "I16"), ("I64", "I32"), ("I64", "U32"), ("I32", "U8"), ("U64", "U32")])
        return kind, op, by if up else -by, of

    def start(self, kind, style, by):
        """The first value of a counter, where it is a number."""
        low, high = (10, 90) if kind[0] == "U" or by < 0 else (-40, 60)
        if style == "wrapping":
            return self.random.randrange(2)
        if style in ("unsigned-bound", "first-of-two"):
            low = 0
        if style == "narrow":
            return self.random.randrange(max(low, least(kind)), min(high, greatest(kind) // 2))
        if style == "turned":
            return self.random.randrange(30, 90) if by < 0 else greatest(kind) - self.random.randrange(40, 100)
        far = {"I32": 2147482000, "I64": 5000000000, "U32": 4294966000, "U64": 1 << 63}[kind] if style == "canonical" and self.chance(10) else 0
        if by < 0:
            return far + self.random.randrange(300, 420)
        return far + self.random.choice([0, 0, 1, self.random.randrange(low, high)])

    def ends(self, style, kind, op, by, fixed):
        """A first value and a bound with turns enough."""
        count = self.random.randrange(self.few, self.many)
        if style == "narrow" and kind in ("I8", "U8"):
            count = self.random.randrange(20, 60) if abs(by) < 3 else self.random.randrange(15, 30)
            fixed = fixed if by > 0 else min(fixed, greatest(kind))
        if style == "turned":
            return fixed, self.random.randrange(fixed + 1, fixed + 100) if by < 0 else max(fixed - self.random.randrange(1, 9), 0)
        if style == "wrapping":
            return fixed, 2 * by + fixed + self.random.randrange(20, 60)
        exact, more = fixed + count * by, self.random.randrange(abs(by))
        off = {"!=": 0, "<": -more, ">": more, "<=": -by + more, ">=": -by - more}[op]
        return fixed, exact + off

    def lacking(self, kind, style):
        """A first value and a bound for which C makes no turn, and one converted to the counter's kind would."""
        if style == "unsigned-bound":
            return -self.random.randrange(1, 40), self.random.randrange(20, 90)
        end = -(1 << 32) + self.random.randrange(60, 90)
        return self.random.randrange(5), end

    def called(self, head, kind, op, by, of, start, end, lacks):
        if not (fits(start, start, kind) and fits(end, end, of)):
            raise Unfit
        found = turns(kind, start, op, end, of, by)
        if len(found) < FEWEST_TURNS and not lacks:
            raise Unfit
        head.calls.append({"first": start, "end": end})
        head.turns.append(found)

    def first_term(self, kind, style):
        """What the counter is set to: a number, or a parameter that each call gives."""
        named = style == "unsigned-bound" or self.chance(40)
        return Term("lo", "lo", kind, self.random.choice([0, 0, 0, 2])) if named else Term("")

    def bound(self, of, style):
        if style not in ("long-bound", "unsigned-bound", "other-bound") and self.chance(25):
            return Term("")
        return Term("n", "n", of, self.random.choice([0, 0, 0, 1, -1, 3]))

    def written(self, head, first, op, bound, fixed):
        """Gives a head its text and what its names are."""
        i, one = "i", head.calls[0]
        start = self.value(first, fixed, head.kind, one, "first", head)
        end = self.value(bound, one["end"], head.kind, one, "end", head)
        for term, key in ((first, "first"), (bound, "end")):
            if term.name:
                head.parameters.append((SPELLINGS[term.kind], term.name, [it[key] - term.plus for it in head.calls]))
                if any(not fits(it, it, term.kind) for it in head.parameters[-1][2]):
                    raise Unfit
        head.first, head.test = f"{i} = {start}", f"{i} {op} {end}"
        self.departed(head, start, end, op)

    def value(self, term, value, kind, one, key, head):
        """The text of a term that is a number, or a variable with a number beside it."""
        if not term.name:
            return self.constant(value, kind, key, head)
        if term.plus == 0:
            return self.random.choice([term.name] * 4 + [f"({term.name})", f"{term.name} + 0"])
        sign, by = ("+", term.plus) if term.plus > 0 else ("-", -term.plus)
        return self.random.choice([f"{term.name} {sign} {by}", f"({term.name} {sign} {by})"])

    def constant(self, value, kind, key, head):
        text = number(value, kind)
        if kind[0] == "U" and value < 0:
            raise Unfit
        if self.chance(30):
            name = f"{'FROM' if key == 'first' else 'UPTO'}{self.number}"
            head.macros.append(f"#define {name} {text}" if value >= 0 else f"#define {name} ({text})")
            return name
        if key == "first" and kind == "I32" and self.chance(25):
            text = self.random.choice([f"same({value})", f"(int){value}L", f"{value} + base[0]", f"({value})"])
            if ("same" in text or "base" in text) and head.style == "canonical":
                head.style = "first-by-a-call"
            return text
        return text

    def step(self, by, style):
        size = number(abs(by), "U64" if by >= 1 << 32 else "U32")
        if style == "uncounted":
            return self.random.choice([f"i = i {'+' if by > 0 else '-'} {size}", f"i {'+' if by > 0 else '-'}= same({size})"])
        if by == 1:
            return self.random.choice(["i++", "i++", "++i", "i += 1"])
        if by == -1:
            return self.random.choice(["i--", "i--", "--i", "i -= 1"])
        return f"i {'+' if by > 0 else '-'}= {size}"

    def departed(self, head, start, end, op):
        """Departs from the canonical text in the way of the head's style, or declares the counter in it."""
        style, kind = head.style, SPELLINGS[head.kind]
        if style == "no-first":
            head.before.append(f"i = {start};")
            head.first = ""
        elif style == "two-firsts":
            head.first, head.own = self.random.choice([f"{kind} i = {start}, m = {end}", f"{kind} m = {end}, i = {start}"]), True
            head.test = f"i {op} m"
        elif style == "comma-first":
            head.first = self.random.choice([f"i = {start}, d = 5", f"d = 5, i = {start}"])
            head.declared.append(("int", "d", None))
        elif style == "first-in-brackets":
            head.first = self.random.choice([f"(i) = {start}", f"(i = {start})"])
        elif style == "first-of-itself":
            head.before.append(f"i = {start};")
            head.first = self.random.choice(["i = i + 0", "i = i", "i += 0"])
        elif style == "first-of-two":
            head.first = f"i = d = {start}"
            head.declared.append((kind, "d", None))
        elif style == "first-with-effect":
            head.first = f"i = next({start})"
        elif style == "first-of-a-sum":
            head.first, head.sum = "i = s", "s"
            head.before.append(f"s = {start};")
        elif style == "brackets":
            self.bracketed(head)
        elif self.chance(25):
            head.first, head.own = f"{kind} {head.first}", True
        if not head.own:
            head.declared.append((kind, "i", None))

    def bracketed(self, head):
        which = self.random.randrange(3)
        if which == 0:
            head.test = "(" + head.test + ")"
        elif which == 1:
            head.test = head.test.replace("i", "(i)", 1)
        else:
            head.step = "(" + head.step + ")"
