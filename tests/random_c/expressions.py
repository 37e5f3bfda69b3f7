"""Random expressions, each with the least and the greatest value that it can have, so that none need trap."""

import random
from dataclasses import dataclass, field

# Each kind: bits, sign, spellings.
KINDS = {
    "I8": (8, True, ["char", "signed char"]),
    "U8": (8, False, ["unsigned char", "char unsigned"]),
    "I16": (16, True, ["short", "short int", "signed short"]),
    "U16": (16, False, ["unsigned short", "short unsigned int"]),
    "I32": (32, True, ["int", "signed", "signed int"]),
    "U32": (32, False, ["unsigned", "unsigned int"]),
    "I64": (64, True, ["long", "long long", "long signed int"]),
    "U64": (64, False, ["unsigned long", "unsigned long long", "long unsigned"]),
}
LEVELS = {"||": 3, "&&": 4, "|": 5, "^": 6, "&": 7, "==": 8, "!=": 8, "<": 9, ">": 9, "<=": 9, ">=": 9}
LEVELS |= {"<<": 10, ">>": 10, "+": 11, "-": 11, "*": 12, "/": 12, "%": 12}
UNARY, CAST, POSTFIX, PRIMARY = 14, 13, 15, 16


def least(kind):
    bits, signed, _ = KINDS[kind]
    return -(1 << bits - 1) if signed else 0


def greatest(kind):
    bits, signed, _ = KINDS[kind]
    return (1 << bits - signed) - 1


def fits(low, high, kind):
    return least(kind) <= low and high <= greatest(kind)


def promoted(kind):
    return "I32" if KINDS[kind][0] < 32 else kind


def common(left, right):
    """The kind of an operation on two promoted kinds: the wider, and of equal width the unsigned."""
    return max(left, right, key=lambda it: (KINDS[it][0], not KINDS[it][1]))


@dataclass
class Expr:
    """An expression, its rank in the grammar, its kind, and between which values it lies."""

    text: str
    rank: int
    kind: str
    low: int
    high: int

    def at(self, rank):
        return self.text if self.rank >= rank else f"({self.text})"


@dataclass
class Variable:
    """A variable of a kind or with dimensions; a pointer has the elements from `-back` to before `size`."""

    name: str
    kind: str
    spelling: str
    dims: list = field(default_factory=list)
    back: int = 0
    pointer: bool = False
    writable: bool = True
    shared: bool = False
    bounds: tuple = None


@dataclass
class Function:
    """A function. A pure one writes nothing but its own variables."""

    name: str
    kind: str
    params: list
    pure: bool


def converted(value, kind):
    """The range of a value in another kind."""
    if fits(value.low, value.high, kind):
        return value.low, value.high
    return least(kind), greatest(kind)


class Expressions:
    """The lines of a program so far, what is declared where it is written on, and the expressions that may stand there."""

    def __init__(self, seed, safe):
        self.random = random.Random(seed)
        self.safe = safe
        self.names = 0
        self.lines = []
        self.depth = 0
        self.scope = []
        self.functions = []
        self.pure = False
        self.loops = []
        self.in_switch = 0
        self.macros = []
        self.written = ""

    def chance(self, percent):
        return self.random.randrange(100) < percent

    def pick(self, items):
        return self.random.choice(items)

    def name(self, letter):
        self.names += 1
        return f"{letter}{self.names}"

    def put(self, text):
        self.lines.append("    " * self.depth + text)

    def spelling(self, kind):
        words = self.pick(KINDS[kind][2]).split()
        self.random.shuffle(words)
        return " ".join(words)

    # Expressions

    def literal(self, value=None, kind=None):
        """A number that is not negative, in one of C's spellings."""
        if value is None and self.macros and self.chance(15):
            return self.pick(self.macros)
        if value is None:
            value = self.pick([0, 1, 2, 3, 5, 7, 10, 31, 100, 127, 128, 255, 1000, 32767, 65535, 99999, 2**31 - 1, 2**31, 2**32, 2**40 + 3])
        if value in range(32, 127) and chr(value) not in "'\\" and self.chance(20) and kind is None:
            return Expr(f"'{chr(value)}'", PRIMARY, "I32", value, value)
        octal = f"0{value:o}"
        digits, suffix = self.pick([(str(value), ""), (hex(value), ""), (octal, ""), (str(value), "u"), (str(value), "L"), (hex(value), "UL")])
        if kind is not None:
            digits, suffix = str(value), ""
        row = {"": ["I32", "I64"] if digits == str(value) else ["I32", "U32", "I64", "U64"], "u": ["U32", "U64"], "L": ["I64"], "UL": ["U64"]}
        of = next(it for it in row[suffix] if value <= greatest(it))
        return Expr(digits + suffix, PRIMARY, of, value, value)

    def read(self, variable):
        low, high = variable.bounds or (least(variable.kind), greatest(variable.kind))
        return Expr(variable.name, PRIMARY, variable.kind, low, high)

    def index(self, size, depth, bracketed=False):
        """An expression from 0 to before a size; one in brackets may be greater, which the sanitizers see wherever they stand."""
        if bracketed and self.careless():
            return self.pick([self.literal(size, "I32"), self.binary("&", self.expression(depth - 1), self.literal(7, "I32"))])
        steady = [it for it in self.scope if it.bounds and 0 <= it.bounds[0] and it.bounds[1] < size]
        if steady and self.chance(60):
            return self.read(self.pick(steady))
        if depth <= 0 or self.chance(20):
            return self.literal(self.random.randrange(size), "I32")
        mask = 1
        while 2 * mask + 1 < size:
            mask = 2 * mask + 1
        if size > 1 and self.chance(60):
            return self.binary("&", self.expression(depth - 1), self.literal(mask, "I32"))
        return self.binary("%", self.cast(self.pick(["U8", "U16", "U32", "U64"]), self.expression(depth - 1)), self.literal(size, "I32"))

    def element(self, variable, depth):
        """A place in an array or behind a pointer."""
        if variable.pointer:
            size = variable.dims[0] + variable.back
            index = self.index(size, depth)
            if variable.back:
                index = self.binary("-", self.cast("I32", index), self.literal(variable.back, "I32"))
            if self.chance(25):
                return f"*({variable.name} + {index.at(12)})", UNARY
            return f"{variable.name}[{index.text}]", POSTFIX
        summed = len(variable.dims) == 1 and self.chance(20)
        indexes = [self.index(size, depth, len(variable.dims) == 1 and not summed) for size in variable.dims]
        if summed:
            return f"*({variable.name} + {indexes[0].at(12)})", UNARY
        return variable.name + "".join(f"[{it.text}]" for it in indexes), POSTFIX

    def place(self, writable, depth, local=False):
        """A place of a number, and its kind."""
        found = [it for it in self.scope if not writable or it.writable and not (self.pure and it.shared)]
        if local:
            found = [it for it in found if not it.dims and not it.shared]
        if not found:
            return None
        variable = self.pick(found)
        if not variable.dims:
            return self.read(variable)
        text, rank = self.element(variable, depth)
        return Expr(text, rank, variable.kind, least(variable.kind), greatest(variable.kind))

    def cast(self, kind, value):
        low, high = converted(value, kind)
        return Expr(f"({self.spelling(kind)}){value.at(CAST)}", CAST, kind, low, high)

    def careless(self, percent=4):
        return not self.safe and self.chance(percent)

    def narrow(self, value, bits):
        """The value brought into so many bits, with sign, or without one where it has none."""
        low, high = -(1 << bits - 1), (1 << bits - 1) - 1
        if low <= value.low and value.high <= high:
            return value
        if bits in (8, 16, 32) and self.chance(60):
            return self.cast(f"I{bits}", value)
        return self.binary("&", value, self.literal((1 << bits - 1) - 1, "I32"))

    def binary(self, op, left, right):
        """An operation, with its operands narrowed where it could trap."""
        if op in ("&&", "||", "<", ">", "<=", ">=", "==", "!="):
            return self.joined(op, left, right, "I32", 0, 1)
        if op in ("<<", ">>"):
            return self.shift(op, left, right)
        kind = common(promoted(left.kind), promoted(right.kind))
        if op in ("/", "%"):
            return self.quotient(op, left, right, kind)
        if op in ("&", "|", "^"):
            (a, b), (c, d) = converted(left, kind), converted(right, kind)
            if op == "&" and min(b, d) >= 0 and max(a, c) >= 0:
                return self.joined(op, left, right, kind, 0, min(b, d))
            if op == "&" and (a >= 0 or c >= 0):
                return self.joined(op, left, right, kind, 0, b if a >= 0 else d)
            return self.joined(op, left, right, kind, least(kind), greatest(kind))
        low, high = self.reach(op, left, right, kind)
        if KINDS[kind][1] and not fits(low, high, kind) and not self.careless(20):
            half = KINDS[kind][0] // 2
            return self.binary(op, self.narrow(left, half), self.narrow(right, half))
        if not fits(low, high, kind):
            low, high = least(kind), greatest(kind)
        return self.joined(op, left, right, kind, low, high)

    def reach(self, op, left, right, kind):
        (a, b), (c, d) = converted(left, kind), converted(right, kind)
        if op == "+":
            return a + c, b + d
        if op == "-":
            return a - d, b - c
        ends = [a * c, a * d, b * c, b * d]
        return min(ends), max(ends)

    def quotient(self, op, left, right, kind):
        low, high = converted(right, kind)
        if low <= 0 <= high and not self.careless():
            right = self.binary("+", self.binary("&", right, self.literal(self.pick([7, 15, 127]), "I32")), self.literal(self.pick([1, 3]), "I32"))
            kind = common(promoted(left.kind), promoted(right.kind))
        elif low < 0 and not self.careless():
            left = self.narrow(left, 16)
            kind = common(promoted(left.kind), promoted(right.kind))
        low, high = converted(right, kind)
        if op == "%" and low > 0:
            return self.joined(op, left, right, kind, 0 if converted(left, kind)[0] >= 0 else 1 - high, high - 1)
        return self.joined(op, left, right, kind, least(kind), greatest(kind))

    def shift(self, op, left, right):
        kind = promoted(left.kind)
        bits, signed, _ = KINDS[kind]
        careless = self.careless()
        most = bits - 1
        if op == "<<" and signed and not careless:
            most = bits // 2 - 1
            if left.low < 0 or left.high >= 1 << most:
                left = self.binary("&", left, self.literal((1 << most) - 1, "I32"))
                kind = promoted(left.kind)
        if not (0 <= right.low and right.high <= most) and not careless:
            right = self.binary("&", right, self.literal(most, "I32"))
        return self.joined(op, left, right, kind, least(kind), greatest(kind))

    def joined(self, op, left, right, kind, low, high):
        level = LEVELS[op]
        blank = "" if op in ("*", "^", "|", "<", "==") and self.chance(10) else " "
        return Expr(f"{left.at(level)}{blank}{op}{blank}{right.at(level + 1)}", level, kind, low, high)

    def unary(self, op, value):
        kind = promoted(value.kind)
        low, high = converted(value, kind)
        if op == "!":
            kind, low, high = "I32", 0, 1
        elif op == "~":
            low, high = least(kind), greatest(kind)
        elif op == "-":
            if KINDS[kind][1] and low == least(kind) and not self.careless():
                return self.unary(op, self.narrow(value, KINDS[kind][0] // 2))
            low, high = (-high, -low) if fits(-high, -low, kind) else (least(kind), greatest(kind))
        text = value.at(CAST)
        return Expr(op + (" " if text[0] == op else "") + text, UNARY, kind, low, high)

    def sizeof(self):
        arrays = [it for it in self.scope if it.dims and not it.pointer]
        if arrays and self.chance(50):
            array = self.pick(arrays)
            return Expr(f"sizeof {array.name}", UNARY, "U64", 0, 2**20)
        return Expr(f"sizeof({self.spelling(self.pick(list(KINDS)))}{self.pick(['', ' *'])})", PRIMARY, "U64", 1, 8)

    def call(self, function, depth):
        arguments = [self.argument(it, depth) for it in function.params]
        if None in arguments:
            return None
        return Expr(f"{function.name}({', '.join(arguments)})", POSTFIX, function.kind, least(function.kind), greatest(function.kind))

    def argument(self, param, depth):
        if not param.dims:
            if param.bounds:
                return self.index(param.bounds[1] + 1, depth).at(1)
            return self.expression(depth - 1).at(1)
        found = [it for it in self.scope if it.spelling == param.spelling and len(it.dims) == 1 and it.dims[0] >= param.dims[0]]
        if param.dims[0] == 1:
            found += [it for it in self.scope if it.spelling == param.spelling and not it.dims and not it.bounds]
        found = [it for it in found if it.writable or not param.writable]
        if not found:
            return None
        it = self.pick(found)
        if not it.dims:
            return f"&{it.name}"
        spare = it.dims[0] - param.dims[0]
        if it.pointer or spare == 0 or self.chance(50):
            return it.name
        return self.pick([f"{it.name} + {spare}", f"&{it.name}[{spare}]"])

    def expression(self, depth):
        if depth <= 0 or self.chance(15):
            if self.chance(25):
                return self.literal()
            return self.place(False, depth) or self.literal()
        choice = self.random.randrange(100)
        if choice < 62:
            return self.binary(self.pick(list(LEVELS)), self.expression(depth - 1), self.expression(depth - 1))
        if choice < 72:
            return self.unary(self.pick("-~!+"), self.expression(depth - 1))
        if choice < 82:
            return self.cast(self.pick(list(KINDS)), self.expression(depth - 1))
        if choice < 89:
            return self.choice(depth)
        if choice < 92:
            return self.comma(depth)
        if choice < 94:
            return self.sizeof()
        pure = [it for it in self.functions if it.pure]
        if pure and len(self.loops) < 2:
            return self.call(self.pick(pure), depth) or self.literal()
        return self.place(False, depth) or self.literal()

    def comma(self, depth):
        """A comma. Left of it there is always care: a run doesn't read a value that isn't used, so it has no trap there."""
        value, careful = self.expression(depth - 1), self.safe
        self.safe = True
        left = self.expression(depth - 2)
        self.safe = careful
        return Expr(f"({left.text}, {value.at(1)})", PRIMARY, value.kind, value.low, value.high)

    def choice(self, depth):
        test, left, right = (self.expression(depth - 1) for _ in range(3))
        kind = common(promoted(left.kind), promoted(right.kind))
        (a, b), (c, d) = converted(left, kind), converted(right, kind)
        return Expr(f"{test.at(3)} ? {left.text} : {right.at(2)}", 2, kind, min(a, c), max(b, d))
