"""Random programs of the accepted C that end, whatever order a compiler evaluates in.

A program reads and writes variables of all eight kinds, in and outside of arrays, by names and by pointers, in all statements of the
language, and sums up what it computes; `main` returns the sum modulo 128. A `safe` program has no trap: each expression is written with
the least and the greatest value that it can have, and operands are narrowed where an operation could leave its kind. Another is written
without that care in places.
"""

from expressions import KINDS, LEVELS, POSTFIX, PRIMARY, UNARY, Expr, Expressions, Function, Variable, common, fits, greatest, promoted


class Writer(Expressions):
    """Writes one program from a seed."""

    # Statements

    def assignment(self, depth, local=False):
        """An assignment as an expression; nothing but its place is written."""
        place = self.place(True, depth, local)
        if place is None:
            return None
        self.written = place.text
        value = self.expression(depth)
        if self.chance(45):
            return f"{place.text} = {value.at(1)}"
        op = self.pick(["+", "-", "*", "/", "%", "<<", ">>", "&", "|", "^"])
        if op == "<<" and KINDS[promoted(place.kind)][1] or op in ("/", "%") and KINDS[place.kind][1] and not self.careless():
            op = "^"
        trial = Expr("x", PRIMARY, place.kind, place.low, place.high)
        if op in ("/", "%"):
            value = self.binary("|", value, self.literal(1, "I32"))
            return f"{place.text} {op}= {value.at(1)}"
        if op in ("<<", ">>"):
            value = self.binary("&", value, self.literal(KINDS[place.kind][0] - 1, "I32"))
            return f"{place.text} {op}= {value.at(1)}"
        kind = common(promoted(place.kind), promoted(value.kind))
        if op in "+-*" and KINDS[kind][1] and not fits(*self.reach(op, trial, value, kind), kind) and not self.careless():
            value = self.cast("U64", value)
        return f"{place.text} {op}= {value.at(1)}"

    def step_of(self):
        """A variable one up or down."""
        place = self.place(True, 1)
        if place is None or KINDS[place.kind][1] and KINDS[place.kind][0] >= 32 and not self.careless():
            return None
        op = self.pick(["++", "--"])
        if self.chance(50):
            return f"{op}{place.at(UNARY)}"
        return f"{place.at(POSTFIX)}{op}"

    def note(self, text):
        self.put(f"note({text});")

    def simple(self):
        choice = self.random.randrange(100)
        if choice < 45:
            text = self.assignment(3)
            if text and not self.pure and self.chance(50):
                self.put(f"{text};")
                return self.note(self.written)
        elif choice < 58:
            text = self.step_of()
        elif choice < 64:
            text = self.guarded()
        elif choice < 67:
            first, second = self.assignment(2), self.assignment(2)
            text = f"{first}, {second}" if first and second else None
        elif choice < 72:
            text = self.chained()
        elif choice < 78 and not self.pure:
            return self.output()
        elif choice < 84 and not self.pure:
            return self.called()
        elif choice < 88 and not self.pure:
            return self.note("getchar()")
        elif not self.pure:
            return self.note(self.expression(3).at(1))
        else:
            text = self.assignment(2, True)
        self.put(f"{text or ''};")

    def chained(self):
        """An assignment of what another one, to another variable, gives."""
        found = [it for it in self.scope if it.writable and not it.dims and not (self.pure and it.shared)]
        if len(found) < 2:
            return None
        first, second = self.random.sample(found, 2)
        small = KINDS[second.kind][0] < 32 or not KINDS[second.kind][1]
        form = self.random.randrange(7)
        if form == 0:
            return f"{first.name} = {second.name} = {self.expression(2).at(1)}"
        if form == 1:
            return f"{first.name} {self.pick('|&^')}= {second.name} {self.pick('|&^')}= {self.expression(2).at(1)}"
        if form == 2 and small:
            return f"{first.name} = {self.pick([f'{second.name}++', f'--{second.name}', f'{second.name}--', f'(unsigned){second.name}++ * 3'])}"
        if form == 3 and small:
            return f"{first.name} = ({second.name}++, {self.expression(2).at(1)})"
        if form == 4:
            return f"(void)({first.name} = {self.expression(2).at(1)})"
        if form == 5:
            return f"{first.name} = ({second.name} = {self.expression(2).at(1)}) {self.pick(['>', '==', '|', '&', '&&', '||'])} {self.literal().text}"
        return f"{first.name} = sizeof({second.name} = 3) + sizeof {second.name}++"

    def guarded(self):
        """An assignment that is made on a condition within an expression."""
        inner = self.assignment(2)
        if inner is None:
            return None
        if self.chance(30) and (other := self.assignment(2)):
            return f"{self.expression(2).at(3)} ? ({inner}) : ({other})"
        op = self.pick(["&&", "||"])
        return f"{self.expression(2).at(LEVELS[op])} {op} ({inner})"

    def called(self):
        """A call that may write what is shared: nothing else in its statement is read behind it."""
        impure = [it for it in self.functions if not it.pure]
        if not impure or self.loops:
            return self.note(self.expression(2).at(1))
        call = self.call(self.pick(impure), 2)
        if call is None:
            return self.put(";")
        target = self.place(True, 0, True)
        if target is not None and self.chance(50):
            return self.put(f"{target.text} = {call.text};")
        self.note(call.text)

    def output(self):
        if self.chance(15):
            return self.note(f"putchar({self.expression(1).at(1)})")
        if self.chance(10):
            return self.put('puts("line \\"%d\\" \\x41\\101\\t.");')
        chunks, arguments = [], []
        for _ in range(self.random.randrange(1, 4)):
            value = self.expression(2)
            bits, signed, _ = KINDS[promoted(value.kind)]
            chunk = self.pick(["d", "i"] if signed else ["u", "x"])
            if bits == 32 and self.chance(20):
                chunk = "c"
                value = self.cast("I32", value)
            chunks.append("%" + ("" if bits == 32 else self.pick(["l", "ll"])) + chunk)
            arguments.append(value.at(1))
        self.note(f'printf("{self.pick(["", "%%", "v "])}{" ".join(chunks)}\\n", {", ".join(arguments)})')

    # Declarations

    def declare(self, shared=False):
        """A new variable, at file scope where it is shared."""
        kind = self.pick(list(KINDS))
        variable = Variable(self.name("v"), kind, self.spelling(kind), shared=shared, writable=not self.chance(10))
        choice = self.random.randrange(100)
        if choice < (40 if shared else 45):
            self.declare_number(variable)
        elif choice < 55 and not shared:
            self.declare_two(variable)
        elif choice < 70:
            self.declare_array(variable)
        elif choice < 80:
            self.declare_table(variable)
        elif choice < 88:
            self.declare_text(variable)
        elif shared:
            self.declare_number(variable)
        else:
            self.declare_pointer()

    def head(self, variable):
        static = "static " if variable.shared and self.chance(20) else ""
        return f"{static}{'' if variable.writable else 'const '}{variable.spelling}"

    def first_value(self, variable):
        return self.constant(variable.kind) if variable.shared else self.expression(2).at(1)

    def declare_number(self, variable):
        self.put(f"{self.head(variable)} {variable.name} = {self.first_value(variable)};")
        self.scope.append(variable)

    def declare_two(self, variable):
        """Two variables, of which one has its first value from an assignment."""
        variable.writable = True
        other = Variable(self.name("v"), variable.kind, variable.spelling)
        self.put(f"{self.head(variable)} {variable.name} = {self.expression(2).at(1)}, {other.name};")
        self.put(f"{other.name} = {self.expression(2).at(1)};")
        self.scope += [variable, other]

    def declare_array(self, variable):
        size = self.random.randrange(3, 10)
        items = ", ".join(self.first_value(variable) for _ in range(self.random.randrange(1, size + 1)))
        self.put(f"{self.head(variable)} {variable.name}[{size}] = {{{items}{self.pick(['', ','])}}};")
        variable.dims = [size]
        self.scope.append(variable)

    def declare_table(self, variable):
        rows, columns = self.random.randrange(2, 5), self.random.randrange(2, 5)
        items = []
        for _ in range(self.random.randrange(1, rows + 1)):
            items.append("{" + ", ".join(self.first_value(variable) for _ in range(self.random.randrange(1, columns + 1))) + "}")
        self.put(f"{self.head(variable)} {variable.name}[{rows}][{columns}] = {{{', '.join(items)}}};")
        variable.dims = [rows, columns]
        self.scope.append(variable)

    def declare_text(self, variable):
        variable.kind, variable.spelling, last = "I8", "char", self.pick("xyz")
        self.put(f'{self.head(variable)} {variable.name}[{self.pick(["", "8"])}] = "text\\0{last}!";')
        variable.dims = [8]
        self.scope.append(variable)

    def declare_pointer(self):
        """A pointer to a variable, to a row of a table, or into an array with elements before and behind it."""
        found = [it for it in self.scope if not it.pointer and not it.bounds and not (self.pure and it.shared)]
        if not found:
            return
        it = self.pick(found)
        if not it.dims:
            size, at, begins = 1, 0, [f"&{it.name}"]
        elif len(it.dims) == 1:
            at = self.random.randrange(it.dims[0])
            size = it.dims[0] - at
            test = self.expression(2).at(3)
            begins = [f"{it.name} + {at}", f"&{it.name}[{at}]", f"{at} + {it.name}", f"&*({it.name} + {at})"]
            begins.append(f"{test} ? {it.name} + {at} : &{it.name}[{at}]")
        else:
            size, at, row = it.dims[1], 0, self.index(it.dims[0], 1)
            begins = [f"{it.name}[{row.text}]", f"&{it.name}[{row.text}][0]", f"*({it.name} + {row.at(12)})"]
        name = self.name("p")
        self.put(f"{'' if it.writable else 'const '}{it.spelling} *{name} = {self.pick(begins)};")
        self.scope.append(Variable(name, it.kind, it.spelling, [size], at, True, it.writable, it.shared))

    def constant(self, kind):
        value = self.literal(self.random.randrange(min(greatest(kind), 2**40) + 1))
        return self.pick(["", "-", "~"]) + value.text if KINDS[kind][1] and KINDS[promoted(value.kind)][1] else value.text

    def block(self, count, head, tail="", extra=()):
        self.put(head + (" " if head else "") + "{")
        self.depth += 1
        kept = len(self.scope)
        for it in extra:
            if isinstance(it, str):
                self.put(it)
            else:
                self.scope.append(it)
        for _ in range(self.random.randrange(0, 2)):
            self.declare()
        for _ in range(count):
            self.statement()
        del self.scope[kept:]
        self.depth -= 1
        self.put("}" + tail)

    def statement(self):
        choice = self.random.randrange(100)
        nested = self.depth < 5
        if choice < 60 or not nested:
            self.simple()
        elif choice < 72:
            self.if_statement()
        elif choice < 83 and len(self.loops) < 3:
            self.counted()
        elif choice < 88 and len(self.loops) < 3:
            self.other_loop()
        elif choice < 91:
            self.pick([self.walk, self.steps])()
        elif choice < 97:
            self.switch()
        else:
            self.block(self.random.randrange(0, 3), "")

    def jump(self):
        """A jump that may stand here, or nothing."""
        jumps = ["return"] if self.chance(3 if self.kind is None else 20) else []
        if self.loops:
            jumps += ["continue", "break"]
        elif self.in_switch:
            jumps += ["break"]
        if not jumps:
            return ";"
        jump = self.pick(jumps)
        return f"return {self.result()};" if jump == "return" else f"{jump};"

    def result(self):
        return "(int)(check & 127)" if self.kind is None else self.expression(2).text

    def if_statement(self):
        test = self.expression(3).text
        if self.chance(35):
            self.put(f"if ({test})")
            self.depth += 1
            self.put(self.jump())
            self.depth -= 1
            return
        self.block(self.random.randrange(1, 3), f"if ({test})")
        while self.chance(25):
            self.block(1, f"else if ({self.expression(2).text})")
        if self.chance(50):
            self.block(self.random.randrange(1, 3), "else")

    def looped(self, head, tail="", variable=None, first=()):
        self.loops.append(variable)
        inside, self.in_switch = self.in_switch, 0
        self.block(self.random.randrange(1, 4), head, tail, [*first, *([variable] if variable else [])])
        self.in_switch = inside
        self.loops.pop()

    def counted(self):
        """A loop over a variable that its body doesn't write, in one of its forms."""
        kind = self.pick(["I32", "I32", "I32", *KINDS])
        name, spelling = self.name("i"), self.spelling(kind)
        turns = self.random.randrange(0, 25 if not self.loops and self.chance(40) else 7)
        by = self.pick([1, 1, 1, 2, 3])
        up = self.pick([f"{name}++", f"++{name}"] if by == 1 else [f"{name} += {by}"])
        down = self.pick([f"{name}--", f"--{name}"] if by == 1 else [f"{name} -= {by}"])
        first, last = 0, max(turns - 1, 0) * by
        form = self.random.randrange(5)
        if form == 0:
            rest = f"{name} < {max(turns * by - by + 1, 0)}; {up}"
        elif form == 1:
            rest = f"{turns * by} > {name}; {up}"
        elif form == 2:
            rest = f"{name} != {turns * by}; {up}"
        elif form == 3:
            first, rest = turns * by, f"{name} > 0; {down}"
            last = turns * by
        else:
            first, rest = turns, f"{name}-- > 0; "
            last = turns
        bounds = (min(first, 0), max(first, last))
        variable = Variable(name, kind, spelling, writable=False, bounds=bounds)
        if self.chance(50):
            return self.looped(f"for ({spelling} {name} = {first}; {rest})", variable=variable)
        self.put("{")
        self.depth += 1
        self.put(f"{spelling} {name};")
        self.looped(f"for ({name} = {first}; {rest})", variable=variable)
        self.depth -= 1
        self.put("}")

    def other_loop(self):
        """A loop with a count of its own, which ends it whatever its condition says."""
        name, spelling = self.name("w"), self.spelling("I32")
        turns = self.random.randrange(1, 6)
        variable = Variable(name, "I32", spelling, writable=False, bounds=(-1, turns))
        test = self.expression(2)
        self.put("{")
        self.depth += 1
        self.put(f"{spelling} {name} = {turns};")
        form = self.random.randrange(5)
        if form == 3:
            other = self.name("w")
            self.put(f"{spelling} {other};")
            step = self.pick([f"{name}++, {other}--", f"{other} -= 1, ++{name}"])
            self.looped(f"for ({name} = 0, {other} = {turns}; {name} < {other}; {step})", "", variable)
        elif form == 4 and not self.pure:
            other = self.name("c")
            self.put(f"{self.pick(['int', 'short', 'long'])} {other};")
            self.looped(f"while (({other} = getchar()) != EOF && {name}-- > 0)", "", variable, [f"note({other});"])
        elif form == 0:
            self.looped(f"while ({name}-- > 0 && {test.at(5)})", variable=variable)
        elif form == 1:
            self.looped("do", f" while ({name} > 0 && {test.at(5)});", variable, [f"{name}--;"])
        else:
            self.looped(f"for (;{self.pick(['1', ''])};)", "", variable, [f"if (--{name} < 0)", "    break;"])
        self.depth -= 1
        self.put("}")

    def walk(self):
        """A pointer that goes through an array."""
        arrays = [it for it in self.scope if len(it.dims) == 1 and not it.pointer]
        if not arrays or self.pure or len(self.loops) > 1:
            return self.simple()
        it = self.pick(arrays)
        name, size = self.name("p"), it.dims[0]
        const = "" if it.writable and self.chance(50) else "const "
        head = f"{const}{it.spelling} *{name}"
        self.put(self.pick([
            f"for ({head} = {it.name}; {name} < {it.name} + {size}; {name}++) note((unsigned long)*{name});",
            f"for ({head} = {it.name} + {size}; {name} != {it.name}; ) note((unsigned long)*--{name});",
            f"for ({head} = {it.name}; {name} - {it.name} < {size}; ++{name}) note((unsigned long)({name} - {it.name}) * 3u);",
            f"for ({head} = &{it.name}[{size} - 1]; {name} >= {it.name} + 1; {name} -= 1) note((unsigned long){name}[-1]);",
            f"for ({head} = {it.name}; {name} <= {it.name} + {size} - 2; {name} += 2) note((unsigned long)({name}[1] != *{name}));",
        ]))

    def steps(self):
        """A pointer that is moved within an array, statement by statement."""
        arrays = [it for it in self.scope if len(it.dims) == 1 and not it.pointer]
        if not arrays or self.pure:
            return self.simple()
        it = self.pick(arrays)
        name, size, at = self.name("q"), it.dims[0], 0
        self.put("{")
        self.depth += 1
        self.put(f"const {it.spelling} *{name} = {it.name}, *const start = {name};")
        for _ in range(self.random.randrange(2, 8)):
            to = self.random.randrange(size + 1)
            by = to - at
            if by == 1:
                self.note(self.pick([f"*{name}++", f"++{name} - start", f"(unsigned long)*{name}++ + 1"]))
            elif by == -1:
                self.note(self.pick([f"*--{name}", f"{name}-- == start"]))
            elif by > 0:
                self.put(f"{name} {self.pick([f'+= {by}', f'= {name} + {by}', f'= {by}u + {name}', f'= &{name}[{by}]'])};")
            else:
                self.put(f"{name} {self.pick([f'-= {-by}', f'= {name} - {-by}', f'= start + {to}'])};")
            at = to
            op = self.pick(["<", ">", "<=", ">=", "==", "!="])
            self.note(self.pick([f"{name} - start", f"start - {name}", f"{name} {op} start + {self.random.randrange(size + 1)}"]))
            if at < size:
                self.note(self.pick([f"*{name}", f"{name}[0]", f"{name}[{size - 1 - at}]", f"*({name} - {at})"]))
        self.depth -= 1
        self.put("}")

    def switch(self):
        value = self.expression(2)
        if self.chance(60):
            value = self.binary("&", value, self.literal(self.pick([1, 3, 7]), "I32"))
        self.put(f"switch ({value.text}) {{")
        labels = self.random.sample(range(9), self.random.randrange(0, 5))
        parts = [f"case {self.pick(['', '+', '']) if it else ''}{it}{self.pick(['', ' + 0'])}:" for it in labels]
        if KINDS[promoted(value.kind)][1]:
            parts += self.pick([[], ["case -1:"], ["case -2 * 5:"]])
        if self.chance(60):
            parts.insert(self.random.randrange(len(parts) + 1), "default:")
        self.in_switch += 1
        for it in parts:
            self.put(it)
            self.depth += 1
            for _ in range(self.random.randrange(0, 3)):
                self.statement()
            if self.chance(60):
                self.put(self.pick(["break;", "break;", "break;", "{ break; }", self.jump()]))
            self.depth -= 1
        self.in_switch -= 1
        self.put("}")

    # Functions

    def parameter(self):
        """A parameter and how it is written; a pure function writes through none."""
        kind = self.pick(list(KINDS))
        param = Variable(self.name("a"), kind, KINDS[kind][2][0] if self.chance(60) else self.spelling(kind))
        if not self.chance(30):
            return param, f"{param.spelling} {param.name}"
        param.dims, param.pointer, param.shared = [self.random.randrange(1, 5)], True, True
        param.writable = not self.pure and self.chance(50)
        head = f"{'' if param.writable else 'const '}{param.spelling}"
        return param, self.pick([f"{head} *{param.name}", f"{head} {param.name}[{param.dims[0]}]", f"{head} {param.name}[]"])

    def recursion(self, name, params):
        """A call of the function itself while its first parameter is above 0."""
        arguments = [it.name if it.dims else self.expression(1).at(1) for it in params[1:]]
        call = f"{name}({', '.join([params[0].name + ' - 1', *arguments])})"
        self.put(f"if ({params[0].name} > 0)")
        self.put(f"    return {self.pick([call, f'3UL * {call} + 1u'])};")

    def function(self):
        self.pure, self.kind = self.chance(50), self.pick(list(KINDS))
        name, kept = self.name("f"), len(self.scope)
        written = [self.parameter() for _ in range(self.random.randrange(0, 4))]
        deep = self.chance(25)
        if deep:
            count = Variable(self.name("n"), "I32", "int", writable=False, bounds=(0, 5))
            written.insert(0, (count, f"int {count.name}"))
        params = [param for param, _ in written]
        head = f"{self.spelling(self.kind)} {name}({', '.join(text for _, text in written) or 'void'})"
        if self.chance(30):
            self.put(f"{head};")
        self.put(head)
        self.put("{")
        self.depth += 1
        self.scope += params
        for _ in range(self.random.randrange(1, 4)):
            self.declare()
        if deep:
            self.recursion(name, params)
        for _ in range(self.random.randrange(2, 6)):
            self.statement()
        self.put(f"return {self.expression(2).text};")
        self.depth -= 1
        self.put("}")
        self.put("")
        del self.scope[kept:]
        self.functions.append(Function(name, self.kind, params, self.pure))

    def begin(self):
        """What stands before the functions."""
        self.put("#include <stdio.h>")
        for _ in range(self.random.randrange(0, 3)):
            value, name = self.literal(), self.name("M")
            self.put(f"#define {name} {value.text}")
            self.macros.append(Expr(name, PRIMARY, value.kind, value.low, value.high))
        self.put("unsigned long check;")
        self.put("void note(unsigned long value)")
        self.put("{")
        self.put("    check = (check << 5 | check >> 59) ^ (value + 1) * 0x9e3779b97f4a7c15UL;")
        self.put("}")
        for _ in range(self.random.randrange(3, 8)):
            self.declare(True)

    def program(self):
        self.begin()
        for _ in range(self.random.randrange(0, 4)):
            self.function()
        self.pure, self.kind = False, None
        self.put("int main(void)")
        self.put("{")
        self.depth += 1
        for _ in range(self.random.randrange(2, 6)):
            self.declare()
        for _ in range(self.random.randrange(6, 20)):
            self.statement()
        for it in self.functions:
            for _ in range(self.random.randrange(1, 4)):
                if call := self.call(it, 2):
                    self.note(call.text)
        for it in self.scope:
            self.sum_up(it)
        self.put('printf("%lx\\n", check);')
        self.put("return (int)(check & 127);")
        self.depth -= 1
        self.put("}")
        return "\n".join(self.lines) + "\n"

    def sum_up(self, it):
        if not it.dims:
            self.note(it.name)
        elif it.pointer or len(it.dims) == 1:
            size = it.dims[0]
            self.put(f"for (int i = {-it.back}; i < {size}; i++) note({it.name}[i]);")
        else:
            self.put(f"for (int i = 0; i < {it.dims[0]}; i++) for (int j = 0; j < {it.dims[1]}; j++) note({it.name}[i][j]);")


def program(seed, safe):
    """The program of a seed."""
    return Writer(seed, safe).program()
