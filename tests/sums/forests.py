"""What sums of saved profiles are, by their definitions: read, put together, written, and what is told of them.

A file is read by the rules of docs/USING.md as the forest of its runs: how often each shape of an instance is a root, and how often it is a child of each
other one. Two forests together have the roots of both. From a forest come the bytes of its sum's file, the entries brought into order, and by plain
recursion from group to group of instances the contexts, the rows and the plan: so all that `show` writes of it, as a report, with its dictionary, as JSON and
as CSV. No program is asked for any of it. Of saved profiles the reader is that of tests/cut.
"""

import collections
import dataclasses
import hashlib
import importlib.machinery
import importlib.util
import itertools
import json
import math
import pathlib
import sys

loader = importlib.machinery.SourceFileLoader("cut", str(pathlib.Path(__file__).resolve().parent.parent / "cut"))
cut = sys.modules["cut"] = importlib.util.module_from_spec(importlib.util.spec_from_loader("cut", loader))
loader.exec_module(cut)

MOST_RUNS, MOST_WORK, MOST_INSTANCES, MOST_ENTRIES, MOST_CHILDREN = (1 << 32) - 1, 1 << 44, 1 << 59, 1 << 20, 1 << 24
NAMES = b"region,kind,function,line,column,instances,work,path,sp_num,sp_den\r\n"


# Forests


@dataclasses.dataclass
class Forest:
    """The trees of runs: each shape of an instance, by a name that tells it from all others, and how often each is a run's root."""

    regions: list
    runs: int
    exits: collections.Counter
    ops: int
    shapes: dict
    roots: collections.Counter


def shape_of(entry, names):
    """The shape of an entry, where those before it have these names: its region, work and path, and how often each shape is a child of it."""
    inner = collections.Counter()
    for n, many in entry.runs:
        inner[names[n]] += many
    return entry.region, entry.work, entry.path, tuple(sorted(inner.items()))


def forest_of(regions, entries, roots, exits, ops):
    """The forest whose shapes are spelled by entries, with these as roots."""
    names, shapes = [], {}
    for it in entries:
        shape = shape_of(it, names)
        names.append(hashlib.blake2b(repr(shape).encode(), digest_size=16).digest())
        shapes[names[-1]] = shape
    roots = collections.Counter({names[n]: many for n, many in roots})
    return Forest(regions, roots.total(), collections.Counter(exits), ops, shapes, roots)


def together(one, other):
    """The forest of the runs of both."""
    exits, shapes, roots = one.exits + other.exits, {**one.shapes, **other.shapes}, one.roots + other.roots
    return Forest(one.regions, one.runs + other.runs, exits, one.ops + other.ops, shapes, roots)


def in_order(forest):
    """The shapes in the order of a sum's file, each with its number: those come first that need the fewest before them, then by the numbers of their lines."""
    users, missing, next_ones = collections.defaultdict(list), {}, collections.defaultdict(list)
    for name, (*_, runs) in forest.shapes.items():
        missing[name] = len(runs)
        for child, _ in runs:
            users[child].append(name)
        if not runs:
            next_ones[0].append(name)
    numbers = {}
    for behind in range(len(forest.shapes) + 1):
        for _, name in sorted((line_of(forest, name, numbers), name) for name in next_ones.pop(behind, [])):
            number = numbers[name] = len(numbers)
            for user in users[name]:
                missing[user] -= 1
                # (this number is the greatest so far, so it is the last that the user waits for)
                if not missing[user]:
                    next_ones[number + 1].append(user)
    return numbers


def line_of(forest, name, numbers):
    """The numbers of the line of a shape, those of its children being known."""
    region, work, path, runs = forest.shapes[name]
    return region, work, path, *itertools.chain(*sorted((numbers[child], many) for child, many in runs))


def run_texts(line):
    """Runs, as lines have them."""
    return b"".join(b" %d*%d" % run for run in zip(line[::2], line[1::2]))


def sum_text(forest):
    """The file of the sum of all runs of a forest."""
    numbers = in_order(forest)
    text = [b"kremlin sum 1\nruns %d\nexits %d\n" % (forest.runs, len(forest.exits))]
    text += [b"%d %d\n" % it for it in sorted(forest.exits.items())]
    text += [b"ops %d\nregions %d\n" % (forest.ops, len(forest.regions))]
    text += [b"%s %s %s:%s\n" % it for it in forest.regions]
    text += [b"entries %d\n" % len(numbers)]
    for name in numbers:
        line = line_of(forest, name, numbers)
        text.append(b"%d %d %d" % line[:3] + run_texts(line[3:]) + b"\n")
    roots = itertools.chain(*sorted((numbers[name], many) for name, many in forest.roots.items()))
    return b"".join([*text, b"roots", run_texts(list(roots)), b"\nend\n"])


# Files


def key_of(entry):
    """The numbers by which entries of a sum are ordered."""
    return max((n + 1 for n, _ in entry.runs), default=0), entry.region, entry.work, entry.path, *itertools.chain(*entry.runs)


def are_in_order(entries):
    """Does the last entry come behind the one before it?"""
    return len(entries) < 2 or key_of(entries[-2]) < key_of(entries[-1])


def exits_of(lines, runs):
    """The exit values of so many runs, each with its count. Behind them comes a line that is right only where no run is left."""
    exits = {}
    for _ in range(cut.number(cut.matched(rb"exits " + cut.NUMBER, lines.line())[1], 1, runs)):
        value, many = cut.matched(rb"(0|-?[1-9]\d*) " + cut.NUMBER, lines.line()).groups()
        value = cut.number(value, max(exits, default=-(1 << 31) - 1) + 1, (1 << 31) - 1)
        exits[value] = cut.number(many, 1, runs - sum(exits.values()))
    return exits


def roots_of(line, runs, regions, entries):
    """The roots of so many runs."""
    found = cut.matched(rb"roots((?: %s\*%s)+)" % (cut.NUMBER, cut.NUMBER), line)[1]
    roots = [tuple(map(int, it.split(b"*"))) for it in found.split()]
    named = {n for it in entries for n, _ in it.runs} | {n for n, _ in roots}
    if not cut.are_runs(roots, 2) or named != set(range(len(entries))) or not all(many for _, many in roots):
        raise cut.Wrong
    of = [(entries[n], many) for n, many in roots]
    mains = {it.region for it, _ in of}
    is_main = len(mains) == 1 and regions[min(mains)][:2] == (b"func", b"main")
    work, instances = (sum(getattr(it, part) * many for it, many in of) for part in ("work", "instances"))
    if not is_main or sum(many for _, many in roots) != runs or work > MOST_WORK or instances > MOST_INSTANCES:
        raise cut.Wrong
    return roots


def sum_of(lines):
    """The forest of the sum that lines spell."""
    lines.line()
    runs = cut.number(cut.matched(rb"runs " + cut.NUMBER, lines.line())[1], 1, MOST_RUNS)
    exits = exits_of(lines, runs)
    ops = cut.number(cut.matched(rb"ops " + cut.NUMBER, lines.line())[1], 0, 1_000_000_000 * runs)
    if sum(exits.values()) != runs:
        raise cut.Wrong
    regions = cut.regions_of(lines)
    entries = cut.entries_of(lines, regions, 2, are_in_order)
    roots = roots_of(lines.line(), runs, regions, entries)
    if lines.line() != b"end" or lines.next != len(lines.content):
        raise cut.Wrong
    return forest_of(regions, entries, roots, exits, ops)


def read(content):
    """The forest of a saved profile or a sum, or the byte at which its first wrong line begins."""
    if content.startswith(b"kremlin sum 1\n"):
        lines = cut.Lines(content)
        try:
            return sum_of(lines)
        except cut.Wrong:
            return lines.start
    saved = cut.read(content)
    if isinstance(saved, int):
        return saved
    return forest_of(saved.regions, saved.entries, [(len(saved.entries) - 1, 1)], {saved.exit: 1}, saved.ops)


# What is told of a forest


@dataclasses.dataclass
class Context:
    """A group of instances of one region that were reached on one way."""

    parent: int
    region: int
    turns: int
    instances: int
    work: int
    path: int
    serial: int

    @property
    def sp(self):
        over = math.gcd(self.serial, self.path)
        return (self.serial // over, self.path // over) if self.path else (1, 1)


def add_contexts(forest, group, parent, found):
    """Adds the contexts of instances, so many of each shape, whose parents are in one context."""
    for region in sorted({forest.shapes[name][0] for name in group}):
        own, inner = {name: many for name, many in group.items() if forest.shapes[name][0] == region}, collections.Counter()
        for name, many in own.items():
            for child, count in forest.shapes[name][3]:
                inner[child] += many * count
        work, path = (sum(many * forest.shapes[name][part] for name, many in own.items()) for part in (1, 2))
        serial = work + sum(many * (forest.shapes[name][2] - forest.shapes[name][1]) for name, many in inner.items())
        bodies = sum(many for name, many in inner.items() if forest.shapes[name][0] == region + 1)
        turns = bodies if forest.regions[region][0] == b"loop" else 0
        number = len(found)
        found.append(Context(parent, region, turns, sum(own.values()), work, path, serial))
        add_contexts(forest, inner, number, found)
    return found


def rows_of(contexts):
    """The instances of each region on all ways."""
    rows = {}
    for it in contexts:
        row = rows.setdefault(it.region, Context(0, it.region, 0, 0, 0, 0, 0))
        for part in ("instances", "work", "path", "serial"):
            setattr(row, part, getattr(row, part) + getattr(it, part))
    return [row for _, row in sorted(rows.items())]


def saving(context):
    """What a loop saves."""
    num, den = context.sp
    return context.work + (-context.work * den) // num


def is_doall(context):
    num, den = context.sp
    return context.turns > 0 and 4 * num * context.instances >= 3 * den * context.turns


def passes(context, kinds, work):
    """May a context be picked?"""
    num, den = context.sp
    return kinds[context.region] == b"loop" and num >= 5 * den and 1000 * saving(context) >= (1 if is_doall(context) else 30) * work


def plan_of(contexts, kinds):
    """The numbers of the contexts that are picked: the choice that saves the most, the loop itself where nothing within it saves more."""
    inner = collections.defaultdict(list)
    for number, it in enumerate(contexts[1:], 1):
        inner[it.parent].append(number)

    def best(number):
        below = [best(it) for it in inner[number]]
        total, picks = sum(it for it, _ in below), [pick for _, of in below for pick in of]
        own = contexts[number]
        return (saving(own), [number]) if passes(own, kinds, contexts[0].work) and saving(own) >= total else (total, picks)

    return best(0)[1]


def way_of(contexts, number):
    """The regions from main to a context."""
    at = [contexts[number].region]
    while number:
        number = contexts[number].parent
        at.insert(0, contexts[number].region)
    return at


class Shown:
    """What `show` writes of the sum of a forest."""

    def __init__(self, forest):
        self.forest = forest
        self.contexts = add_contexts(forest, forest.roots, 0, [])
        self.rows = rows_of(self.contexts)
        self.picks = plan_of(self.contexts, [it[0] for it in forest.regions])
        self.total = sum(saving(self.contexts[it]) for it in self.picks)
        numbers = in_order(forest)
        self.lines = [line_of(forest, name, numbers) for name in numbers]

    def ways(self):
        """The regions from main to each pick."""
        return {tuple(way_of(self.contexts, it)) for it in self.picks}

    def plan_lines(self):
        for number in self.picks:
            it = self.contexts[number]
            place = b"%s %s:%s" % self.forest.regions[it.region][1:]
            at = "/".join(map(str, way_of(self.contexts, number))).encode()
            yield b"plan loop %s at %s %s saves %d\n" % (place, at, b"doall" if is_doall(it) else b"doacross", saving(it))
        yield b"plan total %d of %d\n" % (self.total, self.contexts[0].work)

    def report(self, has_dictionary):
        text = [b"== kremlin ==\nruns %d\nops %d\n" % (self.forest.runs, self.forest.ops)]
        for it in self.rows:
            text.append(b"%s %s %s:%s" % self.forest.regions[it.region] + b" n=%d work=%d path=%d sp=%d/%d\n" % (it.instances, it.work, it.path, *it.sp))
        if has_dictionary:
            text.append(b"dict %d\n" % len(self.lines))
            text += [b"%d region %d work %d path %d runs" % (n, *it[:3]) + run_texts(it[3:]) + b"\n" for n, it in enumerate(self.lines)]
        return b"".join([*text, *self.plan_lines()])

    def document(self, has_dictionary):
        def fraction(it):
            return {"num": it.sp[0], "den": it.sp[1]}

        def numbers(it):
            return {"instances": it.instances, "work": it.work, "path": it.path, "sp": fraction(it)}

        places = [(kind.decode(), func.decode(), int(line), int(column)) for kind, func, line, column in self.forest.regions]
        found = {"runs": self.forest.runs, "ops": self.forest.ops}
        found["regions"] = [dict(zip(("kind", "function", "line", "column"), it)) for it in places]
        found["rows"] = [{"region": it.region, **numbers(it)} for it in self.rows]
        found["contexts"] = [{"parent": it.parent, "region": it.region, "turns": it.turns, **numbers(it)} for it in self.contexts]
        picks = [{"context": it, "doall": is_doall(self.contexts[it]), "saves": saving(self.contexts[it])} for it in self.picks]
        found["plan"] = {"picks": picks, "total": self.total, "work": self.contexts[0].work}
        if has_dictionary:
            runs = [[{"entry": n, "count": many} for n, many in zip(it[3::2], it[4::2])] for it in self.lines]
            found["dictionary"] = [{"region": it[0], "work": it[1], "path": it[2], "runs": of} for it, of in zip(self.lines, runs)]
        return json.dumps(found, separators=(",", ":")).encode() + b"\n"

    def table(self):
        text = [NAMES]
        for it in self.rows:
            place = b"%s,%s,%s,%s" % self.forest.regions[it.region]
            text.append(b"%d,%s,%d,%d,%d,%d,%d\r\n" % (it.region, place, it.instances, it.work, it.path, *it.sp))
        return b"".join(text)

    def written(self, options):
        """What is written with these options."""
        if "--csv" in options:
            return self.table()
        return (self.document if "--json" in options else self.report)("--dict" in options)


# What `merge` answers


class Refused(Exception):
    """A status and the line that it has."""


def load(files, name):
    """The forest of a file."""
    if name not in files:
        raise Refused(5, f"no such file: {name}")
    found = read(files[name])
    if isinstance(found, int):
        raise Refused(11, f"saved file refused: {name} at byte {found}")
    return found


def added(one, other, name):
    """The forest of the runs of both, where the file of the other has this name."""
    if one.regions != other.regions:
        raise Refused(11, f"profile of another program: {name}")
    both = together(one, other)
    if both.runs > MOST_RUNS or len(both.shapes) > MOST_ENTRIES or sum(len(it[3]) for it in both.shapes.values()) > MOST_CHILDREN:
        raise Refused(11, f"sum too large with: {name}")
    return both


def instances_of(forest):
    """How many instances all runs have."""
    counts = {}
    for name in in_order(forest):
        counts[name] = 1 + sum(many * counts[child] for child, many in forest.shapes[name][3])
    return sum(many * counts[name] for name, many in forest.roots.items())


def sum_of_files(files, names):
    """The forest of the runs of files, each as often as it is named, in the order in which they are named first."""
    whole, name = None, None
    for name, many in collections.Counter(names).items():
        other = load(files, name)
        for _ in range(many):
            whole = added(whole, other, name) if whole else other
    if len({whole.shapes[it][0] for it in whole.roots}) != 1:
        raise Refused(11, f"profile of another program: {name}")
    if sum(many * whole.shapes[it][1] for it, many in whole.roots.items()) > MOST_WORK or instances_of(whole) > MOST_INSTANCES:
        raise Refused(11, f"sum too large with: {name}")
    return whole
