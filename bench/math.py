"""Prints the errors and the times of the functions of `math.h` that k_math has, beside libquadmath and the C library.

    python3 bench/math.py /tmp/math 1000000

The folder gets a repository of its own: copies of k_math and of what it stands on, and a program that computes a function at the arguments of its
standard input. `rt run` proves and builds it, by LLVM. `math.c` writes the arguments, judges the values and times the C library; it wants gcc and
libquadmath.
"""

import os
import resource
import shutil
import subprocess
import sys

NAMES = "exp exp2 log log2 log10 pow sin cos tan asin acos atan atan2 sinh cosh tanh cbrt hypot sqrt fmod".split()
CRATES = ["k_num", "k_real", "k_math"]
# How many of the arguments are timed, and how often.
TIMED, ROUNDS = 50_000, 4

DRIVER = r"""//! Standard input has a line with a function's name and a number of rounds, and then a line for each pair of arguments,
//! as codes. Without a round the code of each value is written; else the function is computed at all of them as often as
//! that, and something of all values is written.
#![tactic(auto)]

use k_math::{
    ElementaryOne, ElementaryPair, ExactPair, elementary, elementary_pair, exact_pair, square_root,
};
use k_real::Precision;
use std::io;

#[derive(Clone, Copy)]
enum Function {
    One(ElementaryOne),
    Pair(ElementaryPair),
    Exact(ExactPair),
    Root,
    Nothing,
}

fn of_one(name: &str) -> Option<ElementaryOne> {
    match name {
        "exp" => Some(ElementaryOne::Exp),
        "exp2" => Some(ElementaryOne::Exp2),
        "log" => Some(ElementaryOne::Log),
        "log2" => Some(ElementaryOne::Log2),
        "log10" => Some(ElementaryOne::Log10),
        "cbrt" => Some(ElementaryOne::Cbrt),
        "sin" => Some(ElementaryOne::Sin),
        "cos" => Some(ElementaryOne::Cos),
        "tan" => Some(ElementaryOne::Tan),
        "asin" => Some(ElementaryOne::Asin),
        "acos" => Some(ElementaryOne::Acos),
        "atan" => Some(ElementaryOne::Atan),
        "sinh" => Some(ElementaryOne::Sinh),
        "cosh" => Some(ElementaryOne::Cosh),
        "tanh" => Some(ElementaryOne::Tanh),
        _ => None,
    }
}

fn of_two(name: &str) -> Option<Function> {
    match name {
        "pow" => Some(Function::Pair(ElementaryPair::Pow)),
        "atan2" => Some(Function::Pair(ElementaryPair::Atan2)),
        "hypot" => Some(Function::Pair(ElementaryPair::Hypot)),
        "fmod" => Some(Function::Exact(ExactPair::Remainder)),
        "sqrt" => Some(Function::Root),
        _ => None,
    }
}

fn named(name: &str) -> Option<Function> {
    match of_one(name) {
        Some(what) => Some(Function::One(what)),
        None => of_two(name),
    }
}

fn value(what: Function, a: u64, b: u64) -> u64 {
    match what {
        Function::One(f) => elementary(f, Precision::Double, a),
        Function::Pair(f) => elementary_pair(f, Precision::Double, a, b),
        Function::Exact(f) => exact_pair(f, Precision::Double, a, b),
        Function::Root => square_root(Precision::Double, a),
        Function::Nothing => a ^ b,
    }
}

fn round(what: Function, pairs: &[(u64, u64)]) -> u64 {
    let mut sum = 0;
    for pair in pairs {
        sum ^= value(what, pair.0, pair.1);
    }
    sum
}

fn rounds(what: Function, many: u64, pairs: &[(u64, u64)]) -> u64 {
    let mut sum = 0;
    for _k in 0..many {
        sum ^= round(what, pairs);
    }
    sum
}

fn head(line: &str) -> Option<(Function, u64)> {
    let (name, many) = line.split_once(' ')?;
    let Some(what) = named(name) else {
        return None;
    };
    match many.parse::<u64>() {
        Ok(n) => Some((what, n)),
        Err(_error) => None,
    }
}

fn pair_of(line: &str) -> Option<(u64, u64)> {
    let (first, second) = line.split_once(' ')?;
    let Ok(a) = first.parse::<u64>() else {
        return None;
    };
    let Ok(b) = second.parse::<u64>() else {
        return None;
    };
    Some((a, b))
}

fn write_values(rt: &HostRuntime, what: Function, pairs: &[(u64, u64)]) -> io::Result<()> {
    for pair in pairs {
        println!(rt; "{}", value(what, pair.0, pair.1))?;
    }
    Ok(())
}

fn main(rt: HostRuntime) -> io::Result<()> {
    let mut what = Function::Nothing;
    let mut many = 0;
    let mut pairs = Vec::new(rt.alloc());
    for line in rt.lines(rt.alloc()) {
        let text = line?;
        if let Some((function, n)) = head(text.as_str()) {
            what = function;
            many = n;
        } else if let Some(pair) = pair_of(text.as_str()) {
            pairs.push(pair)?;
        }
    }
    if many == 0 {
        write_values(&rt, what, &pairs)
    } else {
        println!(rt; "{}", rounds(what, many, &pairs))
    }
}
"""


def build(top, folder):
    """Builds the driver and math.c, and gives the paths of both."""
    for name in CRATES:
        shutil.copytree(f"{top}/crates/{name}", f"{folder}/crates/{name}", ignore=shutil.ignore_patterns("out", "edits", "must-fail"))
    os.makedirs(f"{folder}/crates/mathdriver/src")
    with open(f"{folder}/crates/mathdriver/src/main.rt", "w") as out:
        out.write(DRIVER)
    with open(f"{folder}/crates.txt", "w") as out:
        out.write("k_num:\nk_real: k_num\nk_math: k_num k_real\nmathdriver: k_num k_real k_math\n")
    subprocess.run(["git", "init", "-q", folder], check=True)
    subprocess.run(["rt", "run"], cwd=f"{folder}/crates/mathdriver", stdin=subprocess.DEVNULL, check=True)
    subprocess.run(["gcc", "-O2", "-ffp-contract=off", "-o", f"{folder}/math", f"{top}/bench/math.c", "-lquadmath", "-lm"], check=True)
    return f"{folder}/crates/mathdriver/out/mathdriver", f"{folder}/math"


def run(words, into, given=None):
    with open(into, "w") as out:
        subprocess.run(words, stdin=given or subprocess.DEVNULL, stdout=out, check=True)


def computed(driver, name, rounds, arguments, into):
    """Runs the driver and gives its processor time."""
    with open(f"{into}.given", "w") as out:
        out.write(f"{name} {rounds}\n")
        out.writelines(arguments)
    before = resource.getrusage(resource.RUSAGE_CHILDREN).ru_utime
    with open(f"{into}.given") as given:
        run([driver], into, given)
    return resource.getrusage(resource.RUSAGE_CHILDREN).ru_utime - before


def main(folder, many):
    top = os.path.dirname(os.path.dirname(os.path.abspath(__file__)))
    os.makedirs(f"{folder}/crates")
    driver, judge = build(top, folder)
    for name in NAMES:
        given, values = f"{folder}/arguments", f"{folder}/values"
        run([judge, "arguments", name, str(many)], given)
        with open(given) as lines:
            arguments = lines.readlines()
        computed(driver, name, 0, arguments, values)
        subprocess.run([judge, "errors", name, given, values], check=True)
        short = arguments[:TIMED]
        once = computed(driver, name, 1, short, values)
        often = computed(driver, name, 1 + ROUNDS, short, values)
        with open(given, "w") as out:
            out.writelines(short)
        print(f"  {(often - once) * 1e9 / len(short) / ROUNDS:.0f} ns, the C library ", end="", flush=True)
        subprocess.run([judge, "time", name, given, str(ROUNDS * 10)], check=True)


main(sys.argv[1], int(sys.argv[2]))
