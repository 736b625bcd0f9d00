#!/usr/bin/env python3
"""Times a million operations of each kind on `fraction128`'s fractions against i128 fractions in plain Rust with the same reduction.

    python3 bench/fraction_operations.py

It wants `rt` and `rustc` on the path. Both programs are made and built in a temporary directory, run one after the other on the same
operands, and must come to the same checksums. It prints a line for each operation: nanoseconds with each, and their ratio.
It is no test: no gate runs it, and it bounds nothing.
"""
import shutil
import sys
import tempfile
from pathlib import Path

from commands import TOP, run

COUNT = 1_000_000

# What both programs are made of: the operands, from one generator, and the operations.
OPERATIONS = ["ratio", "add", "sub", "mul", "div", "cmp", "floor"]

RATTLE = Path(__file__).with_suffix(".rattle").read_text(encoding="utf-8")

PLAIN = r"""use std::cmp::Ordering;
use std::time::Instant;

const PLACES: usize = 1024;
const COUNT: usize = @COUNT@;
const MOST: i128 = i64::MAX as i128;

#[derive(Clone, Copy)]
struct Plain { num: i128, den: i128 }

fn odd_part(n: u64) -> u64 { n >> n.trailing_zeros() }

fn gcd_small(a: u64, b: u64) -> u64 {
    if a == 0 { return b; }
    if b == 0 { return a; }
    let (mut x, mut y) = (odd_part(a), odd_part(b));
    while x != y {
        let less = x.min(y);
        let gap = x.max(y) - less;
        x = less;
        y = odd_part(gap);
    }
    x << a.trailing_zeros().min(b.trailing_zeros())
}

fn gcd(mut x: u128, mut y: u128) -> u128 {
    while y > u64::MAX as u128 { let rest = x % y; x = y; y = rest; }
    if y == 0 { return x; }
    gcd_small(y as u64, (x % y) as u64) as u128
}

impl Plain {
    fn ratio(num: i128, den: i128) -> Option<Plain> {
        let common = gcd(num.unsigned_abs(), den.unsigned_abs()) as i128;
        let (num, den) = if common == 1 { (num, den) } else { (num / common, den / common) };
        if num > MOST || num < -MOST || den > MOST { None } else { Some(Plain { num, den }) }
    }
    fn whole(n: i128) -> Plain { Plain { num: n, den: 1 } }
    fn add(self, o: Plain) -> Option<Plain> { Plain::ratio(self.num * o.den + o.num * self.den, self.den * o.den) }
    fn sub(self, o: Plain) -> Option<Plain> { Plain::ratio(self.num * o.den - o.num * self.den, self.den * o.den) }
    fn mul(self, o: Plain) -> Option<Plain> { Plain::ratio(self.num * o.num, self.den * o.den) }
    fn div(self, o: Plain) -> Option<Plain> {
        let (top, bottom) = (self.num * o.den, self.den * o.num);
        if bottom > 0 { Plain::ratio(top, bottom) } else { Plain::ratio(-top, -bottom) }
    }
    fn cmp(self, o: Plain) -> Ordering { (self.num * o.den).cmp(&(o.num * self.den)) }
    fn floor(self) -> i128 { self.num.div_euclid(self.den) }
}

fn next(seed: u64) -> u64 { seed.wrapping_mul(6364136223846793005).wrapping_add(1442695040888963407) }

fn number(seed: u64, bits: u32) -> u64 {
    let upper = seed >> 32;
    if bits < 32 { upper % (1 << bits) } else { upper }
}

fn values() -> [Plain; PLACES] {
    let mut all = [Plain::whole(0); PLACES];
    let mut seed = 1u64;
    for i in 0..PLACES {
        seed = next(seed);
        let bits = 4 + (seed >> 60) as u32;
        seed = next(seed);
        let num = number(seed, bits) as i128;
        seed = next(seed);
        let den = number(seed, bits) as i128 + 1;
        let signed = if i % 3 == 0 { -num } else { num };
        all[i] = Plain::ratio(signed, den).unwrap_or(Plain::whole(1));
    }
    all
}

fn mark(outcome: Option<Plain>) -> u64 {
    match outcome {
        Some(v) => (v.num.unsigned_abs() as u64).wrapping_mul(31).wrapping_add(v.den as u64),
        None => 1,
    }
}

fn mark_of_order(order: Ordering) -> u64 {
    match order { Ordering::Less => 2, Ordering::Equal => 3, Ordering::Greater => 5 }
}

fn checksum<F: Fn(Plain, Plain) -> u64>(values: &[Plain; PLACES], operation: F) -> u64 {
    let mut sum = 0u64;
    for i in 0..COUNT {
        let a = values[i % PLACES];
        let b = values[(i * 7 + i / PLACES) % PLACES];
        sum = sum.wrapping_mul(31).wrapping_add(operation(a, b));
    }
    sum
}

fn timed<F: Fn(Plain, Plain) -> u64>(name: &str, values: &[Plain; PLACES], operation: F) {
    let start = Instant::now();
    let sum = checksum(values, operation);
    println!("{name} {} {sum}", start.elapsed().as_nanos());
}

fn main() {
    let values = values();
    timed("ratio", &values, |a, b| mark(Plain::ratio(a.num * 6, b.den)));
    timed("add", &values, |a, b| mark(a.add(b)));
    timed("sub", &values, |a, b| mark(a.sub(b)));
    timed("mul", &values, |a, b| mark(a.mul(b)));
    timed("div", &values, |a, b| if b.num == 0 { 0 } else { mark(a.div(b)) });
    timed("cmp", &values, |a, b| mark_of_order(a.cmp(b)));
    timed("floor", &values, |a, _| a.floor().unsigned_abs() as u64);
}
"""


def results(text):
    """Nanoseconds and checksum of each operation."""
    lines = [line.split() for line in text.splitlines()]
    return {words[0]: (int(words[1]), words[2]) for words in lines if len(words) == 3 and words[0] in OPERATIONS}


def build_rattle(folder):
    for name in ["number_laws", "fraction128"]:
        shutil.copytree(TOP / "crates" / name, folder / "crates" / name, ignore=shutil.ignore_patterns("out", "must-fail"))
    crate = folder / "crates" / "fraction_bench"
    (crate / "src").mkdir(parents=True)
    (crate / "src" / "main.rt").write_text(RATTLE.replace("@COUNT@", str(COUNT)))
    (folder / "crates.txt").write_text("number_laws:\nfraction128: number_laws thiserror\nfraction_bench: fraction128\n")
    run(["rt", "run"], crate)
    return crate / "out" / "fraction_bench"


def build_plain(folder):
    source = folder / "plain.rs"
    source.write_text(PLAIN.replace("@COUNT@", str(COUNT)))
    run(["rustc", "-O", "-C", "target-cpu=x86-64-v2", "-o", folder / "plain", source], folder)
    return folder / "plain"


def main():
    with tempfile.TemporaryDirectory() as name:
        folder = Path(name)
        programs = [build_rattle(folder), build_plain(folder)]
        # the better of three runs of each, in turn
        rounds = [[results(run([program], folder)) for program in programs] for _ in range(3)]
    print(f"{'':8}{'Frac ns':>12}{'plain ns':>12}{'ratio':>8}")
    for operation in OPERATIONS:
        sums = {each[operation][1] for both in rounds for each in both}
        if len(sums) != 1:
            sys.exit(f"{operation}: the two programs disagree")
        ours, plain = (min(both[i][operation][0] for both in rounds) / COUNT for i in (0, 1))
        print(f"{operation:8}{ours:12.1f}{plain:12.1f}{ours / plain:8.2f}")


main()
