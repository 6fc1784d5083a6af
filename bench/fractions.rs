//! The loop of the crate `fraction_bench` in plain Rust, for `scripts/bench`, over the fractions of `frac`.

mod frac;

use frac::{Frac, minus, new, over, plus, times};
use std::time::Instant;

type Operation = fn(Frac, Frac) -> Option<Frac>;

const PAIRS: usize = 128;
const ROUNDS: u32 = 20_000;

const OPERATIONS: [(&str, Operation); 4] =
    [("plus", plus), ("minus", minus), ("times", times), ("over", over)];

/// Which operands there are: with the second two each fraction stands between whole numbers, or between zeros.
#[derive(Clone, Copy)]
enum Mix {
    Fractions,
    Whole,
    WithWhole,
    WithZero,
}

impl Mix {
    fn words(self) -> &'static str {
        match self {
            Mix::Fractions => "",
            Mix::Whole => " whole",
            Mix::WithWhole => " with whole",
            Mix::WithZero => " with 0",
        }
    }

    fn parts(self, place: usize, num: i128, den: i128) -> (i128, i128) {
        match (self, place % 2) {
            (Mix::Whole, _) | (Mix::WithWhole, 0) => (num, 1),
            (Mix::WithZero, 0) => (0, 1),
            _ => (num, den),
        }
    }
}

const SETS: [(u32, Mix); 11] = [
    (5, Mix::Fractions),
    (30, Mix::Fractions),
    (50, Mix::Fractions),
    (64, Mix::Fractions),
    (100, Mix::Fractions),
    (30, Mix::Whole),
    (30, Mix::WithWhole),
    (30, Mix::WithZero),
    (100, Mix::Whole),
    (100, Mix::WithWhole),
    (100, Mix::WithZero),
];

fn next(state: u64) -> u64 {
    state
        .wrapping_mul(6364136223846793005)
        .wrapping_add(1442695040888963407)
}

fn number(state: u64, bits: u32) -> i128 {
    let wide = (u128::from(next(state)) << 64) | u128::from(state);
    ((wide >> (128 - bits)) | 1) as i128
}

fn operands(bits: u32, mix: Mix) -> Vec<Frac> {
    let mut state = 42;
    let mut draw = || {
        let size = number(state, bits);
        state = next(next(state));
        (size, state)
    };
    (0..PAIRS)
        .map(|place| {
            let (size, _) = draw();
            let (den, after) = draw();
            let num = if after > u64::MAX / 2 { -size } else { size };
            let (num, den) = mix.parts(place, num, den);
            new(num, den).expect("the operands fit")
        })
        .collect()
}

fn fitting(all: &[Frac], operation: Operation) -> u64 {
    let mut fit = 0;
    let mut before = Frac { num: 1, den: 1 };
    for operand in all {
        fit += u64::from(operation(before, *operand).is_some());
        before = *operand;
    }
    fit
}

fn main() {
    let timed = std::env::args().skip(1).any(|word| word == "time");
    for (bits, mix) in SETS {
        let all = operands(bits, mix);
        let words = mix.words();
        for (name, operation) in OPERATIONS {
            if !timed {
                println!("{name} {bits} bits{words} {} fit", fitting(&all, operation));
                continue;
            }
            let start = Instant::now();
            let fit: u64 = (0..ROUNDS).map(|_| fitting(&all, std::hint::black_box(operation))).sum();
            std::hint::black_box(fit);
            let picos = start.elapsed().as_nanos() * 1_000 / (u128::from(ROUNDS) * PAIRS as u128);
            println!("{name} {bits} bits{words} {}.{} ns", picos / 1_000, picos / 100 % 10);
        }
    }
}
