//! The table of reading.

use crate::shapes::{each, infinitely_often};
use crate::timing::{head, row, time, BOTH};
use std::hint::black_box;
use yuktrob::Rule;
use yuktrob_plain::random::Random;
use yuktrob_plain::reading::read;

/// So many times each rule, since one reading is too short to be timed.
const TIMES: usize = 1000;

fn timed(name: &str, rules: &[Vec<u8>], times: usize) {
    let ours = time(|| {
        for rule in rules.iter().cycle().take(times * rules.len()) {
            black_box(Rule::read(black_box(rule))).ok();
        }
    });
    let theirs = time(|| {
        for rule in rules.iter().cycle().take(times * rules.len()) {
            black_box(read(black_box(rule))).ok();
        }
    });
    row(name, ours, theirs);
}

/// The and of so many signals: one command fewer than twice as many.
fn signals(n: u8) -> Vec<u8> {
    each(n, 7, |j| vec![3, j % 16])
}

pub fn table() {
    head("Reading, 1,000 times", &BOTH);
    let rules: [(&str, Vec<u8>); 11] = [
        ("true", vec![1]),
        ("G F s0", infinitely_often(&[3, 0])),
        ("and of 6 signals, 11 commands", signals(6)),
        ("and of 12 signals, 23 commands", signals(12)),
        ("and of 24 signals, 47 commands", signals(24)),
        ("49 ands, each inside the one before, refused 3", vec![7; 49]),
        ("7 fixpoints, 12 nexts, 28 ands, so too, refused 1", [vec![9; 7], vec![8; 12], vec![7; 28], vec![1]].concat()),
        ("47 commands that are read, and 100,000 bytes behind them, refused 9", [signals(24), vec![7; 100_000]].concat()),
        ("refused 8, for the first byte", vec![9, 5, 0]),
        ("refused 8, for the outermost of seven", vec![9, 10, 9, 10, 9, 10, 9, 5, 6]),
        ("refused 8 at the latest place, for the latest fixpoint", [[7, 3, 0].repeat(23), vec![9, 5, 0]].concat()),
    ];
    for (name, rule) in rules {
        timed(name, &[rule], TIMES);
    }
    let mut random = Random::new(7);
    let unguarded: Vec<_> = (0..TIMES).map(|_| random.unguarded()).collect();
    timed("1,000 random rules that are refused with 8, once", &unguarded, 1);
    let any: Vec<_> = (0..TIMES).map(|i| random.rule(1 + i % 47)).collect();
    timed("1,000 random rules, once", &any, 1);
}
