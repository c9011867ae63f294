//! Truth of rules with fixpoints that alternate, or only cross: a table, and a search for slow ones.

use crate::timing::{head, micros, once, ratio};
use crate::truths::{laps, proved};
use std::time::Duration;
use yuktrob_plain::random::Random;
use yuktrob_plain::reading::{read, Command};

/// The places of a course and the length of its lead-in.
type Course = (Vec<u16>, usize);

/// A kind of course, by the number of places.
type Kind = (&'static str, fn(usize) -> Course);

const GAP: Kind = ("a loop of 7FFF, the middle place 4000", |n| (with_middle(n, 0x7fff, 0x4000), 0));
const BLAZE: Kind = ("a loop of 4000, the middle place 7FFF", |n| (with_middle(n, 0x4000, 0x7fff), 0));
const SPARK: Kind = ("a loop of 4000, the middle place 4001", |n| (with_middle(n, 0x4000, 0x4001), 0));
const FADING: Kind = ("a lead-in of 4001, a loop 4000", |n| (with_last(n, 0x4001, 0x4000), n - 1));
const ENDING: Kind = ("a lead-in of 7FFF, a loop 4000", |n| (with_last(n, 0x7fff, 0x4000), n - 1));
const STARTING: Kind = ("a lead-in of 4000, a loop 7FFF", |n| (with_last(n, 0x4000, 0x7fff), n - 1));
const HALVES: Kind = ("half 4000, one 4002, half 4001, a loop 4000", halves);
const TURNS: Kind = ("a loop of 4001 and 4002 by turns, the middle place 4000", |n| (turns(n), 0));
const MIXED: Kind = ("random places of three signals, the later half a loop", |n| (Random::new(n as u64).places(n), n / 2));

const MOTLEY: Kind = ("ten values for four places each, the later five a loop, behind a lead-in of 4000", motley);

const KINDS: [Kind; 10] = [GAP, BLAZE, SPARK, FADING, ENDING, STARTING, HALVES, TURNS, MIXED, MOTLEY];

fn with_middle(n: usize, place: u16, middle: u16) -> Vec<u16> {
    (0..n).map(|i| if i == n / 2 { middle } else { place }).collect()
}

fn with_last(n: usize, place: u16, last: u16) -> Vec<u16> {
    (0..n).map(|i| if i + 1 == n { last } else { place }).collect()
}

fn turns(n: usize) -> Vec<u16> {
    (0..n).map(|i| if i == n / 2 { 0x4000 } else { 0x4001 + i as u16 % 2 }).collect()
}

fn halves(n: usize) -> Course {
    let m = (n - 2) / 2;
    ([vec![0x4000; m], vec![0x4002], vec![0x4001; n - 2 - m], vec![0x4000]].concat(), n - 1)
}

fn motley(n: usize) -> Course {
    let values = [0x8879, 0x6346, 0x55e7, 0x79f7, 0xa2a6, 0x4edd, 0x5b6b, 0xb6ea, 0x5c95, 0x6508];
    let last: Vec<u16> = values.into_iter().flat_map(|v| [v; 4]).collect();
    ([vec![0x4000; n - 40], last].concat(), n - 20)
}

const CASE_J: &str = "0A 09 06 07 03 00 08 05 01 08 05 00";
const CASE_L: &str = "09 0A 06 07 03 00 08 05 01 08 05 00";

/// Rules and courses that take many rounds: some made for it, three of the slowest that `bench search` found, the two with most rounds that
/// changing rules step by step led to, and two whose fixpoints are all of one kind but cross.
const TABLE: [(&str, &str, Kind); 12] = [
    ("seven fixpoints", "0A 08 09 09 07 05 02 09 07 03 01 06 06 08 09 08 06 05 04 07 03 01 05 02 05 03 09 08 09 08 07 05 02 06 06 05 01 05 03 05 03", GAP),
    ("three fixpoints", "09 0A 09 06 03 01 06 08 05 02 06 07 03 00 08 05 01 07 03 02 08 05 00", HALVES),
    ("case J", CASE_J, FADING),
    ("case J", CASE_J, SPARK),
    ("case L", CASE_L, SPARK),
    ("five, found", "08 07 0A 09 09 09 0A 06 07 08 05 01 08 05 01 07 07 08 05 00 06 08 05 04 08 05 00 08 03 01 06 04 00 04 01", STARTING),
    ("six, found", "0A 09 06 07 08 05 00 04 01 0A 09 07 07 04 02 08 05 03 0A 06 08 05 00 07 08 09 03 02 08 05 03", SPARK),
    ("six, found", "0A 09 0A 08 06 08 06 06 05 01 06 03 00 07 05 01 05 02 08 09 0A 06 09 05 04 08 05 00 08 05 01", ENDING),
    ("seven, climbed to", "0A 08 0A 0A 0A 0A 08 09 07 06 06 04 07 08 02 06 03 06 01 06 09 08 08 06 05 01 07 04 09 05 05 07 07 06 05 03 07 04 05 06 06 06 08 07 05 05 01 05 01 02 05 02 06 06 05 03 01 04 06 04 08", GAP),
    ("seven, climbed to", "0A 08 0A 0A 06 07 07 06 02 04 05 08 04 08 06 06 04 08 03 07 03 07 06 04 08 07 04 09 0A 0A 0A 08 09 08 08 08 08 08 06 07 08 08 07 08 06 05 05 07 03 08 06 05 04 05 03 03 08 05 06 05 00", MOTLEY),
    ("six least", "09 09 09 09 09 06 09 08 07 05 03 05 04 04 00", ENDING),
    ("four least", "09 09 09 06 09 08 07 07 06 03 00 05 02 05 02 05 01 03 01", BLAZE),
];

fn bytes(text: &str) -> Vec<u8> {
    text.split_whitespace().map(|b| u8::from_str_radix(b, 16).expect("a byte in hex")).collect()
}

pub fn table(short: usize, long: usize) {
    let proved_at = |n: usize| format!("proved, {n} places, µs");
    let plain = format!("plain Rust by laps, {long} places, µs");
    head("Truth, alternating fixpoints", &["input", &proved_at(short), &proved_at(long), "factor", &plain, "ratio"]);
    for (name, rule, (kind, course)) in TABLE {
        let rule = bytes(rule);
        let (few, few_lead) = course(short);
        let (many, many_lead) = course(long);
        let (a, b, theirs) = (proved(&rule, &few, few_lead), proved(&rule, &many, many_lead), laps(&rule, &many, many_lead));
        println!("| {name}: {kind} | {} | {} | {} | {} | {} |", micros(a), micros(b), ratio(b, a), micros(theirs), ratio(b, theirs));
    }
}

/// A rule that was tried on a kind of course, with the proved library's time.
struct Tried {
    took: Duration,
    rule: Vec<u8>,
    kind: Kind,
}

fn tried(rule: &[u8], kind: Kind, places: usize) -> Tried {
    let (course, lead_len) = kind.1(places);
    let mut words = vec![0; places];
    let mut took = || {
        once(|| {
            std::hint::black_box(yuktrob::truth(rule, &course, lead_len, &mut words)).ok();
        })
    };
    Tried { took: took().min(took()), rule: rule.to_vec(), kind }
}

/// The slowest rules of at least three fixpoints, each on the kind of course that it is slowest on.
pub fn search(count: usize, seed: u64, places: usize) {
    let mut random = Random::new(seed);
    let mut slowest: Vec<Tried> = Vec::new();
    for _ in 0..count {
        let rule = random.crossing();
        if fixpoints(&rule) >= 3 {
            slowest.extend(KINDS.map(|kind| tried(&rule, kind, places)).into_iter().max_by_key(|t| t.took));
            slowest.sort_by_key(|t| std::cmp::Reverse(t.took));
            slowest.truncate(10);
        }
    }
    head(&format!("The slowest of {count} random rules on {places} places"), &["proved, µs", "fixpoints", "course", "rule"]);
    for Tried { rule, kind, .. } in slowest {
        let (course, lead_len) = kind.1(places);
        let hex: Vec<String> = rule.iter().map(|b| format!("{b:02X}")).collect();
        println!("| {} | {} | {} | {} |", micros(proved(&rule, &course, lead_len)), fixpoints(&rule), kind.0, hex.join(" "));
    }
}

fn fixpoints(rule: &[u8]) -> usize {
    let entries = read(rule).expect("a rule");
    entries.iter().filter(|c| matches!(c, Command::Least(_) | Command::Greatest(_))).count()
}

#[cfg(test)]
mod tests {
    use super::*;

    /// Else the table would have the times of refusals.
    #[test]
    fn courses_have_places_only() {
        for (name, course) in KINDS {
            assert!(course(64).0.into_iter().all(yuktrob_plain::scale::is_place), "{name}");
        }
    }
}
