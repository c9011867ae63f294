//! Lookups in sheets: by the number of records, in sheets with as many as there can be, whole and damaged, and such that end at once. The
//! independent implementation is the one that goes over the bytes in one pass.

use crate::timing::{beside, head, per, ratio, time};
use std::hint::black_box;
use std::time::Duration;
use yuktrob::{Found, NotFound};
use yuktrob_plain::sheet::{by_pass, record};

/// One for each number.
const MOST_RECORDS: usize = 65_536;

pub fn tables() {
    by_records();
    for size in [255, 0] {
        largest(&Largest::new(size), size);
    }
    at_once();
}

/// So many records with the numbers from 0 on, of rules with so many bytes.
fn sheet(records: usize, size: usize) -> Vec<u8> {
    let rule = vec![7; size];
    (0..records).flat_map(|number| record(number as u16, &rule)).collect()
}

/// The dealer's sheet, the factory's, and the number that is looked for.
type Asked<'a> = (&'a [u8], &'a [u8], u16);

/// The times of the proved library and of the independent implementation for so many lookups.
fn looking_up((dealer, factory, number): Asked, times: usize) -> (Duration, Duration) {
    let ours = time(|| {
        for _ in 0..times {
            black_box(yuktrob::lookup(black_box(dealer), black_box(factory), number)).ok();
        }
    });
    let theirs = time(|| {
        for _ in 0..times {
            black_box(by_pass(black_box(dealer), black_box(factory), number));
        }
    });
    (ours, theirs)
}

/// The nanoseconds of one of so many lookups in both, and the ratio, as three columns.
pub fn nanos((ours, theirs): (Duration, Duration), times: usize) -> String {
    format!("{} | {} | {}", per(ours, times), per(theirs, times), ratio(ours, theirs))
}

/// What the proved library answers.
fn outcome((dealer, factory, number): Asked) -> String {
    match yuktrob::lookup(dealer, factory, number) {
        Ok(Found { sheet, start, .. }) => format!("found in {sheet} at {start}"),
        Err(NotFound::Damaged { sheet, place }) => format!("refused 30 at {place} of {sheet}"),
        Err(NotFound::Missing) => "refused 31".into(),
    }
}

/// A lookup in few records is repeated, since one is too short to be timed.
fn by_records() {
    let columns = ["records", "bytes of a rule", "bytes of the sheet", "proved, ns", "plain Rust, ns", "ratio", "proved, ns a record"];
    head("Lookups by the number of records: the last one of a sheet, the other sheet empty", &columns);
    for size in [255, 0] {
        for records in [1, 16, 256, 4096, 16_384, MOST_RECORDS] {
            let sheet = sheet(records, size);
            let times = (4096 / records).max(1);
            let took = looking_up((&sheet, &[], (records - 1) as u16), times);
            println!("| {records} | {size} | {} | {} | {} |", sheet.len(), nanos(took, times), per(took.0, times * records));
        }
    }
}

/// Sheets with as many records as there can be, with one fewer, and with the last byte missing.
struct Largest {
    all: Vec<u8>,
    but_last: Vec<u8>,
    cut: Vec<u8>,
}

impl Largest {
    fn new(size: usize) -> Self {
        let (all, but_last) = (sheet(MOST_RECORDS, size), sheet(MOST_RECORDS - 1, size));
        let cut = all[..all.len() - 1].to_vec();
        Largest { all, but_last, cut }
    }

    fn rows<'a>(&'a self, few: &'a [u8]) -> [(&'static str, Asked<'a>); 8] {
        let Largest { all, but_last, cut } = self;
        [
            ("one sheet, the first", (all, &[], 0)),
            ("one sheet, the last", (all, &[], 65535)),
            ("one below a dealer's of ten records, the last", (few, all, 65535)),
            ("two sheets, the first", (all, all, 0)),
            ("two sheets, the last of the factory's", (but_last, all, 65535)),
            ("two sheets, nowhere", (but_last, but_last, 65535)),
            ("two sheets, the dealer's lacks a byte at its end", (cut, all, 0)),
            ("two sheets, the factory's lacks a byte at its end", (all, cut, 0)),
        ]
    }
}

fn largest(largest: &Largest, size: usize) {
    let title = format!("Lookups in sheets of 65,536 records with {size} bytes each, {} bytes a sheet", largest.all.len());
    head(&title, &["input", "outcome", "proved, µs", "plain Rust, µs", "ratio"]);
    for (name, asked) in largest.rows(&sheet(10, size)) {
        let (ours, theirs) = looking_up(asked, 1);
        println!("| {name} | {} | {} |", outcome(asked), beside(ours, theirs));
    }
}

fn at_once() {
    let garbage = vec![0xff; Largest::new(255).all.len()];
    head("Lookups that end at once", &["input", "outcome", "proved, ns", "plain Rust, ns", "ratio"]);
    let rows: [(&str, Asked); 3] = [
        ("two empty sheets", (&[], &[], 0)),
        ("two strings of 16,973,824 bytes FF", (&garbage, &garbage, 0)),
        ("one below an empty sheet", (&[], &garbage, 0)),
    ];
    for (name, asked) in rows {
        let times = 1000;
        println!("| {name} | {} | {} |", outcome(asked), nanos(looking_up(asked, times), times));
    }
}

#[cfg(test)]
mod tests {
    use super::*;

    #[test]
    fn the_largest_sheet() {
        assert_eq!(sheet(MOST_RECORDS, 255).len(), 16_973_824);
    }

    /// Else the tables would have the times of something else.
    #[test]
    fn rows_have_the_outcomes_that_they_are_there_for() {
        let outcomes = Largest::new(0).rows(&sheet(10, 0)).map(|(_, asked)| outcome(asked));
        let expected = [
            "found in the dealer's sheet at 4",
            "found in the dealer's sheet at 262144",
            "found in the factory's sheet at 262144",
            "found in the dealer's sheet at 4",
            "found in the factory's sheet at 262144",
            "refused 31",
            "refused 30 at 262143 of the dealer's sheet",
            "refused 30 at 262143 of the factory's sheet",
        ];
        assert_eq!(outcomes, expected);
    }
}
