//! Truth of rules without alternation.

use crate::shapes::{always, eventually, release, until};
use crate::timing::{head, micros, ratio, time};
use std::hint::black_box;
use std::time::Duration;
use yuktrob_plain::truth::{by_laps, by_rounds};

/// The proved library's time.
pub fn proved(rule: &[u8], places: &[u16], lead_len: usize) -> Duration {
    let mut words = vec![0; places.len()];
    time(|| {
        black_box(yuktrob::truth(black_box(rule), places, lead_len, &mut words)).ok();
    })
}

/// The time of the independent implementation by laps.
pub fn laps(rule: &[u8], places: &[u16], lead_len: usize) -> Duration {
    time(|| {
        black_box(by_laps(black_box(rule), places, lead_len, places.len()));
    })
}

fn rounds(rule: &[u8], places: &[u16], lead_len: usize) -> Duration {
    time(|| {
        black_box(by_rounds(black_box(rule), places, lead_len, places.len()));
    })
}

fn rules() -> [(&'static str, Vec<u8>); 7] {
    let (s0, s1): (&[u8], &[u8]) = (&[3, 0], &[3, 1]);
    let nested = |one: fn(&[u8]) -> Vec<u8>, deep: usize| (0..deep).fold(s0.to_vec(), |f, _| one(&f));
    [
        ("F s0", eventually(s0)),
        ("G s0", always(s0)),
        ("s1 U s0", until(s1, s0)),
        ("s1 R s0", release(s1, s0)),
        ("six nested F", nested(eventually, 6)),
        ("six nested G", nested(always, 6)),
        ("five nested U", (0..5).fold(s0.to_vec(), |f, _| until(s1, &f))),
    ]
}

pub fn tables() {
    for n in [1024, 8192] {
        let title = format!("Truth on {n} places, the only signal 0 at the end, signal 1 everywhere, lead-in {}", n - 1);
        head(&title, &["input", "proved, µs", "plain Rust by rounds, µs", "ratio", "plain Rust by laps, µs", "ratio"]);
        let mut places = vec![0x4002; n];
        places[n - 1] = 0x4003;
        for (name, rule) in &rules() {
            three(name, rule, &places);
        }
        places[n - 1] = 0x0003;
        three("F s0, the last place 0003, refused 19", &eventually(&[3, 0]), &places);
    }
}

/// A row: the proved library beside both methods, on a course whose loop is its last place.
fn three(name: &str, rule: &[u8], places: &[u16]) {
    let lead_len = places.len() - 1;
    let (ours, rounds, laps) = (proved(rule, places, lead_len), rounds(rule, places, lead_len), laps(rule, places, lead_len));
    let (by_rounds, by_laps) = (ratio(ours, rounds), ratio(ours, laps));
    println!("| {name} | {} | {} | {by_rounds} | {} | {by_laps} |", micros(ours), micros(rounds), micros(laps));
}
