//! Times and tables.

use std::time::{Duration, Instant};

/// The time of one call: the least of several rounds.
pub fn time(mut call: impl FnMut()) -> Duration {
    let mut best = Duration::MAX;
    let mut spent = Duration::ZERO;
    let mut rounds = 0;
    while rounds < 3 || (spent < Duration::from_millis(200) && rounds < 200) {
        let took = once(&mut call);
        best = best.min(took);
        spent += took;
        rounds += 1;
    }
    best
}

/// The time of this call.
pub fn once(mut call: impl FnMut()) -> Duration {
    let start = Instant::now();
    call();
    start.elapsed()
}

pub fn micros(d: Duration) -> String {
    format!("{:.1}", d.as_secs_f64() * 1e6)
}

/// The nanoseconds for one of so many.
pub fn per(d: Duration, count: usize) -> String {
    format!("{:.1}", d.as_secs_f64() * 1e9 / count as f64)
}

/// How many times the second time goes into the first, with three digits.
pub fn ratio(a: Duration, b: Duration) -> String {
    let x = a.as_secs_f64() / b.as_secs_f64().max(1e-9);
    let decimals = (2.0 - x.max(1e-9).log10().floor()).clamp(0.0, 12.0) as usize;
    format!("{x:.decimals$}")
}

/// A table's title and head.
pub fn head(title: &str, columns: &[&str]) {
    println!("\n### {title}\n\n| {} |\n|{}", columns.join(" | "), "---|".repeat(columns.len()));
}

/// Proved beside plain Rust.
pub const BOTH: [&str; 4] = ["input", "proved, µs", "plain Rust, µs", "ratio"];

pub fn row(name: &str, ours: Duration, theirs: Duration) {
    println!("| {name} | {} |", beside(ours, theirs));
}

/// Both times and their ratio, as three columns.
pub fn beside(ours: Duration, theirs: Duration) -> String {
    format!("{} | {} | {}", micros(ours), micros(theirs), ratio(ours, theirs))
}
