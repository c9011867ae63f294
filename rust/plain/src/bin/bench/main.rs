//! Times the proved library and the independent implementation on the same inputs, in one run.
//!
//! - `bench`: all tables.
//! - `bench early`: the table of decisions that need fewer profiles than there are.
//! - `bench building`: the tables of building and search.
//! - `bench safety [COUNT SEED]`: the tables of safety rules; or which of so many random ones take longest.
//! - `bench sheets`: the tables of lookups.
//! - `bench sets [COUNT SEED]`: the tables of sets; or which of so many random ones take longest.
//! - `bench edits [COUNT SEED]`: the tables of edits; or which of so many random ones have the largest ratios.
//! - `bench alternating [SHORT LONG]`: the table of truth with alternating fixpoints, at these numbers of places.
//! - `bench search COUNT SEED [PLACES]`: which of so many random rules with fixpoints that cross, most of which alternate, take the proved
//!   library longest, and on which course.
//!
//! Buffers are made once and not cleared between calls. The decision leaves its work area zero, as the defining paper asks, which is part of
//! its time; the independent implementation has no use for that area, and clears one of the same size behind each decision. Building,
//! search, the decision of safety rules and that of a set leave in it what they are to in both.

mod alternating;
mod building;
mod decisions;
mod early;
mod edits;
mod readings;
mod safety;
mod sets;
mod shapes;
mod sheets;
mod timing;
mod truths;

/// The processor's name, where the system tells it.
fn processor() -> String {
    let told = std::fs::read_to_string("/proc/cpuinfo").unwrap_or_default();
    let name = told.lines().find_map(|line| line.strip_prefix("model name")?.split_once(": ").map(|(_, name)| name.to_string()));
    name.unwrap_or("a processor that the system does not name".into())
}

fn all() {
    println!("Measured on: {}.", processor());
    readings::table();
    decisions::tables();
    safety::tables();
    sheets::tables();
    sets::tables();
    edits::tables();
    truths::tables();
    alternating::table(1024, 8192);
}

fn main() {
    let words: Vec<String> = std::env::args().skip(1).collect();
    let number = |i: usize, otherwise: usize| words.get(i).map_or(otherwise, |w| w.parse().expect("a number"));
    match words.first().map(String::as_str) {
        None => all(),
        Some("early") => early::table(&mut decisions::Areas::new()),
        Some("building") => building::alone(),
        Some("safety") if words.len() > 1 => safety::search(number(1, 1000), number(2, 1) as u64),
        Some("safety") => safety::tables(),
        Some("sheets") => sheets::tables(),
        Some("sets") if words.len() > 1 => sets::search(number(1, 1000), number(2, 1) as u64),
        Some("sets") => sets::tables(),
        Some("edits") if words.len() > 1 => edits::search(number(1, 1000), number(2, 1) as u64),
        Some("edits") => edits::tables(),
        Some("alternating") => alternating::table(number(1, 1024), number(2, 8192)),
        Some("search") => alternating::search(number(1, 3000), number(2, 1) as u64, number(3, 1024)),
        Some(other) => panic!("{other}: not known; early, building, safety, sheets, sets, edits, alternating or search, or nothing"),
    }
}
