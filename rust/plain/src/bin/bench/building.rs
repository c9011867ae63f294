//! Building the nodes of a rule once and searching them again: the tables.

use crate::decisions::{decision, random_rules, shaped, Areas, Timed};
use crate::early::outcome;
use crate::shapes::{each, each_or_absent_next, eventually, or_absent_later};
use crate::timing::{beside, head, micros, per, time};
use std::cmp::Reverse;
use std::hint::black_box;
use std::time::Duration;
use yuktrob::{nodes_len, MOST_NODES, MOST_PROFILES};
use yuktrob_plain::building::{build, search};
use yuktrob_plain::decision::{sizes, Sizes};
use yuktrob_plain::reading::read;

/// With random rules that are timed here.
pub fn alone() {
    let mut areas = Areas::new();
    let timed = random_rules(&mut areas);
    tables(&mut areas, &timed);
}

pub fn tables(areas: &mut Areas, timed: &[Timed]) {
    heaviest(areas, timed);
    growth(areas);
}

/// The times of the proved library and of the independent implementation for building.
pub fn building(areas: &mut Areas, rule: &[u8]) -> (Duration, Duration) {
    let work = &mut areas.work[..nodes_len(MOST_NODES)];
    let ours = time(|| {
        black_box(yuktrob::build(black_box(rule), MOST_NODES, work)).ok();
    });
    let theirs = time(|| {
        black_box(build(black_box(rule), MOST_NODES, work));
    });
    (ours, theirs)
}

/// The same for a search, over nodes that are there.
fn searching(areas: &mut Areas, rule: &[u8]) -> (Duration, Duration) {
    let Areas { work, course } = areas;
    let count = yuktrob::build(rule, MOST_NODES, work).expect("room for the nodes");
    let ours = time(|| {
        black_box(yuktrob::search(black_box(rule), count, MOST_NODES, MOST_PROFILES, work, course)).ok();
    });
    let theirs = time(|| {
        black_box(search(black_box(rule), count, MOST_NODES, MOST_PROFILES, work, course));
    });
    (ours, theirs)
}

/// The sizes of the graph, unless it has more nodes than there is ever room for.
fn graph(rule: &[u8]) -> Option<Sizes> {
    sizes(&read(rule).expect("a rule"), MOST_NODES)
}

/// The heaviest random rules and those of one shape that have nodes to search, with their names.
fn heavy(timed: &[Timed]) -> Vec<(String, Vec<u8>)> {
    let has_room = |(_, rule): &(String, Vec<u8>)| graph(rule).is_some();
    let shaped = shaped().into_iter().map(|(name, rule)| (name.to_string(), rule));
    let random = timed.iter().rev().map(|t| (format!("random, {} bytes", t.rule.len()), t.rule.clone()));
    shaped.filter(has_room).chain(random.filter(has_room).take(10)).collect()
}

fn heaviest(areas: &mut Areas, timed: &[Timed]) {
    let title = "Building and search, N = 1,024, M = 4,096: the ten rules of the tables above whose decision takes longest";
    let plain = ["plain Rust, µs", "ratio"];
    head(title, &["input", "K", "outcome", "decide, µs", "build, µs", plain[0], plain[1], "search, µs", plain[0], plain[1]]);
    let decided = |(name, rule): (String, Vec<u8>)| (decision(areas, &rule, MOST_NODES, MOST_PROFILES).0, name, rule);
    let mut rules: Vec<_> = heavy(timed).into_iter().map(decided).collect();
    rules.sort_by_key(|(took, ..)| Reverse(*took));
    for (decided, name, rule) in rules.iter().take(10) {
        let nodes = graph(rule).map_or(0, |sizes| sizes.nodes);
        let ((built, built_plain), (searched, searched_plain)) = (building(areas, rule), searching(areas, rule));
        let (built, searched) = (beside(built, built_plain), beside(searched, searched_plain));
        println!("| {name} | {nodes} | {} | {} | {built} | {searched} |", outcome(areas, rule), micros(*decided));
    }
}

/// Rules of three shapes that grow: by nodes with two pick words each; by nodes and pick words, most of which are at ors that the node does
/// not meet; and so too, where each or is met and most words have no step.
fn growing() -> Vec<(String, Vec<u8>)> {
    let later = [3, 5, 7, 9].map(|n| (format!("G of a signal or its absence {n} places on"), or_absent_later(n)));
    let all = [3, 5, 7].map(|n| (format!("F of {n} signals, all"), each(n, 7, |j| eventually(&[3, j]))));
    let next = [3, 5, 7].map(|n| (format!("G of each of {n} signals or its absence next"), each_or_absent_next(n)));
    [&later[..], &all, &next].concat()
}

fn growth(areas: &mut Areas) {
    let columns = ["input", "commands", "K", "pick words", "steps", "build, µs", "ns a pick word", "search, µs", "ns a pick word"];
    head("Building and search, N = 1,024, M = 4,096, by the size of the graph, proved", &columns);
    for (name, rule) in growing() {
        let Sizes { commands, nodes, words, steps } = graph(&rule).expect("room for the nodes");
        let by_word = |took: Duration| format!("{} | {}", micros(took), per(took, words));
        let (built, searched) = (by_word(building(areas, &rule).0), by_word(searching(areas, &rule).0));
        println!("| {name} | {commands} | {nodes} | {words} | {steps} | {built} | {searched} |");
    }
}

#[cfg(test)]
mod tests {
    use super::*;
    use yuktrob_plain::decision::effort;

    /// Else the table would have the times of refusals.
    #[test]
    fn growing_rules_have_room() {
        for (name, rule) in growing() {
            assert!(effort(&read(&rule).expect("a rule"), MOST_NODES, MOST_PROFILES).is_some(), "{name}");
        }
    }
}
