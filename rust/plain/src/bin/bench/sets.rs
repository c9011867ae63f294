//! Sets of rules that are decided at once: of one to eight rules, such that take long, such that are refused; and a search for sets that
//! take long. The proved library decides each conjunction by building and search, so ratios are to plain Rust that does so too; what it
//! takes to decide each at once, and clear the area once, stands beside them.

use crate::decisions::Areas;
use crate::shapes::{always, each_or_absent_next, eventually, infinitely_often, until};
use crate::sheets::nanos;
use crate::timing::{beside, head, micros, once, time};
use std::hint::black_box;
use std::time::Duration;
use yuktrob::{course_len, work_len, SetRefusal, SetVerdict, MOST_NODES, MOST_PROFILES};
use yuktrob_plain::random::Random;
use yuktrob_plain::set::{decide_set, decide_set_by_pair};
use yuktrob_plain::sheet::record;

pub fn tables() {
    let mut areas = Areas::new();
    table(&mut areas, "Sets by the number of rules, N = 256, M = 300", FEW, &by_rules());
    table(&mut areas, "Sets by the number of rules, N = 1,024, M = 4,096", MOST, &by_rules());
    table(&mut areas, "Sets that take long, N = 1,024, M = 4,096", MOST, &long());
    refusals(&mut areas);
}

/// Room for nodes and profiles.
type Room = (usize, usize);

const FEW: Room = (256, 300);
const MOST: Room = (MOST_NODES, MOST_PROFILES);

/// The rules with the numbers from 0 on.
fn sheet(rules: &[Vec<u8>]) -> Vec<u8> {
    rules.iter().enumerate().flat_map(|(number, rule)| record(number as u16, rule)).collect()
}

type Named = (&'static str, Vec<u8>);

/// The first so many signals, and one more rule.
fn signals(count: u8, last: &[u8]) -> Vec<u8> {
    sheet(&(0..count).map(|j| vec![3, j]).chain([last.to_vec()]).collect::<Vec<_>>())
}

/// The handover file of FORMULAS with another last rule.
fn handover(last: Vec<u8>) -> Vec<Vec<u8>> {
    let (announced, stays) = ([&[6, 4, 0][..], &eventually(&[3, 1])].concat(), [&[6, 4, 1][..], &always(&[4, 14])].concat());
    vec![always(&announced), vec![10, 6, 3, 0, 7, 4, 2, 8, 5, 0], always(&stays), vec![3, 0], last]
}

/// A signal, with each signal the next one, and the last one absent, all behind so many nexts: no course meets these, and without any one
/// of them some does.
fn chain(links: u8, nexts: usize) -> Vec<Vec<u8>> {
    let link = |j: u8| vec![6, 4, j, 3, j + 1];
    let rules = [vec![vec![3, 0]], (0..links).map(link).collect(), vec![vec![4, links]]].concat();
    rules.into_iter().map(|rule| [vec![8; nexts], rule].concat()).collect()
}

fn by_rules() -> Vec<Named> {
    let (f, never) = (eventually(&[3, 0]), always(&[4, 0]));
    let [mended, clashing] = [vec![10, 6, 3, 1, 7, 3, 14, 8, 5, 0], infinitely_often(&[3, 14])].map(handover);
    let often = |j: u8| infinitely_often(&[3, j]);
    vec![
        ("1 rule: F s0", sheet(std::slice::from_ref(&f))),
        ("1 rule: F s0 and G not s0", sheet(&[[vec![7], f.clone(), never.clone()].concat()])),
        ("2 rules: G F s0, G F s1", sheet(&[often(0), often(1)])),
        ("2 rules: F s0, G not s0", sheet(&[f.clone(), never.clone()])),
        ("4 rules: G F s0, s1 U s2, X s3, s4", sheet(&[often(0), until(&[3, 1], &[3, 2]), vec![8, 3, 3], vec![3, 4]])),
        ("4 rules: F s0, s1 U s2, X s3, G not s0", sheet(&[f, until(&[3, 1], &[3, 2]), vec![8, 3, 3], never])),
        ("5 rules: the handover file, mended (FORMULAS)", sheet(&mended)),
        ("5 rules: the handover file (FORMULAS)", sheet(&clashing)),
        ("8 rules: signals 0 to 7", signals(7, &[3, 7])),
        ("8 rules: signals 0 to 6, and signal 0 absent", signals(7, &[4, 0])),
        ("8 rules that clash all together", sheet(&chain(6, 1))),
    ]
}

fn refused() -> Vec<Named> {
    let many = |size: usize| (0..=u16::MAX).flat_map(|number| record(number, &vec![7; size])).collect();
    let ands = |count: usize| [vec![7; count], vec![1; count + 1]].concat();
    vec![
        ("16,973,824 bytes FF", vec![0xff; 16_973_824]),
        ("no records", Vec::new()),
        ("65,536 records of 255 bytes", many(255)),
        ("65,536 records without bytes", many(0)),
        ("8 rules, the last without bytes", sheet(&[vec![vec![3, 0]; 7], vec![Vec::new()]].concat())),
        ("2 rules of 25 commands", sheet(&[ands(12), ands(12)])),
    ]
}

/// A rule, and a chain that clashes behind some nexts: without any one rule of the chain the rule is worked out with the others.
fn beside_chain(rule: Vec<u8>, links: u8, nexts: usize) -> Vec<u8> {
    sheet(&[vec![rule], chain(links, nexts)].concat())
}

/// Always a signal or its absence nine places on, which has 513 nodes and few steps, and groups of so many ors each over nothing but true:
/// all that these add to a node is pick words.
fn by_words(groups: &[usize]) -> Vec<u8> {
    let promise = [&[6, 3, 0][..], &[8; 9], &[4, 0]].concat();
    let ors = groups.iter().flat_map(|&ors| [vec![6; ors], vec![1; ors + 1]].concat()).collect();
    always(&[vec![7; groups.len()], promise, ors].concat())
}

/// The first ones have as many ors as 48 commands allow with so many rules that clash.
fn long() -> Vec<Named> {
    let each_f: Vec<Vec<u8>> = (0..6).map(|j| eventually(&[3, j])).collect();
    vec![
        ("K 513 by 12 ors, and 2 rules that clash", beside_chain(by_words(&[4, 4, 3]), 0, 0)),
        ("K 513 by 10 ors, and 3 rules that clash", beside_chain(by_words(&[3, 3, 3]), 1, 0)),
        ("K 513 by 9 ors, and 4 rules that clash", beside_chain(by_words(&[4, 4]), 2, 0)),
        ("K 513 by 7 ors, and 5 rules that clash", beside_chain(by_words(&[3, 3]), 3, 0)),
        ("K 513 by 6 ors, and 6 rules that clash", beside_chain(by_words(&[5]), 4, 0)),
        ("G of each of 6 signals or its absence next, and 3 that clash at the next place", beside_chain(each_or_absent_next(6), 1, 1)),
        ("F of 6 signals, a rule each, and 2 that clash at the next place", sheet(&[each_f, chain(0, 1)].concat())),
    ]
}

/// What the proved library takes for so many decisions, and what the independent implementation takes in either way.
struct Took {
    ours: Duration,
    by_pair: Duration,
    at_once: Duration,
}

impl Took {
    fn ratio(&self) -> f64 {
        self.ours.as_secs_f64() / self.by_pair.as_secs_f64()
    }

    /// As four columns.
    fn told(&self) -> String {
        format!("{} | {}", beside(self.ours, self.by_pair), micros(self.at_once))
    }
}

fn deciding(areas: &mut Areas, sheet: &[u8], (n, m): Room, times: usize) -> Took {
    let (work, course) = (&mut areas.work[..work_len(n, m)], &mut areas.course[..course_len(n, m)]);
    let ours = time(|| {
        for _ in 0..times {
            black_box(yuktrob::decide_set(black_box(sheet), n, m, work, course)).ok();
        }
    });
    let [by_pair, at_once] = [decide_set_by_pair, decide_set].map(|decide| {
        time(|| {
            for _ in 0..times {
                black_box(decide(black_box(sheet), n, m, work, course));
            }
        })
    });
    Took { ours, by_pair, at_once }
}

/// What the proved library answers.
fn outcome(areas: &mut Areas, sheet: &[u8], (n, m): Room) -> String {
    match yuktrob::decide_set(sheet, n, m, &mut areas.work, &mut areas.course) {
        Ok(SetVerdict::Met { lead_len, loop_len, nodes, profiles, .. }) => format!("MET {lead_len} {loop_len} {nodes} {profiles}"),
        Ok(SetVerdict::Not { nodes, profiles, clash }) => format!("NOT {nodes} {profiles}: {clash}"),
        Err(SetRefusal::Damaged { place }) => format!("refused 30 at {place}"),
        Err(SetRefusal::Unread { position, refusal }) => format!("refused {} at position {position}", refusal.number),
        Err(SetRefusal::Undecided { tried }) => format!("refused 35: {tried}"),
        Err(why) => format!("refused {}", why.number()),
    }
}

const COLUMNS: [&str; 6] = ["input", "outcome", "proved, µs", "plain Rust by the pair, µs", "ratio", "plain Rust at once, µs"];

fn table(areas: &mut Areas, title: &str, room: Room, rows: &[Named]) {
    head(title, &COLUMNS);
    for (name, sheet) in rows {
        let took = deciding(areas, sheet, room, 1);
        println!("| {name} | {} | {} |", outcome(areas, sheet, room), took.told());
    }
}

/// A refusal of few bytes, or at the first, is repeated, since one is too short to be timed.
fn refusals(areas: &mut Areas) {
    head("Sets that are refused, N = 256, M = 300", &["input", "outcome", "proved, ns", "plain Rust by the pair, ns", "ratio"]);
    for (name, sheet) in refused() {
        let times = if sheet.starts_with(&[0x20]) && sheet.len() > 1000 { 1 } else { 1000 };
        let Took { ours, by_pair, .. } = deciding(areas, &sheet, FEW, times);
        println!("| {name} | {} | {} |", outcome(areas, &sheet, FEW), nanos((ours, by_pair), times));
    }
}

/// Of so many random sets of a larger rule beside small ones that clash, the fifty that take the proved library longest, timed again: those
/// that take longest, and those with the largest ratios.
pub fn search(count: usize, seed: u64) {
    let (mut random, mut areas) = (Random::new(seed), Areas::new());
    let mut drawn: Vec<(Duration, Vec<u8>)> = (0..count)
        .map(|_| {
            let sheet = drawn(&mut random);
            let took = once(|| {
                black_box(yuktrob::decide_set(&sheet, MOST.0, MOST.1, &mut areas.work, &mut areas.course)).ok();
            });
            (took, sheet)
        })
        .collect();
    drawn.sort_by_key(|(took, _)| *took);
    let longest = drawn.into_iter().rev().take(50);
    let mut timed: Vec<(Took, Vec<u8>)> = longest.map(|(_, sheet)| (deciding(&mut areas, &sheet, MOST, 1), sheet)).collect();
    timed.sort_by_key(|(took, _)| took.ours);
    report("longest", &mut areas, &timed);
    timed.sort_by(|(a, _), (b, _)| a.ratio().total_cmp(&b.ratio()));
    report("largest ratios", &mut areas, &timed);
}

/// The last few, in hex.
fn report(title: &str, areas: &mut Areas, rows: &[(Took, Vec<u8>)]) {
    head(title, &COLUMNS);
    for (took, sheet) in rows.iter().rev().take(8) {
        let hex: String = sheet.iter().map(|byte| format!("{byte:02x}")).collect();
        println!("| {hex} | {} | {} |", outcome(areas, sheet, MOST), took.told());
    }
}

/// A random rule, or one of many nodes, and a chain.
fn drawn(random: &mut Random) -> Vec<u8> {
    let size = 8 + random.below(24);
    let rule = match random.below(12) {
        0 => each_or_absent_next(3 + random.below(4) as u8),
        1..=5 => random.safety(),
        6..=8 => random.crossing(),
        _ => random.rule(size),
    };
    let (links, nexts) = (random.below(5) as u8, random.below(4));
    beside_chain(rule, links, nexts)
}

#[cfg(test)]
mod tests {
    use super::*;

    /// Else the tables would have the times of something else.
    #[test]
    fn rows_have_the_outcomes_that_they_are_there_for() {
        let mut areas = Areas::new();
        let mut outcomes = |rows: &[Named]| rows.iter().map(|(_, sheet)| outcome(&mut areas, sheet, FEW)).collect::<Vec<_>>();
        let expected = [
            "MET 1 1 3 3",
            "NOT 2 1: 0",
            "MET 1 1 5 16",
            "NOT 2 1: 0 1",
            "MET 2 1 9 24",
            "NOT 5 6: 0 3",
            "MET 1 1 7 37",
            "NOT 9 85: 0 2 3 4",
            "MET 1 1 2 1",
            "NOT 1 0: 0 7",
            "NOT 2 0: 0 1 2 3 4 5 6 7",
        ];
        assert_eq!(outcomes(&by_rules()), expected);
        let expected = ["refused 30 at 0", "refused 34", "refused 34", "refused 34", "refused 1 at position 7", "refused 35: 0 1"];
        assert_eq!(outcomes(&refused()), expected);
    }

    /// All decisions are made, and none is refused.
    #[test]
    fn those_that_take_long_are_decided() {
        for (name, sheet) in long() {
            let told = outcome(&mut Areas::new(), &sheet, MOST);
            assert!(told.starts_with("NOT "), "{name}: {told}");
        }
    }
}
