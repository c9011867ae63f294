//! Decisions of safety rules, beside building, which they can hardly be faster than, and beside the general decision: the tables, and a
//! search for rules that take long.

use crate::building::building;
use crate::decisions::{decision, Areas};
use crate::shapes::{always, each, each_or_absent_next, or_absent_later, written};
use crate::timing::{beside, head, micros, once, per, ratio, time};
use std::hint::black_box;
use std::time::Duration;
use yuktrob::{nodes_len, SafetyVerdict, MOST_NODES, MOST_PROFILES};
use yuktrob_plain::decision::sizes;
use yuktrob_plain::random::Random;
use yuktrob_plain::reading::read;
use yuktrob_plain::safety::decide_safety;

pub fn tables() {
    let mut areas = Areas::new();
    families(&mut areas);
    growth(&mut areas);
}

/// The times of the proved library and of the independent implementation.
fn deciding(areas: &mut Areas, rule: &[u8]) -> (Duration, Duration) {
    let (work, course) = (&mut areas.work[..nodes_len(MOST_NODES)], &mut areas.course[..MOST_NODES]);
    let ours = time(|| {
        black_box(yuktrob::decide_safety(black_box(rule), MOST_NODES, work, course)).ok();
    });
    let theirs = time(|| {
        black_box(decide_safety(black_box(rule), MOST_NODES, work, course));
    });
    (ours, theirs)
}

/// What the proved library answers.
fn outcome(areas: &mut Areas, rule: &[u8]) -> String {
    match yuktrob::decide_safety(rule, MOST_NODES, &mut areas.work, &mut areas.course) {
        Ok(SafetyVerdict::Met { lead_len, loop_len, nodes, .. }) => format!("MET {lead_len} {loop_len} {nodes}"),
        Ok(SafetyVerdict::Not { nodes }) => format!("NOT {nodes}"),
        Err(why) => format!("refused {}", why.number),
    }
}

/// A signal at every so many places.
fn every(signal: u8, places: usize) -> Vec<u8> {
    [&[10, 7, 3, signal][..], &vec![8; places], &[5, 0]].concat()
}

/// All of these.
fn all(parts: &[Vec<u8>]) -> Vec<u8> {
    [vec![7; parts.len() - 1], parts.concat()].concat()
}

/// At every place each of the first signals is present, or true holds at the next place: a step from each node to each.
fn each_or_true_next(signals: u8) -> Vec<u8> {
    always(&each(signals, 7, |j| vec![6, 3, j, 8, 1]))
}

/// With few nodes.
fn few() -> Vec<(&'static str, Vec<u8>)> {
    vec![
        ("true", vec![1]),
        ("G s0", always(&[3, 0])),
        ("G (s0 then next s1)", always(&[6, 4, 0, 8, 3, 1])),
        ("case H", vec![10, 7, 3, 0, 7, 8, 4, 0, 8, 8, 5, 0]),
        ("G (not s0 or G not s14)", always(&[&[6, 4, 0][..], &always(&[4, 14])].concat())),
        ("G of one of 12 signals", always(&each(13, 6, |j| if j < 12 { vec![3, j] } else { vec![2] }))),
    ]
}

/// Loops of many steps.
fn looping() -> Vec<(&'static str, Vec<u8>)> {
    let stays = |places: usize| always(&[&[6, 3, 1][..], &vec![8; places], &[4, 1]].concat());
    vec![
        ("a signal at every 12th place", every(0, 12)),
        ("at every 5th and every 7th", all(&[every(0, 5), every(1, 7)])),
        ("at every 3rd, 4th and 5th", all(&[every(0, 3), every(1, 4), every(2, 5)])),
        ("at every 5th, and two promises (FORMULAS)", written("070a070302080808080805000a0707060401080803000604000808080401080500")),
        ("at every 3rd, and G of a signal or its absence 8 places on", all(&[every(0, 3), stays(8)])),
        ("at every 4th, and G of each of 7 signals or true next", all(&[every(15, 4), each_or_true_next(7)])),
        ("at every 6th, and G of each of 4 signals or true next", all(&[every(15, 6), each_or_true_next(4)])),
    ]
}

/// No course meets these; the first nodes have steps.
fn unmet() -> Vec<(&'static str, Vec<u8>)> {
    let never_later = |places: usize| [vec![8; places], vec![2]].concat();
    vec![
        ("false 11 places on", never_later(11)),
        ("false 3 places on, and G of each of 7 signals or true next", all(&[never_later(3), each_or_true_next(7)])),
        ("false 4 places on, and G of a signal or its absence 7 places on", all(&[never_later(4), or_absent_later(7)])),
        ("found: K 611", written("0a0707070706040208080804000603020808080301060300080803000608080804000302080500")),
    ]
}

/// Always a rule with 12 ors, and 12 nexts in all, found among random ones: the most nodes, and where building takes longest.
const FULLEST: [&str; 5] = [
    "0a07060a060806040805010808060605000500070408030b08080a080808060a0607030b0604090400060501080407060806080605000401030a0300080500",
    "0a0706030b0808070606060409050008080304050008070604000608070403040806070408050004080808060808060608040104010300060408060309030a080500",
    "0a07060806040303010a070a060606030208060502030b040b08080808080605020808080309060308060706070308040b03090803060606030703060301080500",
    "0a07060a0608080806080500040407060803020603010404070806040004000a0604060306080a06080806030806060304030b080400060804070408080500",
    "0a0708060808080808060806060309060400030108060604060806080406060306080401060500050005000603080a0605010301080500",
];

/// Many nodes, many ors.
fn many() -> Vec<(&'static str, Vec<u8>)> {
    let mut rules = vec![
        ("G of a signal or its absence 9 places on", or_absent_later(9)),
        ("G of each of 7 signals or its absence next", each_or_absent_next(7)),
        ("G of each of 8 signals, here or next", always(&each(8, 7, |j| vec![6, 3, j, 8, 3, j]))),
        ("G of each of 9 signals or true next", each_or_true_next(9)),
        ("G of one of 11 signals next, 12 ors and 12 nexts", always(&each(13, 6, |j| if j < 11 { vec![8, 3, j] } else { vec![3, j] }))),
        ("G of a signal or its absence 11 places on", or_absent_later(11)),
    ];
    rules.extend(FULLEST.map(|hex| ("found, 12 ors and 12 nexts", written(hex))));
    rules
}

/// The general decision's time, and how many times it goes into this one; if it comes to a verdict.
fn beside_decision(areas: &mut Areas, rule: &[u8], took: Duration) -> String {
    match yuktrob::decide(rule, MOST_NODES, MOST_PROFILES, &mut areas.work, &mut areas.course) {
        Ok(_) => {
            let (general, _) = decision(areas, rule, MOST_NODES, MOST_PROFILES);
            format!("{} | {}", micros(general), ratio(took, general))
        }
        Err(why) => format!("refused {} | ", why.number),
    }
}

const COLUMNS: [&str; 9] =
    ["input", "outcome", "proved, µs", "plain Rust, µs", "ratio", "build, µs", "times build", "decide, µs", "times decide"];

fn families(areas: &mut Areas) {
    let kinds = [("few nodes", few()), ("long loops", looping()), ("that cannot be met", unmet()), ("many nodes and ors", many())];
    for (kind, rules) in kinds {
        head(&format!("Safety rules, N = 1,024: {kind}; decide with M = 4,096"), &COLUMNS);
        for (name, rule) in rules {
            row(areas, name, &rule);
        }
    }
}

fn row(areas: &mut Areas, name: &str, rule: &[u8]) {
    let (ours, theirs) = deciding(areas, rule);
    let (built, _) = building(areas, rule);
    let (outcome, decided) = (outcome(areas, rule), beside_decision(areas, rule, ours));
    println!("| {name} | {outcome} | {} | {} | {} | {decided} |", beside(ours, theirs), micros(built), ratio(ours, built));
}

/// Rules of four shapes that grow: by nodes with two steps each; by nodes with steps to many and to all; and by the length of the loop.
fn growing() -> Vec<(String, Vec<u8>)> {
    let later = [3, 5, 7, 9].map(|n| (format!("G of a signal or its absence {n} places on"), or_absent_later(n)));
    let next = [3, 5, 7].map(|n| (format!("G of each of {n} signals or its absence next"), each_or_absent_next(n)));
    let any = [3, 5, 7, 9].map(|n| (format!("G of each of {n} signals or true next"), each_or_true_next(n)));
    let turns = [(2, 3), (3, 4), (4, 5), (5, 6), (5, 7)];
    let turns = turns.map(|(a, b)| (format!("a signal at every {a} places, one at every {b}"), all(&[every(0, a), every(1, b)])));
    [&later[..], &next, &any, &turns].concat()
}

fn growth(areas: &mut Areas) {
    let columns = ["input", "outcome", "pick words", "steps", "proved, µs", "ns a node", "ns a step", "build, µs", "times build"];
    head("Safety rules, N = 1,024, by the size of the graph, proved", &columns);
    for (name, rule) in growing() {
        let graph = sizes(&read(&rule).expect("a rule"), MOST_NODES).expect("room for the nodes");
        let ((took, _), (built, _)) = (deciding(areas, &rule), building(areas, &rule));
        let by_size = format!("{} | {} | {}", micros(took), per(took, graph.nodes), per(took, graph.steps));
        let (outcome, built) = (outcome(areas, &rule), format!("{} | {}", micros(built), ratio(took, built)));
        println!("| {name} | {outcome} | {} | {} | {by_size} | {built} |", graph.words, graph.steps);
    }
}

/// A random rule with the times of a safety decision, of building and, once, of the independent implementation.
struct Tried {
    rule: Vec<u8>,
    took: Duration,
    built: Duration,
    plain: Duration,
}

impl Tried {
    fn new(areas: &mut Areas, rule: Vec<u8>) -> Self {
        let Areas { work, course } = areas;
        let mut took = || {
            once(|| {
                black_box(yuktrob::decide_safety(&rule, MOST_NODES, work, course)).ok();
            })
        };
        let took = took().min(took()).min(took());
        let mut built = || {
            once(|| {
                black_box(yuktrob::build(&rule, MOST_NODES, work)).ok();
            })
        };
        let built = built().min(built()).min(built());
        let plain = once(|| {
            black_box(decide_safety(&rule, MOST_NODES, work, course));
        });
        Tried { rule, took, built, plain }
    }

    fn beside_building(&self) -> f64 {
        self.took.as_secs_f64() / self.built.as_secs_f64().max(1e-9)
    }

    fn beside_plain(&self) -> f64 {
        self.took.as_secs_f64() / self.plain.as_secs_f64().max(1e-9)
    }
}

/// So many random rules, and as many with 12 ors and 12 nexts: which take longest beside building, beside plain Rust, and by the clock.
pub fn search(count: usize, seed: u64) {
    let (mut random, mut areas) = (Random::new(seed), Areas::new());
    for (kind, draw) in [("random ones", Random::safety as fn(&mut Random) -> Vec<u8>), ("with 12 ors and 12 nexts", Random::fullest)] {
        let mut all: Vec<Tried> = (0..count).map(|_| Tried::new(&mut areas, draw(&mut random))).collect();
        let title = |what: &str| format!("Safety rules, N = 1,024: which of {count} {kind} take longest{what}");
        longest(&mut areas, &title(" beside building"), &mut all, Tried::beside_building);
        longest(&mut areas, &title(" beside plain Rust"), &mut all, Tried::beside_plain);
        longest(&mut areas, &title(""), &mut all, |t| t.took.as_secs_f64());
    }
}

fn longest(areas: &mut Areas, title: &str, all: &mut [Tried], key: impl Fn(&Tried) -> f64) {
    head(title, &COLUMNS);
    all.sort_by(|a, b| key(b).total_cmp(&key(a)));
    for Tried { rule, .. } in all.iter().take(5) {
        let hex: Vec<String> = rule.iter().map(|b| format!("{b:02x}")).collect();
        row(areas, &hex.concat(), rule);
    }
}

#[cfg(test)]
mod tests {
    use super::*;
    use yuktrob_plain::safety::SafetyVerdict;

    fn told(rule: &[u8]) -> SafetyVerdict {
        decide_safety(rule, MOST_NODES, &mut vec![0; nodes_len(MOST_NODES)], &mut vec![0; MOST_NODES])
    }

    /// Else the tables would have the times of refusals; one rule is there for that of 14.
    #[test]
    fn rules_have_the_outcomes_that_they_are_there_for() {
        for (name, rule) in [few(), looping(), many()].concat() {
            let full = told(&rule) == SafetyVerdict::Refused(14);
            assert!(full == (name == "G of a signal or its absence 11 places on"), "{name}");
            assert!(full || matches!(told(&rule), SafetyVerdict::Met { .. }), "{name}: {:?}", told(&rule));
        }
        for (name, rule) in looping() {
            assert!(matches!(told(&rule), SafetyVerdict::Met { loop_len: 3.., .. }), "{name}");
        }
        for (name, rule) in unmet() {
            assert!(matches!(told(&rule), SafetyVerdict::Not { nodes: 4.. }), "{name}: {:?}", told(&rule));
        }
    }

    #[test]
    fn twelve_ors_and_twelve_nexts() {
        let mut random = Random::new(1);
        let drawn = (0..100).map(|_| random.fullest());
        for rule in FULLEST.into_iter().map(written).chain(drawn) {
            let entries = read(&rule).expect("a rule");
            let count = |is: fn(&yuktrob_plain::reading::Command) -> bool| entries.iter().filter(|c| is(c)).count();
            use yuktrob_plain::reading::Command;
            assert_eq!((count(|c| matches!(c, Command::Or(..))), count(|c| matches!(c, Command::Next(_)))), (12, 12), "{rule:02x?}");
        }
    }
}
