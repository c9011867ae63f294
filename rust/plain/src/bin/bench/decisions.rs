//! The decision's tables.

use crate::{building, early};
use crate::shapes::{always, each, each_or_absent_next, eventually, infinitely_often, or_absent_later, until, written};
use crate::timing::{head, once, row, time, BOTH};
use std::hint::black_box;
use std::time::Duration;
use yuktrob::{course_len, work_len, MOST_NODES, MOST_PROFILES};
use yuktrob_plain::decision::{decide, Verdict};
use yuktrob_plain::random::Random;

/// Areas for the largest room.
pub struct Areas {
    pub work: Vec<u8>,
    pub course: Vec<u16>,
}

impl Areas {
    pub fn new() -> Self {
        Areas { work: vec![0; work_len(MOST_NODES, MOST_PROFILES)], course: vec![0; course_len(MOST_NODES, MOST_PROFILES)] }
    }
}

pub fn tables() {
    let mut areas = Areas::new();
    typical(&mut areas);
    let timed = random_rules(&mut areas);
    heaviest(&mut areas, &timed);
    shapes(&mut areas);
    early::table(&mut areas);
    by_size(&mut areas, &timed);
    building::tables(&mut areas, &timed);
}

/// A rule with the time of each implementation.
pub struct Timed {
    pub ours: Duration,
    pub theirs: Duration,
    pub rule: Vec<u8>,
}

/// The times of the proved library and of the independent implementation.
pub fn decision(areas: &mut Areas, rule: &[u8], n: usize, m: usize) -> (Duration, Duration) {
    let (work, course) = (&mut areas.work[..work_len(n, m)], &mut areas.course[..course_len(n, m)]);
    let ours = time(|| {
        black_box(yuktrob::decide(black_box(rule), n, m, work, course)).ok();
    });
    let theirs = time(|| plain(rule, n, m, work));
    (ours, theirs)
}

/// A decision of the independent implementation, which leaves the work area zero as the proved one does.
fn plain(rule: &[u8], n: usize, m: usize, work: &mut [u8]) {
    black_box(decide(black_box(rule), n, m, work.len(), n + m));
    work.fill(0);
    black_box(work);
}

fn typical(areas: &mut Areas) {
    head("Decision, typical rules, N = 256, M = 300", &BOTH);
    let (s0, s1): (&[u8], &[u8]) = (&[3, 0], &[3, 1]);
    let rules: [(&str, Vec<u8>); 7] = [
        ("true", vec![1]),
        ("F s0", eventually(s0)),
        ("G F s0", infinitely_often(s0)),
        ("s0 U s1 and G F s0", [&[7][..], &until(s0, s1), &infinitely_often(s0)].concat()),
        ("case H", vec![10, 7, 3, 0, 7, 8, 4, 0, 8, 8, 5, 0]),
        ("G (not s0 or G not s14)", always(&[&[6, 4, 0][..], &always(&[4, 14])].concat())),
        ("G F s14 and G F s15", [&[7][..], &infinitely_often(&[3, 14]), &infinitely_often(&[3, 15])].concat()),
    ];
    for (name, rule) in &rules {
        let (ours, theirs) = decision(areas, rule, 256, 300);
        row(name, ours, theirs);
    }
}

/// Each of 10,000 random rules once, the heaviest last.
pub fn random_rules(areas: &mut Areas) -> Vec<Timed> {
    let mut random = Random::new(7);
    let mut timed = Vec::new();
    for _ in 0..10_000 {
        let size = 1 + random.below(47);
        let rule = random.rule(size);
        let (work, course) = (&mut areas.work[..], &mut areas.course[..]);
        let ours = once(|| {
            black_box(yuktrob::decide(&rule, MOST_NODES, MOST_PROFILES, work, course)).ok();
        });
        let theirs = once(|| plain(&rule, MOST_NODES, MOST_PROFILES, work));
        timed.push(Timed { ours, theirs, rule });
    }
    timed.sort_by_key(|t| t.ours);
    timed
}

/// The verdict of the independent implementation with the largest room.
fn settled(rule: &[u8]) -> Verdict {
    decide(rule, MOST_NODES, MOST_PROFILES, work_len(MOST_NODES, MOST_PROFILES), course_len(MOST_NODES, MOST_PROFILES))
}

fn heaviest(areas: &mut Areas, timed: &[Timed]) {
    head("Decision, N = 1,024, M = 4,096: the ten heaviest of 10,000 random rules, and the sum over all of them", &BOTH);
    for Timed { rule, .. } in timed.iter().rev().take(10) {
        let (ours, theirs) = decision(areas, rule, MOST_NODES, MOST_PROFILES);
        let sizes = match settled(rule) {
            Verdict::Met { nodes, profiles, .. } => format!("MET, K {nodes}, profiles {profiles}"),
            Verdict::Not { nodes, profiles } => format!("NOT, K {nodes}, profiles {profiles}"),
            Verdict::Refused(k) => format!("refused {k}"),
            Verdict::Unread(_) => "unread".into(),
        };
        row(&format!("{} bytes, {sizes}", rule.len()), ours, theirs);
    }
    row("all 10,000", timed.iter().map(|t| t.ours).sum(), timed.iter().map(|t| t.theirs).sum());
}

/// The worst ratios found among 18,000 random rules that are G of a conjunction of ors, of signals and nexts, and of further signals; the
/// last two among 2,000 of such ors without further signals.
const FOUND: [&str; 5] = [
    "0a0707060300080408070603010804010706030208040a0706030308040307060304070304080404070607030504020804050706070306030808040607030a030d080500",
    "0a0707060703000403080400070603010804010706070302040c08040207060303080403070603040804040706030507030008040507060306080303030c080500",
    "0a07070603000804050706030108040b070603020804020706030308040b070603040804060706030508030f0706030608040b07040907030f07030c030b080500",
    "0a0707070707070706040008040206070303080301070401040106080302080302060704020403040106080301080300060303030306080402070403080402080500",
    "0a070707070707070608040107030008030106040008030006080301080401060804000400060301040006080301080300060804000301080500",
];

/// Rules of one shape with their names.
pub fn shaped() -> [(&'static str, Vec<u8>); 15] {
    let signal_or = |j: u8, limit: u8, part: Vec<u8>| if j < limit { part } else { vec![2] };
    [
        ("F of 3 signals, all", each(3, 7, |j| eventually(&[3, j]))),
        ("F of 5 signals, all", each(5, 7, |j| eventually(&[3, j]))),
        ("F of 7 signals, all", each(7, 7, |j| eventually(&[3, j]))),
        ("G F of 3 signals, all", each(3, 7, |j| infinitely_often(&[3, j]))),
        ("G of one of 12 signals", always(&each(13, 6, |j| signal_or(j, 12, vec![3, j])))),
        ("G of one of 11 signals next", always(&each(12, 6, |j| signal_or(j, 11, vec![8, 3, j])))),
        ("G of each of 4 signals or its absence next", each_or_absent_next(4)),
        ("G of each of 7 signals or its absence next", each_or_absent_next(7)),
        ("G of each of 9 signals or true next", always(&each(9, 7, |j| vec![6, 3, j, 8, 1]))),
        ("G of a signal or its absence 11 places on", or_absent_later(11)),
        ("G of 7 ors with nexts and of signals, found: K 97, profiles 360", written(FOUND[0])),
        ("G of 7 ors with nexts and of signals, found: K 49, profiles 198", written(FOUND[1])),
        ("G of 7 ors with nexts and of signals, found: K 129, profiles 864", written(FOUND[2])),
        ("G of 7 ors of signals and nexts, found: K 17, profiles 0", written(FOUND[3])),
        ("G of 7 ors of signals and nexts, found: K 41, profiles 0", written(FOUND[4])),
    ]
}

fn shapes(areas: &mut Areas) {
    head("Decision, N = 1,024, M = 4,096: rules of one shape", &BOTH);
    for (name, rule) in &shaped() {
        let (ours, theirs) = decision(areas, rule, MOST_NODES, MOST_PROFILES);
        row(name, ours, theirs);
    }
}

fn by_size(areas: &mut Areas, timed: &[Timed]) {
    head("Decision by size, N = 1,024, M = 4,096: the median rule of those that need about as many profiles", &BOTH);
    let sizes = |rule: &[u8]| match settled(rule) {
        Verdict::Met { nodes, profiles, .. } | Verdict::Not { nodes, profiles } => Some((nodes, profiles)),
        _ => None,
    };
    for near in [10, 30, 100, 300, 1000, 3000] {
        let group: Vec<_> = timed
            .iter()
            .filter_map(|t| sizes(&t.rule).map(|(k, p)| (k, p, &t.rule)))
            .filter(|(_, p, _)| p * 4 >= near * 3 && p * 4 <= near * 5)
            .collect();
        if let Some((k, p, rule)) = group.get(group.len() / 2) {
            let (ours, theirs) = decision(areas, rule, MOST_NODES, MOST_PROFILES);
            row(&format!("K {k}, profiles {p}"), ours, theirs);
        }
    }
}
