//! Sets of rules that are decided at once: the vectors of request T-06, refusals in order and what is left in the areas, through both ways of
//! the independent implementation and through the proved library; that both ways come to the same; and that what is told to clash is what
//! trying every subset finds.

use yuktrob_plain::compared::proved_set;
use yuktrob_plain::hex;
use yuktrob_plain::random::Random;
use yuktrob_plain::set::{conjunction, decide_set, decide_set_by_pair, without, Set, SetVerdict};
use yuktrob_plain::sheet::{record, rules};

/// What areas hold beforehand.
const WORK_BEFORE: u8 = 0xa5;
const COURSE_BEFORE: u16 = 0x5a5a;

/// Either implementation, the independent one in either way.
type Decide = fn(&[u8], usize, usize, &mut [u8], &mut [u16]) -> SetVerdict;

const ALL: [Decide; 3] = [decide_set, decide_set_by_pair, proved_set];

/// Numbers, each behind a blank.
fn listed(positions: &[usize]) -> String {
    positions.iter().map(|position| format!(" {position}")).collect()
}

fn told(verdict: &SetVerdict) -> String {
    match verdict {
        SetVerdict::Damaged(place) => format!("REFUSED 30 at {place}"),
        SetVerdict::Miscounted => "REFUSED 34".into(),
        SetVerdict::Unread { position, why } => {
            let fixpoint = why.fixpoint.map_or(String::new(), |fixpoint| format!(" from {fixpoint}"));
            format!("REFUSED {} at {}{fixpoint} of {position}", why.number, why.place)
        }
        SetVerdict::Refused(number) => format!("REFUSED {number}"),
        SetVerdict::Undecided(tried) => format!("REFUSED 35{}", listed(tried)),
        SetVerdict::Met { lead_len, loop_len, nodes, profiles, course } => {
            course.iter().fold(format!("MET {lead_len} {loop_len} {nodes} {profiles}"), |told, place| format!("{told} {place:04x}"))
        }
        SetVerdict::Not { nodes, profiles, clash } => format!("NOT {nodes} {profiles}{}", listed(clash)),
    }
}

/// In areas of these lengths the answer is as expected, of the work area so many bytes are zero afterwards, the course stands at the
/// beginning of its buffer, and all else is as it was.
fn check(decide: Decide, sheet: &[u8], (n, m): (usize, usize), lent: (usize, usize), expected: &str, zeros: usize) {
    let (mut work, mut course) = (vec![WORK_BEFORE; lent.0], vec![COURSE_BEFORE; lent.1]);
    let verdict = decide(sheet, n, m, &mut work, &mut course);
    assert_eq!(told(&verdict), expected, "{sheet:02x?} {n} {m} {lent:?}");
    let places = if let SetVerdict::Met { course, .. } = &verdict { course } else { &Vec::new() };
    assert!(work == [vec![0; zeros], vec![WORK_BEFORE; lent.0 - zeros]].concat(), "{sheet:02x?} {n} {m} {lent:?}: work area");
    assert_eq!(course, [&places[..], &vec![COURSE_BEFORE; lent.1 - places.len()]].concat(), "{sheet:02x?} {n} {m} {lent:?}");
}

/// How many bytes of the work area are to be zero, by the outcome; 35 is through 3 or 4 where the conjunction is too large.
fn zeros(sheet: &[u8], asked: usize, expected: &str) -> usize {
    let too_large = |sheet: &[u8]| yuktrob_plain::reading::read(&conjunction(&rules(sheet))).is_err();
    match expected.split(' ').take(2).collect::<Vec<_>>()[..] {
        ["MET" | "NOT", _] => asked,
        ["REFUSED", "35"] if !too_large(sheet) => asked,
        _ => 0,
    }
}

/// T-06's vectors, `set | SHEET | N M | OUTCOME`, which stand among the test runner's lines between a head and the next comment.
#[test]
fn vectors() {
    let lines = std::fs::read_to_string(concat!(env!("CARGO_MANIFEST_DIR"), "/../../crates/vectors/stdin")).expect("the runner's lines");
    let mut run = 0;
    for line in lines.lines().skip_while(|line| !line.starts_with("# set | ")).skip(1).take_while(|line| !line.starts_with('#')) {
        let ["set", sheet, room, expected] = line.split(" | ").collect::<Vec<_>>()[..] else { panic!("{line}") };
        let sheet = if sheet == "-" { Vec::new() } else { hex::bytes(sheet) };
        let (n, m) = room.split_once(' ').expect("a room for nodes and one for profiles");
        let (n, m): (usize, usize) = (n.parse().expect("a number"), m.parse().expect("a number"));
        let asked = if n <= 1024 && m <= 4096 { (8 * n + 192 * m, n + m) } else { (0, 0) };
        for decide in ALL {
            check(decide, &sheet, (n, m), asked, expected, zeros(&sheet, asked.0, expected));
            check(decide, &sheet, (n, m), (asked.0 + 40, asked.1 + 4), expected, zeros(&sheet, asked.0, expected));
        }
        run += 1;
    }
    assert!(run >= 700, "only {run} lines of the request");
}

/// A sheet of these rules, with numbers that rise by 100 from 7 on.
fn sheet(rules: &[&[u8]]) -> Vec<u8> {
    rules.iter().enumerate().flat_map(|(i, rule)| record(100 * i as u16 + 7, rule)).collect()
}

/// Signals 0 and 1, present and absent: the first and the third cannot be met together, nor can the second and the fourth.
const PAIRS: [&[u8]; 4] = [&[3, 0], &[3, 1], &[4, 0], &[4, 1]];

#[test]
fn refusals_in_order() {
    for decide in ALL {
        let check = |sheet: &[u8], room: (usize, usize), lent: (usize, usize), expected: &str, zeros: usize| {
            check(decide, sheet, room, lent, expected, zeros);
        };
        let nine = sheet(&[&[1][..]; 9]);
        let cut = &nine[..nine.len() - 1];
        let unread = sheet(&[&[1], &[1, 1], &[], &[8, 9, 5, 0]]);
        // 30, 34 and reading, whatever the room
        for room in [(0, 0), (1, 1), (1025, 4097)] {
            for lent in [(0, 0), (1000, 10)] {
                check(cut, room, lent, "REFUSED 30 at 44", 0);
                check(&nine, room, lent, "REFUSED 34", 0);
                check(&[], room, lent, "REFUSED 34", 0);
                check(&unread, room, lent, "REFUSED 9 at 1 of 1", 0);
                check(&unread[..9], room, lent, "REFUSED 30 at 9", 0);
            }
        }
        check(&sheet(&[&[1], &[8, 9, 5, 0]]), (0, 0), (0, 0), "REFUSED 8 at 3 from 1 of 1", 0);
        check(&sheet(&[&[1], &[1], &[]]), (0, 0), (0, 0), "REFUSED 1 at 0 of 2", 0);
        let pairs = sheet(&PAIRS);
        for room in [(0, 4), (2, 0), (1025, 4), (2, 4097), (usize::MAX, usize::MAX)] {
            check(&pairs, room, (9000, 2000), "REFUSED 11", 0);
        }
        check(&pairs, (2, 4), (783, 5), "REFUSED 12", 0);
        check(&pairs, (2, 4), (784, 5), "REFUSED 13", 0);
        check(&pairs, (2, 4), (784, 6), "NOT 1 0 0 2", 784);
        check(&pairs, (2, 4), (790, 9), "NOT 1 0 0 2", 784);
        // the four and the first three cannot be met, which takes one node; the first two can, which takes two
        check(&pairs, (1, 4), (800, 9), "REFUSED 35 0 1", 776);
        check(&sheet(&PAIRS[..2]), (1, 4), (800, 9), "REFUSED 35 0 1", 776);
        check(&sheet(&PAIRS[..2]), (2, 1), (800, 9), "MET 1 1 2 1 4003 4000", 208);
    }
}

/// Each limit of reading, at its edge and beyond, by two rules that are within it; 35 through 3 or 4 writes nothing.
#[test]
fn a_conjunction_that_is_too_large() {
    let joined = |command: u8, count: usize| [vec![command; count], vec![1; count + 1]].concat();
    let before = |command: u8, count: usize, rule: &[u8]| [&vec![command; count], rule].concat();
    let half = joined(7, 11);
    // 23 commands, an and and 24 are 48; 12 ors; 12 nexts; 7 fixpoints
    let cases = [
        (half.clone(), before(8, 1, &half), before(8, 2, &half)),
        (joined(6, 5), joined(6, 7), joined(6, 8)),
        (before(8, 4, &[1]), before(8, 8, &[1]), before(8, 9, &[1])),
        (before(10, 3, &[1]), before(9, 4, &[1]), before(9, 5, &[1])),
    ];
    for decide in ALL {
        for (one, within, beyond) in &cases {
            check(decide, &sheet(&[one, beyond]), (64, 40), (9000, 200), "REFUSED 35 0 1", 0);
            check(decide, &sheet(&[beyond, one]), (64, 40), (9000, 200), "REFUSED 35 0 1", 0);
            let (mut work, mut course) = (vec![0; 9000], vec![0; 200]);
            assert!(matches!(decide(&sheet(&[one, within]), 64, 40, &mut work, &mut course), SetVerdict::Met { .. }), "{one:02x?}");
        }
    }
}

#[test]
fn which_rules_clash() {
    let (f, g, always_not): (&[u8], &[u8], &[u8]) = (&[9, 6, 3, 0, 8, 5, 0], &[10, 7, 3, 0, 8, 5, 0], &[10, 7, 4, 0, 8, 5, 0]);
    let cases: [(&[&[u8]], &str); 12] = [
        (&[&[1]], "MET 1 1 2 1 4000 4000"),
        // one rule that cannot be met: no rules at all can
        (&[&[2]], "NOT 1 0 0"),
        (&[&[1], &[2]], "NOT 1 0 1"),
        (&[&[2], &[1]], "NOT 1 0 0"),
        // of two that cannot be met the one that is left out last
        (&[&[2], &[2]], "NOT 1 0 0"),
        (&[&[3, 0], &[2], &[4, 0]], "NOT 1 0 1"),
        (&[&[3, 0], &[4, 0], &[2]], "NOT 1 0 0 1"),
        (&PAIRS, "NOT 1 0 0 2"),
        (&[&[3, 1], &[3, 0], &[3, 2], &[4, 2], &[4, 0], &[4, 1]], "NOT 1 0 2 3"),
        (&[f, &[3, 1], always_not], "NOT 2 1 0 2"),
        (&[g, &[3, 1], f], "MET 1 1 3 3 4003 4001"),
        // each two of the three can be met
        (&[&[6, 3, 0, 3, 1], &[4, 0], &[4, 1]], "NOT 1 0 0 1 2"),
    ];
    for decide in ALL {
        for (rules, expected) in cases {
            check(decide, &sheet(rules), (64, 40), (8192, 104), expected, 8192);
        }
        // eight rules, and the first and the last clash
        let mut eight: Vec<Vec<u8>> = (0..7).map(|signal| vec![3, signal]).collect();
        eight.push(vec![4, 0]);
        check(decide, &sheet(&eight.iter().map(Vec::as_slice).collect::<Vec<_>>()), (64, 40), (8192, 104), "NOT 1 0 0 7", 8192);
    }
}

/// The subset told is the first of all that cannot be met, and no rule of it can be left out.
#[test]
fn clashes_by_trying_every_subset() {
    let mut random = Random::new(6);
    let (mut clashes, mut several) = (0, 0);
    let (mut work, mut course) = (vec![0; 8 * 1024 + 192 * 4096], vec![0; 1024 + 4096]);
    for _ in 0..3000 {
        let sheet = random.set();
        let SetVerdict::Not { clash, .. } = decide_set(&sheet, 1024, 4096, &mut work, &mut course) else { continue };
        let set = Set { rules: rules(&sheet), n: 1024, m: 4096 };
        assert_eq!(set.can_be_met(&clash), Some(false), "{sheet:02x?} {clash:?}");
        for &position in &clash {
            assert_ne!(set.can_be_met(&without(&clash, position)), Some(false), "{sheet:02x?} {clash:?} {position}");
        }
        if let Some(first) = set.first_unmet() {
            assert_eq!(first, clash, "{sheet:02x?}");
            clashes += 1;
            several += (clash.len() > 2) as u32;
        }
    }
    assert!(clashes > 500 && several > 100, "{clashes} clashes, {several} of more than two rules");
}

/// Conjunctions decided at once, and by building and search: the answer and both areas, in areas that are now and then longer than is asked
/// or too short.
#[test]
fn both_ways_agree() {
    let mut random = Random::new(8);
    let mut told = std::collections::HashMap::new();
    for _ in 0..4000 {
        let sheet = random.set();
        let (n, m) = [(1024, 4096), (256, 300), (64, 40), (5, 8), (3, 2), (1, 4)][random.below(6)];
        let (work, course) = (8 * n + 192 * m + random.below(6), n + m + random.below(6));
        let lent = (vec![WORK_BEFORE; work - random.one_in(8) as usize], vec![COURSE_BEFORE; course - random.one_in(8) as usize]);
        let [at_once, by_pair] = [decide_set, decide_set_by_pair].map(|decide| {
            let (mut work, mut course) = lent.clone();
            (decide(&sheet, n, m, &mut work, &mut course), work, course)
        });
        assert_eq!(at_once.0, by_pair.0, "{sheet:02x?} {n} {m}");
        assert!(at_once == by_pair, "{sheet:02x?} {n} {m}: areas");
        *told.entry(std::mem::discriminant(&at_once.0)).or_insert(0) += 1;
    }
    assert!(told.len() == 7 && told.values().all(|&times| times > 40), "{told:?}");
}
