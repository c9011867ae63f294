//! The independent implementation's decision of safety rules: the vectors of request T-12, its refusals in order, what it leaves in its
//! areas; and beside trying all that is as short, the general decision and truth on random rules.

use yuktrob_plain::decision::{decide, Verdict};
use yuktrob_plain::hex::bytes;
use yuktrob_plain::least::{first, runs_on, shortest, Course};
use yuktrob_plain::random::Random;
use yuktrob_plain::reading::read;
use yuktrob_plain::safety::{decide_safety, SafetyVerdict};
use yuktrob_plain::truth::{by_laps, Truth};

/// What areas hold beforehand.
const WORK_BEFORE: u8 = 0xa5;
const COURSE_BEFORE: u16 = 0x5a5a;

/// The verdict, in areas of these lengths, and the areas behind it.
fn decided(rule: &[u8], n: usize, work: usize, course: usize) -> (SafetyVerdict, Vec<u8>, Vec<u16>) {
    let (mut work, mut course) = (vec![WORK_BEFORE; work], vec![COURSE_BEFORE; course]);
    (decide_safety(rule, n, &mut work, &mut course), work, course)
}

/// The verdict with room for 1,024 nodes.
fn with_most_room(rule: &[u8]) -> SafetyVerdict {
    decided(rule, 1024, 8192, 1024).0
}

fn told(verdict: &SafetyVerdict) -> String {
    match verdict {
        SafetyVerdict::Unread(why) => {
            let fixpoint = why.fixpoint.map_or(String::new(), |fixpoint| format!(" from {fixpoint}"));
            format!("REFUSED {} at {}{fixpoint}", why.number, why.place)
        }
        SafetyVerdict::Least(place) => format!("REFUSED 43 at {place}"),
        SafetyVerdict::Refused(number) => format!("REFUSED {number}"),
        SafetyVerdict::Met { lead_len, loop_len, nodes, course } => {
            course.iter().fold(format!("MET {lead_len} {loop_len} {nodes}"), |told, place| format!("{told} {place:04x}"))
        }
        SafetyVerdict::Not { nodes } => format!("NOT {nodes}"),
    }
}

/// Areas that held the pattern: bytes are zero as far as room for n asks behind MET, NOT and 14, places are written by MET alone.
fn check_areas(verdict: &SafetyVerdict, n: usize, work: &[u8], course: &[u16]) {
    let zeros = match verdict {
        SafetyVerdict::Met { .. } | SafetyVerdict::Not { .. } | SafetyVerdict::Refused(14) => 8 * n,
        _ => 0,
    };
    let places = if let SafetyVerdict::Met { course, .. } = verdict { course } else { &Vec::new() };
    assert_eq!(work, [vec![0; zeros], vec![WORK_BEFORE; work.len() - zeros]].concat(), "{verdict:?}");
    assert_eq!(course, [&places[..], &vec![COURSE_BEFORE; course.len() - places.len()]].concat(), "{verdict:?}");
}

/// T-12's vectors, `safety | RULE | N | OUTCOME`, which stand among the test runner's lines between a head and the next comment.
#[test]
fn vectors() {
    let lines = std::fs::read_to_string(concat!(env!("CARGO_MANIFEST_DIR"), "/../../crates/vectors/stdin")).expect("the runner's lines");
    let head = "# OP | formula bytes | N | MET lead-in loop K";
    let mut run = 0;
    for line in lines.lines().skip_while(|line| !line.starts_with(head)).skip(1).take_while(|line| !line.starts_with('#')) {
        let ["safety", rule, n, expected] = line.split(" | ").collect::<Vec<_>>()[..] else { panic!("{line}") };
        let n: usize = n.parse().expect("a room for nodes");
        let lent = if n <= 1024 { n } else { 0 };
        let (verdict, work, course) = decided(&bytes(rule), n, 8 * lent, lent);
        assert_eq!(told(&verdict), expected, "{line}");
        check_areas(&verdict, n, &work, &course);
        run += 1;
    }
    assert_eq!(run, 1200, "lines of the request");
}

/// Always signal 0, which has two nodes.
const ALWAYS: [u8; 7] = [10, 7, 3, 0, 8, 5, 0];

#[test]
fn refusals_in_order() {
    let check = |rule: &[u8], n: usize, lent: (usize, usize), expected: &str| {
        let (verdict, work, course) = decided(rule, n, lent.0, lent.1);
        assert_eq!(told(&verdict), expected, "{rule:02x?} {n} {lent:?}");
        check_areas(&verdict, n, &work, &course);
    };
    check(&[], 0, (0, 0), "REFUSED 1 at 0");
    check(&[9, 1, 1], 0, (0, 0), "REFUSED 9 at 2");
    check(&[9, 5, 0], 0, (0, 0), "REFUSED 8 at 2 from 0");
    check(&[9, 1], 0, (0, 0), "REFUSED 43 at 0");
    for n in [0, 1025, usize::MAX] {
        check(&ALWAYS, n, (0, 0), "REFUSED 11");
        check(&ALWAYS, n, (9000, 2000), "REFUSED 11");
    }
    check(&ALWAYS, 1, (7, 0), "REFUSED 12");
    check(&ALWAYS, 1, (8, 0), "REFUSED 13");
    check(&ALWAYS, 1, (8, 1), "REFUSED 14");
    check(&ALWAYS, 1, (30, 5), "REFUSED 14");
    check(&ALWAYS, 2, (15, 1), "REFUSED 12");
    check(&ALWAYS, 2, (16, 1), "REFUSED 13");
    check(&ALWAYS, 2, (16, 2), "MET 1 1 2 4001 4001");
    check(&ALWAYS, 1024, (9000, 2000), "MET 1 1 2 4001 4001");
    check(&[2], 1, (8, 1), "NOT 1");
    check(&[2], 1, (30, 5), "NOT 1");
}

/// 43 has the place of the first byte 09 that is a command, in the order of the bytes.
#[test]
fn the_first_least_fixpoint() {
    let table: [(&[u8], usize); 6] = [
        (&[9, 9, 1], 0),
        (&[10, 8, 9, 1], 2),
        (&[7, 3, 9, 9, 1], 3),
        (&[7, 4, 9, 7, 3, 9, 9, 1], 6),
        (&[7, 10, 8, 5, 0, 10, 9, 1], 6),
        // of two operands the left one first, though the right one has one too
        (&[6, 10, 9, 1, 9, 1], 2),
    ];
    for (rule, place) in table {
        assert_eq!(with_most_room(rule), SafetyVerdict::Least(place), "{rule:02x?}");
    }
    for rule in [&[3, 9][..], &[10, 7, 4, 9, 8, 5, 0]] {
        assert!(matches!(with_most_room(rule), SafetyVerdict::Met { .. }), "{rule:02x?}");
    }
}

/// Where byte 9 is a command, by a look at the bytes alone.
fn least_in(rule: &[u8]) -> Option<usize> {
    let mut at = 0;
    while at < rule.len() && rule[at] != 9 {
        at += if (3..=5).contains(&rule[at]) { 2 } else { 1 };
    }
    (at < rule.len()).then_some(at)
}

#[test]
fn examples() {
    let table: [(&[u8], &str); 9] = [
        (&[1], "MET 1 1 2 4000 4000"),
        // at every third place s0: three nodes beside the root
        (&[10, 7, 3, 0, 8, 8, 8, 5, 0], "MET 1 3 4 4001 4000 4000 4001"),
        // s0 at every second place and s1 at every third: the loop has six places
        (&[7, 10, 7, 3, 0, 8, 8, 5, 0, 10, 7, 3, 1, 8, 8, 8, 5, 0], "MET 1 6 7 4003 4000 4001 4002 4001 4000 4003"),
        // from the third place on always s0
        (&[8, 8, 10, 7, 3, 0, 8, 5, 0], "MET 3 1 4 4000 4000 4001 4001"),
        // whenever s0 then s0 two places on; s0 now and not at the next place, where the promise is kept too: then each place has it
        (&[7, 3, 0, 7, 8, 4, 0, 10, 7, 6, 4, 0, 8, 8, 3, 0, 8, 5, 0], "MET 2 1 5 4001 4000 4001"),
        // always s0, and three places on not
        (&[7, 10, 7, 3, 0, 8, 5, 0, 8, 8, 8, 4, 0], "NOT 4"),
        // X G (false or s0), or X G s1: the lead-in's pick words come before the loop's
        (&[6, 8, 10, 7, 6, 2, 3, 0, 8, 5, 0, 8, 10, 7, 3, 1, 8, 5, 0], "MET 2 1 5 4000 4001 4001"),
        // (false or s1) or s0: the outer or is number 0
        (&[6, 6, 2, 3, 1, 3, 0], "MET 1 1 2 4001 4000"),
        // a loop of two places near, a loop of one place far: the shorter loop, whatever the lead-in
        (&[6, 10, 7, 3, 0, 8, 8, 5, 0, 8, 8, 8, 1], "MET 4 1 7 4000 4000 4000 4000 4000"),
    ];
    for (rule, expected) in table {
        assert_eq!(told(&with_most_room(rule)), expected, "{rule:02x?}");
    }
}

/// The verdict must be what the runs of the graph say: that some go on for ever, and that the course is the first of all as short.
fn check_by_trying(rule: &[u8], verdict: &SafetyVerdict) -> bool {
    const MOST: usize = 20_000;
    let entries = read(rule).expect("a rule");
    let Some(runs_on) = runs_on(&entries, MOST) else { return false };
    assert_eq!(runs_on, matches!(verdict, SafetyVerdict::Met { .. }), "{rule:02x?}: {verdict:?}");
    let Some(all) = shortest(&entries, MOST) else { return false };
    let least = first(&all, Course::words);
    let SafetyVerdict::Met { lead_len, loop_len, nodes, course } = verdict else { panic!("{rule:02x?}: {verdict:?}") };
    assert_eq!((*lead_len, *loop_len, course), (least.lead.len(), least.around.len(), &least.places()), "{rule:02x?}");
    assert!(lead_len + loop_len <= *nodes, "{rule:02x?}: {verdict:?}");
    true
}

/// What the general decision says, if it has enough room for profiles with so many.
fn general(rule: &[u8], m: usize) -> Option<SafetyVerdict> {
    match decide(rule, 1024, m, 8 * 1024 + 192 * m, 1024 + m) {
        Verdict::Met { lead_len, loop_len, nodes, course, .. } => Some(SafetyVerdict::Met { lead_len, loop_len, nodes, course }),
        Verdict::Not { nodes, .. } => Some(SafetyVerdict::Not { nodes }),
        other => {
            assert_eq!(other, Verdict::Refused(15), "{rule:02x?}");
            None
        }
    }
}

/// What random rules come to: MET, with a loop of several steps, NOT, held beside all that is as short, without a general verdict.
#[derive(Default)]
struct Counts {
    met: u32,
    later: u32,
    not: u32,
    tried: u32,
    beyond: u32,
}

impl Counts {
    fn check(&mut self, rule: &[u8]) {
        let verdict = with_most_room(rule);
        match &verdict {
            SafetyVerdict::Met { lead_len, loop_len, course, .. } => {
                self.met += 1;
                self.later += (*loop_len > 1) as u32;
                assert!(matches!(by_laps(rule, course, *lead_len, course.len()), Truth::Told(true, _)), "{rule:02x?} on {course:04x?}");
            }
            SafetyVerdict::Not { .. } => self.not += 1,
            _ => return assert_eq!(verdict, SafetyVerdict::Refused(14), "{rule:02x?}"),
        }
        self.tried += check_by_trying(rule, &verdict) as u32;
        match general(rule, 300) {
            Some(told) => assert_eq!(told, verdict, "{rule:02x?}"),
            None => self.beyond += 1,
        }
    }
}

#[test]
fn random_rules() {
    let (mut random, mut counts) = (Random::new(12), Counts::default());
    for _ in 0..3000 {
        counts.check(&random.safety());
    }
    // so that the draws are worth something
    let Counts { met, later, not, tried, beyond } = counts;
    assert!(met > 2000 && later > 300 && not > 300, "{met} MET, {later} with a loop of several steps, {not} NOT");
    assert!(tried > 1800 && beyond > 100, "{tried} held beside all as short, {beyond} without a general verdict");
}

#[test]
fn random_rules_with_least_fixpoints() {
    let mut random = Random::new(43);
    let mut refused = 0;
    for _ in 0..3000 {
        let size = 1 + random.below(40);
        let rule = random.rule(size);
        if read(&rule).is_ok() {
            let place = if let SafetyVerdict::Least(place) = with_most_room(&rule) { Some(place) } else { None };
            assert_eq!(place, least_in(&rule), "{rule:02x?}");
            refused += place.is_some() as u32;
        }
    }
    assert!(refused > 1000, "only {refused} are refused with 43");
}
