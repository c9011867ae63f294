//! The independent implementation's two methods for truth say the same, and both say what documents 01 and 02 give.

use yuktrob_plain::random::{nesting, Random};
use yuktrob_plain::reading::{read, Command};
use yuktrob_plain::truth::{by_laps, by_rounds, Truth};

fn same(rule: &[u8], places: &[u16], lead_len: usize) -> Truth {
    let told = by_laps(rule, places, lead_len, places.len());
    assert_eq!(told, by_rounds(rule, places, lead_len, places.len()), "{rule:02x?} on {places:04x?} lead-in {lead_len}");
    told
}

#[test]
fn examples() {
    let eventually = [9, 6, 3, 0, 8, 5, 0];
    assert_eq!(same(&eventually, &[0x4000, 0x4001], 1), Truth::Told(true, vec![27, 31]));
    assert_eq!(same(&eventually, &[0x4000], 0), Truth::Told(false, vec![0]));
    assert_eq!(same(&eventually, &[0x4000, 0x4000, 0x4001], 2), Truth::Told(true, vec![27, 27, 31]));
    assert_eq!(same(&[9, 7, 3, 0, 8, 5, 0], &[0x4001], 0), Truth::Told(false, vec![4]));
}

#[test]
fn a_place_has_one_scale_flag() {
    assert_eq!(same(&[1], &[0x4000, 0x8000, 0x7fff, 0xbfff], 0), Truth::Told(true, vec![1; 4]));
    for places in [[0x0000, 0x4000], [0x8000, 0xc000], [0x3fff, 0xffff]] {
        assert_eq!(same(&[1], &places, 1), Truth::Refused(19), "{places:04x?}");
    }
}

/// 19 comes behind reading, 16 and 17, and before 18.
#[test]
fn refusals_in_order() {
    let refused = |rule: &[u8], places: &[u16], lead_len, room| match by_laps(rule, places, lead_len, room) {
        Truth::Unread(why) => why.number,
        Truth::Refused(number) => number,
        Truth::Told(..) => 0,
    };
    assert_eq!(refused(&[1, 1], &[0], 0, 1), 9);
    assert_eq!(refused(&[1], &[0], 1, 0), 16);
    assert_eq!(refused(&[1], &[0; 8193], 0, 0), 17);
    assert_eq!(refused(&[1], &[0; 8192], 0, 0), 19);
    assert_eq!(refused(&[1], &[0x4000; 8192], 0, 8191), 18);
    assert_eq!(refused(&[1], &[0x4000; 8192], 0, 8192), 0);
}

fn fixpoints(entries: &[Command]) -> usize {
    entries.iter().filter(|c| matches!(c, Command::Least(_) | Command::Greatest(_))).count()
}

#[test]
fn crossing_rules() {
    let mut random = Random::new(11);
    let (mut met, mut alternating, mut by_depth) = (0, 0, [0; 8]);
    for _ in 0..20_000 {
        let rule = random.crossing();
        let entries = read(&rule).expect("a rule");
        assert!(nesting(&entries).crossing);
        alternating += nesting(&entries).alternating as u32;
        by_depth[fixpoints(&entries)] += 1;
        let n = 1 + random.below(40);
        let (places, lead_len) = (random.course(n, 0), random.below(n));
        met += matches!(same(&rule, &places, lead_len), Truth::Told(true, _)) as u32;
    }
    // so that the draws are worth something
    assert!((5_000..15_000).contains(&met), "{met} of 20,000 are met");
    assert!((10_000..19_000).contains(&alternating), "{alternating} of 20,000 alternate");
    assert!(by_depth[2..].iter().all(|&n| n > 500), "by the number of fixpoints: {by_depth:?}");
}

#[test]
fn nestings() {
    let of = |rule: &[u8]| nesting(&read(rule).expect("a rule"));
    // always, sooner or later: the inner fixpoint has only its own variable
    assert!(!of(&[10, 7, 9, 6, 3, 0, 8, 5, 0, 8, 5, 0]).crossing);
    // case J, and with two least fixpoints
    assert!(of(&[10, 9, 6, 7, 3, 0, 8, 5, 1, 8, 5, 0]).alternating);
    let alike = of(&[9, 9, 6, 7, 3, 0, 8, 5, 1, 8, 5, 0]);
    assert!(alike.crossing && !alike.alternating);
}

#[test]
fn any_rules() {
    let mut random = Random::new(12);
    for _ in 0..20_000 {
        let size = 1 + random.below(47);
        let (rule, n) = (random.rule(size), 1 + random.below(40));
        let (places, lead_len) = (random.course(n, 0), random.below(n));
        same(&rule, &places, lead_len);
    }
}

/// A long course that is the same as a short one, its loop unrolled into the lead-in and the new loop: which short place each place is, and
/// the length of the lead-in.
fn unrolled(n: usize, lead_len: usize, laps: usize, around: usize) -> (Vec<usize>, usize) {
    let once: Vec<usize> = (lead_len..n).collect();
    let all = [(0..lead_len).collect(), once.repeat(laps + around)].concat();
    (all, lead_len + laps * once.len())
}

#[test]
fn a_loop_that_is_unrolled_changes_nothing() {
    let mut random = Random::new(13);
    for _ in 0..400 {
        let (rule, n) = (random.crossing(), 1 + random.below(40));
        let (short, lead_len) = (random.course(n, 0), random.below(n));
        let Truth::Told(met, words) = by_rounds(&rule, &short, lead_len, n) else { panic!("{rule:02x?} is refused") };
        let (from, long_lead_len) = unrolled(n, lead_len, random.below(20), 1 + random.below(20));
        let long: Vec<u16> = from.iter().map(|&i| short[i]).collect();
        let expected = from.iter().map(|&i| words[i]).collect();
        assert_eq!(by_laps(&rule, &long, long_lead_len, long.len()), Truth::Told(met, expected), "{rule:02x?} on {short:04x?}");
    }
}
