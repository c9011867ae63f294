//! The independent implementation's building and search: nodes with their order, what each leaves in its areas, and which nodes a search
//! takes for the rule's.

use yuktrob_plain::building::{build, search, Building};
use yuktrob_plain::decision::{decide, Verdict};
use yuktrob_plain::hex::bytes;

/// What an area holds beforehand.
const BEFORE: u8 = 0xa5;

/// Rules in hex, the room for nodes, and what building comes to: K and the nodes in hex, or the refusal.
const LINES: [(&str, usize, &str); 18] = [
    ("040f", 1024, "BUILT 2 1 0"),
    ("070a07040104000a0a0300", 1024, "BUILT 1 1"),
    ("0606070300010a04000808080400", 256, "BUILT 5 1 0 100 200 400"),
    ("070a0708030f030506090806030405000308", 40, "BUILT 5 1 210 10 0 200"),
    ("09060809090a07080907040e05030503040e", 1024, "BUILT 5 1 8 0 108 100"),
    ("0709080908070605010501050009080907080a06050103000300", 40, "BUILT 5 1 1008 8020 8028 28"),
    ("0a080a080a060606080a07080503080503050105010401", 256, "BUILT 6 1 4 10 200 0 5000"),
    ("09080a080705000a08090608090807050205010502", 7, "BUILT 7 1 4 10 110 910 2910 2110"),
    ("09080a06080607050105000a030f0a08090605020503", 8, "BUILT 7 1 4 20 2000 24 2004 0"),
    ("0909080609080807050205000501", 40, "BUILT 8 1 8 40 80 48 c0 88 c8"),
    ("0908070a080a08090705010503090609040e0703000501", 40, "BUILT 8 1 4 20 24 80 a0 a4 84"),
    ("06040a060204010501", 256, "REFUSED 9 at 7"),
    ("09090705010501", 40, "REFUSED 8 at 4 from 0"),
    ("0909070a070606050204000a060503050305010501", 1025, "REFUSED 8 at 8 from 0"),
    ("0300", 0, "REFUSED 11"),
    ("0300", 1025, "REFUSED 11"),
    ("0302", 1, "REFUSED 14"),
    ("0a06080609080908050005000400", 3, "REFUSED 14"),
];

/// What building comes to, in an area with room for n or none if n is out of range, and the area behind it.
fn built(rule: &[u8], n: usize) -> (String, Vec<u8>) {
    let mut work = vec![BEFORE; if n <= 1024 { 8 * n } else { 0 }];
    let told = match build(rule, n, &mut work) {
        Building::Unread(why) => {
            let fixpoint = why.fixpoint.map_or(String::new(), |fixpoint| format!(" from {fixpoint}"));
            format!("REFUSED {} at {}{fixpoint}", why.number, why.place)
        }
        Building::Refused(number) => format!("REFUSED {number}"),
        Building::Built(count) => {
            let (words, _) = work[..8 * count].as_chunks();
            words.iter().fold(format!("BUILT {count}"), |told, &word| format!("{told} {:x}", u64::from_le_bytes(word)))
        }
    };
    (told, work)
}

#[test]
fn nodes_and_refusals() {
    for (hex, n, expected) in LINES {
        let (told, work) = built(&bytes(hex), n);
        assert_eq!(told, expected, "{hex} {n}");
        let written = 8 * expected.split(' ').skip(2).count();
        let rest = if expected.starts_with("BUILT") || expected == "REFUSED 14" { 0 } else { BEFORE };
        assert!(work.iter().skip(written).all(|&byte| byte == rest), "{hex} {n}: {work:02x?}");
    }
}

#[test]
fn an_area_that_is_longer_or_too_short() {
    let rule = bytes(LINES[2].0);
    let mut work = [BEFORE; 50];
    assert_eq!(build(&rule, 5, &mut work[..39]), Building::Refused(12));
    assert_eq!(work, [BEFORE; 50]);
    assert_eq!(build(&rule, 5, &mut work), Building::Built(5));
    assert_eq!(work[40..], [BEFORE; 10]);
    assert_eq!(build(&rule, 4, &mut work), Building::Refused(14));
    assert_eq!((&work[..32], &work[40..]), (&[0; 32][..], &[BEFORE; 10][..]));
}

/// Infinitely often s0, which has three nodes and needs four profiles.
const OFTEN: [u8; 12] = [10, 7, 9, 6, 3, 0, 8, 5, 0, 8, 5, 0];

/// Areas for a search with room for n and m, the nodes of a rule built in the first; and how many these are.
fn areas(rule: &[u8], n: usize, m: usize) -> (Vec<u8>, Vec<u16>, usize) {
    let mut work = vec![BEFORE; 8 * n + 192 * m + 10];
    let Building::Built(count) = build(rule, n, &mut work) else { panic!("{rule:02x?}") };
    (work, vec![0x5a5a; n + m + 2], count)
}

#[test]
fn a_search_is_the_decision_and_keeps_the_nodes() {
    for (hex, ..) in &LINES[..11] {
        let rule = bytes(hex);
        for m in [1, 5, 40] {
            let (mut work, mut course, count) = areas(&rule, 8, m);
            let kept = work[..64].to_vec();
            let verdict = search(&rule, count, 8, m, &mut work, &mut course);
            assert_eq!(verdict, decide(&rule, 8, m, work.len(), course.len()), "{hex} {m}");
            assert_eq!(work, [kept, vec![0; 192 * m], vec![BEFORE; 10]].concat(), "{hex} {m}");
            let written = if let Verdict::Met { course, .. } = verdict { course } else { Vec::new() };
            assert!(course.starts_with(&written) && course[written.len()..].iter().all(|&place| place == 0x5a5a), "{hex} {m}");
        }
    }
}

/// The number that a search is refused with, which then has written nothing; 0 for a verdict.
fn refused(count: usize, n: usize, m: usize, work: &[u8], course: &[u16]) -> u8 {
    let (mut after, mut course_after) = (work.to_vec(), course.to_vec());
    match search(&OFTEN, count, n, m, &mut after, &mut course_after) {
        Verdict::Refused(number) => {
            assert!(number == 15 || (&after[..], &course_after[..]) == (work, course), "{count} {n} {m}");
            number
        }
        Verdict::Unread(why) => why.number,
        Verdict::Met { .. } | Verdict::Not { .. } => 0,
    }
}

#[test]
fn refusals_of_a_search_in_order() {
    let (mut work, course, _) = areas(&OFTEN, 4, 4);
    work[0] ^= 1;
    assert_eq!(refused(3, 0, 4, &work, &course), 11);
    assert_eq!(refused(3, 4, 4097, &work, &course), 11);
    assert_eq!(refused(3, 4, 4, &work[..799], &course[..7]), 12);
    assert_eq!(refused(3, 4, 4, &work[..800], &course[..7]), 13);
    assert_eq!(refused(3, 4, 3, &work, &course), 36);
    work[0] ^= 1;
    assert_eq!(refused(3, 4, 3, &work, &course), 15);
    assert_eq!(refused(3, 4, 4, &work, &course), 0);
}

#[test]
fn nodes_that_are_not_the_rules() {
    let (mut work, course, _) = areas(&OFTEN, 4, 4);
    for count in [0, 2, 4, usize::MAX] {
        assert_eq!(refused(count, 4, 4, &work, &course), 36, "{count}");
    }
    let mut exchanged = work.clone();
    exchanged[8..24].rotate_left(8);
    assert_eq!(refused(3, 4, 4, &exchanged, &course), 36);
    for at in 0..work.len() {
        work[at] ^= 0x10;
        assert_eq!(refused(3, 4, 4, &work, &course), if at < 32 { 36 } else { 0 }, "{at}");
        work[at] ^= 0x10;
    }
    // the same bytes begin with the nodes for less room, but not for too little
    assert_eq!(refused(3, 3, 4, &work, &course), 0);
    assert_eq!(refused(3, 2, 4, &work, &course), 36);
    assert_eq!(refused(2, 2, 4, &work, &course), 36);
    // s0 or s1 has another number of nodes, F s0 other ones
    for other in [&[6, 3, 0, 3, 1][..], &[9, 6, 3, 0, 8, 5, 0]] {
        let (work, course, _) = areas(other, 4, 4);
        assert_eq!(refused(3, 4, 4, &work, &course), 36, "{other:02x?}");
    }
}
