//! The outcomes that document 01 gives, through the wrappers: cases A to L and the truth examples, each place with a scale flag and each
//! count of profiles as document 02 asks; which course is given of several as short; what the flags refuse; little room for profiles, and
//! the areas then; nodes that are built and searched, and nodes that are not the rule's; safety rules, their refusals and what they leave
//! in the areas; the refusals of reading with their places; rules looked up in two sheets, where they stand in memory, and what is wrong
//! with a sheet; the rules of a sheet decided at once, which of them clash, their refusals and what they leave in the areas; and entries of
//! a rule replaced, what becomes of the other entries, and what is refused with which table.

use yuktrob::{build, course_len, decide, decide_safety, decide_set, edit, lookup, nodes_len, search, truth, work_len};
use yuktrob::{Areas, EditRefusal, Edited, Found, NotFound, Refusal, Row, Rule, SafetyVerdict, SetRefusal, SetVerdict, Sheet, Source};
use yuktrob::{Table, Verdict, MOST_NODES};

fn met(lead_len: usize, loop_len: usize, nodes: usize, profiles: usize, course: &[u16]) -> Verdict<'_> {
    Verdict::Met { lead_len, loop_len, nodes, profiles, course }
}

fn not(nodes: usize, profiles: usize) -> Verdict<'static> {
    Verdict::Not { nodes, profiles }
}

/// Rules with their verdicts.
fn check(table: &[(&[u8], Verdict)]) {
    let mut areas = Areas::new(256, 300);
    for (bytes, expected) in table {
        let rule = Rule::read(bytes).expect("a rule");
        assert_eq!(rule.decide(&mut areas), Ok(*expected), "{bytes:02x?}");
    }
}

#[test]
fn cases() {
    check(&[
        (&[1], met(1, 1, 2, 1, &[0x4000, 0x4000])),
        (&[2], not(1, 0)),
        (&[10, 7, 3, 0, 8, 5, 0], met(1, 1, 2, 1, &[0x4001, 0x4001])),
        (&[9, 7, 3, 0, 8, 5, 0], not(2, 1)),
        (&[9, 6, 3, 0, 8, 5, 0], met(1, 1, 3, 3, &[0x4001, 0x4000])),
        (&[10, 7, 9, 6, 3, 0, 8, 5, 0, 8, 5, 0], met(1, 1, 3, 4, &[0x4001, 0x4001])),
        (&[7, 9, 6, 3, 0, 8, 5, 0, 10, 7, 4, 0, 8, 5, 0], not(2, 1)),
        (&[10, 7, 3, 0, 7, 8, 4, 0, 8, 8, 5, 0], met(1, 2, 3, 4, &[0x4001, 0x4000, 0x4001])),
        (&[10, 7, 9, 8, 8, 5, 0, 8, 5, 0], not(3, 6)),
        (&[10, 9, 6, 7, 3, 0, 8, 5, 1, 8, 5, 0], met(1, 1, 3, 4, &[0x4001, 0x4001])),
        (&[9, 10, 6, 7, 3, 0, 8, 5, 1, 8, 5, 0], met(1, 1, 3, 4, &[0x4000, 0x4000])),
    ]);
}

const CASE_F: [u8; 12] = [10, 7, 9, 6, 3, 0, 8, 5, 0, 8, 5, 0];
const CASE_H: [u8; 12] = [10, 7, 3, 0, 7, 8, 4, 0, 8, 8, 5, 0];
const CASE_I: [u8; 10] = [10, 7, 9, 8, 8, 5, 0, 8, 5, 0];

/// Decides with room for so many nodes and profiles, in areas that are longer than asked for and hold something. Afterwards the work area
/// is zero as far as it was asked for, the course stands at the beginning of the buffer, and all else is as it was.
fn check_areas(rule: &[u8], (nodes, profiles): (usize, usize), expected: Result<Verdict, u8>) {
    let (mut work, mut buffer) = lent(nodes, profiles);
    let answer = decide(rule, nodes, profiles, &mut work, &mut buffer).map_err(|why| why.number);
    assert_eq!(answer, expected, "{rule:02x?} {nodes} {profiles}");
    assert!(work == [vec![0; work_len(nodes, profiles)], vec![0xa5; 40]].concat(), "{rule:02x?} {nodes} {profiles}");
    check_buffer(&buffer, expected);
}

/// A work area and a course buffer that are longer than asked for and hold something.
fn lent(nodes: usize, profiles: usize) -> (Vec<u8>, Vec<u16>) {
    (vec![0xa5; work_len(nodes, profiles) + 40], vec![0x5a5a; course_len(nodes, profiles) + 4])
}

/// A lent buffer begins with the course of MET, and the rest is as it was.
fn check_buffer(buffer: &[u16], answer: Result<Verdict, u8>) {
    let course = if let Ok(Verdict::Met { course, .. }) = answer { course } else { &[] };
    assert!(buffer.starts_with(course) && buffer[course.len()..].iter().all(|&place| place == 0x5a5a), "{answer:?}: {buffer:04x?}");
}

#[test]
fn room_for_the_profiles_up_to_a_loop_is_enough() {
    for (rule, expected) in [(CASE_F, met(1, 1, 3, 4, &[0x4001, 0x4001])), (CASE_H, met(1, 2, 3, 4, &[0x4001, 0x4000, 0x4001]))] {
        for profiles in [1, 2, 3] {
            check_areas(&rule, (256, profiles), Err(15));
        }
        // each has five
        for room in [(256, 4), (256, 5), (3, 4), (1024, 4096)] {
            check_areas(&rule, room, Ok(expected));
        }
        check_areas(&rule, (2, 4), Err(14));
        check_areas(&rule, (2, 1), Err(14));
    }
}

#[test]
fn not_needs_room_for_all_profiles() {
    check_areas(&CASE_I, (256, 5), Err(15));
    check_areas(&CASE_I, (256, 6), Ok(not(3, 6)));
    check_areas(&CASE_I, (1024, 4096), Ok(not(3, 6)));
}

/// The nodes as bytes, with room for so many.
fn laid_out(words: &[u64], nodes: usize) -> Vec<u8> {
    let mut bytes: Vec<u8> = words.iter().flat_map(|word| word.to_le_bytes()).collect();
    bytes.resize(nodes_len(nodes), 0);
    bytes
}

#[test]
fn nodes_by_first_visit() {
    let table: [(&[u8], &[u64]); 6] = [
        (&[1], &[1, 0]),
        (&[2], &[1]),
        // the left operand first: the next of G alone, then with that of F
        (&CASE_F, &[1, 0x100, 0x140]),
        (&CASE_H, &[1, 0xa0, 0x100]),
        // X X s0 or X true: both nodes behind the root, then the nodes behind these
        (&[6, 8, 8, 3, 0, 8, 1], &[1, 4, 0x20, 8, 0]),
        // (false or X s0) or X s1: the outer or is number 0, so the words are 1 and 2
        (&[6, 6, 2, 8, 3, 0, 8, 3, 1], &[1, 0x40, 0x10, 0]),
    ];
    for (rule, words) in table {
        for nodes in [words.len(), words.len() + 1, 1024] {
            let (mut work, _) = lent(nodes, 0);
            assert_eq!(build(rule, nodes, &mut work), Ok(words.len()), "{rule:02x?} {nodes}");
            assert!(work == [laid_out(words, nodes), vec![0xa5; 40]].concat(), "{rule:02x?} {nodes}");
        }
        let read = Rule::read(rule).expect("a rule");
        let built = read.build(1024).expect("enough room");
        assert_eq!((built.count(), built.words().collect::<Vec<_>>()), (words.len(), words.to_vec()), "{rule:02x?}");
    }
}

/// Building is refused, and of so many bytes lent the first ones are then zero and the rest as they were.
fn check_unbuilt(rule: &[u8], nodes: usize, lent: usize, number: u8, zeros: usize) {
    let mut work = vec![0xa5; lent];
    assert_eq!(build(rule, nodes, &mut work).map_err(|why| why.number), Err(number), "{rule:02x?} {nodes} {lent}");
    assert_eq!(work, [vec![0; zeros], vec![0xa5; lent - zeros]].concat(), "{rule:02x?} {nodes} {lent}");
}

#[test]
fn refusals_of_building_in_order() {
    check_unbuilt(&[1, 1], 0, 0, 9, 0);
    for nodes in [0, 1025, usize::MAX] {
        check_unbuilt(&CASE_F, nodes, 0, 11, 0);
        check_unbuilt(&CASE_F, nodes, 9000, 11, 0);
    }
    check_unbuilt(&CASE_F, 2, 15, 12, 0);
    check_unbuilt(&CASE_F, 2, 16, 14, 16);
    check_unbuilt(&CASE_F, 2, 99, 14, 16);
    assert_eq!(build(&CASE_F, 3, &mut [0; 24]), Ok(3));
}

/// Searches nodes that were built with the same room, in areas that are longer than asked for and hold something. Afterwards the nodes are
/// as they were, what lies behind them is zero as far as it was asked for, and all else is as it was.
fn check_search(rule: &[u8], (nodes, profiles): (usize, usize), expected: Result<Verdict, u8>) {
    let (mut work, mut buffer) = lent(nodes, profiles);
    let built = build(rule, nodes, &mut work).expect("enough room for nodes");
    let kept = work[..nodes_len(nodes)].to_vec();
    let answer = search(rule, built, nodes, profiles, &mut work, &mut buffer).map_err(|why| why.number);
    assert_eq!(answer, expected, "{rule:02x?} {nodes} {profiles}");
    assert!(work == [kept, vec![0; 192 * profiles], vec![0xa5; 40]].concat(), "{rule:02x?} {nodes} {profiles}");
    check_buffer(&buffer, expected);
}

#[test]
fn a_search_is_the_decision() {
    for (rule, expected) in [(CASE_F, met(1, 1, 3, 4, &[0x4001, 0x4001])), (CASE_H, met(1, 2, 3, 4, &[0x4001, 0x4000, 0x4001]))] {
        for room in [(3, 1), (3, 3), (256, 3)] {
            check_search(&rule, room, Err(15));
        }
        for room in [(3, 4), (256, 4), (1024, 4096)] {
            check_search(&rule, room, Ok(expected));
        }
    }
    check_search(&CASE_I, (3, 5), Err(15));
    check_search(&CASE_I, (3, 6), Ok(not(3, 6)));
    check_search(&[2], (1, 1), Ok(not(1, 0)));
}

/// Areas with the nodes of a rule built in them, and how many these are.
struct Nodes {
    built: usize,
    work: Vec<u8>,
    buffer: Vec<u16>,
}

impl Nodes {
    fn of(rule: &[u8], nodes: usize, profiles: usize) -> Self {
        let (mut work, buffer) = lent(nodes, profiles);
        let built = build(rule, nodes, &mut work).expect("enough room");
        Nodes { built, work, buffer }
    }

    /// A search of them is refused, and nothing is written.
    fn check_refused(&self, rule: &[u8], nodes: usize, profiles: usize, number: u8) {
        let (mut work, mut buffer) = (self.work.clone(), self.buffer.clone());
        let answer = search(rule, self.built, nodes, profiles, &mut work, &mut buffer).map_err(|why| why.number);
        assert_eq!(answer, Err(number), "{rule:02x?} {nodes} {profiles}, {} built", self.built);
        assert!(work == self.work && buffer == self.buffer, "{rule:02x?} {nodes} {profiles}, {} built", self.built);
    }

    /// A search of them comes to this verdict.
    fn check_found(&mut self, rule: &[u8], nodes: usize, profiles: usize, expected: Verdict) {
        let answer = search(rule, self.built, nodes, profiles, &mut self.work, &mut self.buffer);
        assert_eq!(answer, Ok(expected), "{rule:02x?} {nodes} {profiles}, {} built", self.built);
    }
}

const F_MET: Verdict = Verdict::Met { lead_len: 1, loop_len: 1, nodes: 3, profiles: 4, course: &[0x4001, 0x4001] };

#[test]
fn refusals_of_a_search_in_order() {
    let mut nodes = Nodes::of(&CASE_F, 3, 3);
    let asked = (work_len(3, 3), course_len(3, 3));
    nodes.work[0] ^= 1;
    nodes.work.truncate(asked.0 - 1);
    nodes.buffer.truncate(asked.1 - 1);
    nodes.check_refused(&[1, 1], 0, 0, 9);
    for (n, m) in [(0, 3), (3, 0), (1025, 3), (3, 4097), (usize::MAX, usize::MAX)] {
        nodes.check_refused(&CASE_F, n, m, 11);
    }
    nodes.check_refused(&CASE_F, 3, 3, 12);
    nodes.work.push(0xa5);
    nodes.check_refused(&CASE_F, 3, 3, 13);
    nodes.buffer.push(0x5a5a);
    nodes.check_refused(&CASE_F, 3, 3, 36);
    nodes.work[0] ^= 1;
    let answer = search(&CASE_F, 3, 3, 3, &mut nodes.work, &mut nodes.buffer);
    assert_eq!(answer.map_err(|why| why.number), Err(15));
}

#[test]
fn each_byte_of_the_nodes_counts_and_none_behind() {
    let (n, m) = (4, 4);
    let mut nodes = Nodes::of(&CASE_F, n, m);
    for at in 0..nodes_len(n) {
        for bit in [0x01, 0x40, 0x80] {
            nodes.work[at] ^= bit;
            nodes.check_refused(&CASE_F, n, m, 36);
            nodes.work[at] ^= bit;
        }
    }
    for at in nodes_len(n)..nodes.work.len() {
        nodes.work[at] = 0x5a;
        nodes.check_found(&CASE_F, n, m, F_MET);
    }
}

#[test]
fn not_the_number_of_nodes() {
    for built in [0, 2, 4, 3 + 256, usize::MAX] {
        Nodes { built, ..Nodes::of(&CASE_F, 4, 4) }.check_refused(&CASE_F, 4, 4, 36);
    }
    // the last node of true is the empty one, whose word is 0: the same bytes with one node more and with one fewer
    for built in [1, 3] {
        Nodes { built, ..Nodes::of(&[1], 4, 1) }.check_refused(&[1], 4, 1, 36);
    }
}

#[test]
fn other_nodes() {
    let listed = |words: &[u64]| {
        let (mut work, buffer) = lent(4, 4);
        work[..nodes_len(4)].copy_from_slice(&laid_out(words, 4));
        Nodes { built: words.len(), work, buffer }
    };
    // the nodes of case F are 1, 100 and 140: one too many, a node twice, one too few, two exchanged, and none
    for words in [&[1, 0x100, 0x140, 0x40][..], &[1, 0x100, 0x140, 0x140], &[1, 0x100], &[1, 0x140, 0x100], &[]] {
        listed(words).check_refused(&CASE_F, 4, 4, 36);
    }
    listed(&[1, 0x100, 0x140]).check_found(&CASE_F, 4, 4, F_MET);
    Nodes::of(&CASE_H, 4, 4).check_refused(&CASE_F, 4, 4, 36);
    // signal 1 has the nodes of signal 0
    Nodes::of(&[3, 0], 4, 4).check_found(&[3, 1], 4, 4, met(1, 1, 2, 1, &[0x4002, 0x4000]));
}

#[test]
fn nodes_with_another_room() {
    // with less room the zeros behind the last node are fewer, with more they may be missing
    Nodes::of(&CASE_F, 256, 4).check_found(&CASE_F, 3, 4, F_MET);
    let mut more = Nodes::of(&CASE_F, 3, 8);
    more.check_refused(&CASE_F, 4, 4, 36);
    more.work[nodes_len(3)..nodes_len(4)].fill(0);
    more.check_found(&CASE_F, 4, 4, F_MET);
    // no room for all: neither all nodes nor the first ones will do, nor the zeros that 14 leaves
    for built in [3, 2] {
        Nodes { built, ..Nodes::of(&CASE_F, 3, 4) }.check_refused(&CASE_F, 2, 4, 36);
    }
    let mut none = Nodes::of(&CASE_F, 3, 4);
    assert_eq!(build(&CASE_F, 2, &mut none.work).map_err(|why| why.number), Err(14));
    none.check_refused(&CASE_F, 2, 4, 36);
}

#[test]
fn built_nodes_are_searched_with_any_room() {
    let rule = Rule::read(&CASE_F).expect("a rule");
    let mut built = rule.build(1024).expect("enough room");
    for (profiles, expected) in [(1, Err(15)), (4, Ok(F_MET)), (3, Err(15)), (4096, Ok(F_MET)), (3, Err(15)), (5, Ok(F_MET))] {
        for none in [0, 4097, usize::MAX] {
            assert_eq!(built.search(none).map_err(|why| why.number), Err(11), "{none}");
        }
        assert_eq!(built.search(profiles).map_err(|why| why.number), expected, "{profiles}");
        assert_eq!((built.count(), built.words().collect::<Vec<_>>()), (3, vec![1, 0x100, 0x140]), "{profiles}");
    }
    for (nodes, number) in [(0, 11), (1, 14), (2, 14), (1025, 11), (usize::MAX, 11)] {
        assert_eq!(rule.build(nodes).map(|built| built.count()).map_err(|why| why.number), Err(number), "{nodes}");
    }
}

#[test]
fn of_courses_as_short_the_first_by_pick_words() {
    check(&[
        // s0 or s1; as short: 4002 (4000)
        (&[6, 3, 0, 3, 1], met(1, 1, 2, 1, &[0x4001, 0x4000])),
        // s1 or s0; as short: 4001 (4000), though its places are the lower ones
        (&[6, 3, 1, 3, 0], met(1, 1, 2, 1, &[0x4002, 0x4000])),
        // (false or s1) or s0: the outer or is number 0, so the pick words are 2 and 1; as short: 4002 (4000)
        (&[6, 6, 2, 3, 1, 3, 0], met(1, 1, 2, 1, &[0x4001, 0x4000])),
        // G s1 or G s0, two lead-ins to different nodes; as short: 4001 (4001)
        (&[6, 10, 7, 3, 1, 8, 5, 0, 10, 7, 3, 0, 8, 5, 0], met(1, 1, 3, 2, &[0x4002, 0x4002])),
        // not s1, and G (s1 or s0), one lead-in and two loops behind it; as short: 4001 (4001)
        (&[7, 4, 1, 10, 7, 6, 3, 1, 3, 0, 8, 5, 0], met(1, 1, 2, 1, &[0x4001, 0x4002])),
        // the greatest Z with X Z and X (s0 or Z), two loops behind one lead-in, with different profiles; as short: 4000 (4000)
        (&[10, 7, 8, 5, 0, 8, 6, 3, 0, 5, 0], met(1, 1, 2, 2, &[0x4000, 0x4001])),
        // at every second place, from the second on, s1 or s0; as short: 4000 (4001 4000)
        (&[10, 8, 7, 6, 3, 1, 3, 0, 8, 5, 0], met(1, 2, 3, 4, &[0x4000, 0x4002, 0x4000])),
        // at every second place, from the second on, F s0, waiting being on the left: the loop's words are 0 1, and of the other 1 0; as
        // short: 4000 (4001 4000)
        (&[10, 8, 7, 8, 5, 0, 9, 6, 8, 5, 0, 3, 0], met(1, 2, 5, 16, &[0x4000, 0x4000, 0x4001])),
        // X G (false or s0), or X G s1: the words are 0 2 (2) and 1 0 (0), and the lead-in's count first; as short: 4000 4002 (4002)
        (&[6, 8, 10, 7, 6, 2, 3, 0, 8, 5, 0, 8, 10, 7, 3, 1, 8, 5, 0], met(2, 1, 5, 4, &[0x4000, 0x4001, 0x4001])),
    ]);
}

#[test]
fn scale_flags_in_rules() {
    check(&[
        (&[3, 14], met(1, 1, 2, 1, &[0x4000, 0x4000])),
        (&[3, 15], met(1, 1, 2, 1, &[0x8000, 0x4000])),
        (&[4, 14], met(1, 1, 2, 1, &[0x8000, 0x4000])),
        (&[4, 15], met(1, 1, 2, 1, &[0x4000, 0x4000])),
        (&[7, 3, 14, 4, 15], met(1, 1, 2, 1, &[0x4000, 0x4000])),
        (&[7, 4, 14, 3, 15], met(1, 1, 2, 1, &[0x8000, 0x4000])),
        (&[7, 3, 14, 3, 15], not(1, 0)),
        (&[7, 4, 14, 4, 15], not(1, 0)),
        // a change is announced at once, and behind it no heading ever has the previous scale
        (&[7, 3, 1, 10, 7, 6, 4, 1, 10, 7, 4, 14, 8, 5, 0, 8, 5, 0], met(1, 1, 2, 2, &[0x8002, 0x8000])),
        // the same, and sooner or later one has not the current scale
        (&[7, 3, 1, 7, 10, 7, 6, 4, 1, 10, 7, 4, 14, 8, 5, 0, 8, 5, 0, 9, 6, 4, 15, 8, 5, 0], not(2, 2)),
    ]);
}

#[test]
fn a_place_with_both_scale_flags_or_neither_is_refused() {
    let mut words = [99; 3];
    for wrong in [0x0000, 0x3fff, 0xc000, 0xffff] {
        for i in 0..3 {
            let mut places = [0x4000, 0x8000, 0x7fff];
            places[i] = wrong;
            assert_eq!(truth(&[1], &places, 1, &mut words).map_err(|why| why.number), Err(19), "{places:04x?}");
        }
    }
    assert_eq!(words, [99; 3]);
}

#[test]
fn refusals_of_a_course_in_order() {
    let refused = |places: &[u16], lead_len, words: &mut [u64]| truth(&[1], places, lead_len, words).map_err(|why| why.number);
    assert_eq!(refused(&[0], 1, &mut []), Err(16));
    assert_eq!(refused(&[0; 8193], 0, &mut []), Err(17));
    assert_eq!(refused(&[0; 8192], 0, &mut []), Err(19));
    assert_eq!(refused(&[0x4000; 8192], 0, &mut [0; 8191]), Err(18));
    assert_eq!(refused(&[0x4000; 8192], 0, &mut [0; 8192]), Ok(true));
}

#[test]
fn truth_examples() {
    let eventually = [9, 6, 3, 0, 8, 5, 0];
    let mut words = [99; 4];
    assert_eq!(truth(&eventually, &[0x4000, 0x4001], 1, &mut words), Ok(true));
    assert_eq!(words, [27, 31, 99, 99]);
    assert_eq!(truth(&eventually, &[0x4000], 0, &mut words), Ok(false));
    assert_eq!(words, [0, 31, 99, 99]);
    assert_eq!(truth(&eventually, &[0x4000, 0x4000, 0x4001], 2, &mut words), Ok(true));
    assert_eq!(words, [27, 27, 31, 99]);
    assert_eq!(truth(&[9, 7, 3, 0, 8, 5, 0], &[0x4001], 0, &mut words), Ok(false));
    assert_eq!(words, [4, 27, 31, 99]);
}

#[test]
fn a_room_beyond_the_limits_is_refused() {
    let rule = Rule::read(&[1]).expect("a rule");
    for (nodes, profiles) in [(0, 300), (256, 0), (1025, 300), (256, 4097), (usize::MAX, usize::MAX)] {
        assert_eq!(rule.decide(&mut Areas::new(nodes, profiles)).map_err(|why| why.number), Err(11), "{nodes} {profiles}");
    }
}

fn met_safely(lead_len: usize, loop_len: usize, nodes: usize, course: &[u16]) -> Result<SafetyVerdict<'_>, u8> {
    Ok(SafetyVerdict::Met { lead_len, loop_len, nodes, course })
}

fn unmet(nodes: usize) -> Result<SafetyVerdict<'static>, u8> {
    Ok(SafetyVerdict::Not { nodes })
}

/// A safety rule is decided in areas of these lengths, which hold something. Afterwards so many bytes are zero, the course stands at the
/// beginning of the buffer, and all else is as it was.
fn check_safety(rule: &[u8], nodes: usize, (work, buffer): (usize, usize), expected: Result<SafetyVerdict, u8>, zeros: usize) {
    let (mut work, mut buffer) = (vec![0xa5; work], vec![0x5a5a; buffer]);
    let (whole, lent) = (work.len(), buffer.len());
    let answer = decide_safety(rule, nodes, &mut work, &mut buffer).map_err(|why| why.number);
    assert_eq!(answer, expected, "{rule:02x?} {nodes} {whole} {lent}");
    assert_eq!(work, [vec![0; zeros], vec![0xa5; whole - zeros]].concat(), "{rule:02x?} {nodes} {whole} {lent}");
    let course = if let Ok(SafetyVerdict::Met { course, .. }) = expected { course } else { &[] };
    assert_eq!(buffer, [course, &vec![0x5a5a; lent - course.len()]].concat(), "{rule:02x?} {nodes} {whole} {lent}");
}

/// With as many nodes as there are, with more and with most, in areas just as asked and longer; and with one node fewer.
fn check_safety_rooms(rule: &[u8], count: usize, expected: Result<SafetyVerdict, u8>) {
    for nodes in [count, count + 1, 256, MOST_NODES] {
        let asked = nodes_len(nodes);
        check_safety(rule, nodes, (asked, nodes), expected, asked);
        check_safety(rule, nodes, (asked + 1, nodes + 1), expected, asked);
        check_safety(rule, nodes, (asked + 40, nodes + 4), expected, asked);
    }
    if count > 1 {
        let asked = nodes_len(count - 1);
        check_safety(rule, count - 1, (asked, count - 1), Err(14), asked);
        check_safety(rule, count - 1, (asked + 40, count + 4), Err(14), asked);
    }
}

#[test]
fn safety_rules() {
    let table: [(&[u8], usize, Result<SafetyVerdict, u8>); 11] = [
        (&[1], 2, met_safely(1, 1, 2, &[0x4000, 0x4000])),
        (&[2], 1, unmet(1)),
        (&[10, 7, 3, 0, 8, 5, 0], 2, met_safely(1, 1, 2, &[0x4001, 0x4001])),
        // case H, whose loop has two places
        (&CASE_H, 3, met_safely(1, 2, 3, &[0x4001, 0x4000, 0x4001])),
        // whenever s0 then s1 at the next place, and s0 now: a node with s1 that leads back to itself is nearer than one without
        (&[7, 3, 0, 10, 7, 6, 4, 0, 8, 3, 1, 8, 5, 0], 3, met_safely(1, 1, 3, &[0x4001, 0x4002])),
        // from the third place on always s0
        (&[8, 8, 10, 7, 3, 0, 8, 5, 0], 4, met_safely(3, 1, 4, &[0x4000, 0x4000, 0x4001, 0x4001])),
        // s0 at every second place and s1 at every third: lead-in and loop have as many places as there are nodes
        (
            &[7, 10, 7, 3, 0, 8, 8, 5, 0, 10, 7, 3, 1, 8, 8, 8, 5, 0],
            7,
            met_safely(1, 6, 7, &[0x4003, 0x4000, 0x4001, 0x4002, 0x4001, 0x4000, 0x4003]),
        ),
        // from the announcement on never the previous scale, and it is announced at once
        (&[7, 3, 1, 10, 7, 6, 4, 1, 10, 7, 4, 14, 8, 5, 0, 8, 5, 0], 2, met_safely(1, 1, 2, &[0x8002, 0x8000])),
        // always one scale flag and the other one next to it
        (&[10, 7, 3, 14, 8, 7, 4, 14, 8, 5, 0], 3, met_safely(1, 2, 3, &[0x4000, 0x8000, 0x4000])),
        // always s0, and three places on not; both flags at the next place
        (&[7, 10, 7, 3, 0, 8, 5, 0, 8, 8, 8, 4, 0], 4, unmet(4)),
        (&[8, 7, 3, 14, 3, 15], 2, unmet(2)),
    ];
    for (rule, count, expected) in table {
        check_safety_rooms(rule, count, expected);
    }
}

/// The rules of the table above of courses as short that have no least fixpoint.
#[test]
fn of_safety_courses_as_short_the_first_by_pick_words() {
    let table: [(&[u8], usize, Result<SafetyVerdict, u8>); 8] = [
        (&[6, 3, 0, 3, 1], 2, met_safely(1, 1, 2, &[0x4001, 0x4000])),
        (&[6, 3, 1, 3, 0], 2, met_safely(1, 1, 2, &[0x4002, 0x4000])),
        (&[6, 6, 2, 3, 1, 3, 0], 2, met_safely(1, 1, 2, &[0x4001, 0x4000])),
        (&[6, 10, 7, 3, 1, 8, 5, 0, 10, 7, 3, 0, 8, 5, 0], 3, met_safely(1, 1, 3, &[0x4002, 0x4002])),
        (&[7, 4, 1, 10, 7, 6, 3, 1, 3, 0, 8, 5, 0], 2, met_safely(1, 1, 2, &[0x4001, 0x4002])),
        (&[10, 7, 8, 5, 0, 8, 6, 3, 0, 5, 0], 2, met_safely(1, 1, 2, &[0x4000, 0x4001])),
        (&[10, 8, 7, 6, 3, 1, 3, 0, 8, 5, 0], 3, met_safely(1, 2, 3, &[0x4000, 0x4002, 0x4000])),
        (&[6, 8, 10, 7, 6, 2, 3, 0, 8, 5, 0, 8, 10, 7, 3, 1, 8, 5, 0], 5, met_safely(2, 1, 5, &[0x4000, 0x4001, 0x4001])),
    ];
    for (rule, count, expected) in table {
        check_safety_rooms(rule, count, expected);
    }
}

#[test]
fn refusals_of_safety_rules_in_order() {
    let often = CASE_F;
    // reading, then 43, then 11, whatever comes behind
    for (rule, number) in [(&[][..], 1), (&[9, 1, 1], 9), (&[9, 5, 0], 8), (&often, 43)] {
        for nodes in [0, 1, 3, 1025, usize::MAX] {
            check_safety(rule, nodes, (0, 0), Err(number), 0);
            check_safety(rule, nodes, (9000, 2000), Err(number), 0);
        }
    }
    for nodes in [0, 1025, usize::MAX / 8 + 1, usize::MAX] {
        for lent in [(0, 0), (9000, 0), (0, 2000), (9000, 2000)] {
            check_safety(&CASE_H, nodes, lent, Err(11), 0);
        }
    }
    for nodes in [1, 2, 3, 256, MOST_NODES] {
        let asked = nodes_len(nodes);
        for short in [0, asked - 1] {
            check_safety(&CASE_H, nodes, (short, 0), Err(12), 0);
            check_safety(&CASE_H, nodes, (short, nodes - 1), Err(12), 0);
            check_safety(&CASE_H, nodes, (short, nodes), Err(12), 0);
        }
        for long in [asked, asked + 40] {
            check_safety(&CASE_H, nodes, (long, 0), Err(13), 0);
            check_safety(&CASE_H, nodes, (long, nodes - 1), Err(13), 0);
        }
    }
    // case H has three nodes
    check_safety(&CASE_H, 2, (16, 2), Err(14), 16);
    check_safety(&CASE_H, 2, (99, 9), Err(14), 16);
    check_safety(&CASE_H, 3, (24, 3), met_safely(1, 2, 3, &[0x4001, 0x4000, 0x4001]), 24);
}

#[test]
fn the_first_least_fixpoint_has_its_place() {
    let table: [(&[u8], usize); 8] = [
        (&[9, 1], 0),
        (&[9, 9, 1], 0),
        (&[10, 8, 9, 1], 2),
        // signal 9 is no fixpoint
        (&[7, 3, 9, 9, 1], 3),
        (&[7, 4, 9, 7, 3, 9, 9, 1], 6),
        (&[7, 10, 8, 5, 0, 10, 9, 1], 6),
        // in the left operand, though the right one has one too
        (&[6, 10, 9, 1, 9, 1], 2),
        (&CASE_F, 2),
    ];
    for (rule, place) in table {
        let why = decide_safety(rule, 256, &mut [0; nodes_len(256)], &mut [0; 256]).unwrap_err();
        assert_eq!((why.number, why.place, why.fixpoint), (43, Some(place), None), "{rule:02x?}");
    }
    // the latest that there is: behind 23 signals of two bytes each and as many ands
    let last = [&[7; 23][..], &[3, 9].repeat(23), &[9, 1]].concat();
    let why = decide_safety(&last, 256, &mut [], &mut []).unwrap_err();
    assert_eq!((why.number, why.place), (43, Some(69)));
    check_safety(&[3, 9], 2, (16, 2), met_safely(1, 1, 2, &[0x4200, 0x4000]), 16);
}

/// Where the general decision comes to a verdict, that of safety rules has it too; and where it lacks room for profiles, one as well.
#[test]
fn safety_rules_need_no_profiles() {
    let mut areas = Areas::new(256, 300);
    // s0 at every fifth place and s1 at every seventh
    let fives_and_sevens = [&[7, 10, 7, 3, 0][..], &[8; 5], &[5, 0, 10, 7, 3, 1], &[8; 7], &[5, 0]].concat();
    let rule = Rule::read(&fives_and_sevens).expect("a rule");
    assert_eq!(rule.decide(&mut areas).map_err(|why| why.number), Err(15));
    let Ok(SafetyVerdict::Met { lead_len: 1, loop_len: 35, nodes: 36, course }) = rule.decide_safety(&mut areas) else { panic!("no loop") };
    let signals = |i: usize| 0x4000 + i.is_multiple_of(5) as u16 + 2 * i.is_multiple_of(7) as u16;
    assert_eq!(course, (0..36).map(signals).collect::<Vec<_>>());
    assert_eq!(rule.truth(course, 1, &mut [0; 36]), Ok(true));
    for bytes in [&CASE_H[..], &[1], &[2], &[6, 3, 1, 3, 0]] {
        let rule = Rule::read(bytes).expect("a rule");
        let general = match rule.decide(&mut Areas::new(256, 300)).expect("enough room") {
            Verdict::Met { lead_len, loop_len, nodes, course, .. } => (lead_len, loop_len, nodes, course.to_vec()),
            Verdict::Not { nodes, .. } => (0, 0, nodes, Vec::new()),
        };
        let told = match rule.decide_safety(&mut areas).expect("enough room") {
            SafetyVerdict::Met { lead_len, loop_len, nodes, course } => (lead_len, loop_len, nodes, course.to_vec()),
            SafetyVerdict::Not { nodes } => (0, 0, nodes, Vec::new()),
        };
        assert_eq!(told, general, "{bytes:02x?}");
    }
}

#[test]
fn areas_for_safety_rules() {
    let rule = Rule::read(&CASE_H).expect("a rule");
    for profiles in [0, 1, 300, 4097, usize::MAX] {
        assert!(rule.decide_safety(&mut Areas::new(3, profiles)).is_ok(), "{profiles}");
    }
    for (nodes, number) in [(0, 11), (1, 14), (2, 14), (1025, 11), (usize::MAX, 11)] {
        assert_eq!(rule.decide_safety(&mut Areas::new(nodes, 0)).map_err(|why| why.number), Err(number), "{nodes}");
    }
    assert_eq!(Rule::read(&CASE_F).expect("a rule").decide_safety(&mut Areas::new(0, 0)).map_err(|why| why.number), Err(43));
}

/// What reading, truth, decision, building, search and the decision of safety rules refuse a rule with. Course, room, areas and nodes would
/// be refused too, but reading is asked first.
fn refused(rule: &[u8]) -> [Option<Refusal>; 6] {
    [
        Rule::read(rule).err(),
        truth(rule, &[], 0, &mut []).err(),
        decide(rule, 0, 0, &mut [], &mut []).err(),
        build(rule, 0, &mut []).err(),
        search(rule, 0, 0, 0, &mut [], &mut []).err(),
        decide_safety(rule, 0, &mut [], &mut []).err(),
    ]
}

#[test]
fn of_the_refusals_of_reading_8_alone_names_a_fixpoint() {
    let table: [(&[u8], u8, usize, Option<usize>); 13] = [
        (&[6, 1], 1, 2, None),
        (&[11], 2, 0, None),
        (&[7; 49], 3, 48, None),
        (&[8; 13], 4, 12, None),
        (&[9, 5], 5, 2, None),
        (&[9, 3, 16], 6, 2, None),
        (&[9, 5, 1], 7, 2, None),
        (&[9, 5, 0], 8, 2, Some(0)),
        (&[8, 9, 5, 0], 8, 3, Some(1)),
        (&[10, 9, 6, 3, 0, 5, 1], 8, 6, Some(0)),
        // behind a signal and a fixpoint that is closed: byte 6 is entry 5
        (&[7, 3, 0, 7, 9, 1, 10, 9, 5, 1], 8, 9, Some(6)),
        (&[9, 1, 1], 9, 2, None),
        (&[9, 8, 5, 0, 5, 0], 9, 4, None),
    ];
    for (rule, number, place, fixpoint) in table {
        for why in refused(rule) {
            let parts = why.map(|why| (why.number, why.place, why.fixpoint));
            assert_eq!(parts, Some((number, Some(place), fixpoint)), "{rule:02x?}");
        }
    }
}

fn record(number: u16, rule: &[u8]) -> Vec<u8> {
    let [low, high] = number.to_le_bytes();
    [&[0x20, low, high, rule.len() as u8], rule].concat()
}

fn sheet(rules: &[(u16, &[u8])]) -> Vec<u8> {
    rules.iter().flat_map(|&(number, rule)| record(number, rule)).collect()
}

/// The bytes are found, and handed back where they stand in that sheet: neither copied nor from the other one.
fn check_found(sheets: [&[u8]; 2], number: u16, sheet: Sheet, start: usize, rule: &[u8]) {
    let [dealer, factory] = sheets;
    let found = lookup(dealer, factory, number);
    assert_eq!(found, Ok(Found { sheet, start, rule }), "{sheets:02x?} {number}");
    let own = if sheet == Sheet::Dealer { dealer } else { factory };
    assert!(found.is_ok_and(|found| std::ptr::eq(found.rule, &own[start..start + rule.len()])), "{sheets:02x?} {number}");
}

fn check_missing(dealer: &[u8], factory: &[u8], number: u16) {
    assert_eq!(lookup(dealer, factory, number), Err(NotFound::Missing), "{dealer:02x?} {factory:02x?} {number}");
}

#[test]
fn the_dealers_rule_before_the_factorys() {
    let factory = sheet(&[(1, &[1]), (7, &[3, 0]), (300, &[4, 1])]);
    let dealer = sheet(&[(7, &[3, 2]), (9, &[2])]);
    let both: [&[u8]; 2] = [&dealer, &factory];
    check_found(both, 1, Sheet::Factory, 4, &[1]);
    check_found(both, 7, Sheet::Dealer, 4, &[3, 2]);
    check_found(both, 9, Sheet::Dealer, 10, &[2]);
    check_found(both, 300, Sheet::Factory, 15, &[4, 1]);
    for number in [0, 2, 8, 10, 299, 301, 7 << 8, 65535] {
        check_missing(&dealer, &factory, number);
    }
    // the same bytes in both, in two places of memory and in one
    check_found([&factory.clone(), &factory], 7, Sheet::Dealer, 9, &[3, 0]);
    check_found([&factory, &factory], 7, Sheet::Dealer, 9, &[3, 0]);
    let joined = [&dealer[..], &factory].concat();
    let (front, back) = joined.split_at(dealer.len());
    check_found([front, back], 9, Sheet::Dealer, 10, &[2]);
    check_found([front, back], 1, Sheet::Factory, 4, &[1]);
    check_found([back, front], 9, Sheet::Factory, 10, &[2]);
}

#[test]
fn an_empty_sheet_has_no_rules() {
    let one = sheet(&[(7, &[3, 0])]);
    check_found([&one, &[]], 7, Sheet::Dealer, 4, &[3, 0]);
    check_found([&[], &one], 7, Sheet::Factory, 4, &[3, 0]);
    for number in [0, 7, 65535] {
        check_missing(&[], &[], number);
    }
    check_missing(&one, &[], 0);
    check_missing(&[], &one, 0);
}

#[test]
fn numbers_and_lengths_at_their_ends() {
    let longest: Vec<u8> = (0..=254).collect();
    // a record's bytes are no record: the rule of 256 has those of another rule 0
    let inside = record(0, &[1]);
    let all = sheet(&[(0, &[]), (255, &longest), (256, &inside), (65534, &[0x20]), (65535, &[])]);
    for (sheets, sheet) in [([&all[..], &[]], Sheet::Dealer), ([&[], &all[..]], Sheet::Factory)] {
        check_found(sheets, 0, sheet, 4, &[]);
        check_found(sheets, 255, sheet, 8, &longest);
        check_found(sheets, 256, sheet, 267, &inside);
        check_found(sheets, 65534, sheet, 276, &[0x20]);
        check_found(sheets, 65535, sheet, 281, &[]);
        check_missing(sheets[0], sheets[1], 1);
    }
    // an empty rule of the dealer's is a rule
    check_found([&record(255, &[]), &all], 255, Sheet::Dealer, 4, &[]);
}

/// Bytes that are no sheet, and the place of the first fault.
fn damaged() -> Vec<(Vec<u8>, usize)> {
    let start = sheet(&[(2, &[1]), (300, &[3, 0])]);
    let behind = |bytes: &[u8]| [&start[..], bytes].concat();
    let mut table = vec![
        (vec![0x21], 0),
        (vec![0], 0),
        (behind(&[0]), 11),
        (behind(&record(301, &[1])[1..]), 11),
        // a number as before, a smaller one, one whose low byte alone is larger
        (behind(&record(300, &[])), 12),
        (behind(&record(2, &[1])), 12),
        (behind(&record(255, &[1])), 12),
        // one whose high byte alone is larger rises, but the record lacks bytes
        (behind(&[0x20, 0x00, 0x02, 0xff]), 15),
        // a number that does not rise where the record lacks bytes as well, or what comes behind it is wrong
        (behind(&[0x20, 0x2c, 0x01]), 12),
        (behind(&[0x20, 0x2c, 0x01, 1]), 12),
        (behind(&[0x20, 0x2b, 0x01, 0, 0]), 12),
        // 254 bytes of 255
        (behind(&record(301, &[0x20; 255])[..258]), 269),
        (record(0, &[7; 255])[..258].to_vec(), 258),
    ];
    // a record that ends anywhere
    let whole = record(301, &[0x20, 1, 0, 0]);
    table.extend((1..whole.len()).map(|len| (behind(&whole[..len]), 11 + len)));
    table
}

#[test]
fn a_damaged_sheet_is_refused_whatever_is_looked_for() {
    let good = sheet(&[(2, &[1]), (300, &[2])]);
    for (bad, place) in damaged() {
        for number in [0, 2, 300, 301, 65535] {
            let by = |sheet| Err(NotFound::Damaged { sheet, place });
            for factory in [&[][..], &good, &bad, &[0xff]] {
                assert_eq!(lookup(&bad, factory, number), by(Sheet::Dealer), "{bad:02x?} {factory:02x?} {number}");
            }
            // also where the dealer's sheet has the number
            for dealer in [&[][..], &good] {
                assert_eq!(lookup(dealer, &bad, number), by(Sheet::Factory), "{dealer:02x?} {bad:02x?} {number}");
            }
        }
    }
}

/// The rules with the numbers 5, 305, 605 and so on, so that none is its position.
fn numbered(rules: &[&[u8]]) -> Vec<u8> {
    let rules: Vec<(u16, &[u8])> = rules.iter().enumerate().map(|(i, rule)| (300 * i as u16 + 5, *rule)).collect();
    sheet(&rules)
}

/// What the decision of a set answers, in a line.
fn set_told(answer: Result<SetVerdict, SetRefusal>) -> String {
    match answer {
        Ok(SetVerdict::Met { lead_len, loop_len, nodes, profiles, course }) => {
            format!("MET {lead_len} {loop_len} {nodes} {profiles} {course:04x?}")
        }
        Ok(SetVerdict::Not { nodes, profiles, clash }) => format!("NOT {nodes} {profiles}: {clash}"),
        Err(SetRefusal::Damaged { place }) => format!("30 at {place}"),
        Err(SetRefusal::Unread { position, refusal: Refusal { number, place, fixpoint, .. } }) => {
            format!("{number} at {place:?} from {fixpoint:?} of {position}")
        }
        Err(SetRefusal::Undecided { tried }) => format!("35: {tried}"),
        Err(why) => why.number().to_string(),
    }
}

/// A set is decided in areas of these lengths, which hold something. Afterwards so many bytes are zero, the course of MET stands at the
/// beginning of the buffer, and all else is as it was.
fn check_set(sheet: &[u8], (nodes, profiles): (usize, usize), lent: (usize, usize), expected: &str, zeros: usize) {
    let (mut work, mut buffer) = (vec![0xa5; lent.0], vec![0x5a5a; lent.1]);
    let answer = decide_set(sheet, nodes, profiles, &mut work, &mut buffer);
    let course = if let Ok(SetVerdict::Met { course, .. }) = answer { course.to_vec() } else { Vec::new() };
    assert_eq!(set_told(answer), expected, "{sheet:02x?} {nodes} {profiles} {lent:?}");
    assert!(work == [vec![0; zeros], vec![0xa5; lent.0 - zeros]].concat(), "{sheet:02x?} {nodes} {profiles} {lent:?}: work area");
    assert_eq!(buffer, [&course[..], &vec![0x5a5a; lent.1 - course.len()]].concat(), "{sheet:02x?} {nodes} {profiles} {lent:?}");
}

/// With enough room, in areas just as asked and longer; and in `Areas`.
fn check_set_rooms(rules: &[&[u8]], expected: &str) {
    let sheet = numbered(rules);
    for (nodes, profiles) in [(8, 16), (256, 300), (1024, 4096)] {
        let (work, places) = (work_len(nodes, profiles), course_len(nodes, profiles));
        check_set(&sheet, (nodes, profiles), (work, places), expected, work);
        check_set(&sheet, (nodes, profiles), (work + 40, places + 4), expected, work);
        assert_eq!(set_told(Areas::new(nodes, profiles).decide_set(&sheet)), expected, "{sheet:02x?} {nodes} {profiles}");
    }
}

const EVENTUALLY: &[u8] = &[9, 6, 3, 0, 8, 5, 0];
const NEVER: &[u8] = &[10, 7, 4, 0, 8, 5, 0];

#[test]
fn sets() {
    let table: [(&[&[u8]], &str); 16] = [
        // of one rule it is the decision
        (&[&[1]], "MET 1 1 2 1 [4000, 4000]"),
        (&[&CASE_F], "MET 1 1 3 4 [4001, 4001]"),
        (&[&CASE_I], "NOT 3 6: 0"),
        (&[&[2]], "NOT 1 0: 0"),
        (&[&[3, 0], &[3, 1]], "MET 1 1 2 1 [4003, 4000]"),
        // the ors are numbered through all rules: of courses as short that of the first by pick words
        (&[&[6, 3, 1, 3, 0], &[6, 4, 1, 4, 0]], "MET 1 1 2 1 [4001, 4000]"),
        // a rule at each place
        (&[&[8, 8, 3, 2], &[3, 0], &[8, 3, 1]], "MET 3 1 4 3 [4001, 4002, 4004, 4000]"),
        // eight rules
        (&[&[3, 0], &[3, 1], &[3, 2], &[3, 3], &[3, 4], &[3, 5], &[3, 6], &[3, 15]], "MET 1 1 2 1 [807f, 4000]"),
        (&[&[3, 0], &[3, 1], &[3, 2], &[3, 3], &[3, 4], &[3, 5], &[3, 6], &[4, 0]], "NOT 1 0: 0 7"),
        (&[&[3, 14], &[1], &[1], &[1], &[1], &[1], &[1], &[3, 15]], "NOT 1 0: 0 7"),
        // each passes, and the first and the last do not go together
        (&[EVENTUALLY, &[3, 1], NEVER], "NOT 2 1: 0 2"),
        // K and P are those of all rules, not of what clashes
        (&[EVENTUALLY, NEVER, &[8, 8, 1]], "NOT 4 4: 0 1"),
        // two pairs that clash: what is left behind leaving out from the last on
        (&[&[3, 0], &[3, 1], &[4, 1], &[4, 0]], "NOT 1 0: 1 2"),
        (&[&[3, 0], &[3, 1], &[4, 0], &[4, 1]], "NOT 1 0: 0 2"),
        // any two of three can be met
        (&[&[6, 3, 0, 3, 1], &[4, 0], &[4, 1]], "NOT 1 0: 0 1 2"),
        // two rules that cannot be met by themselves
        (&[&[1], &[2], &[7, 3, 0, 4, 0]], "NOT 1 0: 1"),
    ];
    for (rules, expected) in table {
        check_set_rooms(rules, expected);
    }
}

#[test]
fn refusals_of_sets_in_order() {
    let nine: Vec<&[u8]> = vec![&[]; 9];
    // 30, before there are too many rules and before they are none; 34; the first that reading refuses; whatever the room and the areas
    for (bytes, expected) in [
        (numbered(&nine)[..35].to_vec(), "30 at 35"),
        ([numbered(&nine), vec![0x21]].concat(), "30 at 36"),
        ([numbered(&[&[1, 1]]), record(5, &[])].concat(), "30 at 7"),
        (vec![], "34"),
        (numbered(&nine), "34"),
        (numbered(&nine[1..]), "1 at Some(0) from None of 0"),
        (numbered(&[&[1], &[8, 9, 5, 0], &[]]), "8 at Some(3) from Some(1) of 1"),
        (numbered(&[&[1], &[1], &[1], &[1], &[1], &[1], &[1], &[3, 16]]), "6 at Some(1) from None of 7"),
        (numbered(&[&[7; 49], &[1, 1]]), "3 at Some(48) from None of 0"),
        (numbered(&[&[1], &[8; 13]]), "4 at Some(12) from None of 1"),
    ] {
        for room in [(0, 0), (2, 1), (1025, 4097), (usize::MAX, usize::MAX)] {
            check_set(&bytes, room, (0, 0), expected, 0);
            check_set(&bytes, room, (9000, 2000), expected, 0);
        }
    }
    let two = numbered(&[&[3, 0], &[3, 1]]);
    for room in [(0, 1), (2, 0), (1025, 1), (2, 4097), (usize::MAX, usize::MAX)] {
        check_set(&two, room, (0, 0), "11", 0);
        check_set(&two, room, (9000, 2000), "11", 0);
    }
    check_set(&two, (2, 1), (207, 0), "12", 0);
    check_set(&two, (2, 1), (207, 3), "12", 0);
    check_set(&two, (2, 1), (208, 2), "13", 0);
    check_set(&two, (2, 1), (208, 3), "MET 1 1 2 1 [4003, 4000]", 208);
    check_set(&two, (1, 1), (240, 9), "35: 0 1", 200);
    assert_eq!(set_told(Areas::new(0, 1).decide_set(&two)), "11");
    assert_eq!(set_told(Areas::new(1, 1).decide_set(&two)), "35: 0 1");
}

/// 35 through 14 and 15, at the whole set and at what is left of it, leaves zeros, and through 3 and 4 it writes nothing. The course buffer
/// is as it was, whatever subsets were met on the way.
#[test]
fn rules_that_cannot_be_decided_together() {
    // case F takes three nodes and four profiles; all three rules take one node, having no step
    let (f, unmet) = (numbered(&[&CASE_F, &[3, 1], &[4, 1]]), "NOT 1 0: 1 2");
    check_set(&f, (3, 4), (work_len(3, 4), 7), unmet, work_len(3, 4));
    check_set(&f, (3, 3), (work_len(3, 4), 7), "35: 0 1", work_len(3, 3));
    check_set(&f, (2, 4), (work_len(3, 4), 7), "35: 0 1", work_len(2, 4));
    // the last rule is left out for good, and then the first is tried alone
    let later = numbered(&[&CASE_F, &[7, 3, 1, 4, 1], &[3, 2]]);
    check_set(&later, (3, 4), (work_len(3, 4), 7), "NOT 1 0: 1", work_len(3, 4));
    check_set(&later, (2, 4), (work_len(3, 4), 7), "35: 0", work_len(2, 4));
    check_set(&later, (3, 3), (work_len(3, 4), 7), "35: 0", work_len(3, 3));
    let met = numbered(&[&CASE_F, &[3, 1]]);
    check_set(&met, (3, 4), (work_len(3, 4), 7), "MET 1 1 3 4 [4003, 4001]", work_len(3, 4));
    check_set(&met, (2, 4), (work_len(3, 4), 7), "35: 0 1", work_len(2, 4));
    check_set(&met, (3, 3), (work_len(3, 4), 7), "35: 0 1", work_len(3, 3));
    // 23 commands, an and and 25 are one too many, and so are 6 ors and 7, 6 nexts and 7, 3 fixpoints and 5
    let ands = [vec![7; 11], vec![1; 12]].concat();
    let joined = |command: u8, count: usize| [vec![command; count], vec![1; count + 1]].concat();
    let before = |command: u8, count: usize| [vec![command; count], vec![1]].concat();
    let (large, larger) = ([&[8][..], &ands].concat(), [&[8, 8][..], &ands].concat());
    check_set(&numbered(&[&ands, &large]), (64, 40), (9000, 200), "MET 2 1 3 2 [4000, 4000, 4000]", work_len(64, 40));
    for (one, other) in [(ands, larger), (joined(6, 6), joined(6, 7)), (before(8, 6), before(8, 7)), (before(9, 3), before(10, 5))] {
        check_set(&numbered(&[&one, &other]), (64, 40), (9000, 200), "35: 0 1", 0);
        check_set(&numbered(&[&[2], &one, &other]), (64, 40), (9000, 200), "35: 0 1 2", 0);
    }
    // 72 bytes are the most that a rule has
    let longest = [&[8][..], &[7; 23], &[3, 9].repeat(24)].concat();
    check_set(&numbered(&[&longest]), (64, 40), (9000, 200), "MET 2 1 3 2 [4000, 4200, 4000]", work_len(64, 40));
    check_set(&numbered(&[&longest[..]; 8]), (64, 40), (9000, 200), "35: 0 1 2 3 4 5 6 7", 0);
}

#[test]
fn words_of_refused_sets() {
    let told = |rules: &[&[u8]], nodes: usize| Areas::new(nodes, 300).decide_set(&numbered(rules)).unwrap_err().to_string();
    assert!(told(&[&[1], &[9, 5, 0]], 256).starts_with("the rule at position 1: refused 8 at byte 2, for the fixpoint at byte 0: no next"));
    assert!(told(&[&[1]], 0).starts_with("refused 11: N is not 1 to 1,024"));
    assert!(told(&[&[1], &[3, 0]], 1).starts_with("refused 35 for the rules at 0 1: as one rule"));
}

fn lengths(table: &Table) -> Vec<usize> {
    table.rows().map(|row| row.length).collect()
}

/// What an edit answers, in a line: the bytes and the lengths; or the refusal, and the old rule's lengths.
fn edit_told(answer: &Result<Edited, EditRefusal>) -> String {
    match answer {
        Ok(Edited { rule, table }) => format!("{:02x?} {:?}", rule.as_bytes(), lengths(table)),
        Err(EditRefusal { refusal: Refusal { number, place, fixpoint, .. }, source, table, .. }) => {
            let places = [place, fixpoint].into_iter().flatten().map(|place| format!(" {place}")).collect::<String>();
            let source = source.map_or(String::new(), |source| format!(" {source:?}"));
            format!("{number}{places}{source}: {:?}", table.as_ref().map(lengths))
        }
    }
}

fn check_edit(old: &[u8], e: usize, new: &[u8], expected: &str) {
    assert_eq!(edit_told(&edit(old, e, new)), expected, "{old:02x?} {e} {new:02x?}");
}

#[test]
fn edits() {
    // always signal 0 or, at the next place, sooner or later signal 1
    let rule = [10, 7, 6, 3, 0, 8, 9, 6, 3, 1, 8, 5, 0, 8, 5, 0];
    for (e, new, expected) in [
        (0, &[3, 9][..], "[03, 09] [1]"),
        (0, &rule, "[0a, 07, 06, 03, 00, 08, 09, 06, 03, 01, 08, 05, 00, 08, 05, 00] [12, 11, 8, 1, 6, 5, 4, 1, 2, 1, 2, 1]"),
        (1, &[1], "[0a, 01] [2, 1]"),
        (2, &[2], "[0a, 07, 02, 08, 05, 00] [5, 4, 1, 2, 1]"),
        (2, &[8, 4, 3], "[0a, 07, 08, 04, 03, 08, 05, 00] [6, 5, 2, 1, 2, 1]"),
        (3, &[8, 1], "[0a, 07, 06, 08, 01, 08, 09, 06, 03, 01, 08, 05, 00, 08, 05, 00] [13, 12, 9, 2, 1, 6, 5, 4, 1, 2, 1, 2, 1]"),
        (4, &[3, 15], "[0a, 07, 06, 03, 00, 03, 0f, 08, 05, 00] [7, 6, 3, 1, 1, 2, 1]"),
        (5, &[10, 8, 5, 0], "[0a, 07, 06, 03, 00, 08, 0a, 08, 05, 00, 08, 05, 00] [10, 9, 6, 1, 4, 3, 2, 1, 2, 1]"),
        // a variable, and a next before one
        (9, &[1], "[0a, 07, 06, 03, 00, 08, 09, 06, 03, 01, 08, 01, 08, 05, 00] [12, 11, 8, 1, 6, 5, 4, 1, 2, 1, 2, 1]"),
        (8, &[7, 1, 2], "[0a, 07, 06, 03, 00, 08, 09, 06, 03, 01, 07, 01, 02, 08, 05, 00] [13, 12, 9, 1, 7, 6, 5, 1, 3, 1, 1, 2, 1]"),
        // the last entry
        (11, &[4, 2], "[0a, 07, 06, 03, 00, 08, 09, 06, 03, 01, 08, 05, 00, 08, 04, 02] [12, 11, 8, 1, 6, 5, 4, 1, 2, 1, 2, 1]"),
    ] {
        check_edit(&rule, e, new, expected);
    }
}

/// Command and argument of each entry.
fn rows(table: &Table) -> Vec<(u8, u8)> {
    table.rows().map(|Row { command, argument, .. }| (command, argument)).collect()
}

#[test]
fn fixpoints_that_an_edit_moves() {
    // a greatest fixpoint, in it an and of a next and of a least one, all variables named
    let rule = [10, 7, 8, 5, 0, 9, 6, 8, 5, 0, 8, 5, 1];
    let table = |e: usize, new: &[u8]| edit(&rule, e, new).map(|edited| rows(&edited.table)).expect("an edit");
    let same = [(10, 0), (7, 0), (8, 0), (5, 0), (9, 0), (6, 0), (8, 0), (5, 4), (8, 0), (5, 0)];
    assert_eq!(table(0, &rule), same);
    // the first next is one entry: the least fixpoint comes forward by one, then it goes back by two
    assert_eq!(table(2, &[1]), [(10, 0), (7, 0), (1, 0), (9, 0), (6, 0), (8, 0), (5, 3), (8, 0), (5, 0)]);
    let longer = [(10, 0), (7, 0), (7, 0), (10, 0), (8, 0), (5, 3), (3, 9), (9, 0), (6, 0), (8, 0), (5, 7), (8, 0), (5, 0)];
    assert_eq!(table(2, &[7, 10, 8, 5, 0, 3, 9]), longer);
    // as many entries as before: nothing moves
    assert_eq!(table(2, &[8, 3, 9]), [&same[..3], &[(3, 9)], &same[4..]].concat());
    // a fixpoint in the new rule, with the numbers from 8 on
    let inner = [&same[..8], &[(9, 0), (8, 0), (10, 0), (8, 0), (6, 0), (5, 8), (5, 10)]].concat();
    assert_eq!(table(8, &[9, 8, 10, 8, 6, 5, 1, 5, 0]), inner);
}

/// Rules that are edited at every entry.
const EDITED: [&[u8]; 7] = [
    &[1],
    &CASE_F,
    &CASE_H,
    &CASE_I,
    &[10, 9, 6, 7, 3, 0, 8, 5, 1, 8, 5, 0],
    &[7, 9, 6, 3, 0, 8, 5, 0, 10, 7, 4, 0, 8, 5, 0],
    &[10, 7, 6, 4, 0, 9, 6, 3, 1, 8, 5, 0, 8, 5, 0],
];

/// The table is what reading the spliced rule gives. Before e command and argument stay; a length differs just where e is inside, and by as
/// much as there are more entries.
#[test]
fn every_entry_replaced_by_every_rule() {
    for (old, new) in EDITED.into_iter().flat_map(|old| EDITED.map(|new| (old, new))) {
        let before = edit(old, usize::MAX, &[1]).expect_err("no such entry").table.expect("a rule");
        let (rule, other) = (Rule::read(old).expect("a rule"), Rule::read(new).expect("a rule"));
        for (e, replaced) in rule.entries().enumerate() {
            let Edited { rule: spliced, table } = edit(old, e, new).expect("both are small");
            assert_eq!(Rule::read(spliced.as_bytes()), Ok(spliced.clone()), "{old:02x?} {e} {new:02x?}");
            assert!(table.entries().eq(spliced.entries()), "{old:02x?} {e} {new:02x?}");
            assert_eq!(table.count(), rule.entry_count() - (replaced.end - e) + other.entry_count(), "{old:02x?} {e} {new:02x?}");
            assert_eq!(rows(&table)[..e], rows(&before)[..e], "{old:02x?} {e} {new:02x?}");
            for (i, (was, is)) in lengths(&before).into_iter().zip(lengths(&table)).take(e).enumerate() {
                let more = if i + was > e { table.count() } else { rule.entry_count() };
                assert_eq!(is + rule.entry_count(), was + more, "{old:02x?} {e} {new:02x?}");
            }
            assert_eq!(rule.edit(e, &other).as_ref(), Ok(&spliced), "{old:02x?} {e} {new:02x?}");
        }
    }
}

/// An entry that names no fixpoint around it can be put for itself, and nothing changes; else the new rule is none.
#[test]
fn an_entry_in_its_own_place() {
    let own = |old: &[u8], e: usize, bytes: std::ops::Range<usize>| edit_told(&edit(old, e, &old[bytes]));
    let same = edit_told(&edit(&CASE_F, 0, &CASE_F));
    assert_eq!(own(&CASE_F, 2, 2..9), same);
    assert_eq!(own(&CASE_F, 4, 4..6), same);
    let kept = "Some([9, 8, 5, 4, 1, 2, 1, 2, 1])";
    assert_eq!(own(&CASE_F, 1, 1..12), format!("7 10 New: {kept}"));
    assert_eq!(own(&CASE_F, 3, 3..9), format!("7 5 New: {kept}"));
    assert_eq!(own(&CASE_F, 5, 6..9), format!("7 2 New: {kept}"));
    assert_eq!(own(&CASE_F, 8, 10..12), format!("7 1 New: {kept}"));
}

#[test]
fn refusals_of_edits_in_order() {
    // the old rule, whatever else there is
    for (e, new) in [(0, &[1][..]), (0, &[]), (99, &[8, 9, 5, 0])] {
        check_edit(&[], e, new, "1 0 Old: None");
        check_edit(&[8, 9, 5, 0], e, new, "8 3 1 Old: None");
        check_edit(&[7; 49], e, new, "3 48 Old: None");
        check_edit(&[8; 13], e, new, "4 12 Old: None");
        check_edit(&[1, 1], e, new, "9 1 Old: None");
    }
    // the new rule, whether or not there is such an entry
    for e in [0, 1, 2, 99] {
        check_edit(&[8, 3, 7], e, &[], "1 0 New: Some([2, 1])");
        check_edit(&[8, 3, 7], e, &[7, 0], "2 1 New: Some([2, 1])");
        check_edit(&[8, 3, 7], e, &[7; 49], "3 48 New: Some([2, 1])");
        check_edit(&[8, 3, 7], e, &[10; 8], "4 7 New: Some([2, 1])");
        check_edit(&[8, 3, 7], e, &[3], "5 1 New: Some([2, 1])");
        check_edit(&[8, 3, 7], e, &[4, 16], "6 1 New: Some([2, 1])");
        check_edit(&[8, 3, 7], e, &[5, 0], "7 1 New: Some([2, 1])");
        check_edit(&[8, 3, 7], e, &[8, 10, 6, 1, 5, 0], "8 5 1 New: Some([2, 1])");
        check_edit(&[8, 3, 7], e, &[1, 1], "9 1 New: Some([2, 1])");
    }
    // 37, for whatever would be put there
    let full = [vec![7; 23], vec![1; 24]].concat();
    for e in [2, 3, 47, 48, 97, 256, 1 << 32, usize::MAX] {
        check_edit(&[8, 3, 7], e, &[1], "37: Some([2, 1])");
        check_edit(&[8, 3, 7], e, &full, "37: Some([2, 1])");
    }
    // 3 of what is spliced: 47 commands, one of them replaced by three
    let kept = |old: &[u8]| format!("{:?}", edit(old, 99, &[1]).unwrap_err().table.as_ref().map(lengths));
    check_edit(&full, 24, &[8, 8, 1], &format!("3 48 Spliced: {}", kept(&full)));
    check_edit(&full, 46, &[8, 8, 1], &format!("3 48 Spliced: {}", kept(&full)));
    assert_eq!(edit(&full, 46, &[8, 1]).map(|edited| edited.table.count()), Ok(48));
    // 4: an or, a next, a fixpoint too many, in the new rule and behind it
    let before = |command: u8, count: usize| [vec![command; count], vec![1]].concat();
    let (ors, nexts) = ([vec![6; 12], vec![1; 13]].concat(), before(8, 11));
    check_edit(&ors, 12, &[6, 1, 1], &format!("4 12 Spliced: {}", kept(&ors)));
    check_edit(&nexts, 11, &[8, 8, 1], &format!("4 12 Spliced: {}", kept(&nexts)));
    check_edit(&[7, 1, 8, 1], 1, &before(8, 12), "4 14 Spliced: Some([4, 1, 2, 1])");
    check_edit(&[7, 1, 9, 1], 1, &before(10, 7), "4 9 Spliced: Some([4, 1, 2, 1])");
    assert_eq!(edit(&nexts, 11, &[8, 1]).map(|edited| edited.table.count()), Ok(13));
    // what stands in the entry goes with it
    assert_eq!(edit(&ors, 0, &ors).map(|edited| edited.table.count()), Ok(25));
    // the 13th next is the 49th command, which 3 is asked of first; or it is the 47th
    let with_next = |ands: usize| [vec![7, 8], vec![7; ands], vec![1; ands + 2]].concat();
    check_edit(&with_next(17), 37, &before(8, 12), &format!("3 48 Spliced: {}", kept(&with_next(17))));
    check_edit(&with_next(16), 35, &before(8, 12), &format!("4 46 Spliced: {}", kept(&with_next(16))));
}

#[test]
fn words_of_refused_edits() {
    let told = |old: &[u8], e: usize, new: &[u8]| edit(old, e, new).unwrap_err().to_string();
    assert!(told(&[9, 5, 0], 0, &[1]).starts_with("the old rule: refused 8 at byte 2, for the fixpoint at byte 0: no next"));
    assert!(told(&[1], 1, &[1, 2]).starts_with("the new rule: refused 9 at byte 1: bytes after"));
    assert!(told(&[8; 13], 0, &[1]).starts_with("the old rule: refused 4 at byte 12: more than 12 or"));
    assert_eq!(told(&[1], 1, &[2]), "refused 37: the old rule has no entry with this number");
    let (old, new) = ([vec![7; 23], vec![1; 24]].concat(), [8, 8, 1]);
    assert_eq!(told(&old, 46, &new), "the spliced rule: refused 3 at byte 48: more than 48 commands");
    assert_eq!(edit(&old, 46, &new).unwrap_err().source, Some(Source::Spliced));
}
