//! Which course a decision gives where several are as short: small rules with all of these courses, and what other orders would give.

use std::cmp::Reverse;
use yuktrob_plain::decision::{decide, Verdict};
use yuktrob_plain::least::{first, shortest, Course};
use yuktrob_plain::reading::read;

/// A rule, the four numbers of MET, and all courses as short, each with its pick words, in the order of these: the first is given.
struct Several {
    rule: &'static [u8],
    met: [usize; 4],
    courses: &'static [(&'static [u64], &'static [u16])],
}

/// s0 or s1.
const EITHER: Several = Several {
    rule: &[6, 3, 0, 3, 1],
    met: [1, 1, 2, 1],
    courses: &[(&[0, 0], &[0x4001, 0x4000]), (&[1, 0], &[0x4002, 0x4000])],
};

/// s1 or s0: the place of the first is the higher.
const HIGHER_PLACE: Several = Several {
    rule: &[6, 3, 1, 3, 0],
    met: [1, 1, 2, 1],
    courses: &[(&[0, 0], &[0x4002, 0x4000]), (&[1, 0], &[0x4001, 0x4000])],
};

/// (false or s1) or s0. The outer or is number 0, so s0 has the pick word 1, and s1, which is further left, has 2.
const INNER_OR: Several = Several {
    rule: &[6, 6, 2, 3, 1, 3, 0],
    met: [1, 1, 2, 1],
    courses: &[(&[1, 0], &[0x4001, 0x4000]), (&[2, 0], &[0x4002, 0x4000])],
};

/// G s1 or G s0: two lead-ins, to different nodes.
const TWO_NODES: Several = Several {
    rule: &[6, 10, 7, 3, 1, 8, 5, 0, 10, 7, 3, 0, 8, 5, 0],
    met: [1, 1, 3, 2],
    courses: &[(&[0, 0], &[0x4002, 0x4002]), (&[1, 0], &[0x4001, 0x4001])],
};

/// not s1, and G (s1 or s0): one lead-in, and two loops at the node that it leads to.
const TWO_LOOPS: Several = Several {
    rule: &[7, 4, 1, 10, 7, 6, 3, 1, 3, 0, 8, 5, 0],
    met: [1, 1, 2, 1],
    courses: &[(&[1, 0], &[0x4001, 0x4002]), (&[1, 1], &[0x4001, 0x4001])],
};

/// The greatest Z with X Z and X (s0 or Z): two loops at one node, which have different traces and so different profiles.
const TWO_PROFILES: Several = Several {
    rule: &[10, 7, 8, 5, 0, 8, 6, 3, 0, 5, 0],
    met: [1, 1, 2, 2],
    courses: &[(&[0, 0], &[0x4000, 0x4001]), (&[0, 1], &[0x4000, 0x4000])],
};

/// At every second place, from the second on, s1 or s0: two loops of two steps at one node.
const TWO_LONGER_LOOPS: Several = Several {
    rule: &[10, 8, 7, 6, 3, 1, 3, 0, 8, 5, 0],
    met: [1, 2, 3, 4],
    courses: &[(&[0, 0, 0], &[0x4000, 0x4002, 0x4000]), (&[0, 1, 0], &[0x4000, 0x4001, 0x4000])],
};

/// At every second place, from the second on, F s0, where waiting is the left operand: two loops at one node, which the first of their two
/// steps sets apart before the second does.
const WAITING: Several = Several {
    rule: &[10, 8, 7, 8, 5, 0, 9, 6, 8, 5, 0, 3, 0],
    met: [1, 2, 5, 16],
    courses: &[(&[0, 0, 1], &[0x4000, 0x4000, 0x4001]), (&[0, 1, 0], &[0x4000, 0x4001, 0x4000])],
};

/// X G (false or s0), or X G s1: the lead-in is set apart before the loop is, whose pick word is the higher.
const HIGHER_LOOP: Several = Several {
    rule: &[6, 8, 10, 7, 6, 2, 3, 0, 8, 5, 0, 8, 10, 7, 3, 1, 8, 5, 0],
    met: [2, 1, 5, 4],
    courses: &[(&[0, 2, 2], &[0x4000, 0x4001, 0x4001]), (&[1, 0, 0], &[0x4000, 0x4002, 0x4002])],
};

const ALL: [Several; 9] = [EITHER, HIGHER_PLACE, INNER_OR, TWO_NODES, TWO_LOOPS, TWO_PROFILES, TWO_LONGER_LOOPS, WAITING, HIGHER_LOOP];

fn as_short(rule: &[u8]) -> Vec<Course> {
    shortest(&read(rule).expect("a rule"), 1000).expect("few courses")
}

#[test]
fn the_first_is_given() {
    for Several { rule, met: [lead_len, loop_len, nodes, profiles], courses } in ALL {
        let expected = Verdict::Met { lead_len, loop_len, nodes, profiles, course: courses[0].1.to_vec() };
        for m in [profiles, 300, 4096] {
            assert_eq!(decide(rule, 256, m, 8 * 256 + 192 * m, 256 + m), expected, "{rule:02x?} {m}");
        }
    }
}

#[test]
fn these_are_all_as_short() {
    for Several { rule, met, courses } in ALL {
        let mut all = as_short(rule);
        all.sort_by_key(Course::words);
        let listed: Vec<_> = courses.iter().map(|(words, places)| (words.to_vec(), places.to_vec())).collect();
        assert_eq!(all.iter().map(|course| (course.words(), course.places())).collect::<Vec<_>>(), listed, "{rule:02x?}");
        assert!(all.iter().all(|course| [course.lead.len(), course.around.len()] == met[..2]), "{rule:02x?}");
    }
}

/// The first by another key is the second by pick words.
fn check_other<K: Ord>(Several { rule, courses, .. }: Several, key: impl Fn(&Course) -> K) {
    assert_eq!(first(&as_short(rule), key).places(), courses[1].1, "{rule:02x?}");
}

#[test]
fn other_orders_give_other_courses() {
    let backwards = |mut words: Vec<u64>| {
        words.reverse();
        words
    };
    check_other(EITHER, |course| Reverse(course.words()));
    check_other(HIGHER_PLACE, Course::places);
    check_other(INNER_OR, |course| course.words().into_iter().map(u64::reverse_bits).collect::<Vec<_>>());
    check_other(HIGHER_LOOP, |course| [course.loop_words(), course.lead_words()]);
    check_other(HIGHER_LOOP, |course| backwards(course.lead_words()));
    check_other(WAITING, |course| backwards(course.loop_words()));
}

#[test]
fn nothing_where_there_is_no_course_or_too_much_to_try() {
    for rule in [&[2][..], &[9, 7, 3, 0, 8, 5, 0]] {
        assert_eq!(shortest(&read(rule).expect("a rule"), 1000), None, "{rule:02x?}");
    }
    let entries = read(EITHER.rule).expect("a rule");
    assert_eq!(shortest(&entries, 3), None);
}
