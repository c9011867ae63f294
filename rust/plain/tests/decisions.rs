//! The independent implementation's decision: document 01's cases, counted as document 02 asks, with just enough room for profiles and with
//! one fewer.

use yuktrob_plain::decision::{decide, effort, has_more_profiles, Effort, Verdict};
use yuktrob_plain::reading::read;

/// The answer in the program's words, with areas as large as asked for.
fn decided(rule: &[u8], n: usize, m: usize) -> String {
    match decide(rule, n, m, 8 * n + 192 * m, n + m) {
        Verdict::Unread(why) => format!("REFUSED {} at {}", why.number, why.place),
        Verdict::Refused(number) => format!("REFUSED {number}"),
        Verdict::Met { lead_len, loop_len, nodes, profiles, .. } => format!("MET {lead_len} {loop_len} {nodes} {profiles}"),
        Verdict::Not { nodes, profiles } => format!("NOT {nodes} {profiles}"),
    }
}

/// Cases A to L, with the profiles that are needed and all of them.
const CASES: [(&[u8], &str, usize, usize); 11] = [
    (&[1], "MET 1 1 2 1", 1, 1),
    (&[2], "NOT 1 0", 0, 0),
    (&[10, 7, 3, 0, 8, 5, 0], "MET 1 1 2 1", 1, 1),
    (&[9, 7, 3, 0, 8, 5, 0], "NOT 2 1", 1, 1),
    (&[9, 6, 3, 0, 8, 5, 0], "MET 1 1 3 3", 3, 3),
    (&[10, 7, 9, 6, 3, 0, 8, 5, 0, 8, 5, 0], "MET 1 1 3 4", 4, 5),
    (&[7, 9, 6, 3, 0, 8, 5, 0, 10, 7, 4, 0, 8, 5, 0], "NOT 2 1", 1, 1),
    (&[10, 7, 3, 0, 7, 8, 4, 0, 8, 8, 5, 0], "MET 1 2 3 4", 4, 5),
    (&[10, 7, 9, 8, 8, 5, 0, 8, 5, 0], "NOT 3 6", 6, 6),
    (&[10, 9, 6, 7, 3, 0, 8, 5, 1, 8, 5, 0], "MET 1 1 3 4", 4, 6),
    (&[9, 10, 6, 7, 3, 0, 8, 5, 1, 8, 5, 0], "MET 1 1 3 4", 4, 6),
];

#[test]
fn cases() {
    for (rule, expected, needed, _) in CASES {
        for m in [needed.max(1), 300, 4096] {
            assert_eq!(decided(rule, 256, m), expected, "{rule:02x?} {m}");
        }
        for m in 1..needed {
            assert_eq!(decided(rule, 256, m), "REFUSED 15", "{rule:02x?} {m}");
        }
    }
}

#[test]
fn nodes_are_asked_about_first() {
    assert_eq!(decided(CASES[5].0, 2, 1), "REFUSED 14");
    assert_eq!(decided(CASES[5].0, 3, 1), "REFUSED 15");
}

#[test]
fn profiles_needed_and_all_of_them() {
    for (rule, expected, needed, all) in CASES {
        let entries = read(rule).expect("a rule");
        let Effort { profiles, before } = effort(&entries, 256, needed).expect("enough room");
        assert_eq!((profiles, before.is_some()), (needed, expected.starts_with("MET")), "{rule:02x?}");
        assert!(before.is_none_or(|before| before < needed), "{rule:02x?}");
        assert!(!has_more_profiles(&entries, 256, all) && (all == 0 || has_more_profiles(&entries, 256, all - 1)), "{rule:02x?}");
    }
}
