//! Entries of rules replaced: the lines of the test runner, refusals in order with their tables, and every limit at its edge, through both
//! ways of the independent implementation and through the proved library; and that both ways come to the same on random edits.

use std::collections::HashMap;
use yuktrob_plain::compared::proved_edit;
use yuktrob_plain::edit::{by_reading, by_rows, laid_out, Answer, Edit, Row, Source};
use yuktrob_plain::hex;
use yuktrob_plain::random::{Random, Replacement};

/// Either implementation, the independent one in either way.
type Replace = fn(&[u8], usize, &[u8]) -> Edit;

const ALL: [Replace; 3] = [by_rows, by_reading, proved_edit];

fn written(bytes: &[u8]) -> String {
    bytes.iter().map(|byte| format!("{byte:02x}")).collect()
}

fn lengths(table: &[Row]) -> String {
    table.iter().map(|row| format!(" {}", row.length)).collect()
}

fn told(Edit { answer, table }: &Edit) -> String {
    match answer {
        Answer::Edited(bytes) => format!("EDITED {} lengths{}", written(bytes), lengths(table)),
        Answer::Unread { source, why } => {
            let fixpoint = why.fixpoint.map_or(String::new(), |fixpoint| format!(" from {fixpoint}"));
            let source = match source {
                Source::Old => "old",
                Source::New => "new",
                Source::Spliced => "spliced",
            };
            format!("REFUSED {} at {}{fixpoint} of {source}", why.number, why.place)
        }
        Answer::Missing => "REFUSED 37".into(),
    }
}

/// The table as the runner writes it: how many entries there are, and all its bytes.
fn table_told(edit: &Edit) -> String {
    format!("{} {}", edit.table.len(), written(&laid_out(edit).1))
}

/// The lines that the test runner runs, each with what it comes to: it passes over comments and blank lines, and answers all others.
fn runner_lines() -> Vec<(String, String)> {
    let read = |name: &str| {
        let path = format!("{}/../../crates/vectors/{name}", env!("CARGO_MANIFEST_DIR"));
        String::from_utf8_lossy(&std::fs::read(path).expect("the runner's lines")).into_owned()
    };
    let (stdin, stdout) = (read("stdin"), read("stdout"));
    let blank = [' ', '\t', '\r'];
    let lines = stdin.split('\n').map(|line| line.trim_matches(blank)).filter(|line| !line.is_empty() && !line.starts_with('#'));
    let (lines, outcomes): (Vec<&str>, Vec<&str>) = (lines.collect(), stdout.lines().collect());
    assert_eq!(lines.len(), outcomes.len(), "lines that are run, and what they come to");
    lines.into_iter().zip(outcomes).map(|(line, outcome)| (line.into(), outcome.into())).collect()
}

/// `edit | OLD | ENTRY | NEW`, among them the vectors of request T-09; where a line asks for the table, that is in the outcome too.
#[test]
fn vectors() {
    let bytes = |text: &str| if text == "-" { Vec::new() } else { hex::bytes(text) };
    let mut run = 0;
    for (line, outcome) in runner_lines() {
        let ["edit", old, e, new, ..] = line.split('|').map(str::trim).collect::<Vec<_>>()[..] else { continue };
        if outcome == "MALFORMED" {
            continue;
        }
        // a number that is too large for any entry may be too large for a number here
        let (old, e, new) = (bytes(old), e.parse().unwrap_or(usize::MAX), bytes(new));
        let mut parts = outcome.split(" | ");
        let (expected, table) = (parts.next().unwrap_or(""), parts.find_map(|part| part.strip_prefix("table: ")));
        for edit in ALL {
            let edit = edit(&old, e, &new);
            assert_eq!(told(&edit), expected, "{line}");
            assert_eq!(table.map_or(String::new(), |_| table_told(&edit)), table.unwrap_or(""), "{line}");
        }
        run += 1;
    }
    assert!(run >= 1000, "only {run} edits");
}

/// What is told, and the lengths of the table that comes with a refusal.
fn check(old: &[u8], e: usize, new: &[u8], expected: &str, kept: &str) {
    for edit in ALL {
        let edit = edit(old, e, new);
        assert_eq!(told(&edit), expected, "{old:02x?} {e} {new:02x?}");
        if expected.starts_with("REFUSED") {
            assert_eq!(lengths(&edit.table), kept, "{old:02x?} {e} {new:02x?}");
        }
    }
}

#[test]
fn refusals_in_order() {
    let (always, kept): (&[u8], &str) = (&[10, 7, 3, 9, 8, 5, 0], " 5 4 1 2 1");
    let unguarded: &[u8] = &[8, 9, 5, 0];
    for e in [0, 4, 5, 48, 256, usize::MAX] {
        check(&[], e, &[], "REFUSED 1 at 0 of old", "");
        check(unguarded, e, unguarded, "REFUSED 8 at 3 from 1 of old", "");
        check(&always[..6], e, &[1], "REFUSED 5 at 6 of old", "");
        check(always, e, &[], "REFUSED 1 at 0 of new", kept);
        check(always, e, unguarded, "REFUSED 8 at 3 from 1 of new", kept);
        check(always, e, &[5, 0], "REFUSED 7 at 1 of new", kept);
    }
    for e in [5, 6, 48, 256, 1 << 32, usize::MAX] {
        check(always, e, &[1], "REFUSED 37", kept);
        check(always, e, &[8; 12].into_iter().chain([1]).collect::<Vec<_>>(), "REFUSED 37", kept);
    }
    check(always, 2, &[3, 15], "EDITED 0a07030f080500 lengths 5 4 1 2 1", "");
}

/// Each limit at its edge and beyond, by two rules that are within it: in the new rule and behind it.
#[test]
fn a_spliced_rule_that_is_too_large() {
    let before = |command: u8, count: usize, rule: &[u8]| [&vec![command; count], rule].concat();
    let ands = [vec![7; 11], vec![1; 12]].concat();
    let ors = |count: usize| [vec![6; count], vec![1; count + 1]].concat();
    let beside = |rule: &[u8]| [&[7, 1], rule].concat();
    // true is replaced, and 24 commands, 4 ors, 4 nexts or 3 fixpoints stay
    let cases = [
        (beside(&ands), before(8, 1, &ands), before(8, 2, &ands), "REFUSED 3 at 48 of spliced"),
        (beside(&ors(4)), ors(8), ors(9), "REFUSED 4 at 23 of spliced"),
        (beside(&before(8, 4, &[1])), before(8, 8, &[1]), before(8, 9, &[1]), "REFUSED 4 at 14 of spliced"),
        (beside(&before(9, 3, &[1])), before(10, 4, &[1]), before(10, 5, &[1]), "REFUSED 4 at 9 of spliced"),
    ];
    for (old, within, beyond, expected) in cases {
        let kept = lengths(&by_rows(&old, 99, &[1]).table);
        check(&old, 1, &beyond, expected, &kept);
        for edit in ALL {
            assert!(matches!(edit(&old, 1, &within).answer, Answer::Edited(_)), "{old:02x?} {within:02x?}");
            // in place of the other operand, and of the whole
            assert!(matches!(edit(&old, 2, &beyond).answer, Answer::Edited(_)), "{old:02x?} {beyond:02x?}");
            assert!(matches!(edit(&old, 0, &beyond).answer, Answer::Edited(_)), "{old:02x?} {beyond:02x?}");
        }
    }
    // in the new rule
    check(&before(8, 11, &[1]), 11, &[8, 8, 1], "REFUSED 4 at 12 of spliced", " 12 11 10 9 8 7 6 5 4 3 2 1");
}

#[test]
fn both_ways_agree() {
    let (mut random, mut answers) = (Random::new(9), HashMap::new());
    for _ in 0..20_000 {
        let Replacement { old, e, new } = random.replacement();
        let edit = by_rows(&old, e, &new);
        assert_eq!(by_reading(&old, e, &new), edit, "{old:02x?} {e} {new:02x?}");
        let answer = match edit.answer {
            Answer::Edited(_) => "edited",
            Answer::Missing => "37",
            Answer::Unread { source: Source::Old, .. } => "old",
            Answer::Unread { source: Source::New, .. } => "new",
            Answer::Unread { source: Source::Spliced, .. } => "spliced",
        };
        *answers.entry(answer).or_insert(0) += 1;
    }
    assert!(answers.len() == 5 && answers.values().all(|&times| times > 1000), "{answers:?}");
}
