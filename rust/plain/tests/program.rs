//! The program, run: document 01's cases with their courses, more profiles than it has room for, refusals with a place, long input, input
//! byte by byte, and no input.

use std::io::Write;
use std::process::{Command, Stdio};
use std::time::Duration;
use yuktrob_plain::decision::{decide, Verdict};
use yuktrob_plain::random::Random;
use yuktrob_plain::reading::{read, Unreadable};
use yuktrob_plain::truth::{by_laps, Truth};

/// What the program prints if its input arrives in these pieces, one after another. It may end before it has read them all.
fn printed<'a>(pieces: impl IntoIterator<Item = &'a [u8]>) -> String {
    let program = concat!(env!("CARGO_MANIFEST_DIR"), "/../../crates/yuktrob/out/yuktrob");
    let mut child = Command::new(program)
        .stdin(Stdio::piped())
        .stdout(Stdio::piped())
        .spawn()
        .unwrap_or_else(|why| panic!("{program}: {why}; `rt run` in crates/yuktrob builds it"));
    let mut input = child.stdin.take().expect("standard input");
    for (i, piece) in pieces.into_iter().enumerate() {
        if i > 0 {
            std::thread::sleep(Duration::from_millis(2));
        }
        match input.write_all(piece).and_then(|()| input.flush()) {
            Err(why) if why.kind() != std::io::ErrorKind::BrokenPipe => panic!("{why}"),
            _ => {}
        }
    }
    drop(input);
    let output = child.wait_with_output().expect("standard output");
    assert!(output.status.success(), "{:?}", output.status);
    String::from_utf8(output.stdout).expect("text")
}

fn at_once(rule: &[u8]) -> String {
    printed([rule])
}

fn byte_by_byte(rule: &[u8]) -> String {
    printed(rule.chunks(1))
}

/// The places of the lines behind the first, which begin with S as often as the lead-in is long, then with L.
fn course(lines: &[&str], lead_len: usize) -> Vec<u16> {
    let place = |(i, line): (usize, &&str)| {
        let digits = line.strip_prefix(if i < lead_len { "S " } else { "L " }).unwrap_or_else(|| panic!("line {i}: {line}"));
        assert!(digits.len() == 4 && digits.chars().all(|c| c.is_ascii_digit() || ('a'..='f').contains(&c)), "{line}");
        u16::from_str_radix(digits, 16).expect("a place in hex")
    };
    lines.iter().enumerate().map(place).collect()
}

/// A first line, and behind MET the course that the independent implementation gives, on which the rule is true.
fn check(rule: &[u8], first: &str, text: &str) {
    assert!(text.ends_with('\n') && !text.ends_with("\n\n"), "{text:?}");
    let lines: Vec<&str> = text.lines().collect();
    assert_eq!(lines[0], first, "{rule:02x?}");
    let Some(sizes) = first.strip_prefix("MET ") else {
        return assert_eq!(lines.len(), 1, "{text}");
    };
    let sizes: Vec<usize> = sizes.split(' ').map(|x| x.parse().expect("a size")).collect();
    let course = course(&lines[1..], sizes[0]);
    let Verdict::Met { course: expected, .. } = decide(rule, 256, 300, 59_648, 556) else { panic!("{rule:02x?}") };
    assert_eq!((course.len(), &course), (sizes[0] + sizes[1], &expected), "{text}");
    assert!(matches!(by_laps(rule, &course, sizes[0], course.len()), Truth::Told(true, _)), "{rule:02x?} on {course:04x?}");
}

const CASES: [(&[u8], &str); 11] = [
    (&[1], "MET 1 1 2 1"),
    (&[2], "NOT 1 0"),
    (&[10, 7, 3, 0, 8, 5, 0], "MET 1 1 2 1"),
    (&[9, 7, 3, 0, 8, 5, 0], "NOT 2 1"),
    (&[9, 6, 3, 0, 8, 5, 0], "MET 1 1 3 3"),
    (&[10, 7, 9, 6, 3, 0, 8, 5, 0, 8, 5, 0], "MET 1 1 3 4"),
    (&[7, 9, 6, 3, 0, 8, 5, 0, 10, 7, 4, 0, 8, 5, 0], "NOT 2 1"),
    (&[10, 7, 3, 0, 7, 8, 4, 0, 8, 8, 5, 0], "MET 1 2 3 4"),
    (&[10, 7, 9, 8, 8, 5, 0, 8, 5, 0], "NOT 3 6"),
    (&[10, 9, 6, 7, 3, 0, 8, 5, 1, 8, 5, 0], "MET 1 1 3 4"),
    (&[9, 10, 6, 7, 3, 0, 8, 5, 1, 8, 5, 0], "MET 1 1 3 4"),
];

#[test]
fn cases() {
    for (rule, first) in CASES {
        check(rule, first, &at_once(rule));
    }
}

#[test]
fn case_h_whole() {
    assert_eq!(at_once(CASES[7].0), "MET 1 2 3 4\nS 4001\nL 4000\nL 4001\n");
}

/// The same kind of part for each of the first signals, then a last part, joined by ands.
fn and_each(signals: u8, part: impl Fn(u8) -> Vec<u8>, last: &[u8]) -> Vec<u8> {
    (0..signals).rev().fold(last.to_vec(), |all, j| [vec![7], part(j), all].concat())
}

#[test]
fn more_profiles_than_there_is_room_for() {
    // infinitely often each of three signals, and a fourth until a fifth: 375 profiles, 192 of them of runs of one step
    let often = and_each(3, |j| vec![10, 7, 9, 6, 3, j, 8, 5, 0, 8, 5, 0], &[9, 6, 3, 4, 7, 3, 3, 8, 5, 0]);
    check(&often, "MET 1 1 17 192", &at_once(&often));
    // sooner or later each of six signals: 729 profiles, all of runs of one step
    let eventually = |j| vec![9, 6, 3, j, 8, 5, 0];
    assert_eq!(at_once(&and_each(5, eventually, &eventually(5))), "REFUSED 15\n");
}

#[test]
fn scale_flags() {
    let told: [(&[u8], &str); 4] = [
        (&[3, 15], "MET 1 1 2 1\nS 8000\nL 4000\n"),
        (&[7, 4, 14, 3, 1], "MET 1 1 2 1\nS 8002\nL 4000\n"),
        (&[7, 3, 14, 3, 15], "NOT 1 0\n"),
        (&[7, 4, 14, 4, 15], "NOT 1 0\n"),
    ];
    for (rule, expected) in told {
        assert_eq!(at_once(rule), expected, "{rule:02x?}");
    }
}

#[test]
fn input_in_single_bytes() {
    for (rule, first) in CASES {
        check(rule, first, &byte_by_byte(rule));
    }
    assert_eq!(byte_by_byte(&[8, 9, 5, 0]), "REFUSED 8 at 3 from 1\n");
}

#[test]
fn refusals_with_a_place() {
    let refused: [(&[u8], &str); 12] = [
        (&[6, 1], "1 at 2"),
        (&[11], "2 at 0"),
        (&[7; 49], "3 at 48"),
        (&[8; 13], "4 at 12"),
        (&[3], "5 at 1"),
        (&[3, 16], "6 at 1"),
        (&[5, 0], "7 at 1"),
        (&[9, 5, 0], "8 at 2 from 0"),
        (&[8, 9, 5, 0], "8 at 3 from 1"),
        (&[10, 9, 6, 3, 0, 5, 1], "8 at 6 from 0"),
        (&[1, 1], "9 at 1"),
        (&[3, 15, 3], "9 at 2"),
    ];
    for (rule, expected) in refused {
        assert_eq!(at_once(rule), format!("REFUSED {expected}\n"), "{rule:02x?}");
    }
}

#[test]
fn random_rules_refused_with_8() {
    let mut random = Random::new(8);
    for _ in 0..100 {
        let rule = random.unguarded();
        let Err(Unreadable { number: 8, place, fixpoint: Some(fixpoint) }) = read(&rule) else { panic!("{rule:02x?}") };
        assert_eq!(at_once(&rule), format!("REFUSED 8 at {place} from {fixpoint}\n"), "{rule:02x?}");
    }
}

/// The longest rule: 48 commands, 24 of them with an operand byte.
fn longest() -> Vec<u8> {
    let signals = [3, 0].repeat(24);
    [&[8][..], &[7; 23], &signals].concat()
}

#[test]
fn input_of_97_bytes_and_more() {
    check(&longest(), "MET 2 1 3 2", &at_once(&longest()));
    let more = |n: usize| [longest(), vec![1; n]].concat();
    for n in [1, 97 - longest().len(), 98 - longest().len(), 1000, 100_000] {
        assert_eq!(at_once(&more(n)), format!("REFUSED 9 at {}\n", longest().len()), "{n} bytes more");
    }
    assert_eq!(at_once(&[7; 100_000]), "REFUSED 3 at 48\n");
    assert_eq!(byte_by_byte(&[7; 120]), "REFUSED 3 at 48\n");
}

#[test]
fn no_input() {
    assert_eq!(at_once(&[]), "REFUSED 1 at 0\n");
}
