//! The independent implementation's reading: the places that it refuses with, and random rules that it refuses with 8.

use yuktrob_plain::compared::Unguarded;
use yuktrob_plain::random::Random;
use yuktrob_plain::reading::{read, Unreadable};

#[test]
fn only_8_names_a_fixpoint() {
    let table: [(&[u8], u8, usize, Option<usize>); 12] = [
        (&[9, 6, 1], 1, 3, None),
        (&[9, 11], 2, 1, None),
        (&[7; 49], 3, 48, None),
        (&[9; 8], 4, 7, None),
        (&[9, 5], 5, 2, None),
        (&[9, 3, 16], 6, 2, None),
        (&[9, 5, 1], 7, 2, None),
        (&[9, 5, 0], 8, 2, Some(0)),
        (&[8, 9, 5, 0], 8, 3, Some(1)),
        (&[10, 9, 6, 3, 0, 5, 1], 8, 6, Some(0)),
        (&[7, 3, 0, 7, 9, 1, 10, 9, 5, 1], 8, 9, Some(6)),
        (&[9, 1, 1], 9, 2, None),
    ];
    for (rule, number, place, fixpoint) in table {
        assert_eq!(read(rule), Err(Unreadable { number, place, fixpoint }), "{rule:02x?}");
    }
}

/// What a rule is refused with if a next is put in before a byte; nothing if it is accepted, or has too many commands or nexts then.
fn with_next(rule: &[u8], at: usize) -> Option<Unreadable> {
    let longer = [&rule[..at], &[8], &rule[at..]].concat();
    read(&longer).err().filter(|why| !matches!(why.number, 3 | 4))
}

/// A next right behind the named fixpoint serves the variable, one right before it does not: it is that fixpoint and no other.
#[test]
fn the_named_fixpoint_is_the_variables() {
    let mut random = Random::new(21);
    let mut tried = 0;
    for _ in 0..5000 {
        let rule = random.unguarded();
        let Err(Unreadable { place, fixpoint: Some(fixpoint), .. }) = read(&rule) else { panic!("{rule:02x?}") };
        assert!(matches!(rule[fixpoint], 9 | 10) && rule[place - 1] == 5, "{rule:02x?}");
        assert!(with_next(&rule, fixpoint + 1).is_none_or(|why| why.place > place + 1), "{rule:02x?}");
        if let Some(why) = with_next(&rule, fixpoint) {
            assert_eq!(why, Unreadable { number: 8, place: place + 1, fixpoint: Some(fixpoint + 1) }, "{rule:02x?}");
            tried += 1;
        }
    }
    assert!(tried > 4000, "a next went in before only {tried} fixpoints");
}

#[test]
fn many_unguarded_rules_name_a_fixpoint_between() {
    let (mut random, mut unguarded) = (Random::new(22), Unguarded::default());
    for _ in 0..5000 {
        unguarded.count(&random.unguarded());
    }
    assert_eq!(unguarded.all, 5000);
    assert!((1000..4000).contains(&unguarded.between), "{} of 5,000 are between", unguarded.between);
}
