//! Lookups in two sheets: the vectors of request T-01 through the independent implementation, both ways, and through the proved library;
//! and, of the independent one, sheets that are made of known records, as they are, cut short at every place, and with one byte changed.

use std::collections::BTreeMap;
use yuktrob_plain::compared::proved_lookup;
use yuktrob_plain::hex;
use yuktrob_plain::random::{Random, Sheets};
use yuktrob_plain::sheet::{by_pass, by_pieces, faults, record, Fault, Kind, Lookup, Sheet};

fn name(sheet: Sheet) -> &'static str {
    match sheet {
        Sheet::Dealer => "dealer",
        Sheet::Factory => "factory",
    }
}

/// Bytes in hex, a dash for none.
fn written(bytes: &[u8]) -> String {
    if bytes.is_empty() { "-".into() } else { bytes.iter().map(|byte| format!("{byte:02x}")).collect() }
}

fn bytes(text: &str) -> Vec<u8> {
    if text == "-" { Vec::new() } else { hex::bytes(text) }
}

fn told(answer: Lookup) -> String {
    match answer {
        Lookup::Found { sheet, start, rule } => format!("FOUND {} {start} {}", name(sheet), written(rule)),
        Lookup::Damaged { sheet, place } => format!("REFUSED 30 {} at {place}", name(sheet)),
        Lookup::Missing => "REFUSED 31".into(),
    }
}

/// T-01's vectors, `sheet | DEALER | FACTORY | NUMBER | OUTCOME`, which stand among the test runner's lines between a head and the next
/// comment.
#[test]
fn vectors() {
    let lines = std::fs::read_to_string(concat!(env!("CARGO_MANIFEST_DIR"), "/../../crates/vectors/stdin")).expect("the runner's lines");
    let mut run = 0;
    for line in lines.lines().skip_while(|line| !line.starts_with("# sheet | ")).skip(1).take_while(|line| !line.starts_with('#')) {
        let ["sheet", dealer, factory, number, expected] = line.split(" | ").collect::<Vec<_>>()[..] else { panic!("{line}") };
        let (dealer, factory, number) = (bytes(dealer), bytes(factory), number.parse().expect("a rule's number"));
        for lookup in [by_pieces, by_pass, proved_lookup] {
            assert_eq!(told(lookup(&dealer, &factory, number)), expected, "{line}");
        }
        run += 1;
    }
    assert!(run >= 1000, "only {run} lines of the request");
}

/// The same answer both ways.
fn looked_up<'a>(dealer: &'a [u8], factory: &'a [u8], number: u16) -> Lookup<'a> {
    let answer = by_pieces(dealer, factory, number);
    assert_eq!(by_pass(dealer, factory, number), answer, "{dealer:02x?} {factory:02x?} {number}");
    answer
}

/// The rules of a sheet by their numbers.
type Rules = BTreeMap<u16, Vec<u8>>;

/// The sheet, and where each record of it begins.
fn sheet(rules: &Rules) -> (Vec<u8>, Vec<usize>) {
    let (mut bytes, mut begun) = (Vec::new(), Vec::new());
    for (&number, rule) in rules {
        begun.push(bytes.len());
        bytes.extend(record(number, rule));
    }
    (bytes, begun)
}

/// Up to five rules, of the first sixteen numbers and of those around 256.
fn rules(random: &mut Random) -> Rules {
    let number = |random: &mut Random| [random.below(16), 248 + random.below(16)][random.below(2)] as u16;
    let rule = |random: &mut Random| (0..random.below(4)).map(|_| [0x20, 0, 1][random.below(3)]).collect();
    (0..random.below(6)).map(|_| (number(random), rule(random))).collect()
}

/// What a lookup in the sheets of these rules must answer.
fn expected(known: &[Rules; 2], number: u16) -> Lookup<'_> {
    let sheets = [Sheet::Dealer, Sheet::Factory].into_iter().zip(known);
    let mut found = sheets.filter_map(|(sheet, rules)| {
        let start = rules.range(..number).map(|(_, rule)| 4 + rule.len()).sum::<usize>() + 4;
        Some(Lookup::Found { sheet, start, rule: rules.get(&number)? })
    });
    found.next().unwrap_or(Lookup::Missing)
}

#[test]
fn every_number_of_known_records() {
    let mut random = Random::new(1);
    for _ in 0..200 {
        let known = [rules(&mut random), rules(&mut random)];
        let [(dealer, _), (factory, _)] = [sheet(&known[0]), sheet(&known[1])];
        for number in (0..300).chain([65535]) {
            assert_eq!(looked_up(&dealer, &factory, number), expected(&known, number), "{known:02x?} {number}");
        }
    }
}

/// Up to a place between two records a sheet is whole; up to any other the last record lacks bytes.
#[test]
fn cut_short_at_every_place() {
    let mut random = Random::new(2);
    for _ in 0..300 {
        let (whole, begun) = sheet(&rules(&mut random));
        for place in (0..whole.len()).filter(|place| !begun.contains(place)) {
            let there = place - begun.iter().filter(|&&at| at < place).max().expect("the first begins at 0");
            let cut = &whole[..place];
            assert_eq!(faults(cut), [Fault { place, kind: Kind::Cut(there) }], "{cut:02x?}");
            assert_eq!(looked_up(cut, &[0xff], 3), Lookup::Damaged { sheet: Sheet::Dealer, place }, "{cut:02x?}");
            assert_eq!(looked_up(&whole, cut, 3), Lookup::Damaged { sheet: Sheet::Factory, place }, "{cut:02x?}");
        }
        for &place in &begun {
            assert_eq!(faults(&whole[..place]), [], "{whole:02x?} {place}");
        }
    }
}

/// One record gets another first byte, or a number that is not larger than the one before; what stands behind it may be cut short, too.
#[test]
fn one_record_that_is_wrong() {
    let mut random = Random::new(3);
    let mut unrisen = 0;
    for _ in 0..2000 {
        let known = rules(&mut random);
        let (mut bytes, begun) = sheet(&known);
        let Some(i) = begun.len().checked_sub(1).map(|last| random.below(last + 1)) else { continue };
        let at = begun[i];
        let place = match known.keys().nth(i.wrapping_sub(1)) {
            Some(before) if random.one_in(2) => {
                let number = random.below(*before as usize + 1) as u16;
                bytes[at + 1..at + 3].copy_from_slice(&number.to_le_bytes());
                unrisen += 1;
                at + 1
            }
            _ => {
                bytes[at] ^= 1 + random.below(255) as u8;
                at
            }
        };
        bytes.truncate(at + 3 + random.below(bytes.len() - at - 2));
        assert_eq!(looked_up(&bytes, &[], 3), Lookup::Damaged { sheet: Sheet::Dealer, place }, "{bytes:02x?}");
    }
    assert!(unrisen > 400, "only {unrisen} numbers do not rise");
}

#[test]
fn random_sheets_both_ways() {
    let mut random = Random::new(4);
    for _ in 0..5000 {
        let Sheets { dealer, factory, number } = random.sheets();
        looked_up(&dealer, &factory, number);
    }
}
