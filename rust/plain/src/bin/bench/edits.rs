//! Entries of rules replaced: by the number of commands, at the first, a middle and the last entry; rules of the usual shapes; such that are
//! refused; and a search for edits with a large ratio. The proved library reads the spliced bytes, and the first ratio is to plain Rust that
//! does so too; plain Rust that puts rows together, and reads no third rule, stands beside it. Both leave their edit in two areas, too.

use crate::shapes::{always, each, eventually, infinitely_often};
use crate::timing::{head, per, ratio, time};
use std::hint::black_box;
use std::time::Duration;
use yuktrob_plain::edit::{by_reading, by_rows, laid_out, Edit};
use yuktrob_plain::random::{Random, Replacement};
use yuktrob_plain::reading::read;

pub fn tables() {
    by_commands();
    table("Edits of rules of the usual shapes", &shaped());
    table("Edits that are refused", &refused());
    random_edits();
}

type Named = (String, Replacement);

fn named(name: impl Into<String>, old: &[u8], e: usize, new: &[u8]) -> Named {
    (name.into(), Replacement { old: old.to_vec(), e, new: new.to_vec() })
}

/// What the proved library takes for some edits, each so many times, and what the independent implementation takes in either way.
struct Took {
    ours: Duration,
    by_reading: Duration,
    by_rows: Duration,
    edits: usize,
}

impl Took {
    fn ratio(&self) -> f64 {
        self.ours.as_secs_f64() / self.by_reading.as_secs_f64()
    }

    /// The nanoseconds of one edit, as five columns.
    fn told(&self) -> String {
        let [ours, by_reading, by_rows] = [self.ours, self.by_reading, self.by_rows].map(|took| per(took, self.edits));
        format!("{ours} | {by_reading} | {} | {by_rows} | {}", ratio(self.ours, self.by_reading), ratio(self.ours, self.by_rows))
    }
}

fn editing(asked: &[Replacement], times: usize) -> Took {
    let edits = times * asked.len();
    let ours = time(|| {
        for Replacement { old, e, new } in asked.iter().cycle().take(edits) {
            black_box(yuktrob::edit(black_box(old), *e, black_box(new))).ok();
        }
    });
    let [by_reading, by_rows] = [by_reading, by_rows].map(|edit: fn(&[u8], usize, &[u8]) -> Edit| {
        time(|| {
            for Replacement { old, e, new } in asked.iter().cycle().take(edits) {
                black_box(laid_out(&edit(black_box(old), *e, black_box(new))));
            }
        })
    });
    Took { ours, by_reading, by_rows, edits }
}

/// One edit is too short to be timed.
const TIMES: usize = 1000;

/// What the proved library answers.
fn outcome(Replacement { old, e, new }: &Replacement) -> String {
    match yuktrob::edit(old, *e, new) {
        Ok(edited) => format!("edited, commands: {}", edited.table.count()),
        Err(why) => match (why.refusal.place, why.source) {
            (Some(place), Some(source)) => format!("refused {} at {place} of {source}", why.number()),
            _ => format!("refused {}", why.number()),
        },
    }
}

const COLUMNS: [&str; 7] = ["input", "outcome", "proved, ns", "plain Rust by reading, ns", "ratio", "plain Rust by rows, ns", "ratio"];

fn table(title: &str, rows: &[Named]) {
    head(title, &COLUMNS);
    for (name, asked) in rows {
        println!("| {name} | {} | {} |", outcome(asked), editing(std::slice::from_ref(asked), TIMES).told());
    }
}

/// The and of so many signals: one command fewer than twice as many.
fn signals(n: u8) -> Vec<u8> {
    each(n, 7, |j| vec![3, j % 16])
}

/// How many commands are read: those of both rules, and of what is spliced.
fn commands_read(Replacement { old, e, new }: &Replacement) -> usize {
    let spliced = yuktrob::edit(old, *e, new).map_or(0, |edited| edited.table.count());
    [old, new].map(|rule| read(rule).map_or(0, |entries| entries.len())).iter().sum::<usize>() + spliced
}

/// A signal in place of the whole rule, or of one of its signals, where the rule grows; and a rule that grows in place of one command.
fn growing() -> Vec<Named> {
    let mut rows = vec![named("one, the first", &[3, 0], 0, &[4, 0])];
    for n in [3, 6, 12, 24] {
        let (rule, count) = (signals(n), 2 * n as usize - 1);
        let places = [("the first", 0), ("a middle one", n as usize - n as usize % 2 + 1), ("the last", count - 1)];
        rows.extend(places.map(|(which, e)| named(format!("{count}, {which}"), &rule, e, &[4, 0])));
    }
    rows.extend([3, 6, 12, 24].map(|n| named(format!("one, by {}", 2 * n - 1), &[1], 0, &signals(n))));
    rows
}

fn by_commands() {
    head("Edits by the number of commands, and which entry is replaced", &[&COLUMNS[..], &["commands read", "proved, ns each"]].concat());
    for (name, asked) in growing() {
        let took = editing(std::slice::from_ref(&asked), TIMES);
        let commands = commands_read(&asked);
        println!("| {name} | {} | {} | {commands} | {} |", outcome(&asked), took.told(), per(took.ours, took.edits * commands));
    }
}

/// Those of FORMULAS, and rules with all that there can be.
fn shaped() -> Vec<Named> {
    let announced = always(&[&[6, 4, 0][..], &eventually(&[3, 1])].concat());
    let clashing = [&[7][..], &eventually(&[3, 0]), &always(&[4, 0])].concat();
    let until = [10, 6, 3, 1, 7, 4, 0, 8, 5, 0];
    let nested = (0..7).fold(vec![3, 0], |f, _| eventually(&f));
    let deep = [vec![9; 7], vec![8; 12], vec![7; 13], [3, 0].repeat(14)].concat();
    vec![
        named("always, if a change then sooner or later announced: announced next (FORMULAS)", &announced, 4, &[8, 3, 1]),
        named("a change sooner or later and never: none until announced (FORMULAS)", &clashing, 6, &until),
        named("G F s0: its F by that of s1", &infinitely_often(&[3, 0]), 2, &eventually(&[3, 1])),
        named("seven nested F: the innermost signal", &nested, nested_signal(&nested), &[4, 3]),
        named("7 fixpoints, 12 nexts, 13 ands: the last signal", &deep, 45, &[4, 3]),
        named("7 fixpoints, 12 nexts, 13 ands: the whole", &deep, 0, &deep),
    ]
}

/// The entry of the only signal.
fn nested_signal(rule: &[u8]) -> usize {
    let is_signal = |command: &yuktrob_plain::reading::Command| matches!(command, yuktrob_plain::reading::Command::Present(_));
    read(rule).expect("a rule").iter().position(is_signal).expect("a signal")
}

fn refused() -> Vec<Named> {
    let (all, many) = (signals(24), [signals(24), vec![7; 100_000]].concat());
    vec![
        named("no bytes", &[], 0, &[1]),
        named("no bytes for the new rule", &[1], 0, &[]),
        named("an old rule of 47 commands, no bytes for the new one", &all, 0, &[]),
        named("an old rule of 47 commands with 100,000 bytes behind it", &many, 0, &[1]),
        named("a new rule of 47 commands with 100,000 bytes behind it", &[1], 0, &many),
        named("no entry 1", &[1], 1, &[1]),
        named("no entry 47, both of 47 commands", &all, 47, &all),
        named("both of 47 commands, the last entry", &all, 46, &all),
        named("12 nexts before 12 nexts", &[vec![8; 12], vec![1]].concat(), 12, &[vec![8; 12], vec![1]].concat()),
    ]
}

fn random_edits() {
    let mut random = Random::new(7);
    let drawn: Vec<Replacement> = (0..TIMES).map(|_| random.replacement()).collect();
    head("1,000 random edits, once each", &COLUMNS);
    let edited = |asked: &Replacement| yuktrob::edit(&asked.old, asked.e, &asked.new).is_ok();
    let (all_edited, all_refused): (Vec<Replacement>, Vec<Replacement>) = drawn.into_iter().partition(edited);
    for (name, asked) in [("edited", all_edited), ("refused", all_refused)] {
        println!("| {} | {name} | {} |", asked.len(), editing(&asked, 1).told());
    }
}

/// Of so many random edits those with the largest ratios, timed again.
pub fn search(count: usize, seed: u64) {
    let mut random = Random::new(seed);
    let mut timed: Vec<(f64, Replacement)> = (0..count)
        .map(|_| {
            let asked = random.replacement();
            (editing(std::slice::from_ref(&asked), 10).ratio(), asked)
        })
        .collect();
    timed.sort_by(|(a, _), (b, _)| b.total_cmp(a));
    head(&format!("The largest ratios of {count} random edits"), &COLUMNS);
    for (_, asked) in timed.into_iter().take(20) {
        let hex = |bytes: &[u8]| bytes.iter().map(|byte| format!("{byte:02x}")).collect::<String>();
        let name = format!("{} {} {}", hex(&asked.old), asked.e, hex(&asked.new));
        println!("| {name} | {} | {} |", outcome(&asked), editing(&[asked], TIMES).told());
    }
}

#[cfg(test)]
mod tests {
    use super::*;

    /// Else the tables would have the times of something else.
    #[test]
    fn rows_have_the_outcomes_that_they_are_there_for() {
        let outcomes = |rows: Vec<Named>| rows.iter().map(|(_, asked)| outcome(asked)).collect::<Vec<_>>();
        assert!(outcomes(growing()).iter().chain(&outcomes(shaped())).all(|told| told.starts_with("edited")));
        let expected = [
            "refused 1 at 0 of the old rule",
            "refused 1 at 0 of the new rule",
            "refused 1 at 0 of the new rule",
            "refused 9 at 71 of the old rule",
            "refused 9 at 71 of the new rule",
            "refused 37",
            "refused 37",
            "refused 3 at 72 of the spliced rule",
            "refused 4 at 12 of the spliced rule",
        ];
        assert_eq!(outcomes(refused()), expected);
    }
}
