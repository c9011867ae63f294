//! Runs the proved library and the independent implementation on the same random inputs, and reports every difference.
//!
//! - `compare [INPUTS [SEED [LONGEST]]]`: readings, truths, decisions, decisions of safety rules, lookups, decisions of sets and edits in
//!   turn, where no course that both work out is longer than LONGEST places, 60 at least and 8,192 at most.
//! - `compare safety [INPUTS [SEED]]`: decisions of safety rules alone.
//! - `compare sheet [INPUTS [SEED]]`: lookups alone.
//! - `compare set [INPUTS [SEED]]`: decisions of sets alone.
//! - `compare edit [INPUTS [SEED]]`: edits alone.

use std::time::Instant;
use yuktrob_plain::compared::{self, Areas, Input, LONG};
use yuktrob_plain::compared::{Buildings, Changed, Courses, Decisions, Edits, Faults, Lookups, Rooms, Safeties, Sets, Signals};
use yuktrob_plain::compared::{Truths, Unguarded};
use yuktrob_plain::random::Random;

fn main() {
    let mut words: Vec<String> = std::env::args().skip(1).collect();
    let alone: Option<fn(u64, u64) -> u64> = match words.first().map(String::as_str) {
        Some("safety") => Some(safety),
        Some("sheet") => Some(sheet),
        Some("set") => Some(set),
        Some("edit") => Some(edit),
        _ => None,
    };
    words.drain(..alone.is_some() as usize);
    let word = |i: usize, otherwise: u64| words.get(i).map_or(otherwise, |w| w.parse().expect("a number"));
    let (inputs, seed, longest) = (word(0, 100_000), word(1, 1), word(2, 8192).clamp(60, 8192) as usize);
    let differences = alone.map_or_else(|| all(inputs, seed, longest), |alone| alone(inputs, seed));
    println!("differences: {differences}");
    if differences > 0 {
        std::process::exit(1);
    }
}

/// 1 for a difference, which is printed.
fn reported(result: Result<(), String>) -> u64 {
    let Err(what) = result else { return 0 };
    println!("{what}");
    1
}

/// How many of so many inputs of one kind differ, each drawn and compared by a call.
fn differing(inputs: u64, kind: &str, mut compare: impl FnMut() -> Result<(), String>) -> u64 {
    let start = Instant::now();
    let differences = (0..inputs).map(|_| reported(compare())).sum();
    println!("compared: {inputs} {kind} in {:.1} s", start.elapsed().as_secs_f64());
    differences
}

fn safety(inputs: u64, seed: u64) -> u64 {
    let (mut random, mut areas, mut safeties) = (Random::new(seed), Areas::new(), Safeties::default());
    let compare = || compared::safety(&mut random, &mut areas, &mut safeties);
    let differences = differing(inputs, "decisions of safety rules", compare);
    report_safeties(&safeties);
    differences
}

fn sheet(inputs: u64, seed: u64) -> u64 {
    let (mut random, mut lookups) = (Random::new(seed), Lookups::default());
    let differences = differing(inputs, "lookups", || compared::lookup(&mut random, &mut lookups));
    report_lookups(&lookups);
    differences
}

fn set(inputs: u64, seed: u64) -> u64 {
    let (mut random, mut areas, mut sets) = (Random::new(seed), Areas::new(), Sets::default());
    let differences = differing(inputs, "decisions of sets", || compared::set(&mut random, &mut areas, &mut sets));
    report_sets(&sets);
    differences
}

fn edit(inputs: u64, seed: u64) -> u64 {
    let (mut random, mut edits) = (Random::new(seed), Edits::default());
    let differences = differing(inputs, "edits", || compared::edit(&mut random, &mut edits));
    report_edits(&edits);
    differences
}

/// How many of so many inputs differ.
fn all(inputs: u64, seed: u64, longest: usize) -> u64 {
    let mut random = Random::new(seed);
    let (mut unguarded, mut signals) = (Unguarded::default(), Signals::default());
    let (mut areas, mut truths, mut decisions) = (Areas::new(), Truths::default(), Decisions::default());
    let (mut safeties, mut lookups, mut sets, mut edits) = (Safeties::default(), Lookups::default(), Sets::default(), Edits::default());
    let mut differences = 0u64;
    let start = Instant::now();
    for i in 0..inputs {
        differences += reported(match i % 7 {
            3 => compared::safety(&mut random, &mut areas, &mut safeties),
            4 => compared::lookup(&mut random, &mut lookups),
            5 => compared::set(&mut random, &mut areas, &mut sets),
            6 => compared::edit(&mut random, &mut edits),
            share => {
                let input = Input::new(&mut random);
                let rule = &input.rule;
                unguarded.count(rule);
                signals.count(rule);
                match share {
                    0 => compared::reading(rule),
                    1 => compared::truth(&mut random, &input, longest, &mut truths),
                    _ => compared::decision(&mut random, rule, &mut areas, &mut decisions),
                }
            }
        });
    }
    let seconds = start.elapsed().as_secs_f64();
    let [readings, decided, safely, found, at_once, edited] = [6, 4, 3, 2, 1, 0].map(|more| (inputs + more) / 7);
    let (all, rest) = (truths.all, format!("{safely} of safety rules, {found} lookups, {at_once} sets, {edited} edits in {seconds:.1} s"));
    println!("compared: {readings} readings, {all} truths, {decided} decisions, {rest}");
    println!("truths of rules with alternating fixpoints: {}, of these on {LONG} places or more: {}", truths.alternating, truths.long);
    let Unguarded { all, between } = unguarded;
    println!("rules refused with 8: {all}, of these for a fixpoint that is neither the innermost nor at byte 0: {between}");
    println!("rules with one signal both present and absent, of the signal that the fewest have so: {}", signals.fewest());
    report_flags(&truths, &decisions);
    report_decisions(&decisions);
    report_safeties(&safeties);
    report_lookups(&lookups);
    report_sets(&sets);
    report_edits(&edits);
    differences
}

fn report_flags(truths: &Truths, decisions: &Decisions) {
    let Truths { refused_19, before_18, behind_16, behind_17, .. } = truths;
    println!("truths refused with 19: {refused_19}, of these with too few words as well: {before_18}");
    println!("truths on a course with such a place refused with 16: {behind_16}, with 17: {behind_17}");
    let Decisions { with_flags, both_present, both_absent, current, .. } = decisions;
    println!("verdicts on rules with both scale flags: {with_flags}");
    println!("of these with a step missing for the flags alone, both present: {both_present}, both absent: {both_absent}");
    println!("courses given with a place of the current scale: {current}");
}

fn report_decisions(decisions: &Decisions) {
    report_rooms(&decisions.rooms);
    println!("verdicts asked for again with more room: {}", decisions.again);
    report_courses(&decisions.courses);
    report_buildings(&decisions.buildings);
}

fn report_rooms(rooms: &Rooms) {
    let Rooms { met_fewer, met_early, met_early_later, met_exact, not_exact, .. } = rooms;
    println!("MET with fewer profiles than there are: {met_fewer}, of these where there are more than M: {met_early}");
    println!("of these with a loop of several steps: {met_early_later}");
    println!("M just what is needed: {met_exact} MET, {not_exact} NOT");
    let Rooms { refused_good, refused_behind, refused_by_one, refused_none, refused_none_by_one, .. } = rooms;
    println!("15 with a good loop: {refused_good}, of these within M: {refused_behind}, with M one fewer than needed: {refused_by_one}");
    println!("15 without a good loop: {refused_none}, of these with M one fewer than needed: {refused_none_by_one}");
}

fn report_courses(courses: &Courses) {
    let Courses { given, tried, several, differing, by_last, by_loop, by_places, by_first_or } = courses;
    println!("courses given: {given}, of these held beside all that are as short: {tried}");
    println!("of these where there are several: {several}, of these where some have other places: {differing}");
    println!("of these with other places if the last came first: {by_last}, if the loop's pick words came before the lead-in's: {by_loop}");
    println!("if places were compared and not pick words: {by_places}, if or 0 were a word's highest bit: {by_first_or}");
}

fn report_buildings(buildings: &Buildings) {
    let Buildings { built, refused_12, refused_14, verdicts, refused_15, again, before_36, .. } = buildings;
    println!("nodes built: {built}, refused with 12: {refused_12}, with 14: {refused_14}");
    println!("nodes just built and searched: {verdicts} verdicts, {refused_15} refused with 15");
    println!("searched again with another M and other bytes behind them: {again}");
    println!("searched behind a change, and of these refused with 36:");
    for (name, Changed { all, refused }) in buildings.changes() {
        println!("  {name}: {all}, {refused}");
    }
    println!("refused with 12 or 13 behind a change that 36 would refuse: {before_36}");
}

fn report_safeties(safeties: &Safeties) {
    let Safeties { met, not, unread, least, refused: [refused_11, refused_12, refused_13, refused_14], .. } = safeties;
    println!("safety rules: {met} MET, {not} NOT, {unread} refused by reading, {least} with 43");
    println!("refused with 11: {refused_11}, with 12: {refused_12}, with 13: {refused_13}, with 14: {refused_14}");
    let Safeties { later, long, led, full, exact, by_one, before_13, .. } = safeties;
    println!("MET with a loop of several steps: {later}, of ten or more: {long}; with a lead-in of several: {led}; with K places: {full}");
    println!("N just what is needed: {exact}, 14 with one fewer: {by_one}, 12 where 13 would refuse too: {before_13}");
    let Safeties { behind_9, several, before_others, general, beyond_met, beyond_not, again, courses, .. } = safeties;
    println!("43 behind a signal 9: {behind_9}, before another least fixpoint: {several}, where others would refuse too: {before_others}");
    println!("verdicts of decide too: {general}; where it has no room for profiles: {beyond_met} MET, {beyond_not} NOT");
    println!("verdicts asked for again with more room: {again}");
    report_courses(courses);
}

fn report_lookups(lookups: &Lookups) {
    let Lookups { dealer, overridden, factory, missing, missing_in_both, .. } = lookups;
    println!("found in the dealer's sheet: {dealer}, of these in the factory's too: {overridden}; in the factory's alone: {factory}");
    let Lookups { empty, longest, far, edges: [of_0, of_255, of_256, of_65535], .. } = lookups;
    println!("rules without bytes: {empty}, of 255 bytes: {longest}, behind place 65,535: {far}");
    println!("number 0: {of_0}, 255: {of_255}, 256: {of_256}, 65535: {of_65535}");
    println!("refused with 31: {missing}, of these with records in both sheets: {missing_in_both}");
    let Lookups { damaged_dealer, damaged_both, damaged_alike, damaged_factory, behind_number, below_number, faults, .. } = lookups;
    println!("refused with 30, the dealer's sheet: {damaged_dealer}, of these the factory's too: {damaged_both}, alike: {damaged_alike}");
    println!("the factory's: {damaged_factory}, of these where the dealer's has the number: {below_number}");
    println!("behind a record with the number: {behind_number}");
    let Faults { marks, repeated, fallen, unrisen_cut, cuts: [one, two, three, more], cut_by_one, at_first, far } = faults;
    println!("for another byte than 20: {marks}, a number as before: {repeated}, a smaller one: {fallen}");
    println!("of these numbers where the record lacks bytes too: {unrisen_cut}");
    println!("for a record of which one byte is there: {one}, two: {two}, three: {three}, more: {more}");
    println!("of these with 254 bytes of 255: {cut_by_one}; at the first byte: {at_first}, behind place 65,535: {far}");
}

fn report_sets(sets: &Sets) {
    let Sets { met, not, alone, eight, tried, by_first, again, .. } = sets;
    println!("sets: {met} MET, {not} NOT, of these of one rule: {alone}, of eight: {eight}; asked for again with more room: {again}");
    let Sets { clash: [one, two, more], clash_of_all, clash_behind, .. } = sets;
    println!("one rule clashes with itself: {one}, two clash: {two}, more: {more}");
    println!("of these all rules of the set: {clash_of_all}, not the first and not all: {clash_behind}");
    println!("held beside every subset: {tried}; with another clash if the first were left out first: {by_first}");
    let Sets { damaged, damaged_before_others, none, many, refused: [refused_11, refused_12, refused_13], .. } = sets;
    println!("refused with 30: {damaged}, of these with more than eight rules or with one that is none: {damaged_before_others}");
    println!("refused with 34 for no rules: {none}, for too many: {many}");
    let Sets { unread, unguarded, unread_behind, unread_again, unread_before_room, .. } = sets;
    println!("refused by reading: {unread}, of these with 8: {unguarded}, not at the first rule: {unread_behind}");
    println!("of these where a later rule is refused too: {unread_again}, where 11, 12 or 13 would refuse too: {unread_before_room}");
    println!("refused with 11: {refused_11}, with 12: {refused_12}, with 13: {refused_13}");
    let Sets { whole: [by_3, by_4, by_14, by_15], later: [later_14, later_15], later_behind, .. } = sets;
    println!("refused with 35 at the whole set through 3: {by_3}, 4: {by_4}, 14: {by_14}, 15: {by_15}");
    println!("at a subset through 14: {later_14}, 15: {later_15}, of these where some rule was left out for good: {later_behind}");
}

fn report_edits(edits: &Edits) {
    let Edits { edited, whole, last, between, longer, shorter, even, same, .. } = edits;
    println!("edited: {edited}, of these the whole rule: {whole}, the last entry: {last}, one with others before and behind: {between}");
    println!("to more entries: {longer}, to fewer: {shorter}, to as many: {even}, to the same rule: {same}");
    let Edits { within, named_before, named_moved, named_inside, .. } = edits;
    println!("inside a fixpoint: {within}; with a variable in the new rule, whose fixpoint moves: {named_inside}");
    println!("with a variable behind that names a fixpoint before: {named_before}, one that moves: {named_moved}");
    let Edits { full: [commands, ors, nexts, fixpoints], .. } = edits;
    println!("to 48 commands: {commands}, 12 ors: {ors}, 12 nexts: {nexts}, 7 fixpoints: {fixpoints}");
    let Edits { old, new, old_before_new, new_before_37, open, .. } = edits;
    println!("the old rule refused with 1 to 9: {old:?}, of these with a new rule that is none: {old_before_new}");
    println!("the new rule refused with 1 to 9: {new:?}, of these without such an entry: {new_before_37}");
    println!("of these with 7, where the spliced bytes are a rule: {open}");
    let Edits { missing, missing_next, missing_low, .. } = edits;
    println!("refused with 37: {missing}, of these for the entry behind the last: {missing_next}, by its lowest bits an entry: {missing_low}");
    let Edits { commands, commands_by_one, kinds: [ors, nexts, fixpoints], kinds_by_one: [or, next, fixpoint], .. } = edits;
    println!("the spliced rule refused with 3: {commands}, of these for one command too many: {commands_by_one}");
    println!("with 4 for ors: {ors}, nexts: {nexts}, fixpoints: {fixpoints}, of these for one too many: {or}, {next}, {fixpoint}");
    let Edits { excess_inside, excess_behind, excess_both: [by_3, by_4], .. } = edits;
    println!("in the new rule: {excess_inside}, behind it: {excess_behind}; with 3 where 4 is due too: {by_3}, with 4 where 3 is: {by_4}");
}
