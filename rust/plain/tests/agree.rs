//! The proved library and the independent implementation agree.

use yuktrob_plain::compared::{self, Areas, Input};
use yuktrob_plain::compared::{Buildings, Courses, Decisions, Edits, Lookups, Rooms, Safeties, Sets, Signals, Truths, Unguarded};
use yuktrob_plain::random::Random;

/// Courses are kept this short, so that the test takes seconds; `compare` draws longer ones.
const LONGEST: usize = 64;

#[test]
fn on_some_thousands() {
    let mut random = Random::new(42);
    let (mut unguarded, mut signals) = (Unguarded::default(), Signals::default());
    let (mut areas, mut truths, mut decisions) = (Areas::new(), Truths::default(), Decisions::default());
    for _ in 0..6000 {
        let input = Input::new(&mut random);
        unguarded.count(&input.rule);
        signals.count(&input.rule);
        assert_eq!(compared::reading(&input.rule), Ok(()));
        assert_eq!(compared::truth(&mut random, &input, LONGEST, &mut truths), Ok(()));
        assert_eq!(compared::decision(&mut random, &input.rule, &mut areas, &mut decisions), Ok(()));
    }
    assert!(truths.alternating > 500, "only {} rules with alternating fixpoints", truths.alternating);
    assert!(unguarded.between > 100, "only {} rules refused with 8 for a fixpoint between", unguarded.between);
    assert!(signals.fewest() > 20, "only {} rules with some signal both present and absent", signals.fewest());
    check_flags(&truths, &decisions);
    check_rooms(&decisions.rooms);
    check_courses(&decisions.courses);
    check_buildings(&decisions.buildings);
    assert!(decisions.again > 250, "only {} verdicts asked for again with more room", decisions.again);
}

#[test]
fn on_some_thousands_of_safety_rules() {
    let (mut random, mut areas, mut safeties) = (Random::new(42), Areas::new(), Safeties::default());
    for _ in 0..6000 {
        assert_eq!(compared::safety(&mut random, &mut areas, &mut safeties), Ok(()));
    }
    check_safeties(&safeties);
}

#[test]
fn on_some_thousands_of_lookups() {
    let (mut random, mut lookups) = (Random::new(42), Lookups::default());
    for _ in 0..20_000 {
        assert_eq!(compared::lookup(&mut random, &mut lookups), Ok(()));
    }
    check_lookups(&lookups);
}

#[test]
fn on_some_thousands_of_sets() {
    let (mut random, mut areas, mut sets) = (Random::new(42), Areas::new(), Sets::default());
    for _ in 0..20_000 {
        assert_eq!(compared::set(&mut random, &mut areas, &mut sets), Ok(()));
    }
    check_sets(&sets);
}

#[test]
fn on_some_thousands_of_edits() {
    let (mut random, mut edits) = (Random::new(42), Edits::default());
    for _ in 0..20_000 {
        assert_eq!(compared::edit(&mut random, &mut edits), Ok(()));
    }
    check_edits(&edits);
}

/// Each count is above the number behind it.
fn check_counts(counted: &[(u64, u64, &str)]) {
    for (count, few, what) in counted {
        assert!(count > few, "only {count} {what}");
    }
}

fn check_flags(truths: &Truths, decisions: &Decisions) {
    check_counts(&[
        (truths.refused_19, 150, "truths refused with 19"),
        (truths.before_18, 30, "truths refused with 19 that have too few words as well"),
        (truths.behind_16, 50, "truths refused with 16 that 19 would refuse as well"),
        (truths.behind_17, 2, "truths refused with 17 that 19 would refuse as well"),
        (decisions.with_flags, 200, "verdicts on rules with both scale flags"),
        (decisions.both_present, 30, "verdicts with a step missing as both flags would be present"),
        (decisions.both_absent, 30, "verdicts with a step missing as both flags would be absent"),
        (decisions.current, 150, "courses given with a place of the current scale"),
    ]);
}

fn check_rooms(rooms: &Rooms) {
    check_counts(&[
        (rooms.met_fewer, 300, "MET with fewer profiles than there are"),
        (rooms.met_early, 100, "MET where there are more than M profiles"),
        (rooms.met_early_later, 10, "MET where there are more than M profiles and the loop has several steps"),
        (rooms.met_exact, 100, "MET where M is just what is needed"),
        (rooms.not_exact, 25, "NOT where M is just what is needed"),
        (rooms.refused_good, 100, "refused with 15 though there is a good loop"),
        (rooms.refused_behind, 50, "refused with 15 though a good loop is among the first M profiles"),
        (rooms.refused_by_one, 70, "refused with 15 where M is one fewer than a good loop needs"),
        (rooms.refused_none, 30, "refused with 15 without a good loop"),
        (rooms.refused_none_by_one, 20, "refused with 15 where M is one fewer than all profiles"),
    ]);
}

fn check_courses(courses: &Courses) {
    check_counts(&[
        (courses.tried, 1000, "courses held beside all that are as short"),
        (courses.several, 500, "courses with others as short"),
        (courses.differing, 350, "courses with others as short that have other places"),
        (courses.by_last, 300, "courses where the last as short has other places"),
        (courses.by_loop, 10, "courses where the loop's pick words before the lead-in's give other places"),
        (courses.by_places, 150, "courses where comparing places gives other places"),
        (courses.by_first_or, 20, "courses where other places come first with or 0 as the highest bit"),
    ]);
}

fn check_buildings(buildings: &Buildings) {
    check_counts(&[
        (buildings.built, 2000, "nodes built"),
        (buildings.refused_12, 150, "buildings refused with 12"),
        (buildings.refused_14, 150, "buildings refused with 14"),
        (buildings.verdicts, 1500, "searches of nodes just built that come to a verdict"),
        (buildings.refused_15, 200, "searches of nodes just built that are refused with 15"),
        (buildings.again, 500, "searches of the same nodes with another M"),
        (buildings.before_36, 50, "searches refused with 12 or 13 that 36 would refuse as well"),
    ]);
    for (name, changed) in buildings.changes() {
        let passed = changed.all - changed.refused;
        match name {
            "bytes behind the nodes" => check_counts(&[(passed, 150, name)]),
            "another rule's nodes" | "another N" => check_counts(&[(changed.refused, 40, name), (passed, 40, name)]),
            _ => check_counts(&[(changed.refused, 150, name)]),
        }
    }
}

fn check_safeties(safeties: &Safeties) {
    let [refused_11, refused_12, refused_13, refused_14] = safeties.refused;
    check_counts(&[
        (safeties.met, 1200, "safety rules that are MET"),
        (safeties.not, 300, "safety rules that are NOT"),
        (safeties.unread, 200, "bytes refused by reading"),
        (safeties.least, 200, "rules refused with 43"),
        (refused_11, 200, "safety rules refused with 11"),
        (refused_12, 150, "safety rules refused with 12"),
        (refused_13, 100, "safety rules refused with 13"),
        (refused_14, 200, "safety rules refused with 14"),
        (safeties.later, 200, "MET with a loop of several steps"),
        (safeties.long, 10, "MET with a loop of ten steps or more"),
        (safeties.led, 200, "MET with a lead-in of several steps"),
        (safeties.full, 200, "MET with as many places as nodes"),
        (safeties.exact, 300, "verdicts with room for just the nodes that there are"),
        (safeties.by_one, 150, "14 with one node fewer than there are"),
        (safeties.behind_9, 10, "43 behind a signal 9"),
        (safeties.several, 50, "43 with another least fixpoint behind"),
        (safeties.before_others, 20, "43 where 11, 12 or 13 would refuse as well"),
        (safeties.before_13, 10, "12 where 13 would refuse as well"),
        (safeties.general, 1500, "verdicts of the general decision too"),
        (safeties.beyond_met, 15, "MET where the general decision has no room"),
        (safeties.beyond_not, 5, "NOT where the general decision has no room"),
        (safeties.again, 300, "verdicts asked for again with more room"),
        (safeties.courses.differing, 200, "courses with others as short that have other places"),
    ]);
}

fn check_lookups(lookups: &Lookups) {
    let (faults, [of_0, of_255, of_256, of_65535]) = (&lookups.faults, lookups.edges);
    let [one, two, three, more] = faults.cuts;
    check_counts(&[
        (lookups.dealer, 3000, "rules found in the dealer's sheet"),
        (lookups.overridden, 800, "rules found in the dealer's sheet that the factory's has too"),
        (lookups.factory, 2000, "rules found in the factory's sheet"),
        (lookups.empty, 1000, "rules without bytes"),
        (lookups.longest, 300, "rules of 255 bytes"),
        (lookups.far, 10, "rules behind place 65,535"),
        (of_0.min(of_255).min(of_256).min(of_65535), 80, "rules with a number at an edge"),
        (lookups.missing, 2000, "lookups refused with 31"),
        (lookups.missing_in_both, 1000, "lookups refused with 31 with records in both sheets"),
        (lookups.damaged_dealer, 4000, "damaged sheets of the dealer's"),
        (lookups.damaged_both, 1500, "damaged sheets of the dealer's above a damaged one"),
        (lookups.damaged_alike, 400, "damaged sheets of both with the same place"),
        (lookups.damaged_factory, 3000, "damaged sheets of the factory's"),
        (lookups.behind_number, 1500, "faults behind a record with the number"),
        (lookups.below_number, 1200, "damaged sheets of the factory's below one that has the number"),
        (faults.marks, 3000, "records with another first byte"),
        (faults.repeated, 500, "numbers as before"),
        (faults.fallen, 500, "numbers that are smaller"),
        (faults.unrisen_cut, 500, "numbers that do not rise in a record that lacks bytes"),
        (one.min(two).min(three), 200, "records of which one, two or three bytes are there"),
        (more, 1500, "records that lack bytes of the rule"),
        (faults.cut_by_one, 300, "records of which 254 bytes of 255 are there"),
        (faults.at_first, 2000, "faults at the first byte"),
        (faults.far, 20, "faults behind place 65,535"),
    ]);
}

fn check_sets(sets: &Sets) {
    let ([one, two, more], [refused_11, refused_12, refused_13]) = (sets.clash, sets.refused);
    let ([by_3, by_4, by_14, by_15], [later_14, later_15]) = (sets.whole, sets.later);
    check_counts(&[
        (sets.met, 2500, "sets that are MET"),
        (sets.not, 2500, "sets that are NOT"),
        (sets.alone, 250, "sets of one rule"),
        (sets.eight, 300, "sets of eight rules"),
        (one, 400, "clashes of one rule"),
        (two, 800, "clashes of two"),
        (more, 800, "clashes of more"),
        (sets.clash_of_all, 700, "clashes of all rules"),
        (sets.clash_behind, 600, "clashes without the first rule"),
        (sets.by_first, 700, "sets with another clash if the first were left out first"),
        (sets.tried, 2000, "clashes held beside every subset"),
        (sets.damaged, 1000, "damaged sheets"),
        (sets.damaged_before_others, 200, "damaged sheets with too many rules or with one that is none"),
        (sets.none, 200, "sheets without rules"),
        (sets.many, 500, "sheets with more than eight"),
        (sets.unread, 1500, "sets with a rule that is none"),
        (sets.unguarded, 200, "sets with a rule refused with 8"),
        (sets.unread_behind, 800, "sets with such a rule behind the first"),
        (sets.unread_again, 700, "sets with several such rules"),
        (sets.unread_before_room, 100, "sets with such a rule where 11, 12 or 13 would refuse as well"),
        (refused_11, 500, "sets refused with 11"),
        (refused_12, 250, "sets refused with 12"),
        (refused_13, 250, "sets refused with 13"),
        (by_3, 300, "sets refused with 35 through 3"),
        (by_4, 700, "sets refused with 35 through 4"),
        (by_14, 900, "sets refused with 35 through 14"),
        (by_15, 300, "sets refused with 35 through 15"),
        (later_14, 900, "subsets refused with 35 through 14"),
        (later_15, 200, "subsets refused with 35 through 15"),
        (sets.later_behind, 600, "subsets refused with 35 where some rule was left out for good"),
        (sets.again, 1000, "verdicts asked for again with more room"),
    ]);
}

fn check_edits(edits: &Edits) {
    let fewest = |counts: &[u64]| counts.iter().copied().min().unwrap_or(0);
    check_counts(&[
        (edits.edited, 6000, "edits"),
        (edits.whole, 2000, "whole rules replaced"),
        (edits.last, 1000, "last entries replaced"),
        (edits.between, 2000, "entries replaced with others before and behind"),
        (edits.longer, 3000, "edits to more entries"),
        (edits.shorter, 1700, "edits to fewer entries"),
        (edits.even, 1200, "edits to as many entries"),
        (edits.same, 800, "edits to the same rule"),
        (edits.within, 2500, "edits inside a fixpoint"),
        (edits.named_before, 700, "edits before a variable of a fixpoint that stays"),
        (edits.named_moved, 250, "edits before a fixpoint that moves with its variables"),
        (edits.named_inside, 1200, "edits with a fixpoint of the new rule that moves"),
        (fewest(&edits.full), 400, "edits to as many commands, ors, nexts or fixpoints as there may be"),
        (fewest(&edits.old), 10, "old rules refused with some number"),
        (fewest(&edits.new), 25, "new rules refused with some number"),
        (edits.old_before_new, 250, "old rules refused where the new one would be too"),
        (edits.new_before_37, 250, "new rules refused where there is no such entry"),
        (edits.open, 450, "new rules refused with 7 whose variables would name a fixpoint of the old one"),
        (edits.missing, 1300, "edits refused with 37"),
        (edits.missing_next, 200, "edits refused with 37 for the entry behind the last"),
        (edits.missing_low, 600, "edits refused with 37 where the lowest bits are an entry's"),
        (edits.commands, 1300, "spliced rules refused with 3"),
        (edits.commands_by_one, 250, "spliced rules refused with 3 for one command"),
        (fewest(&edits.kinds), 400, "spliced rules refused with 4 for ors, nexts or fixpoints"),
        (fewest(&edits.kinds_by_one), 250, "spliced rules refused with 4 for one or, next or fixpoint"),
        (edits.excess_inside, 2500, "spliced rules refused in the new rule"),
        (edits.excess_behind, 1200, "spliced rules refused behind the new rule"),
        (edits.excess_both[0], 150, "spliced rules refused with 3 that have too many of others"),
        (edits.excess_both[1], 700, "spliced rules refused with 4 that have too many commands"),
    ]);
}
