//! Sets of rules through both implementations: what they answer, and what both areas hold afterwards; that MET and NOT are what the proved
//! decision says of the conjunction; and of rules that clash, that trying every subset finds the same.

use super::{more_room, short, Areas, Lent};
use crate::decision::{self, Verdict};
use crate::random::Random;
use crate::reading::{self, Unreadable};
use crate::set::{conjunction, decide_set, without, Set, SetVerdict, MOST_RULES};
use crate::sheet::{first_fault, rules};
use crate::truth::{by_laps, Truth};
use yuktrob::{course_len, work_len, SetRefusal, MOST_NODES, MOST_PROFILES};

/// How many inputs came to each answer, and what was special about them.
#[derive(Default)]
pub struct Sets {
    /// MET and NOT, of one rule, and of eight.
    pub met: u64,
    pub not: u64,
    pub alone: u64,
    pub eight: u64,
    /// NOT where one rule, two, or more clash; where all do; where it is not all and the first is not among them.
    pub clash: [u64; 3],
    pub clash_of_all: u64,
    pub clash_behind: u64,
    /// NOT where leaving out from the first on would give another subset.
    pub by_first: u64,
    /// Held beside every subset.
    pub tried: u64,
    /// 30, of these with more than eight records or with a refused rule before the fault; 34 without rules, and with too many.
    pub damaged: u64,
    pub damaged_before_others: u64,
    pub none: u64,
    pub many: u64,
    /// Refused by reading, of these with 8; not at the first rule; where a rule behind it is refused too; where 11, 12 or 13 is due too.
    pub unread: u64,
    pub unguarded: u64,
    pub unread_behind: u64,
    pub unread_again: u64,
    pub unread_before_room: u64,
    /// Refused with 11 to 13.
    pub refused: [u64; 3],
    /// 35 at the whole set, through 3, 4, 14 and 15.
    pub whole: [u64; 4],
    /// 35 at a subset, through 14 and 15; of these where something was left out for good before.
    pub later: [u64; 2],
    pub later_behind: u64,
    /// Answers that were asked for again with more room.
    pub again: u64,
}

/// The set of a sheet without faults whose rules are one to eight, all accepted.
fn accepted(sheet: &[u8], n: usize, m: usize) -> Option<Set<'_>> {
    let rules = rules(sheet);
    let whole = first_fault(sheet).is_none() && (1..=MOST_RULES).contains(&rules.len());
    (whole && rules.iter().all(|rule| reading::read(rule).is_ok())).then_some(Set { rules, n, m })
}

/// The subsets that are tried, if each is decided.
fn tried(set: &Set) -> Vec<Vec<usize>> {
    let mut kept: Vec<usize> = (0..set.rules.len()).collect();
    let mut tried = vec![kept.clone()];
    if set.can_be_met(&kept) == Some(false) {
        for position in (0..set.rules.len()).rev() {
            let others = without(&kept, position);
            if !others.is_empty() {
                tried.push(others.clone());
            }
            if set.can_be_met(&others) == Some(false) {
                kept = others;
            }
        }
    }
    tried
}

/// Every second time room that some subset which is tried just needs, or one more or fewer of either; areas as long as it asks for, longer,
/// or now and then too short.
fn lent(random: &mut Random, sheet: &[u8]) -> Lent {
    let (mut n, mut m) = [(256, 300), (64, 40), (5, 8), (1, 4), (MOST_NODES, MOST_PROFILES)][random.below(5)];
    match random.below(40) {
        0 => n = [0, MOST_NODES + 1, usize::MAX][random.below(3)],
        1 => m = [0, MOST_PROFILES + 1, usize::MAX][random.below(3)],
        2..=19 => {}
        _ => (n, m) = near(random, sheet).unwrap_or((n, m)),
    }
    // where room is far too large, what it asks for is too
    let (most_n, most_m) = (n.min(MOST_NODES + 1), m.min(MOST_PROFILES + 1));
    Lent { n, m, work: short(random, work_len(most_n, most_m), 40), course: short(random, course_len(most_n, most_m), 4) }
}

/// About what one of the subsets needs of one kind of room, and enough or a little of the other.
fn near(random: &mut Random, sheet: &[u8]) -> Option<(usize, usize)> {
    let set = accepted(sheet, MOST_NODES, MOST_PROFILES)?;
    let tried = tried(&set);
    let positions = &tried[random.below(tried.len())];
    let entries = reading::read(&conjunction(&positions.iter().map(|&p| set.rules[p]).collect::<Vec<_>>())).ok()?;
    let nodes = decision::sizes(&entries, MOST_NODES)?.nodes;
    let profiles = decision::effort(&entries, MOST_NODES, MOST_PROFILES)?.profiles;
    let about = |random: &mut Random, needed: usize| (needed + random.below(3)).saturating_sub(1);
    Some(if random.one_in(2) {
        (about(random, nodes), [300, profiles.max(1)][random.below(2)])
    } else {
        ([256, nodes][random.below(2)], about(random, profiles.max(1)))
    })
}

/// One set: the answer and every byte of both areas; then of a verdict what the decision says of the conjunction, that each rule is true on
/// the course, that trying every subset finds the same clash, and often that more room changes nothing.
pub fn set(random: &mut Random, areas: &mut Areas, sets: &mut Sets) -> Result<(), String> {
    let sheet = random.set();
    let lent = lent(random, &sheet);
    let told = decided(&sheet, lent, areas)?;
    let named = |what: String| format!("set {sheet:02x?} {lent:?} {told:04x?}: {what}");
    sets.count(&sheet, lent, &told);
    sets.check(&sheet, lent, &told, areas).map_err(named)?;
    if matches!(told, SetVerdict::Met { .. } | SetVerdict::Not { .. }) && random.one_in(4) {
        sets.again += 1;
        let more = more_room(random, lent);
        let again = decided(&sheet, more, areas)?;
        if again != told {
            return Err(named(format!("but {more:?} {again:04x?}")));
        }
    }
    Ok(())
}

/// The answer of both, in areas that hold the same before and must hold the same afterwards.
fn decided(sheet: &[u8], lent: Lent, areas: &mut Areas) -> Result<SetVerdict, String> {
    let [(work, course), (other_work, other_course)] = areas.filled(lent.work, lent.course);
    let ours = proved_set(sheet, lent.n, lent.m, work, course);
    let theirs = decide_set(sheet, lent.n, lent.m, other_work, other_course);
    let (same_work, same_course) = (work == other_work, course == other_course);
    if ours == theirs && same_work && same_course {
        return Ok(theirs);
    }
    let areas = format!("work areas the same: {same_work}, courses: {same_course}");
    Err(format!("set {sheet:02x?} {lent:?}: {ours:04x?}, not {theirs:04x?}, {areas}"))
}

/// The proved decision of a set, told as the independent one tells its own.
pub fn proved_set(sheet: &[u8], n: usize, m: usize, work: &mut [u8], course: &mut [u16]) -> SetVerdict {
    match yuktrob::decide_set(sheet, n, m, work, course) {
        Ok(yuktrob::SetVerdict::Met { lead_len, loop_len, nodes, profiles, course }) => {
            SetVerdict::Met { lead_len, loop_len, nodes, profiles, course: course.to_vec() }
        }
        Ok(yuktrob::SetVerdict::Not { nodes, profiles, clash }) => SetVerdict::Not { nodes, profiles, clash: clash.positions().collect() },
        Err(SetRefusal::Damaged { place }) => SetVerdict::Damaged(place),
        Err(SetRefusal::Miscounted) => SetVerdict::Miscounted,
        Err(SetRefusal::Unread { position, refusal }) => {
            let place = refusal.place.expect("a refusal of reading has a place");
            SetVerdict::Unread { position, why: Unreadable { number: refusal.number, place, fixpoint: refusal.fixpoint } }
        }
        Err(SetRefusal::Refused(why)) => SetVerdict::Refused(why.number),
        Err(SetRefusal::Undecided { tried }) => SetVerdict::Undecided(tried.positions().collect()),
    }
}

/// The set, if the proved decision of its conjunction comes to the same, but for the clash.
fn decided_so<'a>(sheet: &'a [u8], Lent { n, m, .. }: Lent, told: &SetVerdict, areas: &mut Areas) -> Result<Set<'a>, String> {
    let set = accepted(sheet, n, m).ok_or("rules that are to be refused")?;
    let [(work, buffer), _] = areas.filled(work_len(n, m), course_len(n, m));
    let same = match (yuktrob::decide(&conjunction(&set.rules), n, m, work, buffer), told) {
        (Ok(yuktrob::Verdict::Met { lead_len, loop_len, nodes, profiles, course }), _) => {
            *told == SetVerdict::Met { lead_len, loop_len, nodes, profiles, course: course.to_vec() }
        }
        (Ok(yuktrob::Verdict::Not { nodes, profiles }), SetVerdict::Not { nodes: k, profiles: p, .. }) => (nodes, profiles) == (*k, *p),
        _ => false,
    };
    if same { Ok(set) } else { Err("not what the decision says of the conjunction".into()) }
}

/// What refuses to decide the rules at the positions.
fn number(set: &Set, positions: &[usize]) -> u8 {
    match set.decided(positions) {
        Verdict::Unread(why) => why.number,
        Verdict::Refused(number) => number,
        verdict => panic!("decided: {verdict:?}"),
    }
}

/// Sets whose conjunction has more ors than this are not held beside every subset.
const MOST_ORS: usize = 6;

impl Sets {
    /// A fault must be the first, a verdict the conjunction's, each rule true on a course, and a clash one.
    fn check(&mut self, sheet: &[u8], lent: Lent, told: &SetVerdict, areas: &mut Areas) -> Result<(), String> {
        match told {
            SetVerdict::Damaged(place) if first_fault(sheet).is_none_or(|fault| fault.place != *place) => Err("not the first fault".into()),
            SetVerdict::Met { lead_len, course, .. } => {
                let set = decided_so(sheet, lent, told, areas)?;
                let is_true = |rule: &&[u8]| matches!(by_laps(rule, course, *lead_len, course.len()), Truth::Told(true, _));
                if set.rules.iter().all(is_true) { Ok(()) } else { Err("a rule is not true on the course".into()) }
            }
            SetVerdict::Not { clash, .. } => {
                let set = decided_so(sheet, lent, told, areas)?;
                self.check_clash(&Set { n: MOST_NODES, m: MOST_PROFILES, ..set }, clash)
            }
            _ => Ok(()),
        }
    }

    /// What clashes cannot be met, without any one of its rules it can, and no subset that cannot be met comes before it.
    fn check_clash(&mut self, set: &Set, clash: &[usize]) -> Result<(), String> {
        if set.can_be_met(clash) != Some(false) {
            return Err("the clash can be met".into());
        }
        // with fewer rules there are often more nodes and profiles, and now and then more than there can be room for
        if let Some(position) = clash.iter().find(|&&position| set.can_be_met(&without(clash, position)) == Some(false)) {
            return Err(format!("it clashes without {position} too"));
        }
        if conjunction(&set.rules).iter().filter(|&&byte| byte == 6).count() > MOST_ORS {
            return Ok(());
        }
        match set.first_unmet() {
            Some(first) if first != clash => return Err(format!("{first:?} comes before the clash")),
            Some(_) => self.tried += 1,
            None => {}
        }
        let from_first = clash_from_first(set);
        self.by_first += from_first.is_some_and(|other| other != clash) as u64;
        Ok(())
    }

    fn count(&mut self, sheet: &[u8], lent: Lent, told: &SetVerdict) {
        let rules = rules(sheet);
        match told {
            SetVerdict::Damaged(_) => {
                self.damaged += 1;
                let refused = rules.iter().any(|rule| reading::read(rule).is_err());
                self.damaged_before_others += (rules.len() > MOST_RULES || refused) as u64;
            }
            SetVerdict::Miscounted if rules.is_empty() => self.none += 1,
            SetVerdict::Miscounted => self.many += 1,
            SetVerdict::Unread { position, why } => {
                let refused = rules[position + 1..].iter().any(|rule| reading::read(rule).is_err());
                let room = decision::refused_room(lent.n, lent.m, lent.work, lent.course).is_some();
                self.unread += 1;
                self.unguarded += why.fixpoint.is_some() as u64;
                self.unread_behind += (*position > 0) as u64;
                self.unread_again += refused as u64;
                self.unread_before_room += room as u64;
            }
            SetVerdict::Refused(number) => self.refused[*number as usize - 11] += 1,
            SetVerdict::Undecided(tried) => self.count_undecided(&Set { rules, n: lent.n, m: lent.m }, tried),
            SetVerdict::Met { .. } => {
                self.met += 1;
                self.count_rules(rules.len());
            }
            SetVerdict::Not { clash, .. } => {
                self.not += 1;
                self.count_rules(rules.len());
                self.clash[clash.len().min(3) - 1] += 1;
                self.clash_of_all += (clash.len() == rules.len()) as u64;
                self.clash_behind += (clash.len() < rules.len() && clash[0] > 0) as u64;
            }
        }
    }

    fn count_rules(&mut self, count: usize) {
        self.alone += (count == 1) as u64;
        self.eight += (count == MOST_RULES) as u64;
    }

    fn count_undecided(&mut self, set: &Set, tried: &[usize]) {
        let number = number(set, tried);
        if tried.len() == set.rules.len() {
            let which = [3, 4, 14, 15].iter().position(|&other| other == number).expect("3, 4, 14 or 15");
            self.whole[which] += 1;
        } else {
            self.later[number as usize - 14] += 1;
            self.later_behind += (tried.len() + 1 < set.rules.len()) as u64;
        }
    }
}

/// What would be left if each were left out from the first to the last.
fn clash_from_first(set: &Set) -> Option<Vec<usize>> {
    (0..set.rules.len()).try_fold((0..set.rules.len()).collect(), |kept: Vec<usize>, position| {
        let others = without(&kept, position);
        Some(if set.can_be_met(&others)? { kept } else { others })
    })
}
