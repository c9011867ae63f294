//! One input through the proved library and the independent implementation: what differs, if anything.

mod building;
mod edit;
mod safety;
mod set;
mod sheet;

pub use building::{Buildings, Changed};
pub use edit::{edit, proved_edit, Edits};
pub use safety::{safety, Safeties};
pub use set::{proved_set, set, Sets};
pub use sheet::{lookup, proved_lookup, Faults, Lookups};

use crate::least::{self, Course};
use crate::random::{nesting, Random};
use crate::reading::{self, Unreadable};
use crate::scale::{is_place, BOTH, CURRENT_SCALE, PREVIOUS_SCALE};
use crate::truth::{self, Truth};
use crate::{decision, decision::Verdict};
use std::cmp::Reverse;
use yuktrob::{course_len, work_len, Command, Refusal, Rule, MOST_NODES, MOST_PLACES, MOST_PROFILES};

/// A refusal's number, with the byte's place and the fixpoint's where it has them.
#[derive(Clone, Copy, Debug, PartialEq, Eq)]
struct Refused {
    number: u8,
    place: Option<usize>,
    fixpoint: Option<usize>,
}

fn ours(why: Refusal) -> Refused {
    Refused { number: why.number, place: why.place, fixpoint: why.fixpoint }
}

fn theirs(why: Unreadable) -> Refused {
    Refused { number: why.number, place: Some(why.place), fixpoint: why.fixpoint }
}

/// A refusal behind reading, which has no place.
fn placeless(number: u8) -> Refused {
    Refused { number, place: None, fixpoint: None }
}

/// A rule's bytes, and how far its signals, which are few, are turned round among the sixteen; a course for it has them there too. Every
/// third is joined with a second rule by an and, and its signals are the scale flags and signal 0, so that much is asked of the flags.
pub struct Input {
    pub rule: Vec<u8>,
    turn: u32,
}

impl Input {
    pub fn new(random: &mut Random) -> Self {
        Input::of(random, rule)
    }

    /// Over rules that are drawn so.
    fn of(random: &mut Random, rule: fn(&mut Random) -> Vec<u8>) -> Self {
        let mut rule = rule(random);
        if random.one_in(3) {
            let size = 1 + random.below(12);
            rule = [vec![7], rule, random.rule(size)].concat();
            each_signal(&mut rule, |_| [PREVIOUS_SCALE, PREVIOUS_SCALE, CURRENT_SCALE, CURRENT_SCALE, 0][random.below(5)]);
            return Input { rule, turn: PREVIOUS_SCALE.into() };
        }
        let turn = random.below(16) as u8;
        each_signal(&mut rule, |signal| (signal + turn) % 16);
        Input { rule, turn: turn.into() }
    }
}

/// Puts another signal for each signal in a rule's bytes.
fn each_signal(rule: &mut [u8], mut other: impl FnMut(u8) -> u8) {
    let mut at = 0;
    while at < rule.len() {
        let takes_one = matches!(rule[at], 3..=5);
        if let (3 | 4, Some(signal @ 0..=15)) = (rule[at], rule.get_mut(at + 1)) {
            *signal = other(*signal);
        }
        at += 1 + takes_one as usize;
    }
}

/// The rule's bytes: at random, damaged, short, long, with no good loop of one step, with many courses as short, or with fixpoints that
/// cross, most of which alternate; of these some lack a next.
fn rule(random: &mut Random) -> Vec<u8> {
    let most = [4, 12, 24, 48, 60][random.below(5)];
    let size = 1 + random.below(most);
    match random.below(10) {
        0..=1 => random.damaged(size),
        2..=4 => random.crossing(),
        5 => random.unguarded(),
        6 => [vec![7], random.beat(), random.rule(size)].concat(),
        7 => random.fork(),
        _ => random.rule(size),
    }
}

/// How many rules were refused with 8, and of those how many for a fixpoint that is neither the innermost one nor at byte 0.
#[derive(Default)]
pub struct Unguarded {
    pub all: u64,
    pub between: u64,
}

impl Unguarded {
    pub fn count(&mut self, rule: &[u8]) {
        let Err(Unreadable { place, fixpoint: Some(fixpoint), .. }) = reading::read(rule) else { return };
        self.all += 1;
        // the byte at the place is the variable's depth
        self.between += (rule[place] > 0 && fixpoint > 0) as u64;
    }
}

/// For each signal, how many accepted rules have it both present and absent.
#[derive(Default)]
pub struct Signals([u64; 16]);

impl Signals {
    pub fn count(&mut self, rule: &[u8]) {
        let Ok(entries) = reading::read(rule) else { return };
        for (j, both) in self.0.iter_mut().enumerate() {
            let has = |c: reading::Command| entries.contains(&c);
            *both += (has(reading::Command::Present(j as u8)) && has(reading::Command::Absent(j as u8))) as u64;
        }
    }

    /// Of the signal that the fewest have so.
    pub fn fewest(&self) -> u64 {
        self.0.into_iter().min().unwrap_or(0)
    }
}

fn command(c: reading::Command) -> Command {
    match c {
        reading::Command::True => Command::True,
        reading::Command::False => Command::False,
        reading::Command::Present(j) => Command::Present(j),
        reading::Command::Absent(j) => Command::Absent(j),
        reading::Command::Variable(m) => Command::Variable(m),
        reading::Command::Or(l, r) => Command::Or(l, r),
        reading::Command::And(l, r) => Command::And(l, r),
        reading::Command::Next(f) => Command::Next(f),
        reading::Command::Least(f) => Command::Least(f),
        reading::Command::Greatest(f) => Command::Greatest(f),
    }
}

/// Reading: the outcome, the entries, and where each ends.
pub fn reading(rule: &[u8]) -> Result<(), String> {
    let listed = |r: Rule| r.entries().map(|entry| (entry.command, entry.end)).collect::<Vec<_>>();
    let expected = |c: Vec<reading::Command>| c.iter().map(|&c| command(c)).zip(reading::ends(&c)).collect::<Vec<_>>();
    let ours = Rule::read(rule).map(listed).map_err(ours);
    let theirs = reading::read(rule).map(expected).map_err(theirs);
    if ours == theirs { Ok(()) } else { Err(format!("read {rule:02x?}: {ours:?}, not {theirs:?}")) }
}

/// How many truths there were, of those how many of a rule with alternating fixpoints, and of these how many on a long course.
#[derive(Default)]
pub struct Truths {
    pub all: u64,
    pub alternating: u64,
    pub long: u64,
    /// Refused with 19, and of these with too few words as well.
    pub refused_19: u64,
    pub before_18: u64,
    /// Refused with 16 and with 17 on a course with such a place.
    pub behind_16: u64,
    pub behind_17: u64,
}

impl Truths {
    fn count(&mut self, rule: &[u8], x: &Asked, answer: &Result<bool, Refused>) {
        let alternating = answer.is_ok() && reading::read(rule).is_ok_and(|entries| nesting(&entries).alternating);
        let refused = |number| answer.is_err_and(|why| why.number == number);
        let misflagged = !x.places.iter().all(|&place| is_place(place));
        self.all += 1;
        self.alternating += alternating as u64;
        self.long += (alternating && x.places.len() >= LONG) as u64;
        self.refused_19 += refused(19) as u64;
        self.before_18 += (refused(19) && x.lent.len() < x.places.len()) as u64;
        self.behind_16 += (refused(16) && misflagged) as u64;
        self.behind_17 += (refused(17) && misflagged) as u64;
    }
}

/// What counts as a long course.
pub const LONG: usize = 1000;

/// Courses up to this length are worked out by rounds too.
const SHORT: usize = 40;

/// How many places: mostly few, now and then many, up to `longest`, and now and then more than a course may have.
fn length(random: &mut Random, longest: usize) -> usize {
    match random.below(1000) {
        0..=3 => longest - random.below(2),
        4..=19 => random.below(longest),
        20..=24 => 8193 + random.below(100),
        25..=44 => random.below(longest.min(400)),
        _ => {
            let most = [2, 6, 20, 60][random.below(4)];
            random.below(most)
        }
    }
}

/// A course with the words lent for it.
struct Asked {
    places: Vec<u16>,
    lead_len: usize,
    lent: Vec<u64>,
}

/// Now and then, and often where the course is refused anyway, one place gets both scale flags or neither.
fn misflag(random: &mut Random, places: &mut [u16], refused: bool) {
    let seldom = if refused { 2 } else { 12 };
    if let (Some(last), true) = (places.len().checked_sub(1), random.one_in(seldom)) {
        let i = [0, last, random.below(places.len())][random.below(3)];
        places[i] ^= random.flag();
    }
}

fn asked(random: &mut Random, longest: usize, turn: u32) -> Asked {
    let n = length(random, longest);
    let lead_len = match random.below(20) {
        0 => n + random.below(2),
        1..=4 => 0,
        5..=8 => n.saturating_sub(1),
        _ => random.below(n.max(1)),
    };
    let room = if random.one_in(20) { n.saturating_sub(1) } else { n + random.below(3) };
    let mut places = random.course(n, turn);
    misflag(random, &mut places, lead_len >= n || n > MOST_PLACES || room < n);
    Asked { places, lead_len, lent: (0..room as u64).map(|i| i ^ 0xdead_beef).collect() }
}

/// What the independent implementation answers, with what the words are afterwards. The two methods must agree on a short course.
fn expected(rule: &[u8], x: &Asked) -> Result<(Result<bool, Refused>, Vec<u64>), String> {
    let by_laps = truth::by_laps(rule, &x.places, x.lead_len, x.lent.len());
    if x.places.len() <= SHORT && by_laps != truth::by_rounds(rule, &x.places, x.lead_len, x.lent.len()) {
        return Err(format!("truth {rule:02x?} on {:04x?} lead-in {}: by laps is not by rounds", x.places, x.lead_len));
    }
    Ok(match by_laps {
        Truth::Unread(why) => (Err(theirs(why)), x.lent.clone()),
        Truth::Refused(number) => (Err(placeless(number)), x.lent.clone()),
        Truth::Told(b, words) => (Ok(b), [&words[..], &x.lent[words.len()..]].concat()),
    })
}

/// Truth: the answer, the words, and the words past the course, which has at most `longest` places unless it is refused.
pub fn truth(random: &mut Random, Input { rule, turn }: &Input, longest: usize, truths: &mut Truths) -> Result<(), String> {
    let x = asked(random, longest, *turn);
    let mut words = x.lent.clone();
    let ours = yuktrob::truth(rule, &x.places, x.lead_len, &mut words).map_err(ours);
    let (theirs, after) = expected(rule, &x)?;
    truths.count(rule, &x, &theirs);
    if ours == theirs && words == after {
        return Ok(());
    }
    let (course, lead_len, room) = (&x.places, x.lead_len, x.lent.len());
    Err(format!("truth {rule:02x?} on {course:04x?} lead-in {lead_len} room {room}: {ours:?} {words:?}, not {theirs:?} {after:?}"))
}

/// The areas that are lent again and again, to each implementation its own.
pub struct Areas {
    ours: Side,
    theirs: Side,
}

#[derive(Clone)]
struct Side {
    work: Vec<u8>,
    course: Vec<u16>,
}

impl Areas {
    #[allow(clippy::new_without_default)]
    pub fn new() -> Self {
        let (n, m) = (MOST_NODES + 1, MOST_PROFILES + 1);
        let side = Side { work: vec![0; work_len(n, m) + 64], course: vec![0; course_len(n, m) + 64] };
        Areas { ours: side.clone(), theirs: side }
    }

    /// A work area and a course buffer of these lengths for each, which hold patterns.
    fn filled(&mut self, work: usize, course: usize) -> [(&mut [u8], &mut [u16]); 2] {
        [&mut self.ours, &mut self.theirs].map(|side| {
            let (work, course) = (&mut side.work[..work], &mut side.course[..course]);
            work.fill(WORK_PATTERN);
            course.fill(COURSE_PATTERN);
            (work, course)
        })
    }
}

/// What areas hold before they are lent.
const WORK_PATTERN: u8 = 0xa5;
const COURSE_PATTERN: u16 = 0x5a5a;

/// Room for nodes and profiles, and how much of the areas is lent.
#[derive(Clone, Copy, Debug)]
struct Lent {
    n: usize,
    m: usize,
    work: usize,
    course: usize,
}

fn room(random: &mut Random, most: usize) -> usize {
    match random.below(8) {
        0 => random.below(4),
        1 => most + random.below(2),
        2 => most,
        _ => 1 + random.below(most / 8),
    }
}

/// Room for the profiles that a decision needs, for one fewer or for one more.
fn near_effort(random: &mut Random, rule: &[u8]) -> Option<usize> {
    let effort = decision::effort(&reading::read(rule).ok()?, MOST_NODES, MOST_PROFILES)?;
    (effort.profiles + random.below(3)).checked_sub(1)
}

/// The room for profiles is in every third input near what the decision needs, and in the others any.
fn lent(random: &mut Random, rule: &[u8]) -> Lent {
    let n = room(random, MOST_NODES);
    let near = if random.one_in(3) { near_effort(random, rule) } else { None };
    let m = near.unwrap_or_else(|| room(random, MOST_PROFILES));
    Lent { n, m, work: short(random, work_len(n, m), 40), course: short(random, course_len(n, m), 4) }
}

/// As long as it must be or somewhat longer, now and then one too short.
fn short(random: &mut Random, need: usize, more: usize) -> usize {
    if random.one_in(30) { need.saturating_sub(1) } else { need + random.below(more) }
}

/// As much room or more, and areas to suit.
fn more_room(random: &mut Random, lent: Lent) -> Lent {
    let (n, m) = (lent.n + random.below(MOST_NODES - lent.n + 1), lent.m + random.below(MOST_PROFILES - lent.m + 1));
    Lent { n, m, work: work_len(n, m), course: course_len(n, m) }
}

/// The answer without the course.
#[derive(Clone, Copy, Debug, PartialEq)]
enum Settled {
    Met { lead_len: usize, loop_len: usize, nodes: usize, profiles: usize },
    Not { nodes: usize, profiles: usize },
    Refused(Refused),
}

fn our_verdict(answer: Result<yuktrob::Verdict, Refusal>) -> Settled {
    match answer {
        Ok(yuktrob::Verdict::Met { lead_len, loop_len, nodes, profiles, .. }) => Settled::Met { lead_len, loop_len, nodes, profiles },
        Ok(yuktrob::Verdict::Not { nodes, profiles }) => Settled::Not { nodes, profiles },
        Err(why) => Settled::Refused(ours(why)),
    }
}

fn their_verdict(answer: Verdict) -> Told {
    match answer {
        Verdict::Unread(why) => (Settled::Refused(theirs(why)), Vec::new()),
        Verdict::Refused(number) => (Settled::Refused(placeless(number)), Vec::new()),
        Verdict::Not { nodes, profiles } => (Settled::Not { nodes, profiles }, Vec::new()),
        Verdict::Met { lead_len, loop_len, nodes, profiles, course } => (Settled::Met { lead_len, loop_len, nodes, profiles }, course),
    }
}

/// How many bytes of the work area are zero afterwards; the others are as they were.
fn zeros(settled: &Settled, lent: Lent) -> usize {
    match settled {
        Settled::Refused(why) if why.number < 14 => 0,
        _ => work_len(lent.n, lent.m),
    }
}

/// What the scale flags did in decisions that came to a verdict, what the room for profiles did, and what the courses were held beside.
#[derive(Default)]
pub struct Decisions {
    /// Of a rule with both flags, and of these with a step missing for the flags alone, as both would be present, as both would be absent.
    pub with_flags: u64,
    pub both_present: u64,
    pub both_absent: u64,
    /// With a course that has a place of the current scale.
    pub current: u64,
    /// Verdicts that were asked for again with more room.
    pub again: u64,
    pub rooms: Rooms,
    pub courses: Courses,
    pub buildings: Buildings,
}

/// What M, the room for profiles, did in decisions. What is needed are the profiles of runs of at most as many steps as the shortest good
/// loop has, or all if there is none.
#[derive(Default)]
pub struct Rooms {
    /// MET where there are more profiles than are needed, of these where there are more than M, and of these with a loop of several steps.
    pub met_fewer: u64,
    pub met_early: u64,
    pub met_early_later: u64,
    /// MET where M is just what is needed.
    pub met_exact: u64,
    /// NOT where M is just what is needed.
    pub not_exact: u64,
    /// 15 though there is a good loop; of these where the first one is among the first M profiles, and where M is one fewer than needed.
    pub refused_good: u64,
    pub refused_behind: u64,
    pub refused_by_one: u64,
    /// 15 where there is no good loop, and of these where M is one fewer than needed.
    pub refused_none: u64,
    pub refused_none_by_one: u64,
}

impl Rooms {
    fn count(&mut self, rule: &[u8], Lent { n, m, .. }: Lent, settled: &Settled) {
        let Ok(entries) = reading::read(rule) else { return };
        match *settled {
            Settled::Met { profiles, loop_len, .. } => {
                let fewer = decision::has_more_profiles(&entries, n, profiles);
                let early = fewer && decision::has_more_profiles(&entries, n, m);
                self.met_fewer += fewer as u64;
                self.met_early += early as u64;
                self.met_early_later += (early && loop_len > 1) as u64;
                self.met_exact += (profiles == m) as u64;
            }
            Settled::Not { profiles, .. } => self.not_exact += (profiles == m) as u64,
            Settled::Refused(why) if why.number == 15 => self.count_refused(&entries, n, m),
            Settled::Refused(_) => {}
        }
    }

    /// A refusal with 15, unless more than twice as many profiles are needed.
    fn count_refused(&mut self, entries: &[reading::Command], n: usize, m: usize) {
        let Some(effort) = decision::effort(entries, n, 2 * m + 64) else { return };
        let by_one = effort.profiles == m + 1;
        match effort.before {
            Some(before) => {
                self.refused_good += 1;
                self.refused_behind += (before < m) as u64;
                self.refused_by_one += by_one as u64;
            }
            None => {
                self.refused_none += 1;
                self.refused_none_by_one += by_one as u64;
            }
        }
    }
}

impl Decisions {
    fn count(&mut self, rule: &[u8], course: &[u16]) {
        let Ok(entries) = reading::read(rule) else { return };
        let has = |j: u8| entries.contains(&reading::Command::Present(j)) || entries.contains(&reading::Command::Absent(j));
        if has(PREVIOUS_SCALE) && has(CURRENT_SCALE) {
            let lost = decision::lost_to_flags(&entries, MOST_NODES);
            self.with_flags += 1;
            self.both_present += lost.iter().any(|present| present & BOTH == BOTH) as u64;
            self.both_absent += lost.iter().any(|present| present & BOTH == 0) as u64;
        }
        self.current += course.iter().any(|place| place >> CURRENT_SCALE & 1 == 1) as u64;
    }
}

/// How many courses were given, and how many of them were held beside all that are as short, the rule being small enough for that.
#[derive(Default)]
pub struct Courses {
    pub given: u64,
    pub tried: u64,
    /// Of these how many are not the only one as short, and of these how many where some have other places.
    pub several: u64,
    pub differing: u64,
    /// Of these how many where another order would give other places: the last for the first; the loop's pick words before the lead-in's;
    /// the places for the pick words; or 0 as the highest bit of a word and not the lowest.
    pub by_last: u64,
    pub by_loop: u64,
    pub by_places: u64,
    pub by_first_or: u64,
}

/// How much is tried for one rule.
const MOST_TRIED: usize = 20_000;

impl Courses {
    /// The course given must be the first of all that are as short, by their pick words.
    fn check(&mut self, rule: &[u8], lead_len: usize, given: &[u16]) -> Result<(), String> {
        self.given += 1;
        let Some(all) = reading::read(rule).ok().and_then(|entries| least::shortest(&entries, MOST_TRIED)) else { return Ok(()) };
        let least = least::first(&all, Course::words);
        if (lead_len, given) != (least.lead.len(), &least.places()) {
            return Err(format!("decide {rule:02x?}: course {given:04x?} lead-in {lead_len}, but of all as short {least:04x?} is first"));
        }
        self.tried += 1;
        self.several += (all.len() > 1) as u64;
        if all.iter().any(|course| course.places() != given) {
            self.count_orders(&all, given);
        }
        Ok(())
    }

    fn count_orders(&mut self, all: &[Course], given: &[u16]) {
        let loop_before = |course: &Course| [course.loop_words(), course.lead_words()];
        let first_or_highest = |course: &Course| course.words().into_iter().map(u64::reverse_bits).collect::<Vec<_>>();
        let other = |course: &Course| (course.places() != given) as u64;
        self.differing += 1;
        self.by_last += other(least::first(all, |course| Reverse(course.words())));
        self.by_loop += other(least::first(all, loop_before));
        self.by_places += other(least::first(all, Course::places));
        self.by_first_or += other(least::first(all, first_or_highest));
    }
}

/// The decision: the answer, the work area, and the course buffer; that building and search in a row come to the same; of a small rule that
/// the course is the one it must be among all as short; and often that more room changes neither a verdict nor its numbers nor its course.
pub fn decision(random: &mut Random, rule: &[u8], areas: &mut Areas, decisions: &mut Decisions) -> Result<(), String> {
    let lent = lent(random, rule);
    let told = decided(rule, lent, areas)?;
    decisions.buildings.check(random, rule, lent, &told, areas)?;
    let (settled, course) = &told;
    decisions.rooms.count(rule, lent, settled);
    if matches!(settled, Settled::Refused(_)) {
        return Ok(());
    }
    decisions.count(rule, course);
    if let Settled::Met { lead_len, .. } = *settled {
        decisions.courses.check(rule, lead_len, course)?;
    }
    if random.one_in(4) {
        decisions.again += 1;
        let more = more_room(random, lent);
        let again = decided(rule, more, areas)?;
        if again != told {
            return Err(format!("decide {rule:02x?} {lent:?} {told:?}, but {more:?} {again:?}"));
        }
    }
    Ok(())
}

/// The answer of both, and the course given.
type Told = (Settled, Vec<u16>);

fn decided(rule: &[u8], lent: Lent, Areas { ours: Side { work, course }, .. }: &mut Areas) -> Result<Told, String> {
    let (work, buffer) = (&mut work[..lent.work], &mut course[..lent.course]);
    work.fill(WORK_PATTERN);
    buffer.fill(COURSE_PATTERN);
    let ours = our_verdict(yuktrob::decide(rule, lent.n, lent.m, work, buffer));
    let (theirs, course) = their_verdict(decision::decide(rule, lent.n, lent.m, lent.work, lent.course));
    let fail = |what: &str| Err(format!("decide {rule:02x?} {lent:?}: {what}: {ours:?}, not {theirs:?}"));
    if ours != theirs {
        return fail("answer");
    }
    let (cleared, kept) = work.split_at(zeros(&theirs, lent));
    if cleared.iter().any(|&b| b != 0) || kept.iter().any(|&b| b != WORK_PATTERN) {
        return fail("work area");
    }
    let (found, rest) = buffer.split_at(course.len());
    if rest.iter().any(|&p| p != COURSE_PATTERN) {
        return fail("course buffer");
    }
    if found != course {
        return Err(format!("decide {rule:02x?} {lent:?} {ours:?}: course {found:04x?}, not {course:04x?}"));
    }
    if !course.iter().all(|&place| is_place(place)) {
        return fail("scale flags");
    }
    Ok((ours, course))
}
