//! The decision of safety rules through both implementations: what they answer, what both areas hold afterwards; and, of the proved one,
//! that it is what the proved general decision says with room for profiles.

use super::{each_signal, ours, placeless, theirs, Areas, Courses, Input, Refused};
use crate::random::{greatest_alone, Random};
use crate::reading::{self, Command};
use crate::safety::{decide_safety, SafetyVerdict};
use crate::{decision, truth};
use yuktrob::{course_len, nodes_len, work_len, Refusal, Verdict, MOST_NODES, MOST_PROFILES};

/// The answer, and after MET the course.
#[derive(Clone, Debug, PartialEq)]
enum Told {
    Met { lead_len: usize, loop_len: usize, nodes: usize, course: Vec<u16> },
    Not { nodes: usize },
    Refused(Refused),
}

impl Told {
    fn number(&self) -> u8 {
        if let Told::Refused(why) = self { why.number } else { 0 }
    }
}

/// How many inputs came to each answer, and what was special about them.
#[derive(Default)]
pub struct Safeties {
    pub met: u64,
    pub not: u64,
    pub unread: u64,
    /// Refused with 11 to 14, and with 43.
    pub refused: [u64; 4],
    pub least: u64,
    /// MET with a loop of several steps, of ten or more; with a lead-in of several; with as many places as there are nodes.
    pub later: u64,
    pub long: u64,
    pub led: u64,
    pub full: u64,
    /// Verdicts with room for just as many nodes as there are, and 14 with one fewer.
    pub exact: u64,
    pub by_one: u64,
    /// 43 behind a signal 9, with a further least fixpoint behind it, and where room or an area is too small as well.
    pub behind_9: u64,
    pub several: u64,
    pub before_others: u64,
    /// 12 where 13 would refuse as well.
    pub before_13: u64,
    /// Verdicts that the general decision gives too; where it lacks room for profiles, of these MET and NOT.
    pub general: u64,
    pub beyond_met: u64,
    pub beyond_not: u64,
    /// Verdicts that were asked for again with more room.
    pub again: u64,
    pub courses: Courses,
}

/// Room for nodes, and how much of the areas is lent.
#[derive(Clone, Copy, Debug)]
struct Lent {
    n: usize,
    work: usize,
    course: usize,
}

/// A rule with greatest fixpoints alone; or any bytes with others for their least ones, or with these, where the signals may have the
/// numbers of commands.
fn input(random: &mut Random) -> Vec<u8> {
    match random.below(10) {
        0 => Input::new(random).rule,
        1 => {
            let mut rule = Input::new(random).rule;
            each_signal(&mut rule, |signal| 8 + signal % 3);
            rule
        }
        2 => greatest_alone(Input::new(random).rule),
        3..=5 => greatest_alone(Input::of(random, Random::safety).rule),
        _ => random.safety(),
    }
}

/// Room for the nodes that there are, for one fewer or more, for any number, and for none that is allowed; areas as long as it asks for,
/// longer, or now and then too short.
fn lent(random: &mut Random, rule: &[u8]) -> Lent {
    let sizes = reading::read(rule).ok().and_then(|entries| decision::sizes(&entries, MOST_NODES));
    let count = sizes.map_or(1 + random.below(MOST_NODES), |sizes| sizes.nodes);
    let n = match random.below(24) {
        0 => 0,
        1 => 1,
        2 => MOST_NODES + 1,
        3 => usize::MAX - random.below(2),
        4..=6 => count - 1,
        7..=10 => count,
        11..=12 => count + 1,
        13..=14 => MOST_NODES,
        _ => 1 + random.below(MOST_NODES),
    };
    let near = |random: &mut Random, asked: usize| match random.below(16) {
        0 => asked.saturating_sub(1),
        1 => random.below(asked + 1),
        2..=6 => asked,
        _ => asked + random.below(40),
    };
    // where n is far too large, what it asks for is too
    let most = n.min(MOST_NODES + 1);
    Lent { n, work: near(random, nodes_len(most)), course: near(random, most) }
}

/// The decision of one safety rule, or of bytes that are none: the answer and every byte of both areas; then of a verdict what the general
/// decision says, that the rule is true on the course, that it is the one it must be, and often that more room changes nothing.
pub fn safety(random: &mut Random, areas: &mut Areas, safeties: &mut Safeties) -> Result<(), String> {
    let rule = input(random);
    let lent = lent(random, &rule);
    let told = decided(&rule, lent, areas)?;
    safeties.count(&rule, lent, &told);
    if matches!(told, Told::Refused(_)) {
        return Ok(());
    }
    safeties.check_general(&rule, lent.n, &told, areas)?;
    if let Told::Met { lead_len, course, .. } = &told {
        check_course(&rule, *lead_len, course)?;
        safeties.courses.check(&rule, *lead_len, course)?;
    }
    if random.one_in(4) {
        safeties.again += 1;
        let n = lent.n + random.below(MOST_NODES - lent.n + 1);
        let more = Lent { n, work: nodes_len(n), course: n };
        let again = decided(&rule, more, areas)?;
        if again != told {
            return Err(format!("safety {rule:02x?} {lent:?} {told:?}, but {more:?} {again:?}"));
        }
    }
    Ok(())
}

/// The answer of both, in areas that hold the same before and must hold the same afterwards.
fn decided(rule: &[u8], lent: Lent, areas: &mut Areas) -> Result<Told, String> {
    let [(work, course), (other_work, other_course)] = areas.filled(lent.work, lent.course);
    let ours = our_told(yuktrob::decide_safety(rule, lent.n, work, course));
    let theirs = their_told(decide_safety(rule, lent.n, other_work, other_course));
    let (same_work, same_course) = (work == other_work, course == other_course);
    if ours == theirs && same_work && same_course {
        return Ok(theirs);
    }
    let areas = format!("work areas the same: {same_work}, courses: {same_course}");
    Err(format!("safety {rule:02x?} {lent:?}: {ours:04x?}, not {theirs:04x?}, {areas}"))
}

fn our_told(answer: Result<yuktrob::SafetyVerdict, Refusal>) -> Told {
    match answer {
        Ok(yuktrob::SafetyVerdict::Met { lead_len, loop_len, nodes, course }) => {
            Told::Met { lead_len, loop_len, nodes, course: course.to_vec() }
        }
        Ok(yuktrob::SafetyVerdict::Not { nodes }) => Told::Not { nodes },
        Err(why) => Told::Refused(ours(why)),
    }
}

fn their_told(answer: SafetyVerdict) -> Told {
    match answer {
        SafetyVerdict::Unread(why) => Told::Refused(theirs(why)),
        SafetyVerdict::Least(place) => Told::Refused(Refused { place: Some(place), ..placeless(43) }),
        SafetyVerdict::Refused(number) => Told::Refused(placeless(number)),
        SafetyVerdict::Met { lead_len, loop_len, nodes, course } => Told::Met { lead_len, loop_len, nodes, course },
        SafetyVerdict::Not { nodes } => Told::Not { nodes },
    }
}

/// The rule is true on the course.
fn check_course(rule: &[u8], lead_len: usize, course: &[u16]) -> Result<(), String> {
    match truth::by_laps(rule, course, lead_len, course.len()) {
        truth::Truth::Told(true, _) => Ok(()),
        other => Err(format!("safety {rule:02x?}: course {course:04x?} lead-in {lead_len}, on which truth says {other:?}")),
    }
}

impl Safeties {
    fn count(&mut self, rule: &[u8], lent: Lent, told: &Told) {
        match told {
            Told::Met { lead_len, loop_len, nodes, .. } => {
                self.met += 1;
                self.later += (*loop_len > 1) as u64;
                self.long += (*loop_len >= 10) as u64;
                self.led += (*lead_len > 1) as u64;
                self.full += (lead_len + loop_len == *nodes) as u64;
                self.exact += (*nodes == lent.n) as u64;
            }
            Told::Not { nodes } => {
                self.not += 1;
                self.exact += (*nodes == lent.n) as u64;
            }
            Told::Refused(why) => self.count_refused(rule, lent, *why),
        }
    }

    fn count_refused(&mut self, rule: &[u8], lent: Lent, Refused { number, .. }: Refused) {
        let (short_work, short_course) = (lent.work < nodes_len(lent.n), lent.course < lent.n);
        match number {
            43 => {
                self.least += 1;
                self.before_others += (short_work || short_course || !(1..=MOST_NODES).contains(&lent.n)) as u64;
                self.count_least(rule);
            }
            11..=14 => {
                self.refused[number as usize - 11] += 1;
                self.before_13 += (number == 12 && short_course) as u64;
                self.by_one += (number == 14 && room_for_one_more(rule, lent.n)) as u64;
            }
            _ => self.unread += 1,
        }
    }

    /// What stands before the first least fixpoint and behind it.
    fn count_least(&mut self, rule: &[u8]) {
        let entries = reading::read(rule).expect("43 comes behind reading");
        let is_least = |c: &Command| matches!(c, Command::Least(_));
        let before = entries.iter().position(is_least).expect("a least fixpoint");
        self.behind_9 += entries[..before].iter().any(|c| matches!(c, Command::Present(9) | Command::Absent(9))) as u64;
        self.several += entries[before + 1..].iter().any(is_least) as u64;
    }

    /// A verdict must be the proved general decision's, with as much room for nodes and the most for profiles, if that comes to one.
    fn check_general(&mut self, rule: &[u8], n: usize, told: &Told, Areas { ours, .. }: &mut Areas) -> Result<(), String> {
        let (work, course) = (&mut ours.work[..work_len(n, MOST_PROFILES)], &mut ours.course[..course_len(n, MOST_PROFILES)]);
        let general = match yuktrob::decide(rule, n, MOST_PROFILES, work, course) {
            Ok(Verdict::Met { lead_len, loop_len, nodes, course, .. }) => Told::Met { lead_len, loop_len, nodes, course: course.to_vec() },
            Ok(Verdict::Not { nodes, .. }) => Told::Not { nodes },
            Err(why) => Told::Refused(super::ours(why)),
        };
        match general.number() {
            0 => self.general += 1,
            15 if matches!(told, Told::Met { .. }) => self.beyond_met += 1,
            15 => self.beyond_not += 1,
            _ => {}
        }
        if general == *told || general.number() == 15 {
            return Ok(());
        }
        Err(format!("safety {rule:02x?} {n}: {told:04x?}, but decide {general:04x?}"))
    }
}

/// Whether a rule that has more than n nodes has just one more.
fn room_for_one_more(rule: &[u8], n: usize) -> bool {
    reading::read(rule).is_ok_and(|entries| decision::sizes(&entries, n + 1).is_some())
}
