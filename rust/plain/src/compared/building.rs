//! Building and search through both implementations: what they answer, what both areas hold afterwards, and what a search says of nodes
//! that were changed in between, or are another rule's.

use super::{ours, our_verdict, placeless, room, theirs, their_verdict, Areas, Input, Lent, Refused, Settled, Told};
use super::{COURSE_PATTERN, WORK_PATTERN};
use crate::building::{self, Building};
use crate::random::Random;
use yuktrob::{course_len, nodes_len, work_len, MOST_NODES, MOST_PROFILES};

/// What is changed between building and search.
#[derive(Clone, Copy)]
enum Change {
    /// A byte of the nodes, or of the zeros behind the last.
    Byte,
    /// Bytes behind these, which count for nothing.
    Behind,
    /// The number of nodes alone.
    Count,
    /// The number and the bytes: a node more, and the last one left out.
    NodeMore,
    NodeFewer,
    /// Two nodes, for each other.
    Exchanged,
    /// All: another rule's nodes, which are now and then the same.
    OtherRule,
    /// The room: the nodes were built with another one, which may leave the same.
    OtherRoom,
    /// Bytes anywhere, and now and then the number too.
    Several,
}

const CHANGES: [(Change, &str); 9] = [
    (Change::Byte, "one byte of the nodes"),
    (Change::Behind, "bytes behind the nodes"),
    (Change::Count, "K"),
    (Change::NodeMore, "a node more"),
    (Change::NodeFewer, "a node fewer"),
    (Change::Exchanged, "two nodes exchanged"),
    (Change::OtherRule, "another rule's nodes"),
    (Change::OtherRoom, "another N"),
    (Change::Several, "several bytes"),
];

/// How many searches there were behind a kind of change, and how many of them were refused with 36.
#[derive(Clone, Copy, Default)]
pub struct Changed {
    pub all: u64,
    pub refused: u64,
}

/// What building and search came to.
#[derive(Default)]
pub struct Buildings {
    pub built: u64,
    pub refused_12: u64,
    pub refused_14: u64,
    /// Searches of nodes just built: verdicts, and refused with 15.
    pub verdicts: u64,
    pub refused_15: u64,
    /// The same nodes searched with another room for profiles and other bytes behind them.
    pub again: u64,
    changes: [Changed; CHANGES.len()],
    /// Refused with 12 or 13 behind a change that 36 would refuse.
    pub before_36: u64,
}

impl Buildings {
    /// The kinds of change in words, and what became of them.
    pub fn changes(&self) -> impl Iterator<Item = (&'static str, Changed)> + '_ {
        CHANGES.iter().zip(self.changes).map(|(&(_, name), changed)| (name, changed))
    }

    /// Building, in an area of its own and in one for a search too; the search, which must come to what the decision has `told`; often
    /// another search; and one behind a change.
    pub(super) fn check(&mut self, random: &mut Random, rule: &[u8], lent: Lent, told: &Told, areas: &mut Areas) -> Result<(), String> {
        self.check_alone(random, rule, lent.n, areas)?;
        areas.ours.work[..lent.work].fill(WORK_PATTERN);
        let built = built(rule, lent.n, lent.work, areas)?;
        let nodes = areas.ours.work[..nodes_len(lent.n).min(lent.work)].to_vec();
        let count = built.unwrap_or(random.below(4));
        let first = searched(rule, count, lent, areas)?;
        if !is_pair(built, &first, told) {
            return Err(format!("build and search {rule:02x?} {lent:?}: {built:?} {first:?}, but decide {told:?}"));
        }
        if matches!(first.0, Settled::Refused(why) if why.number <= 11) {
            return Ok(());
        }
        self.verdicts += !matches!(first.0, Settled::Refused(_)) as u64;
        self.refused_15 += is_refused(&first.0, 15) as u64;
        if random.one_in(3) {
            self.again += 1;
            search_again(random, rule, count, lent.n, areas)?;
        }
        self.check_changed(random, rule, lent, &Before { built: built.ok(), nodes, first }, areas)
    }

    /// Building in an area as long as it asks for, or somewhat longer, or too short.
    fn check_alone(&mut self, random: &mut Random, rule: &[u8], n: usize, areas: &mut Areas) -> Result<(), String> {
        let asked = nodes_len(n);
        let len = if random.one_in(10) { asked.saturating_sub(1 + random.below(9)) } else { asked + random.below(40) };
        areas.ours.work[..len].fill(WORK_PATTERN);
        let answer = built(rule, n, len, areas)?;
        let refused = |number| answer.is_err_and(|why| why.number == number) as u64;
        self.built += answer.is_ok() as u64;
        self.refused_12 += refused(12);
        self.refused_14 += refused(14);
        Ok(())
    }

    /// A search behind a change: it is refused with 36 exactly if the number or the nodes are others than before.
    fn check_changed(&mut self, random: &mut Random, rule: &[u8], lent: Lent, before: &Before, areas: &mut Areas) -> Result<(), String> {
        let drawn = random.below(CHANGES.len());
        let (change, name) = CHANGES[drawn];
        let Some(count) = change.made(random, rule, lent, before.built, &mut areas.ours.work) else { return Ok(()) };
        let same = before.built == Some(count) && areas.ours.work.starts_with(&before.nodes);
        let unasked = matches!(before.first.0, Settled::Refused(why) if why.number < 14);
        let expected = if same || unasked { before.first.clone() } else { (Settled::Refused(placeless(36)), Vec::new()) };
        let told = searched(rule, count, lent, areas)?;
        if told != expected {
            return Err(format!("search {rule:02x?} {lent:?} behind a change, {name}: {told:?}, not {expected:?}"));
        }
        self.before_36 += (unasked && !same) as u64;
        self.changes[drawn].all += !unasked as u64;
        self.changes[drawn].refused += (!unasked && !same) as u64;
        Ok(())
    }
}

/// What building and the first search came to, and the bytes of the nodes, before anything is changed.
struct Before {
    built: Option<usize>,
    nodes: Vec<u8>,
    first: Told,
}

fn is_refused(settled: &Settled, number: u8) -> bool {
    matches!(settled, Settled::Refused(why) if why.number == number)
}

/// Whether building and search in a row came to what the decision came to. Where that is 14, there are no nodes for the search.
fn is_pair(built: Result<usize, Refused>, searched: &Told, decided: &Told) -> bool {
    match decided.0 {
        Settled::Met { nodes, .. } | Settled::Not { nodes, .. } => built == Ok(nodes) && searched == decided,
        Settled::Refused(why) if why.number == 14 => built == Err(why) && is_refused(&searched.0, 36),
        Settled::Refused(why) if why.number < 11 => built == Err(why) && searched == decided,
        Settled::Refused(why) => (why.number < 14 || built.is_ok()) && searched == decided,
    }
}

/// Building by both, in areas that hold the same: the answer of both, and the areas must hold the same again.
fn built(rule: &[u8], n: usize, len: usize, areas: &mut Areas) -> Result<Result<usize, Refused>, String> {
    let (work, other) = (&mut areas.ours.work[..len], &mut areas.theirs.work[..len]);
    other.copy_from_slice(work);
    let ours = yuktrob::build(rule, n, work).map_err(ours);
    let theirs = match building::build(rule, n, other) {
        Building::Unread(why) => Err(theirs(why)),
        Building::Refused(number) => Err(placeless(number)),
        Building::Built(count) => Ok(count),
    };
    if ours == theirs && work == other {
        return Ok(theirs);
    }
    Err(format!("build {rule:02x?} {n} in {len} bytes: {ours:?}, not {theirs:?}, work areas the same: {}", work == other))
}

/// A search by both, in areas that hold the same: the answer of both, and the areas must hold the same again.
fn searched(rule: &[u8], count: usize, lent: Lent, Areas { ours, theirs }: &mut Areas) -> Result<Told, String> {
    let (work, other_work) = (&mut ours.work[..lent.work], &mut theirs.work[..lent.work]);
    let (course, other_course) = (&mut ours.course[..lent.course], &mut theirs.course[..lent.course]);
    other_work.copy_from_slice(work);
    course.fill(COURSE_PATTERN);
    other_course.fill(COURSE_PATTERN);
    let ours = our_verdict(yuktrob::search(rule, count, lent.n, lent.m, work, course));
    let theirs = their_verdict(building::search(rule, count, lent.n, lent.m, other_work, other_course));
    let (same_work, same_course) = (work == other_work, course == other_course);
    if ours == theirs.0 && same_work && same_course {
        return Ok(theirs);
    }
    let areas = format!("work areas the same: {same_work}, courses: {same_course}");
    Err(format!("search {rule:02x?} {count} {lent:?}: {ours:?}, not {theirs:?}, {areas}"))
}

/// The same nodes with another room for profiles, in an area that holds something else behind them.
fn search_again(random: &mut Random, rule: &[u8], count: usize, n: usize, areas: &mut Areas) -> Result<Told, String> {
    let m = room(random, MOST_PROFILES);
    let lent = Lent { n, m, work: work_len(n, m) + random.below(40), course: course_len(n, m) + random.below(4) };
    areas.ours.work[nodes_len(n)..lent.work].fill(random.below(256) as u8);
    searched(rule, count, lent, areas)
}

impl Change {
    /// Makes the change in a work area that begins with the nodes, so many if there was room for them: the number that the search is handed
    /// then. Nothing if this change cannot be made here.
    fn made(self, random: &mut Random, rule: &[u8], lent: Lent, built: Option<usize>, work: &mut [u8]) -> Option<usize> {
        match self {
            Change::OtherRule => yuktrob::build(&other_rule(random, rule), lent.n, work).ok(),
            Change::OtherRoom => other_room(random, rule, lent.n, work),
            Change::Several => {
                let counts = [built.unwrap_or(lent.n), random.below(2 * lent.n)];
                (0..2 + random.below(8)).for_each(|i| flip(random, &mut work[..[nodes_len(lent.n), lent.work][i % 2]]));
                Some(counts[random.one_in(4) as usize])
            }
            _ => self.made_to(random, lent, built?, work),
        }
    }

    /// The changes that there are only where nodes were built.
    fn made_to(self, random: &mut Random, lent: Lent, count: usize, work: &mut [u8]) -> Option<usize> {
        let nodes = nodes_len(lent.n);
        let node = |i: usize| nodes_len(i)..nodes_len(i + 1);
        match self {
            Change::Byte => {
                let len = [nodes, nodes_len(count)][random.below(2)];
                flip(random, &mut work[..len]);
            }
            Change::Behind => (0..1 + random.below(8)).for_each(|_| flip(random, &mut work[nodes..lent.work])),
            Change::Count => return Some([count - 1, count + 1, count - 1, count + 1, 0, usize::MAX][random.below(6)]),
            Change::NodeMore if count < lent.n => {
                // a node that there is, with one entry more or fewer, or the empty node
                work.copy_within(node(random.below(count)), nodes_len(count));
                match random.below(3) {
                    0 => work[node(count)].fill(0),
                    _ => work[nodes_len(count)] ^= 1 << random.below(8),
                }
                return Some(count + 1);
            }
            Change::NodeFewer => {
                work[node(count - 1)].fill(0);
                return Some(count - 1);
            }
            Change::Exchanged if count > 2 => {
                let (i, j) = (random.below(count - 1), count - 1);
                let (before, behind) = work.split_at_mut(nodes_len(j));
                before[node(i)].swap_with_slice(&mut behind[..nodes_len(1)]);
            }
            _ => return None,
        }
        Some(count)
    }
}

/// Another value for one of the bytes.
fn flip(random: &mut Random, bytes: &mut [u8]) {
    bytes[random.below(bytes.len())] ^= 1 + random.below(255) as u8;
}

/// Any other rule, or this one with another command or operand somewhere.
fn other_rule(random: &mut Random, rule: &[u8]) -> Vec<u8> {
    if random.one_in(2) {
        return Input::new(random).rule;
    }
    let mut other = rule.to_vec();
    let byte = &mut other[random.below(rule.len())];
    *byte = match *byte {
        3 => 4,
        4 => 3,
        6 => 7,
        7 => 6,
        9 => 10,
        10 => 9,
        operand => operand ^ 1,
    };
    other
}

/// Builds with another room for nodes than n, in bytes that are zero or hold something. The number handed on is the nodes' own, or n where
/// they are more.
fn other_room(random: &mut Random, rule: &[u8], n: usize, work: &mut [u8]) -> Option<usize> {
    let other = [n - 1, n + 1, 1 + random.below(MOST_NODES), MOST_NODES][random.below(4)];
    if other == n {
        return None;
    }
    work[..nodes_len(n)].fill([0, WORK_PATTERN][random.below(2)]);
    let count = yuktrob::build(rule, other, work).ok()?;
    Some([count, count.min(n)][random.below(2)])
}
