//! Whether one course meets all rules of a sheet, by deciding conjunctions with the independent decision, or with its pair, building and
//! search; which rules clash if none does, by leaving out one after another; and the same by trying every subset. Subsets are lists of
//! positions, which rise.

use crate::building::{build, search, Building};
use crate::decision::{decide, refused_room, Verdict};
use crate::reading::{read, Unreadable};
use crate::sheet::each_record;

/// The most rules that are decided at once.
pub const MOST_RULES: usize = 8;

/// What the operation answers.
#[derive(Clone, Debug, PartialEq, Eq)]
pub enum SetVerdict {
    /// 30, with the place of the first fault.
    Damaged(usize),
    /// 34.
    Miscounted,
    Unread {
        position: usize,
        why: Unreadable,
    },
    /// 11 to 13.
    Refused(u8),
    /// 35.
    Undecided(Vec<usize>),
    Met {
        lead_len: usize,
        loop_len: usize,
        nodes: usize,
        profiles: usize,
        course: Vec<u16>,
    },
    Not {
        nodes: usize,
        profiles: usize,
        clash: Vec<usize>,
    },
}

/// Whether one course meets all; both areas lent are left just as they are to be. Each conjunction is decided at once, and the work area is
/// cleared once.
pub fn decide_set(sheet: &[u8], n: usize, m: usize, work: &mut [u8], course: &mut [u16]) -> SetVerdict {
    asked(sheet, n, m, work.len(), course.len(), |set| {
        let whole = set.decided(&set.all());
        if !matches!(whole, Verdict::Unread(_)) {
            work[..8 * n + 192 * m].fill(0);
        }
        if let Verdict::Met { course: found, .. } = &whole {
            course[..found.len()].copy_from_slice(found);
        }
        set.told(whole, |positions| set.decided(positions))
    })
}

/// The same, where the nodes of each conjunction are built in the work area and then searched, and the area is zero behind each.
pub fn decide_set_by_pair(sheet: &[u8], n: usize, m: usize, work: &mut [u8], course: &mut [u16]) -> SetVerdict {
    asked(sheet, n, m, work.len(), course.len(), |set| {
        let whole = set.decided_by_pair(&set.all(), work, course);
        // courses of subsets go nowhere
        let mut unused = Vec::new();
        set.told(whole, |positions| {
            unused.resize(n + m, 0);
            set.decided_by_pair(positions, work, &mut unused)
        })
    })
}

/// The questions before anything is decided, of areas that are so long, and then what the set comes to.
fn asked(sheet: &[u8], n: usize, m: usize, work: usize, buffer: usize, told: impl FnOnce(Set) -> SetVerdict) -> SetVerdict {
    let rules = match some_rules(sheet) {
        Ok(rules) if (1..=MOST_RULES).contains(&rules.len()) => rules,
        Ok(_) => return SetVerdict::Miscounted,
        Err(place) => return SetVerdict::Damaged(place),
    };
    let unread = |(position, rule): (usize, &&[u8])| Some(SetVerdict::Unread { position, why: read(rule).err()? });
    if let Some(refused) = rules.iter().enumerate().find_map(unread) {
        return refused;
    }
    if let Some(number) = refused_room(n, m, work, buffer) {
        return SetVerdict::Refused(number);
    }
    told(Set { rules, n, m })
}

/// The rules of a sheet, but of many no more than one too many; or the place of its first fault.
fn some_rules(sheet: &[u8]) -> Result<Vec<&[u8]>, usize> {
    let mut rules = Vec::new();
    each_record(sheet, |_, _, rule| {
        if rules.len() <= MOST_RULES {
            rules.push(rule);
        }
    })?;
    Ok(rules)
}

/// The first and (the second and (the third ..)).
pub fn conjunction(rules: &[&[u8]]) -> Vec<u8> {
    match rules {
        [] => panic!("no rules have no conjunction"),
        [last] => last.to_vec(),
        [first, rest @ ..] => [&[7], *first, &conjunction(rest)].concat(),
    }
}

/// Rules that reading accepts, with the room to decide them in.
pub struct Set<'a> {
    pub rules: Vec<&'a [u8]>,
    pub n: usize,
    pub m: usize,
}

impl Set<'_> {
    fn all(&self) -> Vec<usize> {
        (0..self.rules.len()).collect()
    }

    fn conjunction(&self, positions: &[usize]) -> Vec<u8> {
        conjunction(&positions.iter().map(|&position| self.rules[position]).collect::<Vec<_>>())
    }

    /// The decision of those at the positions, in areas as long as it takes.
    pub fn decided(&self, positions: &[usize]) -> Verdict {
        decide(&self.conjunction(positions), self.n, self.m, usize::MAX, usize::MAX)
    }

    /// The same by the pair, in areas that are long enough and are left as the decision leaves them.
    fn decided_by_pair(&self, positions: &[usize], work: &mut [u8], course: &mut [u16]) -> Verdict {
        let (rule, n, m) = (self.conjunction(positions), self.n, self.m);
        let (verdict, zeros) = match build(&rule, n, work) {
            Building::Unread(why) => (Verdict::Unread(why), 0),
            Building::Refused(number) => (Verdict::Refused(number), 8 * n + 192 * m),
            Building::Built(count) => (search(&rule, count, n, m, work, course), 8 * n),
        };
        work[..zeros].fill(0);
        verdict
    }

    /// What is answered if the decision of all came to this; subsets are decided as handed.
    fn told(&self, whole: Verdict, decided: impl FnMut(&[usize]) -> Verdict) -> SetVerdict {
        match whole {
            Verdict::Unread(_) | Verdict::Refused(_) => SetVerdict::Undecided(self.all()),
            Verdict::Met { lead_len, loop_len, nodes, profiles, course } => SetVerdict::Met { lead_len, loop_len, nodes, profiles, course },
            Verdict::Not { nodes, profiles } => match self.clash(decided) {
                Ok(clash) => SetVerdict::Not { nodes, profiles, clash },
                Err(tried) => SetVerdict::Undecided(tried),
            },
        }
    }

    /// Whether some course meets those at the positions; every one meets none.
    pub fn can_be_met(&self, positions: &[usize]) -> Option<bool> {
        can_be_met(positions, |positions| self.decided(positions))
    }

    /// What is left of rules that cannot be met, or the first that is tried and not decided.
    fn clash(&self, mut decided: impl FnMut(&[usize]) -> Verdict) -> Result<Vec<usize>, Vec<usize>> {
        let all = self.all();
        all.iter().rev().try_fold(all.clone(), |kept, &position| {
            let others = without(&kept, position);
            match can_be_met(&others, &mut decided) {
                Some(true) => Ok(kept),
                Some(false) => Ok(others),
                None => Err(others),
            }
        })
    }

    /// The same without leaving anything out: of all subsets that cannot be met the one that comes first if the highest positions are
    /// compared first, and not to have one comes before having it. Nothing if some subset before it is not decided.
    pub fn first_unmet(&self) -> Option<Vec<usize>> {
        // those without the last position come before those with it
        let mut subsets = vec![Vec::new()];
        for position in 0..self.rules.len() {
            let with: Vec<Vec<usize>> = subsets.iter().map(|subset| [&subset[..], &[position]].concat()).collect();
            subsets.extend(with);
        }
        for subset in subsets {
            if !self.can_be_met(&subset)? {
                return Some(subset);
            }
        }
        None
    }
}

/// Whether some course meets those at the positions, by how they are decided.
fn can_be_met(positions: &[usize], decided: impl FnOnce(&[usize]) -> Verdict) -> Option<bool> {
    if positions.is_empty() {
        return Some(true);
    }
    match decided(positions) {
        Verdict::Met { .. } => Some(true),
        Verdict::Not { .. } => Some(false),
        _ => None,
    }
}

/// The positions but for one.
pub fn without(positions: &[usize], position: usize) -> Vec<usize> {
    positions.iter().copied().filter(|&other| other != position).collect()
}
