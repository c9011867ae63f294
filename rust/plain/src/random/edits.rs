//! Random edits: rules, an entry of the old one, mostly one that is there, and a rule to put in its place. Some of the rules are none, some
//! new rules are an entry of the old one, and some are so large that the spliced rule just keeps within a limit or does not.

use super::sets::commands;
use super::Random;
use crate::edit::{span, width};
use crate::reading::read;

/// What an edit is asked.
#[derive(Clone, Debug)]
pub struct Replacement {
    pub old: Vec<u8>,
    pub e: usize,
    pub new: Vec<u8>,
}

/// What a limit is on, the most that there may be, and what can stand before a rule so that it has one more, or two more commands.
struct Limit {
    counted: &'static [u8],
    most: usize,
    before: [&'static [u8]; 2],
}

const LIMITS: [Limit; 4] = [
    Limit { counted: &[1, 2, 3, 4, 5, 6, 7, 8, 9, 10], most: 48, before: [&[7, 1], &[7, 2]] },
    Limit { counted: &[6], most: 12, before: [&[6, 2], &[6, 1]] },
    Limit { counted: &[8], most: 12, before: [&[8], &[8]] },
    Limit { counted: &[9, 10], most: 7, before: [&[9], &[10]] },
];

impl Limit {
    fn count(&self, rule: &[u8]) -> usize {
        commands(rule).filter(|command| self.counted.contains(command)).count()
    }
}

impl Random {
    /// In every tenth edit the old rule is none, in every sixth the new one, and in every ninth there is no such entry; several of these
    /// may come together.
    pub fn replacement(&mut self) -> Replacement {
        let mut old = if self.one_in(10) { self.no_rule() } else { self.any_rule() };
        let count = read(&old).map_or(0, |entries| entries.len());
        let e = if count == 0 || self.one_in(9) { self.no_entry(count) } else { self.entry(count) };
        let new = match self.below(12) {
            0..=1 => self.no_rule(),
            2..=3 if e < count => self.own_entry(&old, e),
            4..=6 if e < count => self.up_to_limit(&mut old, e),
            _ => self.any_rule(),
        };
        Replacement { old, e, new }
    }

    /// One that reading accepts, of any size.
    fn any_rule(&mut self) -> Vec<u8> {
        loop {
            let most = [3, 10, 20, 44][self.below(4)];
            let size = 1 + self.below(most);
            let rule = match self.below(12) {
                0..=2 => self.crossing(),
                3 => self.fork(),
                4 => self.fullest(),
                5 => self.longest(),
                6 => [vec![7], self.beat(), self.crossing()].concat(),
                _ => self.rule(size),
            };
            if read(&rule).is_ok() {
                return rule;
            }
        }
    }

    /// An entry of so many: now and then the first, the last.
    fn entry(&mut self, count: usize) -> usize {
        match self.below(12) {
            0 => 0,
            1 => count - 1,
            _ => self.below(count),
        }
    }

    /// No entry of so many: the one behind the last, one near it, one whose lowest bits are an entry's, the last number that there is.
    fn no_entry(&mut self, count: usize) -> usize {
        let entry = self.entry(count.max(1));
        let numbers = [count, count + self.below(50), 256 + entry, (1 << 16) + entry, (1 << 32) + entry, usize::MAX];
        numbers[self.below(numbers.len())]
    }

    /// The bytes of an entry of the old rule: every second time of the very one, and often of one that has a variable of a fixpoint around
    /// it, and is no rule by itself.
    fn own_entry(&mut self, old: &[u8], e: usize) -> Vec<u8> {
        let count = commands(old).count();
        let (from, to) = span(old, if self.one_in(2) { e } else { self.below(count) });
        old[from..to].to_vec()
    }

    /// An accepted rule, such that the spliced one has as many of something as it may have, or, every second time, one more. The old rule
    /// may get more of it too.
    fn up_to_limit(&mut self, old: &mut Vec<u8>, e: usize) -> Vec<u8> {
        let limit = &LIMITS[self.below(4)];
        let size = 1 + self.below(8);
        let mut new = self.rule(size);
        let around = |old: &[u8]| {
            let (from, to) = span(old, e);
            limit.count(old) - limit.count(&old[from..to])
        };
        let wanted = limit.most + [0, 0, 1, 1, 1, 2][self.below(6)];
        // some of what is wanted stands in the old rule, before its last entry; if that is in entry e, it goes with it
        let aside = around(old) + self.below(wanted.saturating_sub(around(old)) / 2 + 1);
        while around(old) < aside {
            let longer = self.before_last(limit, old);
            if read(&longer).is_err() {
                break;
            }
            *old = longer;
        }
        while around(old) + limit.count(&new) < wanted {
            let before = limit.before[self.below(2)];
            new.splice(0..0, before.iter().copied());
        }
        if read(&new).is_ok() { new } else { self.any_rule() }
    }

    /// The rule with something more that counts before its last entry, which has no operands.
    fn before_last(&mut self, limit: &Limit, rule: &[u8]) -> Vec<u8> {
        let mut at = 0;
        while at + width(rule[at]) < rule.len() {
            at += width(rule[at]);
        }
        [&rule[..at], limit.before[self.below(2)], &rule[at..]].concat()
    }
}
