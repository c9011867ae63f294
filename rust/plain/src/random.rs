//! Random rules, sets of rules, sheets, whole and damaged, edits, and random courses, for comparing and timing. The same seed gives the same
//! ones.

mod edits;
mod sets;
mod sheets;

pub use edits::Replacement;
pub(crate) use sets::commands;
pub use sheets::Sheets;

use crate::reading::{ends, read, Command};
use crate::scale::{is_place, FLAGS};

pub struct Random(u64);

/// Whether a variable stands inside a fixpoint that its own one is around, and whether for some variable these two are of different kinds.
#[derive(Clone, Copy, Debug, PartialEq, Eq)]
pub struct Nesting {
    pub crossing: bool,
    pub alternating: bool,
}

pub fn nesting(entries: &[Command]) -> Nesting {
    let ends = ends(entries);
    let is_least = |f: usize| match entries[f] {
        Command::Least(_) => Some(true),
        Command::Greatest(_) => Some(false),
        _ => None,
    };
    let mut found = Nesting { crossing: false, alternating: false };
    for (e, command) in entries.iter().enumerate() {
        let Command::Variable(m) = *command else { continue };
        for inner in (m + 1..e).filter(|&f| ends[f] > e).filter_map(is_least) {
            found.crossing = true;
            found.alternating |= Some(inner) != is_least(m);
        }
    }
    found
}

/// The bytes with a greatest fixpoint for each least one.
pub fn greatest_alone(mut bytes: Vec<u8>) -> Vec<u8> {
    let mut at = 0;
    while at < bytes.len() {
        at += match bytes[at] {
            3..=5 => 2,
            9 => {
                bytes[at] = 10;
                1
            }
            _ => 1,
        };
    }
    bytes
}

impl Random {
    pub fn new(seed: u64) -> Self {
        Random(seed.wrapping_mul(0x9e37_79b9_7f4a_7c15) | 1)
    }

    fn next(&mut self) -> u64 {
        self.0 ^= self.0 << 13;
        self.0 ^= self.0 >> 7;
        self.0 ^= self.0 << 17;
        self.0.wrapping_mul(0x2545_f491_4f6c_dd1d)
    }

    /// A number below n.
    pub fn below(&mut self, n: usize) -> usize {
        (self.next() >> 33) as usize % n
    }

    pub fn one_in(&mut self, n: usize) -> bool {
        self.below(n) == 0
    }

    /// A rule of at most `size` commands, over few signals, that reading accepts nearly always.
    pub fn rule(&mut self, size: usize) -> Vec<u8> {
        let mut rule = Vec::new();
        let signals = 1 + self.below(3);
        self.part(size, &mut Vec::new(), signals, &mut rule);
        rule
    }

    fn part(&mut self, size: usize, scope: &mut Vec<bool>, signals: usize, rule: &mut Vec<u8>) {
        let guarded: Vec<usize> = (0..scope.len()).filter(|&d| scope[scope.len() - 1 - d]).collect();
        if size <= 1 {
            return match self.below(8) {
                0 => rule.push(1 + self.below(2) as u8),
                1..=3 if !guarded.is_empty() => {
                    let depth = guarded[self.below(guarded.len())];
                    rule.extend([5, depth as u8]);
                }
                _ => {
                    let signal = self.below(signals) as u8;
                    rule.extend([3 + self.below(2) as u8, signal]);
                }
            };
        }
        match self.below(7) {
            0..=2 if size >= 3 => {
                rule.push(6 + self.below(2) as u8);
                let left = 1 + self.below(size - 2);
                self.part(left, scope, signals, rule);
                self.part(size - 1 - left, scope, signals, rule);
            }
            3 | 4 => {
                rule.push(8);
                let mut inner = vec![true; scope.len()];
                self.part(size - 1, &mut inner, signals, rule);
            }
            _ => {
                rule.push(9 + self.below(2) as u8);
                scope.push(false);
                self.part(size - 1, scope, signals, rule);
                scope.pop();
            }
        }
    }

    /// A rule with 2 to 7 fixpoints, one in the other, with a variable of an outer one inside an inner one. Mostly they are by turns least
    /// and greatest, in every fourth rule all of one kind.
    pub fn crossing(&mut self) -> Vec<u8> {
        loop {
            let (deep, size) = (2 + self.below(6), 6 + self.below(38));
            let draft = Draft { signals: 1 + self.below(3), least: self.one_in(2), turns: !self.one_in(4), rule: Vec::new() };
            let rule = self.drafted(deep, size, draft);
            if read(&rule).is_ok_and(|entries| nesting(&entries).crossing) {
                return rule;
            }
        }
    }

    fn drafted(&mut self, deep: usize, size: usize, mut draft: Draft) -> Vec<u8> {
        self.nest(deep, size, &mut Vec::new(), &mut draft);
        draft.rule
    }

    /// A part with so many fixpoints, one in the other; `scope` has of each fixpoint around whether a next stands between.
    fn nest(&mut self, deep: usize, size: usize, scope: &mut Vec<bool>, draft: &mut Draft) {
        match self.below(6) {
            _ if deep == 0 && (size < 3 || self.one_in(3)) => self.leaf(scope, draft),
            0..=2 if deep > 0 => {
                draft.least ^= draft.turns && !self.one_in(4);
                draft.rule.push(if draft.least { 9 } else { 10 });
                scope.push(false);
                self.nest(deep - 1, size.saturating_sub(1), scope, draft);
                scope.pop();
            }
            3 => {
                draft.rule.push(8);
                self.nest(deep, size.saturating_sub(1), &mut vec![true; scope.len()], draft);
            }
            _ => self.pair(deep, size, scope, draft),
        }
    }

    /// An or, an and: the fixpoints go to one of its operands.
    fn pair(&mut self, deep: usize, size: usize, scope: &mut Vec<bool>, draft: &mut Draft) {
        draft.rule.push(6 + self.below(2) as u8);
        let left = 1 + self.below(size.max(3) - 2);
        let sizes = [left, size.max(3) - 1 - left];
        let deep_left = self.one_in(2);
        self.nest(if deep_left { deep } else { 0 }, sizes[0], scope, draft);
        self.nest(if deep_left { 0 } else { deep }, sizes[1], scope, draft);
    }

    /// A variable, with a next where it needs one; now and then a signal.
    fn leaf(&mut self, scope: &[bool], draft: &mut Draft) {
        if scope.is_empty() || self.one_in(3) {
            return draft.rule.extend([3 + self.below(2) as u8, self.below(draft.signals) as u8]);
        }
        let depth = self.below(scope.len());
        if !scope[scope.len() - 1 - depth] {
            draft.rule.push(8);
        }
        draft.rule.extend([5, depth as u8]);
    }

    /// A rule with fixpoints that cross, but with so many of its nexts left out that a variable has none to its fixpoint.
    pub fn unguarded(&mut self) -> Vec<u8> {
        loop {
            let mut rule = self.crossing();
            let keep = 1 + self.below(4);
            // such a rule has no operand 8, so each byte 8 is a next
            rule.retain(|&byte| byte != 8 || self.below(5) < keep);
            if read(&rule).is_err_and(|why| why.number == 8) {
                return rule;
            }
        }
    }

    /// A signal at every second, third or fourth place, and not at the place behind: each good loop has a multiple of so many steps.
    pub fn beat(&mut self) -> Vec<u8> {
        let (signal, steps) = (self.below(3) as u8, 2 + self.below(3));
        [&[10, 7, 3, signal, 7, 8, 4, signal][..], &vec![8; steps], &[5, 0]].concat()
    }

    /// Two or three parts joined by ors, each behind as many nexts; so many courses are as short.
    pub fn fork(&mut self) -> Vec<u8> {
        let (parts, nexts, every) = (2 + self.below(2), self.below(3), 1 + self.below(2));
        let mut rule = vec![6; parts - 1];
        for _ in 0..parts {
            rule.extend(vec![8; nexts]);
            rule.extend(self.branch(every));
        }
        rule
    }

    /// At every place, or every second one, a signal is as asked; or another one is, or the part holds from there on too, which has traces
    /// that the signal has not.
    fn branch(&mut self, every: usize) -> Vec<u8> {
        let again = [&vec![8; every][..], &[5, 0]].concat();
        if !self.one_in(3) {
            return [vec![10, 7, 6], self.literal(), self.literal(), again].concat();
        }
        let mut operands = [self.literal(), vec![5, 0]];
        operands.rotate_left(self.below(2));
        [vec![10, 7], again, vec![8, 6], operands.concat()].concat()
    }

    /// A signal present or absent, now and then false.
    fn literal(&mut self) -> Vec<u8> {
        if self.one_in(5) {
            return vec![2];
        }
        vec![3 + self.below(2) as u8, self.below(3) as u8]
    }

    /// A rule with greatest fixpoints alone that reading accepts: a random one with others for its least ones, or of a shape that has none.
    pub fn safety(&mut self) -> Vec<u8> {
        loop {
            let rule = self.safety_draft();
            if read(&rule).is_ok() {
                return rule;
            }
        }
    }

    fn safety_draft(&mut self) -> Vec<u8> {
        let most = [4, 12, 24, 40][self.below(4)];
        let size = 1 + self.below(most);
        match self.below(20) {
            0..=3 => greatest_alone(self.rule(size)),
            4..=7 => greatest_alone(self.crossing()),
            8..=9 => greatest_alone([vec![7], self.beat(), self.rule(size)].concat()),
            10..=11 => self.fork(),
            12..=13 => self.returns(),
            14..=15 => [vec![7], self.returns(), self.whenever()].concat(),
            16 => self.many(),
            _ => self.whenever(),
        }
    }

    /// At every place each of a few promises. One more signal may be as asked at the first place.
    fn whenever(&mut self) -> Vec<u8> {
        let promises = 1 + self.below(4);
        let first = if self.one_in(3) { [vec![7], self.literal()].concat() } else { Vec::new() };
        let parts: Vec<Vec<u8>> = (0..promises).map(|_| self.promise()).collect();
        [first, vec![10, 7], vec![7; promises - 1], parts.concat(), vec![8, 5, 0]].concat()
    }

    /// A signal is as asked, or another one is, here or at most three places on; or the other way round.
    fn promise(&mut self) -> Vec<u8> {
        let mut operands = [self.literal(), [vec![8; self.below(4)], self.literal()].concat()];
        operands.rotate_left(self.below(2));
        [vec![6], operands.concat()].concat()
    }

    /// At every place each of several signals is present, or as asked at the next place: many nodes, and many steps from each. Now and then
    /// no step leads on from the fourth place.
    fn many(&mut self) -> Vec<u8> {
        let (begun, signals) = if self.one_in(4) { (vec![7, 8, 8, 8, 2], 6 + self.below(2)) } else { (Vec::new(), 5 + self.below(4)) };
        let parts: Vec<Vec<u8>> = (0..signals as u8).map(|j| vec![6, 3, j, 8, 3 + self.below(2) as u8, j]).collect();
        [begun, vec![10, 7], vec![7; signals - 1], parts.concat(), vec![8, 5, 0]].concat()
    }

    /// One to three signals, each as asked again and again. The loops have as many steps as it takes until all come round together, up to
    /// 60.
    fn returns(&mut self) -> Vec<u8> {
        // twelve nexts in all
        let most = [&[12][..], &[5, 7], &[3, 4, 5]][self.below(3)];
        let parts: Vec<Vec<u8>> = most.iter().map(|&most| self.again(most)).collect();
        [vec![7; parts.len() - 1], parts.concat()].concat()
    }

    /// A signal is as asked at every so many places, or now and then at one of two distances; with at most so many nexts.
    fn again(&mut self, most: usize) -> Vec<u8> {
        let behind = |steps: usize| [&vec![8; steps][..], &[5, 0]].concat();
        let nexts = if self.one_in(2) { most } else { 1 + self.below(most) };
        let begun = [vec![10, 7], self.literal()].concat();
        if nexts > 1 && self.one_in(4) {
            let steps = 1 + self.below(nexts - 1);
            return [begun, vec![6], behind(steps), behind(nexts - steps)].concat();
        }
        [begun, behind(nexts)].concat()
    }

    /// Always a rule of 12 ors, and together with the always of 12 nexts, over a few ands and greatest fixpoints: with as many commands as
    /// there may be, or somewhat fewer.
    pub fn fullest(&mut self) -> Vec<u8> {
        let fixpoints = self.below(4);
        let ands = self.below((8 - fixpoints) / 2 + 1);
        let mut inner = [vec![6; 12], vec![8; 11], vec![7; ands], vec![10; fixpoints]].concat();
        for i in (1..inner.len()).rev() {
            inner.swap(i, self.below(i + 1));
        }
        let mut rule = vec![10, 7];
        self.filled(&inner, &mut vec![false], &mut rule);
        rule.extend([8, 5, 0]);
        rule
    }

    /// The commands, one inside the other or side by side, with a variable or a signal wherever none is left.
    fn filled(&mut self, inner: &[u8], scope: &mut Vec<bool>, rule: &mut Vec<u8>) {
        let Some((&command, rest)) = inner.split_first() else {
            let guarded: Vec<usize> = (0..scope.len()).filter(|&d| scope[scope.len() - 1 - d]).collect();
            let variable = !guarded.is_empty() && self.one_in(4);
            return rule.extend(if variable { [5, guarded[self.below(guarded.len())] as u8] } else { self.signal(12) });
        };
        rule.push(command);
        match command {
            8 => self.filled(rest, &mut vec![true; scope.len()], rule),
            10 => {
                scope.push(false);
                self.filled(rest, scope, rule);
                scope.pop();
            }
            _ => {
                let (left, right) = rest.split_at(self.below(rest.len() + 1));
                self.filled(left, scope, rule);
                self.filled(right, scope, rule);
            }
        }
    }

    /// One of so many signals, present or absent.
    fn signal(&mut self, signals: usize) -> [u8; 2] {
        [3 + self.below(2) as u8, self.below(signals) as u8]
    }

    /// Bytes that are nearly a rule, or no rule at all.
    pub fn damaged(&mut self, size: usize) -> Vec<u8> {
        let mut bytes = self.rule(size);
        for _ in 0..1 + self.below(3) {
            let at = self.below(bytes.len() + 1);
            match self.below(5) {
                0 => bytes.truncate(at),
                1 => bytes.insert(at, self.below(12) as u8),
                2 if at < bytes.len() => bytes[at] = self.below(256) as u8,
                3 if at < bytes.len() => {
                    bytes.remove(at);
                }
                _ => bytes.extend((0..self.below(120)).map(|_| 7)),
            }
        }
        bytes
    }

    /// A course of which long stretches are the same, or random places; its signals, mostly few, are turned round by so many.
    pub fn course(&mut self, n: usize, turn: u32) -> Vec<u16> {
        let values = if self.one_in(2) { self.values(n) } else { self.stretches(n) };
        let turned = values.into_iter().map(|value| value.rotate_left(turn)).collect();
        self.flagged(turned)
    }

    /// Places over few signals, and now and then over all.
    pub fn places(&mut self, n: usize) -> Vec<u16> {
        let values = self.values(n);
        self.flagged(values)
    }

    /// One of the two scale flags.
    pub fn flag(&mut self) -> u16 {
        FLAGS[self.below(2)]
    }

    /// The values, each with one scale flag: those with neither get one that is drawn for all of them, and those with both keep the other.
    fn flagged(&mut self, values: Vec<u16>) -> Vec<u16> {
        let flag = self.flag();
        values.into_iter().map(|value| if is_place(value) { value } else { value ^ flag }).collect()
    }

    fn stretches(&mut self, n: usize) -> Vec<u16> {
        let mut values = vec![0; n];
        for _ in 0..1 + self.below(4) {
            let (a, b) = (self.below(n + 1), self.below(n + 1));
            let value = [0, 1, 2, 3, 0xffff][self.below(5)];
            let end = if self.one_in(3) { n.min(a + 1) } else { a.max(b) };
            values[a.min(end)..end].fill(value);
        }
        values
    }

    fn values(&mut self, n: usize) -> Vec<u16> {
        let mask = if self.one_in(10) { 0xffff } else { 0x7 };
        (0..n).map(|_| self.below(0x10000) as u16 & mask).collect()
    }
}

/// A rule as far as it is written: how many signals it has, whether its last fixpoint is a least one, and whether the kinds change.
struct Draft {
    signals: usize,
    least: bool,
    turns: bool,
    rule: Vec<u8>,
}
