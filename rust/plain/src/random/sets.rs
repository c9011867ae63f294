//! Random sheets of rules to be decided at once: small rules that often clash, rules that are too large together, and such that are none.

use super::sheets::Drawn;
use super::Random;
use std::collections::BTreeSet;

/// What can stand before a rule so that it has more commands, ors, nexts or fixpoints; all but the next leave its meaning as it is.
const BEFORE: [&[u8]; 5] = [&[7, 1], &[6, 2], &[8], &[9], &[10]];

impl Random {
    /// A sheet of up to ten rules, mostly two to eight; now and then one as lookups have it, of any bytes and sometimes of many records. One
    /// sheet in twelve is damaged, and in one of eight some rules are none.
    pub fn set(&mut self) -> Vec<u8> {
        let mut rules = self.rules();
        if !rules.is_empty() && self.one_in(8) {
            for _ in 0..1 + self.below(3) {
                let at = self.below(rules.len());
                rules[at] = self.no_rule();
            }
        }
        let mut sheet = if self.one_in(20) { self.sheet() } else { self.sheet_of(&rules) };
        if self.one_in(12) {
            self.damage(&mut sheet);
        }
        sheet.bytes
    }

    /// The rules in a sheet, with whatever numbers.
    fn sheet_of(&mut self, rules: &[Vec<u8>]) -> Drawn {
        let mut numbers = BTreeSet::new();
        while numbers.len() < rules.len() {
            numbers.insert(self.rule_number());
        }
        let mut sheet = Drawn::default();
        numbers.into_iter().zip(rules).for_each(|(number, rule)| sheet.push(number, rule));
        sheet
    }

    /// The rules of a set, over few signals, which are often the scale flags; or a chain; or rules that are as long as can be.
    fn rules(&mut self) -> Vec<Vec<u8>> {
        match self.below(40) {
            0 => return (0..1 + self.below(8)).map(|_| self.longest()).collect(),
            1..=7 => return self.chain(),
            _ => {}
        }
        let count = match self.below(40) {
            0 => 0,
            1..=2 => 9 + self.below(2),
            3..=4 => 1,
            5..=8 => 8,
            _ => 2 + self.below(6),
        };
        let signals = [&[0][..], &[0, 1], &[0, 1, 2], &[14, 15], &[0, 14], &[3, 14, 15]][self.below(6)];
        let size = [3, 6, 6, 24][self.below(4)];
        let mut rules: Vec<Vec<u8>> = (0..count).map(|_| self.member(signals, size)).collect();
        if count > 0 && self.one_in(5) {
            self.fill_up(&mut rules);
        }
        rules
    }

    /// A signal; with each signal the next one; and the last one is absent: all of these clash and no fewer. Now and then one is missing
    /// or one more is there, and all stand in any order.
    fn chain(&mut self) -> Vec<Vec<u8>> {
        let (links, nexts) = (1 + self.below(6), self.below(2));
        let link = |j: u8| vec![6, 4, j, 3, j + 1];
        let mut rules = [vec![vec![3, 0]], (0..links as u8).map(link).collect(), vec![vec![4, links as u8]]].concat();
        match self.below(6) {
            0 => drop(rules.remove(self.below(rules.len()))),
            1 => rules.push(self.member(&[0, 1, 2], 6)),
            _ => {}
        }
        for i in (1..rules.len()).rev() {
            rules.swap(i, self.below(i + 1));
        }
        rules.into_iter().map(|rule| [vec![8; nexts], rule].concat()).collect()
    }

    /// A rule with as many bytes as reading accepts: an and of 24 signals, and one more command before it.
    pub(super) fn longest(&mut self) -> Vec<u8> {
        let before = 8 + self.below(3) as u8;
        let signals: Vec<u8> = (0..24).flat_map(|_| self.signal(3)).collect();
        [vec![before], vec![7; 23], signals].concat()
    }

    /// One rule of a set.
    fn member(&mut self, signals: &[u8], size: usize) -> Vec<u8> {
        let f = self.one_of(signals);
        match self.below(12) {
            0..=2 => f,
            3 => [vec![8; 1 + self.below(3)], f].concat(),
            4 => [vec![6], f, self.one_of(signals)].concat(),
            5 => [vec![10, 7], f, vec![8, 5, 0]].concat(),
            6 => [vec![9, 6], f, vec![8, 5, 0]].concat(),
            7 => [vec![10, 7, 9, 6], f, vec![8, 5, 0, 8, 5, 0]].concat(),
            8 => [vec![10, 7, 6], f, vec![8], self.one_of(signals), vec![8, 5, 0]].concat(),
            9 => [vec![9, 6], f, vec![7], self.one_of(signals), vec![8, 5, 0]].concat(),
            _ => {
                let size = 1 + self.below(size);
                self.rule(size)
            }
        }
    }

    /// One of the signals, present or absent, now and then true or false.
    fn one_of(&mut self, signals: &[u8]) -> Vec<u8> {
        match self.below(30) {
            0 => vec![1],
            1 => vec![2],
            _ => vec![3 + self.below(2) as u8, signals[self.below(signals.len())]],
        }
    }

    /// Puts so much before some rules that all together have about as many commands, ors, nexts or fixpoints as one rule may have.
    fn fill_up(&mut self, rules: &mut [Vec<u8>]) {
        let before = BEFORE[self.below(BEFORE.len())];
        let (most, counted): (usize, &[u8]) = match before[0] {
            7 => (48, &[1, 2, 3, 4, 5, 6, 7, 8, 9, 10]),
            6 => (12, &[6]),
            8 => (12, &[8]),
            _ => (7, &[9, 10]),
        };
        let ands = if before[0] == 7 { rules.len() - 1 } else { 0 };
        let is = |rules: &[Vec<u8>]| ands + rules.iter().map(|rule| commands(rule).filter(|c| counted.contains(c)).count()).sum::<usize>();
        let wanted = most - 1 + self.below(3);
        while is(rules) < wanted {
            let at = self.below(rules.len());
            rules[at].splice(0..0, before.iter().copied());
        }
    }

    /// Bytes that reading refuses, nearly always.
    pub(super) fn no_rule(&mut self) -> Vec<u8> {
        match self.below(6) {
            0 => Vec::new(),
            1 => self.unguarded(),
            2 => vec![7; 49 + self.below(100)],
            3 => [vec![8; 13], vec![1]].concat(),
            _ => {
                let size = 1 + self.below(12);
                let mut bytes = self.damaged(size);
                bytes.truncate(255);
                bytes
            }
        }
    }
}

/// The commands of a rule, without their operand bytes.
pub(crate) fn commands(rule: &[u8]) -> impl Iterator<Item = u8> + '_ {
    let mut at = 0;
    std::iter::from_fn(move || {
        let &command = rule.get(at)?;
        at += if matches!(command, 3..=5) { 2 } else { 1 };
        Some(command)
    })
}
