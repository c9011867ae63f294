//! Truth by laps. A rule on a course is a game: or is one player's choice, and the other's, and a play that never ends is won by the kind
//! of the outermost fixpoint that it passes again and again. Every such play comes by the loop's first place, so the game is solved there
//! only, by a nested fixpoint over the operands of next, whose rounds are laps: one lap works out, from the last place back to the first of
//! the loop, who wins from each entry if the end of the lap is won as supposed. What is supposed depends on the outermost fixpoint
//! passed during the lap, so a value is a byte: its bit w is for plays that have so far passed the w-th fixpoint and none outside it.

use crate::reading::Command;

/// No fixpoint has been passed yet: there are seven at most.
const NONE: u32 = 7;

pub struct Laps<'a> {
    entries: &'a [Command],
    places: &'a [u16],
    lead_len: usize,
    /// The entries, each after those that it leads to at the same place.
    order: Vec<usize>,
    /// The operands of next.
    operands: Vec<usize>,
    /// For each fixpoint's entry its number among the fixpoints.
    rank: Vec<u32>,
    /// By that number, whether it is a greatest one.
    greatest: Vec<bool>,
}

impl<'a> Laps<'a> {
    pub fn new(entries: &'a [Command], places: &'a [u16], lead_len: usize) -> Self {
        let mut laps =
            Laps { entries, places, lead_len, order: Vec::new(), operands: Vec::new(), rank: vec![NONE; entries.len()], greatest: Vec::new() };
        for (e, command) in entries.iter().enumerate() {
            laps.visit(e);
            match *command {
                Command::Next(f) => laps.operands.push(f),
                Command::Least(_) | Command::Greatest(_) => {
                    laps.rank[e] = laps.greatest.len() as u32;
                    laps.greatest.push(matches!(command, Command::Greatest(_)));
                }
                _ => {}
            }
        }
        laps
    }

    /// Puts an entry into the order, behind those that it leads to without a next. A variable has a next between it and its fixpoint,
    /// so this ends.
    fn visit(&mut self, e: usize) {
        if self.order.contains(&e) {
            return;
        }
        match self.entries[e] {
            Command::Variable(f) | Command::Least(f) | Command::Greatest(f) => self.visit(f),
            Command::Or(l, r) | Command::And(l, r) => {
                self.visit(l);
                self.visit(r);
            }
            _ => {}
        }
        self.order.push(e);
    }

    /// The values at a place, from those at the place after it.
    fn step(&self, place: u16, values: &mut [u8]) {
        let mut after = [0; 48];
        after[..values.len()].copy_from_slice(values);
        for &e in &self.order {
            values[e] = match self.entries[e] {
                Command::True => 0xff,
                Command::False => 0,
                Command::Present(j) => all_if(place >> j & 1 == 1),
                Command::Absent(j) => all_if(place >> j & 1 == 0),
                Command::Variable(f) => values[f],
                Command::Or(l, r) => values[l] | values[r],
                Command::And(l, r) => values[l] & values[r],
                Command::Next(f) => after[f],
                Command::Least(f) | Command::Greatest(f) => passed(values[f], self.rank[e]),
            };
        }
    }

    /// The operands of next that are won at the loop's first place, if the end of the lap is won as supposed.
    fn lap(&self, supposed: &[u8]) -> Vec<bool> {
        let mut values = supposed.to_vec();
        for &place in self.places[self.lead_len..].iter().rev() {
            self.step(place, &mut values);
        }
        self.operands.iter().map(|&f| values[f] >> NONE & 1 == 1).collect()
    }

    /// The nested fixpoint from the w-th fixpoint inward: the operands won at the loop's first place, where `supposed` has the bits of the
    /// fixpoints outside.
    fn solve(&self, w: usize, supposed: &mut [u8]) -> Vec<bool> {
        if w > self.greatest.len() {
            return self.lap(supposed);
        }
        // a lap that passes no fixpoint is judged as the innermost: no play goes on so for ever
        let bit = if w == self.greatest.len() { NONE } else { w as u32 };
        let from = self.greatest.get(w).copied().unwrap_or(false);
        let mut won = vec![from; self.operands.len()];
        loop {
            for (&f, &b) in self.operands.iter().zip(&won) {
                supposed[f] = supposed[f] & !(1 << bit) | (b as u8) << bit;
            }
            let next = self.solve(w + 1, supposed);
            if next == won {
                return won;
            }
            won = next;
        }
    }

    /// Of each place the entries that are true there: those that are won, whatever has been passed.
    pub fn words(&self) -> Vec<u64> {
        let won = self.solve(0, &mut vec![0; self.entries.len()]);
        let mut values = vec![0; self.entries.len()];
        for (&f, &b) in self.operands.iter().zip(&won) {
            values[f] = all_if(b);
        }
        let mut words = vec![0; self.places.len()];
        for (word, &place) in words.iter_mut().zip(self.places).rev() {
            self.step(place, &mut values);
            *word = values.iter().enumerate().fold(0, |w, (e, &v)| w | (v as u64 & 1) << e);
        }
        words
    }
}

fn all_if(b: bool) -> u8 {
    if b { 0xff } else { 0 }
}

/// The value before the w-th fixpoint is passed, from the value behind it: an outer one that was passed before still counts, an inner one
/// does no more.
fn passed(value: u8, w: u32) -> u8 {
    let outer = (1 << w) - 1;
    value & outer | all_if(value >> w & 1 == 1) & !outer
}
