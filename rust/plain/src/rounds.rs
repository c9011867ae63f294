//! Truth by rounds: a fixpoint is its body taken again and again, inner fixpoints afresh in each round.

use crate::reading::Command;

pub struct Rounds<'a> {
    entries: &'a [Command],
    places: &'a [u16],
    lead_len: usize,
}

impl<'a> Rounds<'a> {
    pub fn new(entries: &'a [Command], places: &'a [u16], lead_len: usize) -> Self {
        Rounds { entries, places, lead_len }
    }

    /// Of each place the entries that are true there.
    pub fn words(&self) -> Vec<u64> {
        let n = self.places.len();
        let mut sets = vec![vec![false; n]; self.entries.len()];
        self.evaluate(0, &mut sets);
        (0..n).map(|i| sets.iter().enumerate().fold(0, |w, (e, s)| w | (s[i] as u64) << e)).collect()
    }

    /// The sets of entry e and all entries inside it, from the sets of the fixpoints around it.
    fn evaluate(&self, e: usize, sets: &mut [Vec<bool>]) {
        match self.entries[e] {
            Command::True => sets[e].fill(true),
            Command::False => sets[e].fill(false),
            Command::Present(j) => sets[e] = self.places.iter().map(|p| p >> j & 1 == 1).collect(),
            Command::Absent(j) => sets[e] = self.places.iter().map(|p| p >> j & 1 == 0).collect(),
            Command::Variable(m) => sets[e] = sets[m].clone(),
            Command::Or(l, r) => self.pair(e, l, r, sets, |a, b| a || b),
            Command::And(l, r) => self.pair(e, l, r, sets, |a, b| a && b),
            Command::Next(l) => {
                self.evaluate(l, sets);
                sets[e] = [&sets[l][1..], &[sets[l][self.lead_len]]].concat();
            }
            Command::Least(l) => self.rounds(e, l, sets, false),
            Command::Greatest(l) => self.rounds(e, l, sets, true),
        }
    }

    fn pair(&self, e: usize, l: usize, r: usize, sets: &mut [Vec<bool>], join: fn(bool, bool) -> bool) {
        self.evaluate(l, sets);
        self.evaluate(r, sets);
        sets[e] = sets[l].iter().zip(&sets[r]).map(|(&a, &b)| join(a, b)).collect();
    }

    /// As many rounds as there are places; one that changes nothing is the last that matters.
    fn rounds(&self, e: usize, body: usize, sets: &mut [Vec<bool>], from: bool) {
        sets[e].fill(from);
        for _ in 0..self.places.len() {
            self.evaluate(body, sets);
            if sets[e] == sets[body] {
                return;
            }
            sets[e] = sets[body].clone();
        }
        self.evaluate(body, sets);
    }
}
