//! Truth of a rule on a course, by either of two methods that share nothing but the questions asked first: by rounds, as document 01
//! defines it, and by laps round the loop.

use crate::laps::Laps;
use crate::reading::{read, Command, Unreadable};
use crate::rounds::Rounds;
use crate::scale::is_place;

/// What the truth operation answers.
#[derive(Clone, Debug, PartialEq, Eq)]
pub enum Truth {
    Unread(Unreadable),
    Refused(u8),
    /// Whether the rule itself is true at the first place, and the word of each place.
    Told(bool, Vec<u64>),
}

/// Truth by rounds; `room` is the number of words lent.
pub fn by_rounds(rule: &[u8], places: &[u16], lead_len: usize, room: usize) -> Truth {
    asked(rule, places, lead_len, room, |entries| Rounds::new(entries, places, lead_len).words())
}

/// Truth by laps, in a time that grows with the places no faster than they do.
pub fn by_laps(rule: &[u8], places: &[u16], lead_len: usize, room: usize) -> Truth {
    asked(rule, places, lead_len, room, |entries| Laps::new(entries, places, lead_len).words())
}

fn asked(rule: &[u8], places: &[u16], lead_len: usize, room: usize, words: impl Fn(&[Command]) -> Vec<u64>) -> Truth {
    let entries = match read(rule) {
        Ok(entries) => entries,
        Err(why) => return Truth::Unread(why),
    };
    if lead_len >= places.len() {
        return Truth::Refused(16);
    }
    if places.len() > 8192 {
        return Truth::Refused(17);
    }
    if !places.iter().all(|&place| is_place(place)) {
        return Truth::Refused(19);
    }
    if room < places.len() {
        return Truth::Refused(18);
    }
    let words = words(&entries);
    Truth::Told(words[0] & 1 == 1, words)
}
