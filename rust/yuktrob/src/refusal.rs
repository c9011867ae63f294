use std::fmt;

/// Why an operation was refused: the refusal's number, and the byte's place and the fixpoint's where it has them. `docs/FORMULAS.md` lists
/// them all.
///
/// ```
/// let refusal = yuktrob::Rule::read(&[0x03, 0x10]).unwrap_err();
/// assert_eq!((refusal.number, refusal.place), (6, Some(1)));
/// assert_eq!(refusal.to_string(), "refused 6 at byte 1: a signal above 0F");
/// ```
///
/// Refusal 8 also says for which fixpoint a next is missing:
///
/// ```
/// let refusal = yuktrob::Rule::read(&[0x08, 0x09, 0x05, 0x00]).unwrap_err();
/// assert_eq!((refusal.number, refusal.place, refusal.fixpoint), (8, Some(3), Some(1)));
/// let words = "refused 8 at byte 3, for the fixpoint at byte 1: no next between the fixpoint and its variable";
/// assert_eq!(refusal.to_string(), words);
/// ```
#[derive(Clone, Copy, Debug, PartialEq, Eq, Hash)]
#[non_exhaustive]
pub struct Refusal {
    /// The refusal's number.
    pub number: u8,
    /// Of a refusal of reading, 1 to 9, and of 43 the byte's place in the rule, counted from 0.
    pub place: Option<usize>,
    /// Of refusal 8, where the variable's fixpoint begins: the place of its byte 09 or 0A.
    pub fixpoint: Option<usize>,
}

impl Refusal {
    /// From the number and what the answer carries above it: a byte for each place, the fixpoint's above the other.
    pub(crate) fn new(number: u8, carried: u64) -> Self {
        let [place, fixpoint, ..] = carried.to_le_bytes();
        Refusal {
            number,
            place: matches!(number, 1..=9 | 43).then_some(place.into()),
            fixpoint: (number == 8).then_some(fixpoint.into()),
        }
    }

    /// What the number means, in words.
    ///
    /// ```
    /// let refusal = yuktrob::truth(&[0x01], &[], 0, &mut []).unwrap_err();
    /// assert_eq!(refusal.meaning(), "the lead-in is not shorter than the course; an empty course");
    /// ```
    pub fn meaning(&self) -> &'static str {
        match self.number {
            1 => "a command is missing; the place is the length",
            2 => "the byte is no command",
            3 => "more than 48 commands",
            4 => "more than 12 or, 12 next or 7 fixpoints",
            5 => "the operand byte of 03, 04 or 05 is missing; the place is the length",
            6 => "a signal above 0F",
            7 => "a depth at or above the number of enclosing fixpoints",
            8 => "no next between the fixpoint and its variable",
            9 => "bytes after the whole rule",
            11 => "N is not 1 to 1,024, or M, where it is asked for, not 1 to 4,096",
            12 => "the work area has fewer than 8 N + 192 M bytes; for building and for safety rules, fewer than 8 N",
            13 => "the course buffer has fewer than N + M places; for safety rules, fewer than N",
            14 => "the graph has more than N nodes",
            15 => "more than M profiles are needed to find a shortest good loop, or to tell that there is none",
            16 => "the lead-in is not shorter than the course; an empty course",
            17 => "more than 8,192 places",
            18 => "fewer words than places",
            19 => "a place with both scale flags or neither; it must have either signal 14 or signal 15",
            30 => "another byte than the 20 of a record, a number that does not rise, or, at the sheet's length, a record that lacks bytes",
            31 => "neither sheet has a rule with this number",
            34 => "the sheet has no rules, or more than eight",
            35 => "as one rule these have more commands, or, next or fixpoints than 3 and 4 allow, or need more room than 14 and 15 find",
            36 => "K or the first 8 N bytes of the work area are not what building with N leaves for this rule",
            37 => "the old rule has no entry with this number",
            43 => "a least fixpoint, where safety rules have greatest ones alone",
            _ => "a refusal that has no words here",
        }
    }
}

impl fmt::Display for Refusal {
    fn fmt(&self, out: &mut fmt::Formatter<'_>) -> fmt::Result {
        write!(out, "refused {}", self.number)?;
        if let Some(place) = self.place {
            write!(out, " at byte {place}")?;
        }
        if let Some(fixpoint) = self.fixpoint {
            write!(out, ", for the fixpoint at byte {fixpoint}")?;
        }
        write!(out, ": {}", self.meaning())
    }
}

impl std::error::Error for Refusal {}

#[cfg(test)]
mod tests {
    use super::*;

    fn parts(number: u8, carried: u64) -> (u8, Option<usize>, Option<usize>) {
        let why = Refusal::new(number, carried);
        (why.number, why.place, why.fixpoint)
    }

    #[test]
    fn two_places_with_8() {
        for (place, fixpoint) in [(2, 0), (3, 1), (6, 0), (71, 69), (97, 96)] {
            let carried = place as u64 + 256 * fixpoint as u64;
            assert_eq!(parts(8, carried), (8, Some(place), Some(fixpoint)));
            let words = Refusal::new(8, carried).to_string();
            assert!(words.starts_with(&format!("refused 8 at byte {place}, for the fixpoint at byte {fixpoint}: ")), "{words}");
        }
    }

    #[test]
    fn one_place_or_none_otherwise() {
        for number in (1..=7).chain([9, 43]) {
            assert_eq!(parts(number, 48), (number, Some(48), None));
        }
        for number in (10..=255).filter(|&number| number != 43) {
            assert_eq!(parts(number, 0), (number, None, None));
        }
        assert!(Refusal::new(43, 0).to_string().starts_with("refused 43 at byte 0: "));
    }
}
