use crate::{exported, Refusal};
use std::fmt;

/// One of the two sheets that a rule is looked up in.
///
/// ```
/// assert_eq!(yuktrob::Sheet::Dealer.to_string(), "the dealer's sheet");
/// ```
#[derive(Clone, Copy, Debug, PartialEq, Eq, Hash)]
pub enum Sheet {
    /// The dealer's, which comes first.
    Dealer,
    /// The factory's, for the rules that the dealer leaves as they are.
    Factory,
}

impl fmt::Display for Sheet {
    fn fmt(&self, out: &mut fmt::Formatter<'_>) -> fmt::Result {
        out.write_str(match self {
            Sheet::Dealer => "the dealer's sheet",
            Sheet::Factory => "the factory's sheet",
        })
    }
}

/// A rule's bytes, and where they are.
///
/// ```
/// use yuktrob::{lookup, Found, Sheet};
/// let factory = [0x20, 0x05, 0x00, 0x01, 0x01];
/// assert_eq!(lookup(&[], &factory, 5), Ok(Found { sheet: Sheet::Factory, start: 4, rule: &factory[4..] }));
/// ```
#[derive(Clone, Copy, Debug, PartialEq, Eq, Hash)]
pub struct Found<'a> {
    /// The sheet that has them.
    pub sheet: Sheet,
    /// The place in that sheet where they begin, counted from 0.
    pub start: usize,
    /// The bytes, a part of that sheet and no copy. Whether they are a rule [`Rule::read`](crate::Rule::read) says.
    pub rule: &'a [u8],
}

/// Why a lookup hands back no rule.
///
/// ```
/// use yuktrob::{lookup, NotFound, Sheet};
/// // the factory's record is to have two bytes
/// let why = lookup(&[], &[0x20, 0x05, 0x00, 0x02, 0x01], 5).unwrap_err();
/// assert_eq!((why, why.number()), (NotFound::Damaged { sheet: Sheet::Factory, place: 5 }, 30));
/// assert!(why.to_string().starts_with("refused 30 at byte 5 of the factory's sheet: "));
/// let why = lookup(&[], &[], 5).unwrap_err();
/// assert_eq!((why, why.number()), (NotFound::Missing, 31));
/// assert_eq!(why.to_string(), "refused 31: neither sheet has a rule with this number");
/// ```
#[derive(Clone, Copy, Debug, PartialEq, Eq, Hash)]
pub enum NotFound {
    /// Refused with 30: what was handed over as this sheet is none.
    Damaged {
        /// The sheet; the dealer's if both are damaged.
        sheet: Sheet,
        /// The first place where something is wrong, counted from 0: the byte that should open a record, or the low byte of a number that
        /// does not rise, or the sheet's length if its last record lacks bytes.
        place: usize,
    },
    /// Refused with 31: there is no such rule in either sheet.
    Missing,
}

impl NotFound {
    /// The refusal's number, 30 or 31.
    ///
    /// ```
    /// assert_eq!(yuktrob::NotFound::Missing.number(), 31);
    /// ```
    pub fn number(&self) -> u8 {
        match self {
            NotFound::Damaged { .. } => 30,
            NotFound::Missing => 31,
        }
    }

    /// What the number means, in words.
    ///
    /// ```
    /// assert_eq!(yuktrob::NotFound::Missing.meaning(), "neither sheet has a rule with this number");
    /// ```
    pub fn meaning(&self) -> &'static str {
        Refusal::new(self.number(), 0).meaning()
    }
}

impl fmt::Display for NotFound {
    fn fmt(&self, out: &mut fmt::Formatter<'_>) -> fmt::Result {
        write!(out, "refused {}", self.number())?;
        if let NotFound::Damaged { sheet, place } = self {
            write!(out, " at byte {place} of {sheet}")?;
        }
        write!(out, ": {}", self.meaning())
    }
}

impl std::error::Error for NotFound {}

/// The rule with a number: the dealer's, if that sheet has one, and otherwise the factory's. What is handed back is a part of the sheet,
/// with whatever bytes stand there.
///
/// A sheet has one record behind another, or none. A record is the byte 20, the rule's number in two bytes, the lower one first, a byte
/// that says how many bytes the rule has, and these. Each number is larger than that of the record before.
///
/// Both sheets are gone through to the end before anything is handed back. So [`NotFound::Damaged`] is answered whatever number is looked
/// for and wherever that stands: for the dealer's sheet first, and for the factory's even if the dealer's has the rule.
///
/// ```
/// use yuktrob::{lookup, Areas, NotFound, Rule, Sheet, Verdict};
/// // rules 7 and 300 as the factory has them: signal 0 present, and signal 1 absent
/// let factory = [0x20, 0x07, 0x00, 0x02, 0x03, 0x00, 0x20, 0x2C, 0x01, 0x02, 0x04, 0x01];
/// // the dealer has another rule 7: signal 2 present
/// let dealer = [0x20, 0x07, 0x00, 0x02, 0x03, 0x02];
/// let found = lookup(&dealer, &factory, 7)?;
/// assert_eq!((found.sheet, found.start, found.rule), (Sheet::Dealer, 4, &dealer[4..6]));
/// let mut areas = Areas::new(256, 300);
/// let verdict = Rule::read(found.rule)?.decide(&mut areas)?;
/// assert!(matches!(verdict, Verdict::Met { course: &[0x4004, 0x4000], .. }));
///
/// let found = lookup(&dealer, &factory, 300)?;
/// assert_eq!((found.sheet, found.start, found.rule), (Sheet::Factory, 10, &factory[10..]));
/// assert_eq!(lookup(&dealer, &factory, 8), Err(NotFound::Missing));
/// // the same record twice: its number does not rise
/// let twice = [dealer, dealer].concat();
/// assert_eq!(lookup(&twice, &factory, 7), Err(NotFound::Damaged { sheet: Sheet::Dealer, place: 7 }));
/// # Ok::<(), Box<dyn std::error::Error>>(())
/// ```
pub fn lookup<'a>(dealer: &'a [u8], factory: &'a [u8], number: u16) -> Result<Found<'a>, NotFound> {
    let (mut start, mut size) = (0, 0);
    let answer = exported::lookup(dealer, factory, number, &mut start, &mut size);
    let (sheet, bytes) = if answer / 256 == 0 { (Sheet::Dealer, dealer) } else { (Sheet::Factory, factory) };
    match answer % 256 {
        0 => Ok(Found { sheet, start, rule: &bytes[start..start + size] }),
        30 => Err(NotFound::Damaged { sheet, place: start }),
        _ => Err(NotFound::Missing),
    }
}
