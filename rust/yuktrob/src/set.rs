use crate::{decision, exported, Areas, Refusal, Verdict};
use std::fmt;

/// Some of the rules of a sheet, by their positions: the first rule of the sheet is at 0, whatever its number is.
///
/// ```
/// use yuktrob::{Areas, SetVerdict};
/// // rules 10, 20 and 30: signal 0, signal 1, no signal 0
/// let sheet = [0x20, 0x0A, 0x00, 0x02, 0x03, 0x00, 0x20, 0x14, 0x00, 0x02, 0x03, 0x01, 0x20, 0x1E, 0x00, 0x02, 0x04, 0x00];
/// let mut areas = Areas::new(256, 300);
/// let SetVerdict::Not { clash, .. } = areas.decide_set(&sheet)? else { panic!("no course meets all three") };
/// assert_eq!(clash.positions().collect::<Vec<_>>(), [0, 2]);
/// assert_eq!((clash.len(), clash.contains(0), clash.contains(1)), (2, true, false));
/// assert_eq!(clash.to_string(), "0 2");
/// # Ok::<(), yuktrob::SetRefusal>(())
/// ```
#[derive(Clone, Copy, Debug, PartialEq, Eq, Hash)]
pub struct Subset(u8);

impl Subset {
    /// From a number whose lowest 8 bits have the positions.
    fn new(bits: u64) -> Subset {
        Subset(bits as u8)
    }

    /// The positions, rising.
    pub fn positions(self) -> impl Iterator<Item = usize> {
        (0..8).filter(move |&position| self.contains(position))
    }

    /// Whether the rule at a position is one of them.
    pub fn contains(self, position: usize) -> bool {
        position < 8 && self.0 >> position & 1 == 1
    }

    /// How many rules they are: 1 to 8 in an answer.
    pub fn len(self) -> usize {
        self.0.count_ones() as usize
    }

    /// Whether they are none. No answer has such a subset: of no rules every course meets all.
    pub fn is_empty(self) -> bool {
        self.0 == 0
    }
}

impl fmt::Display for Subset {
    fn fmt(&self, out: &mut fmt::Formatter<'_>) -> fmt::Result {
        let positions: Vec<String> = self.positions().map(|position| position.to_string()).collect();
        out.write_str(&positions.join(" "))
    }
}

/// What the decision of a set answers.
///
/// ```
/// use yuktrob::{Areas, SetVerdict};
/// let told = |sheet: &[u8]| match Areas::new(256, 300).decide_set(sheet)? {
///     SetVerdict::Met { lead_len, course, .. } => Ok(format!("lead-in {:04x?}, loop {:04x?}", &course[..lead_len], &course[lead_len..])),
///     SetVerdict::Not { clash, .. } => Ok(format!("at {clash} they clash")),
/// };
/// // signal 2, and at the next place signal 0
/// assert_eq!(told(&[0x20, 1, 0, 2, 3, 2, 0x20, 2, 0, 3, 8, 3, 0])?, "lead-in [4004, 4001], loop [4000]");
/// // signal 2, and no signal 2
/// assert_eq!(told(&[0x20, 1, 0, 2, 3, 2, 0x20, 2, 0, 2, 4, 2])?, "at 0 1 they clash");
/// # Ok::<(), yuktrob::SetRefusal>(())
/// ```
#[derive(Clone, Copy, Debug, PartialEq, Eq, Hash)]
pub enum SetVerdict<'c> {
    /// One course meets all rules.
    Met {
        /// How many places of the course come before its loop.
        lead_len: usize,
        /// How many places the loop has.
        loop_len: usize,
        /// The paper's K: the nodes of the conjunction's graph.
        nodes: usize,
        /// How many profiles that graph has of runs of at most `loop_len` steps.
        profiles: usize,
        /// The course, in the buffer's first places, as [`decide`](crate::decide()) gives it for the conjunction.
        course: &'c [u16],
    },
    /// No course meets all rules.
    Not {
        /// The paper's K: the nodes of the conjunction's graph.
        nodes: usize,
        /// The paper's P: all its profiles.
        profiles: usize,
        /// Rules that no course meets together, and without any one of them some course does.
        clash: Subset,
    },
}

/// Why a set is not decided.
///
/// ```
/// use yuktrob::{Areas, SetRefusal};
/// let mut areas = Areas::new(256, 300);
/// let mut refusal = |sheet: &[u8]| areas.decide_set(sheet).unwrap_err();
/// // a record that lacks its length, and what comes behind that
/// let why = refusal(&[0x20, 0x07, 0x00]);
/// assert_eq!((why, why.number()), (SetRefusal::Damaged { place: 3 }, 30));
/// assert!(why.to_string().starts_with("refused 30 at byte 3 of the sheet: "));
/// // no record
/// assert_eq!(refusal(&[]).to_string(), "refused 34: the sheet has no rules, or more than eight");
/// // true; then a signal that there is not
/// let why = refusal(&[0x20, 0x07, 0x00, 0x01, 0x01, 0x20, 0x08, 0x00, 0x02, 0x03, 0x10]);
/// let SetRefusal::Unread { position: 1, refusal: own } = why else { panic!("the second rule is none") };
/// assert_eq!((own.number, own.place, why.number()), (6, Some(1), 6));
/// assert_eq!(why.to_string(), "the rule at position 1: refused 6 at byte 1: a signal above 0F");
/// ```
#[derive(Clone, Copy, Debug, PartialEq, Eq, Hash)]
pub enum SetRefusal {
    /// Refused with 30: what was handed over as a sheet is none.
    Damaged {
        /// The first place where something is wrong, counted from 0: the byte that should open a record, or the low byte of a number that
        /// does not rise, or the sheet's length if its last record lacks bytes.
        place: usize,
    },
    /// Refused with 34: the sheet has no rules, or more than eight.
    Miscounted,
    /// Refused by reading, with 1 to 9: the bytes of one rule are none.
    Unread {
        /// The position of the first such rule.
        position: usize,
        /// What reading says of it; the places are counted in its own bytes.
        refusal: Refusal,
    },
    /// Refused with 11, 12 or 13, for the room or for an area.
    Refused(Refusal),
    /// Refused with 35: the conjunction of some of the rules, or of all, is too large a rule, or needs more room than there is.
    Undecided {
        /// These rules. All are tried first, and then those that leaving out one after another leaves.
        tried: Subset,
    },
}

impl SetRefusal {
    /// From the number, what the answer carries above it, and the word.
    fn new(number: u8, carried: u64, place: usize) -> SetRefusal {
        match number {
            30 => SetRefusal::Damaged { place },
            34 => SetRefusal::Miscounted,
            35 => SetRefusal::Undecided { tried: Subset::new(carried) },
            1..=9 => SetRefusal::Unread { position: (carried >> 16) as usize, refusal: Refusal::new(number, carried) },
            _ => SetRefusal::Refused(Refusal::new(number, carried)),
        }
    }

    /// The refusal's number.
    ///
    /// ```
    /// assert_eq!(yuktrob::SetRefusal::Miscounted.number(), 34);
    /// ```
    pub fn number(&self) -> u8 {
        match self {
            SetRefusal::Damaged { .. } => 30,
            SetRefusal::Miscounted => 34,
            SetRefusal::Undecided { .. } => 35,
            SetRefusal::Unread { refusal, .. } | SetRefusal::Refused(refusal) => refusal.number,
        }
    }

    /// What the number means, in words.
    ///
    /// ```
    /// assert_eq!(yuktrob::SetRefusal::Miscounted.meaning(), "the sheet has no rules, or more than eight");
    /// ```
    pub fn meaning(&self) -> &'static str {
        Refusal::new(self.number(), 0).meaning()
    }
}

impl fmt::Display for SetRefusal {
    fn fmt(&self, out: &mut fmt::Formatter<'_>) -> fmt::Result {
        match self {
            SetRefusal::Damaged { place } => write!(out, "refused 30 at byte {place} of the sheet: {}", self.meaning()),
            SetRefusal::Miscounted => write!(out, "refused 34: {}", self.meaning()),
            SetRefusal::Unread { position, refusal } => write!(out, "the rule at position {position}: {refusal}"),
            SetRefusal::Refused(refusal) => refusal.fmt(out),
            SetRefusal::Undecided { tried } => write!(out, "refused 35 for the rules at {tried}: {}", self.meaning()),
        }
    }
}

impl std::error::Error for SetRefusal {}

/// Whether one course meets all rules of a sheet, one to eight of them, with room for `nodes` nodes and `profiles` profiles. [`lookup`]
/// says how a sheet is laid out. The rules are taken by their positions, the first being at 0; their numbers only have to rise. The areas
/// are those of [`decide`](crate::decide()), and it is decided as that decides the rules' conjunction: the first and (the second and (the
/// third ..)).
///
/// Where no course meets them all, some of them clash: no course meets these, and without any one of them some course does. There can be
/// several such subsets. The one that is told is what is left when from the last rule to the first each is left out for good if the others
/// that are left still cannot be met.
///
/// Refused, in this order: [`SetRefusal::Damaged`]; [`SetRefusal::Miscounted`]; [`SetRefusal::Unread`]; [`SetRefusal::Refused`], with 11,
/// 12 and 13 as the decision asks them; [`SetRefusal::Undecided`], at the first conjunction that cannot be decided. After a verdict the
/// [`work_len`](crate::work_len) bytes are zero. So they are where the last of these is for room, the decision's 14 or 15; where it is for
/// a conjunction that would be too large a rule, 3 or 4, and after any other refusal, the work area is as it was. The course buffer is
/// written by a yes alone, as far as the course goes.
///
/// ```
/// use yuktrob::{course_len, decide_set, work_len, SetRefusal, SetVerdict};
/// let all = [
///     &[0x20, 0x01, 0x00, 0x07, 0x09, 0x06, 0x03, 0x00, 0x08, 0x05, 0x00][..], // rule 1: sooner or later signal 0
///     &[0x20, 0x02, 0x00, 0x07, 0x0A, 0x07, 0x03, 0x01, 0x08, 0x05, 0x00], // rule 2: always signal 1
///     &[0x20, 0x03, 0x00, 0x07, 0x0A, 0x07, 0x04, 0x00, 0x08, 0x05, 0x00], // rule 3: never signal 0
/// ];
/// let (mut work, mut course) = (vec![0; work_len(256, 300)], vec![0; course_len(256, 300)]);
/// let verdict = decide_set(&all.concat(), 256, 300, &mut work, &mut course)?;
/// assert!(matches!(verdict, SetVerdict::Not { clash, .. } if clash.to_string() == "0 2"));
/// let verdict = decide_set(&all[..2].concat(), 256, 300, &mut work, &mut course)?;
/// assert!(matches!(verdict, SetVerdict::Met { course: &[0x4003, 0x4002], .. }));
/// // room for one node
/// let why = decide_set(&all[..2].concat(), 1, 300, &mut work, &mut course).unwrap_err();
/// assert!(matches!(why, SetRefusal::Undecided { tried } if tried.len() == 2));
/// # Ok::<(), yuktrob::SetRefusal>(())
/// ```
///
/// [`lookup`]: crate::lookup()
pub fn decide_set<'c>(
    sheet: &[u8],
    nodes: usize,
    profiles: usize,
    work: &mut [u8],
    course: &'c mut [u16],
) -> Result<SetVerdict<'c>, SetRefusal> {
    let mut place = 0;
    let answer = exported::decide_set(sheet, nodes, profiles, work, course, &mut place);
    let carried = answer / 256;
    let number = (answer % 256) as u8;
    if number > 0 {
        return Err(SetRefusal::new(number, carried, place));
    }
    Ok(match decision::verdict(carried, course) {
        Verdict::Met { lead_len, loop_len, nodes, profiles, course } => SetVerdict::Met { lead_len, loop_len, nodes, profiles, course },
        // the clashing rules stand where MET has the lead-in's length
        Verdict::Not { nodes, profiles } => SetVerdict::Not { nodes, profiles, clash: Subset::new(carried / 2) },
    })
}

impl Areas {
    /// Whether one course meets all rules of a sheet, as [`decide_set`] has it, with the room that the areas have.
    ///
    /// ```
    /// use yuktrob::{Areas, SetVerdict};
    /// let mut areas = Areas::new(256, 300);
    /// // rule 7: signal 0; rule 300: no signal 1
    /// let verdict = areas.decide_set(&[0x20, 0x07, 0x00, 0x02, 0x03, 0x00, 0x20, 0x2C, 0x01, 0x02, 0x04, 0x01])?;
    /// assert!(matches!(verdict, SetVerdict::Met { lead_len: 1, course: &[0x4001, 0x4000], .. }));
    /// # Ok::<(), yuktrob::SetRefusal>(())
    /// ```
    pub fn decide_set(&mut self, sheet: &[u8]) -> Result<SetVerdict<'_>, SetRefusal> {
        decide_set(sheet, self.nodes, self.profiles, &mut self.work, &mut self.course)
    }
}
