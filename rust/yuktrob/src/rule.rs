use crate::{decision, edit, exported, safety, truth, Areas, Built, EditRefusal, Refusal, SafetyVerdict, Verdict};

/// What an entry is, with the numbers of the entries that it leads to.
///
/// ```
/// use yuktrob::{Command, Rule};
/// // signal 2, or no signal 0 at the next place
/// let rule = Rule::read(&[0x06, 0x03, 0x02, 0x08, 0x04, 0x00])?;
/// let commands: Vec<Command> = rule.entries().map(|entry| entry.command).collect();
/// assert_eq!(commands, [Command::Or(1, 2), Command::Present(2), Command::Next(3), Command::Absent(0)]);
/// # Ok::<(), yuktrob::Refusal>(())
/// ```
#[derive(Clone, Copy, Debug, PartialEq, Eq, Hash)]
pub enum Command {
    /// True at every place.
    True,
    /// False at every place.
    False,
    /// This signal is present.
    Present(u8),
    /// This signal is absent.
    Absent(u8),
    /// A variable, with the entry of its fixpoint.
    Variable(usize),
    /// One of two entries or both.
    Or(usize, usize),
    /// Both of two entries.
    And(usize, usize),
    /// The entry at the next place.
    Next(usize),
    /// A least fixpoint, with its body.
    Least(usize),
    /// A greatest fixpoint, with its body.
    Greatest(usize),
}

impl Command {
    /// The command of entry e, by its byte, its signal or its fixpoint's entry, and its second operand; nothing if the byte is 0.
    pub(crate) fn new(byte: u8, e: usize, argument: u8, right: usize) -> Option<Command> {
        Some(match byte {
            0 => return None,
            1 => Command::True,
            2 => Command::False,
            3 => Command::Present(argument),
            4 => Command::Absent(argument),
            5 => Command::Variable(argument.into()),
            6 => Command::Or(e + 1, right),
            7 => Command::And(e + 1, right),
            8 => Command::Next(e + 1),
            9 => Command::Least(e + 1),
            _ => Command::Greatest(e + 1),
        })
    }
}

/// One entry of a rule.
///
/// ```
/// let rule = yuktrob::Rule::read(&[0x07, 0x08, 0x01, 0x02])?;
/// // entry 1, a next, holds the entries 1 and 2
/// assert_eq!(rule.entry(1).map(|entry| entry.end), Some(3));
/// # Ok::<(), yuktrob::Refusal>(())
/// ```
#[derive(Clone, Copy, Debug, PartialEq, Eq, Hash)]
#[non_exhaustive]
pub struct Entry {
    /// What it is.
    pub command: Command,
    /// The entry after its last one: an entry e holds the entries from e up to this.
    pub end: usize,
}

/// An accepted rule: its bytes, of which reading has said that they are one.
///
/// ```
/// use yuktrob::{Command, Rule};
/// let rule = Rule::read(&[0x07, 0x03, 0x02, 0x01])?;
/// assert_eq!(rule.as_bytes(), [0x07, 0x03, 0x02, 0x01]);
/// let commands: Vec<Command> = rule.entries().map(|entry| entry.command).collect();
/// assert_eq!(commands, [Command::And(1, 2), Command::Present(2), Command::True]);
/// # Ok::<(), yuktrob::Refusal>(())
/// ```
#[derive(Clone, Debug, PartialEq, Eq, Hash)]
pub struct Rule {
    bytes: Box<[u8]>,
    count: usize,
}

impl Rule {
    /// Reads a rule.
    ///
    /// ```
    /// use yuktrob::Rule;
    /// assert_eq!(Rule::read(&[0x03, 0x0f])?.entry_count(), 1);
    /// assert_eq!(Rule::read(&[0x03, 0x10]).unwrap_err().number, 6);
    /// # Ok::<(), yuktrob::Refusal>(())
    /// ```
    pub fn read(bytes: &[u8]) -> Result<Rule, Refusal> {
        let count = exported::read(bytes)? as usize;
        Ok(Rule::accepted(bytes, count))
    }

    /// Of bytes that are known to be a rule with so many entries.
    pub(crate) fn accepted(bytes: &[u8], count: usize) -> Rule {
        Rule { bytes: bytes.into(), count }
    }

    /// The rule's bytes.
    ///
    /// ```
    /// assert_eq!(yuktrob::Rule::read(&[0x08, 0x01])?.as_bytes(), [0x08, 0x01]);
    /// # Ok::<(), yuktrob::Refusal>(())
    /// ```
    pub fn as_bytes(&self) -> &[u8] {
        &self.bytes
    }

    /// How many entries there are: 1 to 48.
    ///
    /// ```
    /// assert_eq!(yuktrob::Rule::read(&[0x08, 0x01])?.entry_count(), 2);
    /// # Ok::<(), yuktrob::Refusal>(())
    /// ```
    pub fn entry_count(&self) -> usize {
        self.count
    }

    /// Entry e, if there is one.
    ///
    /// ```
    /// use yuktrob::{Command, Rule};
    /// let always = Rule::read(&[0x0a, 0x07, 0x03, 0x00, 0x08, 0x05, 0x00])?;
    /// let variable = always.entry(4).expect("five entries");
    /// assert_eq!((variable.command, variable.end), (Command::Variable(0), 5));
    /// assert_eq!(always.entry(5), None);
    /// assert_eq!(always.entry(usize::MAX), None);
    /// # Ok::<(), yuktrob::Refusal>(())
    /// ```
    pub fn entry(&self, e: usize) -> Option<Entry> {
        let told = exported::entry(&self.bytes, e).expect("the bytes were accepted, and they settle what reading gives");
        let [command, argument, end, ..] = told.to_le_bytes();
        Some(Entry { command: Command::new(command, e, argument, argument.into())?, end: end.into() })
    }

    /// The entries in order.
    ///
    /// ```
    /// let rule = yuktrob::Rule::read(&[0x07, 0x03, 0x02, 0x01])?;
    /// let ends: Vec<usize> = rule.entries().map(|entry| entry.end).collect();
    /// assert_eq!(ends, [3, 2, 3]);
    /// # Ok::<(), yuktrob::Refusal>(())
    /// ```
    pub fn entries(&self) -> impl Iterator<Item = Entry> + '_ {
        (0..self.count).filter_map(|e| self.entry(e))
    }

    /// Truth on a course, as [`truth`](crate::truth()) has it.
    ///
    /// ```
    /// let eventually = yuktrob::Rule::read(&[0x09, 0x06, 0x03, 0x00, 0x08, 0x05, 0x00])?;
    /// let mut words = [0; 3];
    /// assert_eq!(eventually.truth(&[0x4000, 0x4000, 0x4001], 2, &mut words), Ok(true));
    /// assert_eq!(eventually.truth(&[0x4000, 0x4000, 0x4000], 2, &mut words), Ok(false));
    /// # Ok::<(), yuktrob::Refusal>(())
    /// ```
    pub fn truth(&self, places: &[u16], lead_len: usize, words: &mut [u64]) -> Result<bool, Refusal> {
        truth::truth(&self.bytes, places, lead_len, words)
    }

    /// Whether any course meets the rule, as [`decide`](crate::decide) has it, with the room that the areas have.
    ///
    /// ```
    /// use yuktrob::{Areas, Rule, Verdict};
    /// let mut areas = Areas::new(1, 1);
    /// assert_eq!(Rule::read(&[0x02])?.decide(&mut areas), Ok(Verdict::Not { nodes: 1, profiles: 0 }));
    /// assert_eq!(Rule::read(&[0x01])?.decide(&mut areas).unwrap_err().number, 14);
    /// # Ok::<(), yuktrob::Refusal>(())
    /// ```
    pub fn decide<'a>(&self, areas: &'a mut Areas) -> Result<Verdict<'a>, Refusal> {
        decision::decide_in(&self.bytes, areas)
    }

    /// Whether any course meets the rule, if it is a safety rule, as [`decide_safety`](crate::decide_safety) has it, with the room for
    /// nodes that the areas have. They may have room for no profiles. Refused: 43, 11, 14.
    ///
    /// ```
    /// use yuktrob::{Areas, Rule, SafetyVerdict};
    /// let mut areas = Areas::new(1, 0);
    /// assert_eq!(Rule::read(&[0x02])?.decide_safety(&mut areas), Ok(SafetyVerdict::Not { nodes: 1 }));
    /// assert_eq!(Rule::read(&[0x01])?.decide_safety(&mut areas).unwrap_err().number, 14);
    /// assert_eq!(Rule::read(&[0x08, 0x09, 0x01])?.decide_safety(&mut areas).unwrap_err().place, Some(1));
    /// # Ok::<(), yuktrob::Refusal>(())
    /// ```
    pub fn decide_safety<'a>(&self, areas: &'a mut Areas) -> Result<SafetyVerdict<'a>, Refusal> {
        safety::decide_safety_in(&self.bytes, areas)
    }

    /// Builds the nodes of the rule's graph, as [`build`](crate::build) does, with room for `nodes` of them. They can then be searched as
    /// often as need be. Refused: 11, 14.
    ///
    /// ```
    /// let rule = yuktrob::Rule::read(&[0x03, 0x00])?;
    /// assert_eq!(rule.build(256)?.count(), 2);
    /// assert_eq!(rule.build(1).unwrap_err().number, 14);
    /// assert_eq!(rule.build(0).unwrap_err().number, 11);
    /// # Ok::<(), yuktrob::Refusal>(())
    /// ```
    pub fn build(&self, nodes: usize) -> Result<Built<'_>, Refusal> {
        Built::new(self, nodes)
    }

    /// The rule with another one in place of its entry e, as [`edit`](crate::edit()) gives it. This one stays as it is. Refused: 1 to 9 of
    /// the new rule, 37, and 3 or 4 of the spliced one.
    ///
    /// ```
    /// use yuktrob::{Rule, Source};
    /// // always, if signal 0 then sooner or later signal 1
    /// let rule = Rule::read(&[0x0A, 0x07, 0x06, 0x04, 0, 0x09, 0x06, 0x03, 1, 0x08, 0x05, 0, 0x08, 0x05, 0])?;
    /// // entry 4, from the 09 on: then signal 1 at the next place
    /// let sharper = rule.edit(4, [0x08, 0x03, 1])?;
    /// assert_eq!(sharper.as_bytes(), [0x0A, 0x07, 0x06, 0x04, 0, 0x08, 0x03, 1, 0x08, 0x05, 0]);
    /// // back again, with a rule of its own
    /// assert_eq!(sharper.edit(4, Rule::read(&[0x09, 0x06, 0x03, 1, 0x08, 0x05, 0])?)?, rule);
    /// let why = rule.edit(4, [0x08, 0x05, 0]).unwrap_err();
    /// assert_eq!((why.number(), why.source), (7, Some(Source::New)));
    /// assert_eq!(rule.edit(11, [0x01]).unwrap_err().number(), 37);
    /// # Ok::<(), Box<dyn std::error::Error>>(())
    /// ```
    pub fn edit(&self, e: usize, new: impl AsRef<[u8]>) -> Result<Rule, EditRefusal> {
        Ok(edit(&self.bytes, e, new.as_ref())?.rule)
    }
}

impl AsRef<[u8]> for Rule {
    fn as_ref(&self) -> &[u8] {
        &self.bytes
    }
}

impl TryFrom<&[u8]> for Rule {
    type Error = Refusal;

    fn try_from(bytes: &[u8]) -> Result<Rule, Refusal> {
        Rule::read(bytes)
    }
}
