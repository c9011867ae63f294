use crate::exported::{self, MOST_ENTRIES, SPLICED_LEN, TABLE_LEN};
use crate::{Command, Entry, Refusal, Rule};
use std::fmt;

/// The bytes that a refusal of an edit speaks of.
///
/// ```
/// assert_eq!(yuktrob::Source::Spliced.to_string(), "the spliced rule");
/// ```
#[derive(Clone, Copy, Debug, PartialEq, Eq, Hash)]
pub enum Source {
    /// The rule that is edited.
    Old,
    /// The rule that is to stand in it.
    New,
    /// What comes of it: the old rule's bytes with the new rule's in place of those of the entry.
    Spliced,
}

impl fmt::Display for Source {
    fn fmt(&self, out: &mut fmt::Formatter<'_>) -> fmt::Result {
        out.write_str(match self {
            Source::Old => "the old rule",
            Source::New => "the new rule",
            Source::Spliced => "the spliced rule",
        })
    }
}

/// One entry of a [`Table`] in numbers.
///
/// ```
/// // signal 2, or at the next place signal 7: the latter in place of true
/// let table = yuktrob::edit(&[0x06, 0x03, 0x02, 0x01], 2, &[0x08, 0x03, 0x07])?.table;
/// let rows: Vec<(u8, u8, usize)> = table.rows().map(|row| (row.command, row.argument, row.length)).collect();
/// assert_eq!(rows, [(0x06, 0, 4), (0x03, 2, 1), (0x08, 0, 2), (0x03, 7, 1)]);
/// # Ok::<(), yuktrob::EditRefusal>(())
/// ```
#[derive(Clone, Copy, Debug, PartialEq, Eq, Hash)]
#[non_exhaustive]
pub struct Row {
    /// The command's byte.
    pub command: u8,
    /// The signal of 03 and 04, for a variable the entry of its fixpoint, else 0.
    pub argument: u8,
    /// How many commands the entry has, its own among them: an entry e holds the entries from e up to e plus this.
    pub length: usize,
}

/// The entries of a rule, each with its length in commands, as an edit hands them back.
///
/// ```
/// use yuktrob::{edit, Command, Rule};
/// // always signal 0, with signal 1 or 2 in place of signal 0
/// let edited = edit(&[0x0A, 0x07, 0x03, 0x00, 0x08, 0x05, 0x00], 2, &[0x06, 0x03, 0x01, 0x03, 0x02])?;
/// assert_eq!(edited.table.count(), 7);
/// assert_eq!(edited.table.rows().map(|row| row.length).collect::<Vec<_>>(), [7, 6, 3, 1, 1, 2, 1]);
/// assert_eq!(edited.table.entry(1).map(|entry| entry.command), Some(Command::And(2, 5)));
/// assert!(edited.table.entries().eq(edited.rule.entries()));
/// # Ok::<(), yuktrob::EditRefusal>(())
/// ```
#[derive(Clone, PartialEq, Eq, Hash)]
pub struct Table {
    bytes: Box<[u8; TABLE_LEN]>,
}

impl Table {
    fn new(bytes: &[u8; TABLE_LEN]) -> Table {
        Table { bytes: Box::new(*bytes) }
    }

    /// How many entries there are: 1 to 48.
    ///
    /// ```
    /// assert_eq!(yuktrob::edit(&[0x08, 0x01], 1, &[0x02])?.table.count(), 2);
    /// # Ok::<(), yuktrob::EditRefusal>(())
    /// ```
    pub fn count(&self) -> usize {
        // entry 0 holds them all
        self.bytes[2 * MOST_ENTRIES].into()
    }

    /// Entry e in numbers, if there is one.
    ///
    /// ```
    /// let table = yuktrob::edit(&[0x08, 0x01], 1, &[0x04, 0x0C])?.table;
    /// assert_eq!(table.row(1).map(|row| (row.command, row.argument, row.length)), Some((0x04, 12, 1)));
    /// assert_eq!(table.row(2), None);
    /// # Ok::<(), yuktrob::EditRefusal>(())
    /// ```
    pub fn row(&self, e: usize) -> Option<Row> {
        let number = |part: usize| self.bytes[part * MOST_ENTRIES + e];
        (e < self.count()).then(|| Row { command: number(0), argument: number(1), length: number(2).into() })
    }

    /// All entries in numbers, in order.
    ///
    /// ```
    /// let table = yuktrob::edit(&[0x08, 0x01], 1, &[0x04, 0x0C])?.table;
    /// assert_eq!(table.rows().map(|row| row.command).collect::<Vec<_>>(), [0x08, 0x04]);
    /// # Ok::<(), yuktrob::EditRefusal>(())
    /// ```
    pub fn rows(&self) -> impl Iterator<Item = Row> + '_ {
        (0..self.count()).filter_map(|e| self.row(e))
    }

    /// Entry e, if there is one, as [`Rule::entry`] has it.
    ///
    /// ```
    /// use yuktrob::{edit, Command};
    /// let table = edit(&[0x07, 0x01, 0x01], 2, &[0x08, 0x03, 0x0F])?.table;
    /// let (all, next) = (table.entry(0).expect("four entries"), table.entry(2).expect("four entries"));
    /// assert_eq!((all.command, all.end), (Command::And(1, 2), 4));
    /// assert_eq!((next.command, next.end), (Command::Next(3), 4));
    /// assert_eq!(table.entry(4), None);
    /// # Ok::<(), yuktrob::EditRefusal>(())
    /// ```
    pub fn entry(&self, e: usize) -> Option<Entry> {
        let Row { command, argument, length } = self.row(e)?;
        // a second operand is behind the first one's last entry
        let right = self.row(e + 1).map_or(0, |left| e + 1 + left.length);
        Some(Entry { command: Command::new(command, e, argument, right)?, end: e + length })
    }

    /// The entries in order, as [`Rule::entries`] has them.
    ///
    /// ```
    /// use yuktrob::{edit, Rule};
    /// let table = edit(&[0x08, 0x01], 1, &[0x04, 0x0C])?.table;
    /// assert!(table.entries().eq(Rule::read(&[0x08, 0x04, 0x0C])?.entries()));
    /// # Ok::<(), Box<dyn std::error::Error>>(())
    /// ```
    pub fn entries(&self) -> impl Iterator<Item = Entry> + '_ {
        (0..self.count()).filter_map(|e| self.entry(e))
    }

    /// The table as `include/yuktrob.h` has it: byte e is the command of entry e, byte 48 + e its argument and byte 96 + e its length, with
    /// zeros behind the last entry.
    ///
    /// ```
    /// let table = yuktrob::edit(&[0x08, 0x01], 1, &[0x04, 0x0C])?.table;
    /// let bytes = table.as_bytes();
    /// assert_eq!((&bytes[..3], &bytes[48..51], &bytes[96..99]), (&[8, 4, 0][..], &[0, 12, 0][..], &[2, 1, 0][..]));
    /// # Ok::<(), yuktrob::EditRefusal>(())
    /// ```
    pub fn as_bytes(&self) -> &[u8; TABLE_LEN] {
        &self.bytes
    }
}

impl fmt::Debug for Table {
    fn fmt(&self, out: &mut fmt::Formatter<'_>) -> fmt::Result {
        out.debug_list().entries(self.rows()).finish()
    }
}

/// What comes of an edit: the spliced rule, and its entries.
///
/// ```
/// use yuktrob::{edit, Edited};
/// // at the next place signal 5, in place of true
/// let Edited { rule, table } = edit(&[0x07, 0x03, 0x02, 0x01], 2, &[0x08, 0x03, 0x05])?;
/// assert_eq!(rule.as_bytes(), [0x07, 0x03, 0x02, 0x08, 0x03, 0x05]);
/// assert_eq!((rule.entry_count(), table.count()), (4, 4));
/// # Ok::<(), yuktrob::EditRefusal>(())
/// ```
#[derive(Clone, Debug, PartialEq, Eq, Hash)]
pub struct Edited {
    /// The spliced rule. It needs no reading: it is accepted.
    pub rule: Rule,
    /// Its entries with their lengths, as reading it gives them.
    pub table: Table,
}

/// Why an edit is turned away, with the old rule's entries if that is a rule.
///
/// ```
/// use yuktrob::{edit, Source};
/// let always = [0x0A, 0x07, 0x03, 0x00, 0x08, 0x05, 0x00];
/// // the old rule lacks its last byte
/// let why = edit(&always[..6], 2, &[0x01]).unwrap_err();
/// assert_eq!((why.number(), why.refusal.place, why.source), (5, Some(6), Some(Source::Old)));
/// assert_eq!(why.table, None);
/// // the new rule has a signal that there is not
/// let why = edit(&always, 2, &[0x03, 0x10]).unwrap_err();
/// assert_eq!(why.to_string(), "the new rule: refused 6 at byte 1: a signal above 0F");
/// assert_eq!(why.table.map(|table| table.count()), Some(5));
/// // it has five entries, 0 to 4
/// let why = edit(&always, 5, &[0x01]).unwrap_err();
/// assert_eq!((why.number(), why.source), (37, None));
/// assert_eq!(why.to_string(), "refused 37: the old rule has no entry with this number");
/// // twelve nexts are allowed, and one stands behind the entry that they are put for
/// let why = edit(&always, 2, &[&[0x08; 12][..], &[0x01]].concat()).unwrap_err();
/// assert_eq!(why.to_string(), "the spliced rule: refused 4 at byte 15: more than 12 or, 12 next or 7 fixpoints");
/// ```
#[derive(Clone, Debug, PartialEq, Eq, Hash)]
#[non_exhaustive]
pub struct EditRefusal {
    /// The refusal's number and, of 1 to 9, its places, which are counted in the bytes that `source` names.
    pub refusal: Refusal,
    /// Of 1 to 9 which bytes it speaks of. 37 speaks of none.
    pub source: Option<Source>,
    /// The entries of the old rule; none if reading refuses that.
    pub table: Option<Table>,
}

impl EditRefusal {
    /// From the number, what the answer carries above it, and the table's bytes.
    fn new(number: u8, carried: u64, bytes: &[u8; TABLE_LEN]) -> EditRefusal {
        let source = match carried >> 16 {
            0 => Source::Old,
            1 => Source::New,
            _ => Source::Spliced,
        };
        let source = matches!(number, 1..=9).then_some(source);
        let table = (source != Some(Source::Old)).then(|| Table::new(bytes));
        EditRefusal { refusal: Refusal::new(number, carried), source, table }
    }

    /// The refusal's number.
    ///
    /// ```
    /// assert_eq!(yuktrob::edit(&[0x01], 1, &[0x02]).unwrap_err().number(), 37);
    /// ```
    pub fn number(&self) -> u8 {
        self.refusal.number
    }

    /// What the number means, in words.
    ///
    /// ```
    /// assert_eq!(yuktrob::edit(&[0x01], 0, &[0x0B]).unwrap_err().meaning(), "the byte is no command");
    /// ```
    pub fn meaning(&self) -> &'static str {
        self.refusal.meaning()
    }
}

impl fmt::Display for EditRefusal {
    fn fmt(&self, out: &mut fmt::Formatter<'_>) -> fmt::Result {
        if let Some(source) = self.source {
            write!(out, "{source}: ")?;
        }
        self.refusal.fmt(out)
    }
}

impl std::error::Error for EditRefusal {}

/// The old rule with the new one in place of its entry `e`. The bytes of that entry, from its command to the end of its last operand, give
/// place to those of the new rule, and what comes of it is handed back as a rule, with its entries.
///
/// Entries before `e` keep command and argument, and their lengths too, but for those that hold `e`. The new rule's entries have numbers
/// from `e` on, and what was behind the entry follows them; where a variable names a fixpoint that has moved, it does so by the new number.
///
/// Refused, in this order: 1 to 9 of the old rule; 1 to 9 of the new one, which has to be a rule by itself, so that no variable in it can
/// name a fixpoint of the old one; 37, if the old rule has no entry `e`; 3 or 4 of the spliced rule. All but the first leave the old rule's
/// entries in the refusal.
///
/// ```
/// use yuktrob::{edit, Areas, Edited, Verdict};
/// // sooner or later signal 0, and never signal 0: entry 6, the latter, cannot stay
/// let old = [0x07, 0x09, 0x06, 0x03, 0x00, 0x08, 0x05, 0x00, 0x0A, 0x07, 0x04, 0x00, 0x08, 0x05, 0x00];
/// // no signal 0 until signal 1
/// let new = [0x0A, 0x06, 0x03, 0x01, 0x07, 0x04, 0x00, 0x08, 0x05, 0x00];
/// let Edited { rule, table } = edit(&old, 6, &new)?;
/// assert_eq!(rule.as_bytes(), [&old[..8], &new].concat());
/// assert_eq!(table.rows().map(|row| row.length).collect::<Vec<_>>(), [13, 5, 4, 1, 2, 1, 7, 6, 1, 4, 1, 2, 1]);
/// let mut areas = Areas::new(256, 300);
/// assert!(matches!(yuktrob::Rule::read(&old)?.decide(&mut areas)?, Verdict::Not { .. }));
/// assert!(matches!(rule.decide(&mut areas)?, Verdict::Met { course: &[0x4003, 0x4000], .. }));
/// # Ok::<(), Box<dyn std::error::Error>>(())
/// ```
pub fn edit(old: &[u8], e: usize, new: &[u8]) -> Result<Edited, EditRefusal> {
    let (mut spliced, mut table) = ([0; SPLICED_LEN], [0; TABLE_LEN]);
    let answer = exported::edit(old, e, new, &mut spliced, &mut table);
    let carried = answer / 256;
    match (answer % 256) as u8 {
        0 => {
            let [len, count, ..] = carried.to_le_bytes();
            Ok(Edited { rule: Rule::accepted(&spliced[..len.into()], count.into()), table: Table::new(&table) })
        }
        number => Err(EditRefusal::new(number, carried, &table)),
    }
}
