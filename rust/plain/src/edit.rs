//! A part of a rule replaced by another rule, in two ways. By rows: the rows of both tables are put together and corrected, where the part
//! stands is found by counting what is still due in the bytes, and 3 and 4 by counting commands; the spliced bytes are never read. And by
//! reading them, as the papers say it.

use crate::reading::{ends, read, Command, Unreadable};

/// Of which bytes a refusal of reading speaks.
#[derive(Clone, Copy, Debug, PartialEq, Eq)]
pub enum Source {
    Old,
    New,
    Spliced,
}

/// One entry as a table has it: the command's byte; a signal, or the entry of a variable's fixpoint, else 0; how many commands it has.
#[derive(Clone, Copy, Debug, PartialEq, Eq)]
pub struct Row {
    pub command: u8,
    pub argument: u8,
    pub length: u8,
}

/// What an edit answers.
#[derive(Clone, Debug, PartialEq, Eq)]
pub enum Answer {
    /// The spliced bytes.
    Edited(Vec<u8>),
    Unread {
        source: Source,
        why: Unreadable,
    },
    /// 37.
    Missing,
}

/// The answer with the table that comes with it: the edited rule's, or the old one's, or none if that is refused.
#[derive(Clone, Debug, PartialEq, Eq)]
pub struct Edit {
    pub answer: Answer,
    pub table: Vec<Row>,
}

/// The table with other rows for those of entry e, which is there.
type Replace = fn(old: &[u8], table: &[Row], e: usize, new: &[u8], rows: &[Row]) -> Result<Edit, Unreadable>;

/// Entry e of the old rule gives place to the new rule, the table by rows.
pub fn by_rows(old: &[u8], e: usize, new: &[u8]) -> Edit {
    asked(old, e, new, |old, table, e, new, rows| {
        let bytes = spliced(old, span(old, e), new);
        match excess(&bytes) {
            Some(why) => Err(why),
            None => Ok(Edit { answer: Answer::Edited(bytes), table: joined(table, e, rows) }),
        }
    })
}

/// The same, the table by reading what is spliced.
pub fn by_reading(old: &[u8], e: usize, new: &[u8]) -> Edit {
    asked(old, e, new, |old, table, e, new, _| {
        let bytes = spliced(old, span_by_rows(table, e), new);
        let table = rows(&read(&bytes)?);
        Ok(Edit { answer: Answer::Edited(bytes), table })
    })
}

/// The questions before the spliced bytes', and theirs.
fn asked(old: &[u8], e: usize, new: &[u8], replace: Replace) -> Edit {
    let unread = |source: Source, why: Unreadable, table: Vec<Row>| Edit { answer: Answer::Unread { source, why }, table };
    let table = match read(old) {
        Ok(entries) => rows(&entries),
        Err(why) => return unread(Source::Old, why, Vec::new()),
    };
    let others = match read(new) {
        Ok(entries) => rows(&entries),
        Err(why) => return unread(Source::New, why, table),
    };
    if e >= table.len() {
        return Edit { answer: Answer::Missing, table };
    }
    replace(old, &table, e, new, &others).unwrap_or_else(|why| unread(Source::Spliced, why, table))
}

/// The rows of entries that reading gave.
pub fn rows(entries: &[Command]) -> Vec<Row> {
    let row = |(e, (command, end)): (usize, (&Command, usize))| {
        let (command, argument) = match *command {
            Command::True => (1, 0),
            Command::False => (2, 0),
            Command::Present(signal) => (3, signal),
            Command::Absent(signal) => (4, signal),
            Command::Variable(fixpoint) => (5, fixpoint as u8),
            Command::Or(..) => (6, 0),
            Command::And(..) => (7, 0),
            Command::Next(_) => (8, 0),
            Command::Least(_) => (9, 0),
            Command::Greatest(_) => (10, 0),
        };
        Row { command, argument, length: (end - e) as u8 }
    };
    entries.iter().zip(ends(entries)).enumerate().map(row).collect()
}

/// How many bytes a command has, its operand byte among them.
pub fn width(command: u8) -> usize {
    if matches!(command, 3..=5) { 2 } else { 1 }
}

/// The first byte of an entry and the place behind its last.
type Span = (usize, usize);

/// That of entry e of an accepted rule, by the bytes alone: behind its command as many rules are due as that has operands, each command
/// that comes is one of them, and the entry ends where none is due.
pub fn span(rule: &[u8], e: usize) -> Span {
    let mut from = 0;
    for _ in 0..e {
        from += width(rule[from]);
    }
    let (mut to, mut due) = (from, 1);
    while due > 0 {
        due += match rule[to] {
            6 | 7 => 1,
            8..=10 => 0,
            _ => -1,
        };
        to += width(rule[to]);
    }
    (from, to)
}

/// The same by the table: as many bytes as the commands before the entry, and before its end, have.
fn span_by_rows(table: &[Row], e: usize) -> Span {
    let before = |rows: &[Row]| rows.iter().map(|row| width(row.command)).sum();
    (before(&table[..e]), before(&table[..e + table[e].length as usize]))
}

fn spliced(old: &[u8], (from, to): Span, new: &[u8]) -> Vec<u8> {
    [&old[..from], new, &old[to..]].concat()
}

/// The first command that is one too many, of bytes that are a rule but for that.
fn excess(bytes: &[u8]) -> Option<Unreadable> {
    let (mut at, mut commands, [mut ors, mut nexts, mut fixpoints]) = (0, 0, [0; 3]);
    while at < bytes.len() {
        let command = bytes[at];
        commands += 1;
        ors += (command == 6) as usize;
        nexts += (command == 8) as usize;
        fixpoints += matches!(command, 9 | 10) as usize;
        let number = if commands > 48 { 3 } else { 4 };
        if number == 3 || ors > 12 || nexts > 12 || fixpoints > 7 {
            return Some(Unreadable { number, place: at, fixpoint: None });
        }
        at += width(command);
    }
    None
}

/// The rows with others in place of those of entry e. Before it the lengths of the entries around it change. The others' fixpoints, and
/// those behind e, have other numbers.
fn joined(table: &[Row], e: usize, others: &[Row]) -> Vec<Row> {
    let (count, end) = (others.len() as u8, e + table[e].length as usize);
    let around = |(i, row): (usize, &Row)| match i + row.length as usize > e {
        true => Row { length: row.length - table[e].length + count, ..*row },
        false => *row,
    };
    let inside = |row: &Row| match row.command {
        5 => Row { argument: row.argument + e as u8, ..*row },
        _ => *row,
    };
    let behind = |row: &Row| match row.command {
        5 if row.argument as usize >= end => Row { argument: row.argument - table[e].length + count, ..*row },
        _ => *row,
    };
    let before = table[..e].iter().enumerate().map(around);
    before.chain(others.iter().map(inside)).chain(table[end..].iter().map(behind)).collect()
}

/// An edit as the operation leaves it in two areas: the spliced bytes, or none, with zeros behind them; and all commands, arguments and
/// lengths of the table, with zeros behind each.
pub fn laid_out(Edit { answer, table }: &Edit) -> ([u8; 97], [u8; 144]) {
    let (mut spliced, mut rows) = ([0; 97], [0; 144]);
    if let Answer::Edited(bytes) = answer {
        spliced[..bytes.len()].copy_from_slice(bytes);
    }
    for (e, row) in table.iter().enumerate() {
        rows[e] = row.command;
        rows[48 + e] = row.argument;
        rows[96 + e] = row.length;
    }
    (spliced, rows)
}
