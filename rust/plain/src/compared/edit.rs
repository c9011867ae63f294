//! Edits through both implementations: what they answer, with the bytes and every byte of the table; that the table is what the proved
//! reading gives; and that what the papers say of the entries before the one replaced is so.

use crate::edit::{by_reading, by_rows, laid_out, rows, span, Answer, Edit, Row, Source};
use crate::random::{commands, Random, Replacement};
use crate::reading::{read, Unreadable};
use yuktrob::{Edited, Rule, Table};

/// How many inputs came to each answer, and what was special about them.
#[derive(Default)]
pub struct Edits {
    /// Edited; of these the whole rule, the last entry, one with others around it and behind it.
    pub edited: u64,
    pub whole: u64,
    pub last: u64,
    pub between: u64,
    /// Edited to more entries, to fewer, to as many; of the last to the rule that there was.
    pub longer: u64,
    pub shorter: u64,
    pub even: u64,
    pub same: u64,
    /// Edited inside a fixpoint; where a variable behind the entry names a fixpoint before it, where it names one that has moved; where the
    /// new rule's variables have moved.
    pub within: u64,
    pub named_before: u64,
    pub named_moved: u64,
    pub named_inside: u64,
    /// Edited to as many commands, ors, nexts and fixpoints as there may be.
    pub full: [u64; 4],
    /// The old rule refused, the new one, each with 1 to 9; of the former where the new one is none, of the latter without such an entry.
    pub old: [u64; 9],
    pub new: [u64; 9],
    pub old_before_new: u64,
    pub new_before_37: u64,
    /// The new rule refused with 7, though what would be spliced is accepted.
    pub open: u64,
    /// 37; of these for the entry behind the last, and for a number whose lowest 8 bits are an entry's.
    pub missing: u64,
    pub missing_next: u64,
    pub missing_low: u64,
    /// The spliced rule refused with 3, of these for one command too many.
    pub commands: u64,
    pub commands_by_one: u64,
    /// With 4 for an or, a next, a fixpoint; of these for one too many in all.
    pub kinds: [u64; 3],
    pub kinds_by_one: [u64; 3],
    /// With either at a command of the new rule, and behind it; with 3 where it has too many of others too, with 4 where of commands too.
    pub excess_inside: u64,
    pub excess_behind: u64,
    pub excess_both: [u64; 2],
}

/// One edit: the answer and the table.
pub fn edit(random: &mut Random, edits: &mut Edits) -> Result<(), String> {
    let asked = random.replacement();
    let Replacement { old, e, new } = &asked;
    let theirs = by_rows(old, *e, new);
    let fail = |what: &str, other: &Edit| Err(format!("edit {asked:02x?}: {what}: {other:02x?}, not {theirs:02x?}"));
    let by_reading = by_reading(old, *e, new);
    if by_reading != theirs {
        return fail("by reading", &by_reading);
    }
    let ours = proved_edit(old, *e, new);
    if ours != theirs {
        return fail("answer", &ours);
    }
    if !(as_read(&asked, &theirs) && keeps(&asked, &ours)) {
        return fail("entries", &ours);
    }
    edits.count(&asked, &ours);
    Ok(())
}

/// The proved edit, told as the independent ones tell theirs.
pub fn proved_edit(old: &[u8], e: usize, new: &[u8]) -> Edit {
    let why = match yuktrob::edit(old, e, new) {
        Ok(Edited { rule, table }) => return Edit { answer: Answer::Edited(rule.as_bytes().to_vec()), table: told(&table) },
        Err(why) => why,
    };
    let unread = |source: Source| {
        let place = why.refusal.place.expect("a refusal of reading has a place");
        Answer::Unread { source, why: Unreadable { number: why.refusal.number, place, fixpoint: why.refusal.fixpoint } }
    };
    let answer = match why.source {
        Some(yuktrob::Source::Old) => unread(Source::Old),
        Some(yuktrob::Source::New) => unread(Source::New),
        Some(yuktrob::Source::Spliced) => unread(Source::Spliced),
        None => Answer::Missing,
    };
    Edit { answer, table: why.table.as_ref().map_or(Vec::new(), told) }
}

fn told(table: &Table) -> Vec<Row> {
    table.rows().map(|row| Row { command: row.command, argument: row.argument, length: row.length as u8 }).collect()
}

/// Whether the table has all bytes as expected, with the entries that the proved reading gives: of the spliced rule, which is handed back as
/// a rule, or of the old one; and whether an accepted rule's own edit is the same.
fn as_read(Replacement { old, e, new }: &Replacement, expected: &Edit) -> bool {
    let answer = yuktrob::edit(old, *e, new);
    let (of, table) = match &answer {
        Ok(Edited { rule, table }) => (rule.as_bytes(), Some(table)),
        Err(why) => (&old[..], why.table.as_ref()),
    };
    let read = Rule::read(of);
    let same = match (&read, table) {
        (Ok(rule), Some(table)) => {
            let counted = (table.count(), rule.entry_count()) == (expected.table.len(), expected.table.len());
            counted && table.entries().eq(rule.entries()) && table.as_bytes() == &laid_out(expected).1
        }
        (Err(_), None) => true,
        _ => false,
    };
    let by_rule = Rule::read(old).map(|rule| rule.edit(*e, new));
    same && match answer {
        Ok(edited) => read.as_ref() == Ok(&edited.rule) && by_rule == Ok(Ok(edited.rule)),
        Err(why) => by_rule.is_err() || by_rule == Ok(Err(why)),
    }
}

/// Whether entries before e have the commands and operands that they had, and other lengths only around e, by as much as there are more.
fn keeps(Replacement { old, e, .. }: &Replacement, Edit { answer, table }: &Edit) -> bool {
    let (Answer::Edited(_), Ok(before)) = (answer, read(old)) else { return true };
    let before = rows(&before);
    let kept = |i: usize, was: &Row, is: &Row| {
        let length = if i + was.length as usize > *e { was.length as usize + table.len() - before.len() } else { was.length.into() };
        (was.command, was.argument, length) == (is.command, is.argument, is.length.into())
    };
    before.iter().zip(table).take(*e).enumerate().all(|(i, (was, is))| kept(i, was, is))
}

/// How many commands, ors, nexts and fixpoints there are, and how many there may be.
fn counts(bytes: &[u8]) -> [usize; 4] {
    let of = |kind: fn(u8) -> bool| commands(bytes).filter(|&command| kind(command)).count();
    [of(|_| true), of(|command| command == 6), of(|command| command == 8), of(|command| command == 9 || command == 10)]
}

const MOST: [usize; 4] = [48, 12, 12, 7];

impl Edits {
    fn count(&mut self, asked: &Replacement, Edit { answer, table }: &Edit) {
        let Replacement { old, e, new } = asked;
        match answer {
            Answer::Edited(bytes) => self.count_edited(asked, bytes, table),
            Answer::Missing => {
                self.missing += 1;
                self.missing_next += (*e == table.len()) as u64;
                self.missing_low += (e % 256 < table.len()) as u64;
            }
            Answer::Unread { source: Source::Old, why } => {
                self.old[why.number as usize - 1] += 1;
                self.old_before_new += read(new).is_err() as u64;
            }
            Answer::Unread { source: Source::New, why } => {
                self.new[why.number as usize - 1] += 1;
                self.new_before_37 += (*e >= table.len()) as u64;
                self.open += (why.number == 7 && *e < table.len() && read(&splice(old, *e, new)).is_ok()) as u64;
            }
            Answer::Unread { source: Source::Spliced, why } => self.count_excess(asked, why),
        }
    }

    fn count_edited(&mut self, Replacement { old, e, new }: &Replacement, bytes: &[u8], table: &[Row]) {
        let (Ok(before), Ok(others)) = (read(old), read(new)) else { return };
        let (before, others) = (rows(&before), rows(&others));
        let end = e + before[*e].length as usize;
        let is_around = |(i, row): (usize, &Row)| i + row.length as usize > *e && matches!(row.command, 9 | 10);
        let named = |which: &dyn Fn(usize) -> bool| before[end..].iter().any(|row| row.command == 5 && which(row.argument.into()));
        self.edited += 1;
        self.whole += (*e == 0) as u64;
        self.last += (e + 1 == before.len()) as u64;
        self.between += (*e > 0 && end < before.len()) as u64;
        self.longer += (table.len() > before.len()) as u64;
        self.shorter += (table.len() < before.len()) as u64;
        self.even += (table.len() == before.len()) as u64;
        self.same += (bytes == old) as u64;
        self.within += before[..*e].iter().enumerate().any(is_around) as u64;
        self.named_before += named(&|fixpoint| fixpoint < *e) as u64;
        self.named_moved += (table.len() != before.len() && named(&|fixpoint| fixpoint >= end)) as u64;
        self.named_inside += (*e > 0 && others.iter().any(|row| row.command == 5)) as u64;
        for ((full, count), most) in self.full.iter_mut().zip(counts(bytes)).zip(MOST) {
            *full += (count == most) as u64;
        }
    }

    fn count_excess(&mut self, Replacement { old, e, new }: &Replacement, why: &Unreadable) {
        let (bytes, behind) = (splice(old, *e, new), span(old, *e).0 + new.len());
        let [all, kinds @ ..] = counts(&bytes);
        self.excess_inside += (why.place < behind) as u64;
        self.excess_behind += (why.place >= behind) as u64;
        let others = kinds.iter().zip(&MOST[1..]).any(|(count, most)| count > most);
        if why.number == 3 {
            self.commands += 1;
            self.commands_by_one += (all == MOST[0] + 1) as u64;
            self.excess_both[0] += others as u64;
            return;
        }
        let kind = match bytes[why.place] {
            6 => 0,
            8 => 1,
            _ => 2,
        };
        self.kinds[kind] += 1;
        self.kinds_by_one[kind] += (kinds[kind] == MOST[1 + kind] + 1) as u64;
        self.excess_both[1] += (all > MOST[0]) as u64;
    }
}

/// The old rule's bytes with others for those of an entry that it has.
fn splice(old: &[u8], e: usize, new: &[u8]) -> Vec<u8> {
    let (from, to) = span(old, e);
    [&old[..from], new, &old[to..]].concat()
}
