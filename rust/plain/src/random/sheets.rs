//! Random sheets, whole and damaged, with numbers that both have, and a number to look up in them.

use super::Random;
use crate::sheet::record;

/// What a lookup is asked.
#[derive(Clone, Debug)]
pub struct Sheets {
    pub dealer: Vec<u8>,
    pub factory: Vec<u8>,
    pub number: u16,
}

/// The first and the last numbers, and those where the high byte changes.
const EDGES: [u16; 8] = [0, 1, 255, 256, 511, 512, 65534, 65535];

/// Bytes that make what is no record look like one.
const ALIKE: [u8; 4] = [0x20, 0x00, 0x01, 0xff];

/// A sheet, with each record's number and place.
#[derive(Default)]
pub(super) struct Drawn {
    pub(super) bytes: Vec<u8>,
    records: Vec<(u16, usize)>,
}

impl Drawn {
    pub(super) fn push(&mut self, number: u16, rule: &[u8]) {
        self.records.push((number, self.bytes.len()));
        self.bytes.extend(record(number, rule));
    }
}

impl Random {
    /// Two sheets and a number that mostly one of them has. The dealer's, the factory's or both may be damaged, or be one sheet twice.
    pub fn sheets(&mut self) -> Sheets {
        let (mut dealer, mut factory) = (self.sheet(), self.sheet());
        let records = [&dealer.records, &factory.records][self.below(2)];
        let known = !records.is_empty() && !self.one_in(5);
        let number = if known { records[self.below(records.len())].0 } else { self.rule_number() };
        let damaged = self.below(10);
        if damaged < 3 {
            self.damage(&mut dealer);
        }
        if (2..5).contains(&damaged) {
            self.damage(&mut factory);
        }
        if self.one_in(16) {
            factory.bytes.clone_from(&dealer.bytes);
        }
        Sheets { dealer: dealer.bytes, factory: factory.bytes, number }
    }

    /// A sheet of few records, or now and then of so many that places need more than two bytes.
    pub(super) fn sheet(&mut self) -> Drawn {
        let mut sheet = Drawn::default();
        if self.one_in(100) {
            let first = [0, 200, 65536 - 300][self.below(3)];
            (first..first + 300).for_each(|number| sheet.push(number as u16, &self.rule_bytes(255)));
            return sheet;
        }
        let mut numbers: Vec<u16> = (0..self.below(7)).map(|_| self.rule_number()).collect();
        numbers.sort_unstable();
        numbers.dedup();
        for number in numbers {
            let size = match self.below(10) {
                0..=2 => 0,
                3 => 254 + self.below(2),
                4 => self.below(256),
                _ => 1 + self.below(9),
            };
            sheet.push(number, &self.rule_bytes(size));
        }
        sheet
    }

    /// One of few numbers, so that two sheets have some in common, one at an edge, or any.
    pub(super) fn rule_number(&mut self) -> u16 {
        match self.below(6) {
            0 => EDGES[self.below(EDGES.len())],
            1 => self.below(0x10000) as u16,
            _ => self.below(12) as u16,
        }
    }

    /// So many bytes, any or such as records have.
    fn rule_bytes(&mut self, size: usize) -> Vec<u8> {
        let alike = self.one_in(2);
        (0..size).map(|_| if alike { ALIKE[self.below(4)] } else { self.below(256) as u8 }).collect()
    }

    /// Something is wrong afterwards, nearly always.
    pub(super) fn damage(&mut self, sheet: &mut Drawn) {
        let size = 1 + self.below(6);
        let more = self.rule_bytes(size);
        let Some(last) = sheet.records.len().checked_sub(1) else { return sheet.bytes.extend(more) };
        let (any, len) = (self.below(last + 1), sheet.bytes.len());
        let begun = sheet.records[last].1;
        match self.below(10) {
            0 => sheet.bytes[sheet.records[any].1] ^= 1 + self.below(255) as u8,
            1 => self.unrise(sheet, any),
            2 => {
                self.unrise(sheet, last);
                sheet.bytes.truncate(begun + 3 + self.below(len - begun - 3));
            }
            3 => sheet.bytes.truncate(begun + 1 + self.below(len - begun - 1)),
            4 => sheet.bytes.truncate(self.below(len)),
            5 => self.lack_one(sheet, last),
            6 => (0..1 + self.below(3)).for_each(|_| sheet.bytes[self.below(len)] ^= 1 << self.below(8)),
            7 => sheet.bytes.insert(self.below(len + 1), ALIKE[self.below(4)]),
            8 => sheet.bytes = more,
            _ => sheet.bytes.extend(more),
        }
    }

    /// A record gets the number of the one before, or a smaller one.
    fn unrise(&mut self, sheet: &mut Drawn, record: usize) {
        let (Some(before), (_, at)) = (record.checked_sub(1), sheet.records[record]) else { return };
        let less = if self.one_in(2) { 0 } else { 1 + self.below(300) as u16 };
        let number = sheet.records[before].0.saturating_sub(less);
        sheet.bytes[at + 1..at + 3].copy_from_slice(&number.to_le_bytes());
    }

    /// The last record is to have a byte more than there are; every second time it is one of which 254 are there.
    fn lack_one(&mut self, sheet: &mut Drawn, last: usize) {
        let (number, mut at) = sheet.records[last];
        if let (Some(next), true) = (number.checked_add(1), self.one_in(2)) {
            at = sheet.bytes.len();
            sheet.push(next, &self.rule_bytes(254));
        }
        sheet.bytes[at + 3] = sheet.bytes[at + 3].saturating_add(1);
    }
}
