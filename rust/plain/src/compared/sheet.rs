//! Lookups in two sheets through both implementations: what they answer, and that a rule is handed back where it stands in memory.

use crate::random::{Random, Sheets};
use crate::sheet::{by_pass, by_pieces, faults, first_fault, has, Fault, Kind, Lookup, Sheet};
use yuktrob::{Found, NotFound};

/// How many inputs came to each answer, and what was special about them.
#[derive(Default)]
pub struct Lookups {
    /// Found in the dealer's sheet, of these where the factory's has the number too; and found in the factory's.
    pub dealer: u64,
    pub overridden: u64,
    pub factory: u64,
    /// Found: a rule without bytes, of 255 bytes, behind place 65,535; the numbers 0, 255, 256 and 65535.
    pub empty: u64,
    pub longest: u64,
    pub far: u64,
    pub edges: [u64; 4],
    /// Refused with 31, of these with two sheets that have records.
    pub missing: u64,
    pub missing_in_both: u64,
    /// Refused with 30 for the dealer's sheet, of these where the factory's is damaged too, at the same place; and for the factory's.
    pub damaged_dealer: u64,
    pub damaged_both: u64,
    pub damaged_alike: u64,
    pub damaged_factory: u64,
    /// Refused with 30 though a record before the fault has the number, or though the dealer's whole sheet has it.
    pub behind_number: u64,
    pub below_number: u64,
    pub faults: Faults,
}

/// What is wrong at the place that 30 has.
#[derive(Default)]
pub struct Faults {
    pub marks: u64,
    /// A number as before, a smaller one; of both where the record lacks bytes as well.
    pub repeated: u64,
    pub fallen: u64,
    pub unrisen_cut: u64,
    /// Of the record that lacks bytes there are one, two, three, or more.
    pub cuts: [u64; 4],
    /// Of these 254 bytes of a rule that is to have 255.
    pub cut_by_one: u64,
    /// At the first byte, and behind place 65,535.
    pub at_first: u64,
    pub far: u64,
}

impl Faults {
    fn count(&mut self, sheet: &[u8]) {
        let Some(Fault { place, kind }) = first_fault(sheet) else { return };
        match kind {
            Kind::Mark => self.marks += 1,
            Kind::Repeated => self.repeated += 1,
            Kind::Fallen => self.fallen += 1,
            Kind::Cut(there) => {
                self.cuts[there.min(4) - 1] += 1;
                self.cut_by_one += (there == 4 + 254 && sheet[place - there + 3] == 255) as u64;
            }
        }
        let lacks = |fault: &Fault| matches!(fault.kind, Kind::Cut(there) if sheet.len() - there + 1 == place);
        self.unrisen_cut += (matches!(kind, Kind::Repeated | Kind::Fallen) && faults(sheet).iter().any(lacks)) as u64;
        self.at_first += (place == 0) as u64;
        self.far += (place > 0xffff) as u64;
    }
}

/// One lookup: the answer, and in memory the part of the sheet that it hands back.
pub fn lookup(random: &mut Random, lookups: &mut Lookups) -> Result<(), String> {
    let sheets = random.sheets();
    let Sheets { dealer, factory, number } = &sheets;
    let theirs = by_pieces(dealer, factory, *number);
    let fail = |what: &str, other: Lookup| Err(format!("lookup {sheets:02x?}: {what}: {other:02x?}, not {theirs:02x?}"));
    let by_pass = by_pass(dealer, factory, *number);
    if by_pass != theirs {
        return fail("by one pass", by_pass);
    }
    let ours = proved_lookup(dealer, factory, *number);
    if ours != theirs {
        return fail("answer", ours);
    }
    if let Lookup::Found { sheet, start, rule } = ours {
        let own = if sheet == Sheet::Dealer { dealer } else { factory };
        if !std::ptr::eq(rule, &own[start..start + rule.len()]) {
            return fail("not that part of the sheet", ours);
        }
    }
    lookups.count(&sheets, ours);
    Ok(())
}

/// The proved lookup, told as the independent ones tell theirs.
pub fn proved_lookup<'a>(dealer: &'a [u8], factory: &'a [u8], number: u16) -> Lookup<'a> {
    let same = |sheet| match sheet {
        yuktrob::Sheet::Dealer => Sheet::Dealer,
        yuktrob::Sheet::Factory => Sheet::Factory,
    };
    match yuktrob::lookup(dealer, factory, number) {
        Ok(Found { sheet, start, rule }) => Lookup::Found { sheet: same(sheet), start, rule },
        Err(NotFound::Damaged { sheet, place }) => Lookup::Damaged { sheet: same(sheet), place },
        Err(NotFound::Missing) => Lookup::Missing,
    }
}

impl Lookups {
    fn count(&mut self, Sheets { dealer, factory, number }: &Sheets, told: Lookup) {
        match told {
            Lookup::Found { sheet, start, rule } => {
                self.dealer += (sheet == Sheet::Dealer) as u64;
                self.overridden += (sheet == Sheet::Dealer && has(factory, *number)) as u64;
                self.factory += (sheet == Sheet::Factory) as u64;
                self.empty += rule.is_empty() as u64;
                self.longest += (rule.len() == 255) as u64;
                self.far += (start > 0xffff) as u64;
                for (edge, count) in [0, 255, 256, 65535].iter().zip(&mut self.edges) {
                    *count += (edge == number) as u64;
                }
            }
            Lookup::Missing => {
                self.missing += 1;
                self.missing_in_both += !(dealer.is_empty() || factory.is_empty()) as u64;
            }
            Lookup::Damaged { sheet: Sheet::Dealer, place } => {
                self.damaged_dealer += 1;
                self.damaged_both += first_fault(factory).is_some() as u64;
                self.damaged_alike += first_fault(factory).is_some_and(|fault| fault.place == place) as u64;
                self.behind_number += has(&dealer[..place], *number) as u64;
                self.faults.count(dealer);
            }
            Lookup::Damaged { sheet: Sheet::Factory, place } => {
                self.damaged_factory += 1;
                self.below_number += has(dealer, *number) as u64;
                self.behind_number += has(&factory[..place], *number) as u64;
                self.faults.count(factory);
            }
        }
    }
}
