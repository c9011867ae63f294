//! A rule by its number, out of the dealer's sheet or else the factory's, in two ways. By pieces: a sheet is split whole, all that is wrong
//! anywhere in it is listed, and the least place counts; a number is then searched for by halves. And by one pass over the bytes that keeps
//! nothing and stops at the first fault, which the benchmark times.

/// The byte that opens a record.
const MARK: u8 = 0x20;

#[derive(Clone, Copy, Debug, PartialEq, Eq)]
pub enum Sheet {
    Dealer,
    Factory,
}

/// A record: the mark, the number, how many bytes the rule has, and these.
pub fn record(number: u16, rule: &[u8]) -> Vec<u8> {
    let [low, high] = number.to_le_bytes();
    [&[MARK, low, high, rule.len() as u8], rule].concat()
}

/// What a lookup answers.
#[derive(Clone, Copy, Debug, PartialEq, Eq)]
pub enum Lookup<'a> {
    Found {
        sheet: Sheet,
        start: usize,
        rule: &'a [u8],
    },
    /// 30.
    Damaged {
        sheet: Sheet,
        place: usize,
    },
    /// 31.
    Missing,
}

/// A record as far as its bytes are there; its first byte may be any.
#[derive(Clone, Copy)]
struct Piece<'a> {
    at: usize,
    mark: u8,
    number: Option<u16>,
    rule: Option<&'a [u8]>,
}

/// The pieces of what is left of a sheet, which is so long. Nothing is left behind one that lacks bytes.
struct Pieces<'a> {
    len: usize,
    rest: &'a [u8],
}

impl<'a> Iterator for Pieces<'a> {
    type Item = Piece<'a>;

    fn next(&mut self) -> Option<Piece<'a>> {
        let at = self.len - self.rest.len();
        let (&mark, behind) = self.rest.split_first()?;
        let number = behind.first_chunk().map(|&bytes| u16::from_le_bytes(bytes));
        let sized = behind.get(2..).and_then(<[u8]>::split_first);
        let (rule, rest) = sized.and_then(|(&size, behind)| behind.split_at_checked(size.into())).unzip();
        self.rest = rest.unwrap_or_default();
        Some(Piece { at, mark, number, rule })
    }
}

fn pieces(sheet: &[u8]) -> Vec<Piece<'_>> {
    Pieces { len: sheet.len(), rest: sheet }.collect()
}

/// What is wrong with a piece.
#[derive(Clone, Copy, Debug, PartialEq, Eq)]
pub enum Kind {
    Mark,
    /// The number is that of the piece before, or a smaller one.
    Repeated,
    Fallen,
    /// So many bytes are there, and more are due.
    Cut(usize),
}

#[derive(Clone, Copy, Debug, PartialEq, Eq)]
pub struct Fault {
    pub place: usize,
    pub kind: Kind,
}

/// What is wrong with any piece of a sheet. Behind a piece without the mark there may be no records at all, but whatever is wrong with the
/// pieces there comes later than the mark.
pub fn faults(sheet: &[u8]) -> Vec<Fault> {
    let pieces = pieces(sheet);
    let unmarked = pieces.iter().filter(|piece| piece.mark != MARK).map(|piece| Fault { place: piece.at, kind: Kind::Mark });
    let cut = pieces.iter().filter(|piece| piece.rule.is_none());
    let cut = cut.map(|piece| Fault { place: sheet.len(), kind: Kind::Cut(sheet.len() - piece.at) });
    let unrisen = pieces.windows(2).filter_map(|pair| {
        let (before, number) = (pair[0].number?, pair[1].number?);
        let kind = if number == before { Kind::Repeated } else { Kind::Fallen };
        (number <= before).then_some(Fault { place: pair[1].at + 1, kind })
    });
    unmarked.chain(cut).chain(unrisen).collect()
}

/// The fault at the least place.
pub fn first_fault(sheet: &[u8]) -> Option<Fault> {
    faults(sheet).into_iter().min_by_key(|fault| fault.place)
}

/// The rules of the records that lack no bytes.
pub fn rules(sheet: &[u8]) -> Vec<&[u8]> {
    pieces(sheet).iter().filter_map(|piece| piece.rule).collect()
}

/// Whether a whole record has the number.
pub fn has(sheet: &[u8], number: u16) -> bool {
    pieces(sheet).iter().any(|piece| piece.number == Some(number) && piece.rule.is_some())
}

/// Where the bytes of the rule with a number begin in a sheet without faults, and these.
fn rule(sheet: &[u8], number: u16) -> Option<(usize, &[u8])> {
    let pieces = pieces(sheet);
    let piece = pieces[pieces.binary_search_by_key(&Some(number), |piece| piece.number).ok()?];
    Some((piece.at + 4, piece.rule?))
}

pub fn by_pieces<'a>(dealer: &'a [u8], factory: &'a [u8], number: u16) -> Lookup<'a> {
    let sheets = [(Sheet::Dealer, dealer), (Sheet::Factory, factory)];
    let mut damage = sheets.iter().filter_map(|&(sheet, bytes)| Some(Lookup::Damaged { sheet, place: first_fault(bytes)?.place }));
    let mut found = sheets.iter().filter_map(|&(sheet, bytes)| {
        let (start, rule) = rule(bytes, number)?;
        Some(Lookup::Found { sheet, start, rule })
    });
    damage.next().or_else(|| found.next()).unwrap_or(Lookup::Missing)
}

pub fn by_pass<'a>(dealer: &'a [u8], factory: &'a [u8], number: u16) -> Lookup<'a> {
    let mut found = Lookup::Missing;
    for (sheet, bytes) in [(Sheet::Dealer, dealer), (Sheet::Factory, factory)] {
        match pass(bytes, number) {
            Err(place) => return Lookup::Damaged { sheet, place },
            Ok(Some((start, rule))) if found == Lookup::Missing => found = Lookup::Found { sheet, start, rule },
            Ok(_) => {}
        }
    }
    found
}

/// The place of the first fault; or where the rule with the number begins and its bytes, if the sheet has it.
fn pass(sheet: &[u8], number: u16) -> Result<Option<(usize, &[u8])>, usize> {
    let mut found = None;
    each_record(sheet, |own, start, rule| {
        if own == number {
            found = Some((start, rule));
        }
    })?;
    Ok(found)
}

/// Visits each record up to the first fault, whose place is told: its number, where its rule begins, and the rule.
pub(crate) fn each_record<'a>(sheet: &'a [u8], mut visit: impl FnMut(u16, usize, &'a [u8])) -> Result<(), usize> {
    let (mut at, mut before) = (0, None);
    while at < sheet.len() {
        if sheet[at] != MARK {
            return Err(at);
        }
        let Some(&[low, high]) = sheet[at + 1..].first_chunk() else { return Err(sheet.len()) };
        let own = u16::from_le_bytes([low, high]);
        if Some(own) <= before {
            return Err(at + 1);
        }
        let start = at + 4;
        let Some(rule) = sheet.get(at + 3).and_then(|&size| sheet.get(start..start + size as usize)) else { return Err(sheet.len()) };
        visit(own, start, rule);
        (at, before) = (start + rule.len(), Some(own));
    }
    Ok(())
}
