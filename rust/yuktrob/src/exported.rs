//! The exported functions of the proved library, called with Rust's slices: the one module with `unsafe`.
//!
//! Why each call is sound. The library asks two things of its caller (`include/yuktrob.h`): that each pointer has as many elements as the
//! length behind it says, or, where no length stands behind it, one, and of an edit's two areas 97 and 144, and that what is written
//! overlaps nothing else. A slice's pointer has its length's elements, all initialised; it is aligned and not null, even where the slice is
//! empty; an array has as many as its type says; and a `&mut` overlaps nothing. The library is proved to stay inside its slices and arrays,
//! for any values in them. It keeps no pointer after it returns, and it does not unwind: it has no panics.

use crate::Refusal;

/// The most entries of a rule, and the bytes of the two areas of an edit: a rule has at most 96, and the table has three of each entry.
pub const MOST_ENTRIES: usize = 48;
pub const SPLICED_LEN: usize = 97;
pub const TABLE_LEN: usize = 3 * MOST_ENTRIES;

extern "C" {
    fn yuktrob_read(rule: *const u8, rule_len: usize) -> u64;
    fn yuktrob_entry(rule: *const u8, rule_len: usize, e: usize) -> u64;
    fn yuktrob_truth(
        rule: *const u8,
        rule_len: usize,
        places: *const u16,
        places_len: usize,
        lead_len: usize,
        words: *mut u64,
        words_len: usize,
    ) -> u64;
    fn yuktrob_decide(
        rule: *const u8,
        rule_len: usize,
        nodes: usize,
        profiles: usize,
        work: *mut u8,
        work_len: usize,
        course: *mut u16,
        course_len: usize,
    ) -> u64;
    fn yuktrob_build(rule: *const u8, rule_len: usize, nodes: usize, work: *mut u8, work_len: usize) -> u64;
    fn yuktrob_search(
        rule: *const u8,
        rule_len: usize,
        built: usize,
        nodes: usize,
        profiles: usize,
        work: *mut u8,
        work_len: usize,
        course: *mut u16,
        course_len: usize,
    ) -> u64;
    fn yuktrob_decide_safety(
        rule: *const u8,
        rule_len: usize,
        nodes: usize,
        work: *mut u8,
        work_len: usize,
        course: *mut u16,
        course_len: usize,
    ) -> u64;
    fn yuktrob_lookup(
        dealer: *const u8,
        dealer_len: usize,
        factory: *const u8,
        factory_len: usize,
        number: u16,
        start: *mut usize,
        size: *mut usize,
    ) -> u64;
    fn yuktrob_decide_set(
        sheet: *const u8,
        sheet_len: usize,
        nodes: usize,
        profiles: usize,
        work: *mut u8,
        work_len: usize,
        course: *mut u16,
        course_len: usize,
        place: *mut usize,
    ) -> u64;
    fn yuktrob_edit(
        old_rule: *const u8,
        old_len: usize,
        e: usize,
        new_rule: *const u8,
        new_len: usize,
        spliced: *mut u8,
        table: *mut u8,
    ) -> u64;
}

/// What an answer carries, or the refusal: the lowest byte is the number of a refusal, or 0; the rest stands above it.
fn carried(answer: u64) -> Result<u64, Refusal> {
    match (answer % 256) as u8 {
        0 => Ok(answer / 256),
        number => Err(Refusal::new(number, answer / 256)),
    }
}

pub fn read(rule: &[u8]) -> Result<u64, Refusal> {
    // SAFETY: pointer and length are those of a slice; see above.
    carried(unsafe { yuktrob_read(rule.as_ptr(), rule.len()) })
}

pub fn entry(rule: &[u8], e: usize) -> Result<u64, Refusal> {
    // SAFETY: pointer and length are those of a slice; see above.
    carried(unsafe { yuktrob_entry(rule.as_ptr(), rule.len(), e) })
}

pub fn truth(rule: &[u8], places: &[u16], lead_len: usize, words: &mut [u64]) -> Result<u64, Refusal> {
    // SAFETY: pointers and lengths are those of slices; see above.
    carried(unsafe {
        yuktrob_truth(rule.as_ptr(), rule.len(), places.as_ptr(), places.len(), lead_len, words.as_mut_ptr(), words.len())
    })
}

pub fn decide(rule: &[u8], nodes: usize, profiles: usize, work: &mut [u8], course: &mut [u16]) -> Result<u64, Refusal> {
    let (work_len, course_len) = (work.len(), course.len());
    // SAFETY: pointers and lengths are those of slices; see above.
    carried(unsafe {
        yuktrob_decide(rule.as_ptr(), rule.len(), nodes, profiles, work.as_mut_ptr(), work_len, course.as_mut_ptr(), course_len)
    })
}

pub fn build(rule: &[u8], nodes: usize, work: &mut [u8]) -> Result<u64, Refusal> {
    // SAFETY: pointers and lengths are those of slices; see above.
    carried(unsafe { yuktrob_build(rule.as_ptr(), rule.len(), nodes, work.as_mut_ptr(), work.len()) })
}

pub fn search(rule: &[u8], built: usize, nodes: usize, profiles: usize, work: &mut [u8], course: &mut [u16]) -> Result<u64, Refusal> {
    let (rule_len, work_len, course_len) = (rule.len(), work.len(), course.len());
    // SAFETY: pointers and lengths are those of slices; see above.
    carried(unsafe {
        yuktrob_search(rule.as_ptr(), rule_len, built, nodes, profiles, work.as_mut_ptr(), work_len, course.as_mut_ptr(), course_len)
    })
}

pub fn decide_safety(rule: &[u8], nodes: usize, work: &mut [u8], course: &mut [u16]) -> Result<u64, Refusal> {
    let (work_len, course_len) = (work.len(), course.len());
    // SAFETY: pointers and lengths are those of slices; see above.
    carried(unsafe {
        yuktrob_decide_safety(rule.as_ptr(), rule.len(), nodes, work.as_mut_ptr(), work_len, course.as_mut_ptr(), course_len)
    })
}

/// The whole answer, since 30 and what is found have the sheet above the lowest byte.
pub fn lookup(dealer: &[u8], factory: &[u8], number: u16, start: &mut usize, size: &mut usize) -> u64 {
    // SAFETY: pointers and lengths are those of slices, and nothing else refers to the two words; see above.
    unsafe { yuktrob_lookup(dealer.as_ptr(), dealer.len(), factory.as_ptr(), factory.len(), number, start, size) }
}

/// The whole answer, since a refusal by reading has the rule's position beside its places, and 35 the rules that were tried.
pub fn decide_set(sheet: &[u8], nodes: usize, profiles: usize, work: &mut [u8], course: &mut [u16], place: &mut usize) -> u64 {
    let (sheet_len, work_len, course_len) = (sheet.len(), work.len(), course.len());
    // SAFETY: pointers and lengths are those of slices, and nothing else refers to the word; see above.
    unsafe {
        yuktrob_decide_set(sheet.as_ptr(), sheet_len, nodes, profiles, work.as_mut_ptr(), work_len, course.as_mut_ptr(), course_len, place)
    }
}

/// The whole answer, since a refusal by reading has above its places which bytes it speaks of.
pub fn edit(old: &[u8], e: usize, new: &[u8], spliced: &mut [u8; SPLICED_LEN], table: &mut [u8; TABLE_LEN]) -> u64 {
    // SAFETY: pointers and lengths are those of slices, and those without a length of arrays of just as many bytes; see above.
    unsafe { yuktrob_edit(old.as_ptr(), old.len(), e, new.as_ptr(), new.len(), spliced.as_mut_ptr(), table.as_mut_ptr()) }
}

#[cfg(test)]
mod tests {
    use super::*;

    #[test]
    fn each_function_names_the_fixpoint_with_8() {
        let unguarded: [(&[u8], u64, u64); 3] = [(&[9, 5, 0], 2, 0), (&[8, 9, 5, 0], 3, 1), (&[10, 9, 6, 3, 0, 5, 1], 6, 0)];
        for (rule, place, fixpoint) in unguarded {
            let expected = Err(Refusal::new(8, place + 256 * fixpoint));
            let (work, course) = (&mut [0; 200], &mut [0; 2]);
            let decided = [decide(rule, 1, 1, work, course), decide_safety(rule, 1, work, course)];
            let parted = [build(rule, 1, work), search(rule, 1, 1, 1, work, course)];
            let answers = [read(rule), entry(rule, 0), truth(rule, &[0x4000], 0, &mut [0])];
            assert_eq!((answers, decided, parted), ([expected; 3], [expected; 2], [expected; 2]), "{rule:02x?}");
        }
    }

    /// The number of MET and NOT has nothing where the decision has its profiles, that of 43 nothing but the place.
    #[test]
    fn numbers_of_safety_rules() {
        let (work, course) = (&mut [0; 16], &mut [0; 2]);
        let met = 1 + 2 * (1 + (1 << 13) + (2 << 26));
        assert_eq!(decide_safety(&[1], 2, work, course), Ok(met));
        assert_eq!(decide_safety(&[2], 2, work, course), Ok(2 << 26));
        assert_eq!(decide_safety(&[7, 1, 9, 1], 2, work, course), Err(Refusal::new(43, 2)));
        assert_eq!(decide_safety(&[1], 1, work, course), Err(Refusal::new(14, 0)));
    }

    /// The sheet stands above the lowest byte, 0 for the dealer's, 1 for the factory's. Both words are written, whatever they held: a
    /// refusal has no bytes, and 31 no place.
    #[test]
    fn numbers_of_lookups() {
        let told = |dealer: &[u8], factory: &[u8], number: u16| {
            let (mut start, mut size) = (99, 99);
            (lookup(dealer, factory, number, &mut start, &mut size), start, size)
        };
        let (one, two): (&[u8], &[u8]) = (&[0x20, 1, 0, 2, 7, 8], &[0x20, 2, 0, 1, 9]);
        let cut = &one[..5];
        assert_eq!(told(one, two, 1), (0, 4, 2));
        assert_eq!(told(two, one, 1), (256, 4, 2));
        assert_eq!(told(cut, cut, 1), (30, 5, 0));
        assert_eq!(told(one, cut, 1), (30 + 256, 5, 0));
        assert_eq!(told(one, two, 3), (31, 0, 0));
    }

    /// NOT has the clash where MET has the lead-in's length, a refusal by reading the position above its places, 35 what was tried. The
    /// word is written by every call, whatever it held: 30 has its place there, and all other answers 0.
    #[test]
    fn numbers_of_sets() {
        let told = |sheet: &[u8], nodes: usize, work: usize, course: usize| {
            let (work, course, mut place) = (&mut vec![0; work], &mut vec![0; course], 99);
            (decide_set(sheet, nodes, 1, work, course, &mut place), place)
        };
        let sizes = |met: u64, first: u64, second: u64, nodes: u64, profiles: u64| {
            ((met + 2 * (first + (second << 13) + (nodes << 26) + (profiles << 39))) << 8, 0)
        };
        let record = |number: u8, rule: &[u8]| [&[0x20, number, 0, rule.len() as u8], rule].concat();
        let (present, absent, unguarded) = (record(1, &[3, 0]), record(2, &[4, 0]), record(3, &[8, 9, 5, 0]));
        let clashing = [&present[..], &absent].concat();
        assert_eq!(told(&present, 2, 208, 3), sizes(1, 1, 1, 2, 1));
        assert_eq!(told(&clashing, 2, 208, 3), sizes(0, 3, 0, 1, 0));
        assert_eq!(told(&record(9, &[2]), 2, 208, 3), sizes(0, 1, 0, 1, 0));
        assert_eq!(told(&[&record(0, &[1])[..], &clashing].concat(), 2, 208, 3), sizes(0, 6, 0, 1, 0));
        assert_eq!(told(&[], 2, 208, 3), (34, 0));
        assert_eq!(told(&clashing[..11], 0, 0, 0), (30, 11));
        assert_eq!(told(&[&clashing[..], &unguarded].concat(), 0, 0, 0), (8 + (3 << 8) + (1 << 16) + (2 << 24), 0));
        assert_eq!(told(&[&present[..], &record(2, &[3, 16])].concat(), 0, 0, 0), (6 + (1 << 8) + (1 << 24), 0));
        for (nodes, work, course, number) in [(0, 208, 3, 11), (2, 207, 3, 12), (2, 208, 2, 13)] {
            assert_eq!(told(&clashing, nodes, work, course), (number, 0));
        }
        // both rules at once have one node; the first alone has two, and so have any two that can be met
        assert_eq!(told(&clashing, 1, 200, 2), (35 + (1 << 8), 0));
        assert_eq!(told(&[&present[..], &record(2, &[3, 1])].concat(), 1, 200, 2), (35 + (3 << 8), 0));
    }
    /// Both areas are written whole by every call, whatever they held. Edited, the bytes and the entries are counted; a refusal by reading
    /// has whose bytes it speaks of above its places, which take 16 bits in any case; 37 carries nothing.
    #[test]
    fn numbers_of_edits() {
        let told = |old: &[u8], e: usize, new: &[u8]| {
            let (mut spliced, mut table) = ([0xa5; SPLICED_LEN], [0xa5; TABLE_LEN]);
            (edit(old, e, new, &mut spliced, &mut table), spliced.to_vec(), table.to_vec())
        };
        let padded = |bytes: &[u8], len: usize| [bytes, &vec![0; len - bytes.len()]].concat();
        let table = |rows: [&[u8]; 3]| rows.map(|part| padded(part, MOST_ENTRIES)).concat();
        let edited = |bytes: &[u8], rows: [&[u8]; 3]| {
            ((bytes.len() as u64) << 8 | (rows[0].len() as u64) << 16, padded(bytes, SPLICED_LEN), table(rows))
        };
        let refused = |number: u64, rows: [&[u8]; 3]| (number, vec![0; SPLICED_LEN], table(rows));
        let (always, rows): (&[u8], [&[u8]; 3]) = (&[10, 7, 3, 9, 8, 5, 0], [&[10, 7, 3, 8, 5], &[0, 0, 9, 0, 0], &[5, 4, 1, 2, 1]]);
        // behind a least fixpoint, and with one inside: both fixpoints move
        let (least, new): (&[u8], &[u8]) = (&[9, 4, 2], &[6, 2, 9, 8, 5, 0]);
        let both = [&[7, 3, 1], always].concat();
        let moved: [&[u8]; 3] = [&[7, 9, 4, 10, 7, 3, 8, 5], &[0, 0, 2, 0, 0, 9, 0, 3], &[8, 2, 1, 5, 4, 1, 2, 1]];
        assert_eq!(told(&both, 1, least), edited(&[&[7, 9, 4, 2], always].concat(), moved));
        let inside: [&[u8]; 3] = [&[10, 7, 6, 2, 9, 8, 5, 8, 5], &[0, 0, 0, 0, 0, 0, 4, 0, 0], &[9, 8, 5, 1, 3, 2, 1, 2, 1]];
        assert_eq!(told(always, 2, new), edited(&[10, 7, 6, 2, 9, 8, 5, 0, 8, 5, 0], inside));
        assert_eq!(told(always, 0, &[1]), edited(&[1], [&[1], &[0], &[1]]));
        assert_eq!(told(&[8, 9, 5, 0], 99, &[11]), refused(8 + (3 << 8) + (1 << 16), [&[]; 3]));
        assert_eq!(told(&[], 0, &[]), refused(1, [&[]; 3]));
        assert_eq!(told(always, 99, &[8, 9, 5, 0]), refused(8 + (3 << 8) + (1 << 16) + (1 << 24), rows));
        assert_eq!(told(always, 0, &[]), refused(1 + (1 << 24), rows));
        for e in [5, 48, 144, 256, usize::MAX] {
            assert_eq!(told(always, e, &[1]), refused(37, rows));
        }
        // 49 commands, of which the last two have a next and a variable; then 13 nexts
        assert_eq!(told(always, 2, &[vec![7; 22], vec![1; 23]].concat()), refused(3 + (48 << 8) + (2 << 24), rows));
        assert_eq!(told(always, 2, &[vec![8; 12], vec![1]].concat()), refused(4 + (15 << 8) + (2 << 24), rows));
    }
}
