use crate::{exported, Refusal};

/// The most places that a course may have.
pub const MOST_PLACES: usize = 8192;

/// The bit of signal 14 in a place: headings have the previous revision's scale. A place has either this flag or [`CURRENT_SCALE`].
///
/// A rule for the handover: once signal 1 has announced the change, no heading has the previous scale any more.
///
/// ```
/// use yuktrob::{Areas, Rule, Verdict, CURRENT_SCALE, PREVIOUS_SCALE};
/// // always: signal 1 absent, or from here on always signal 14 absent
/// let handover = Rule::read(&[0x0a, 0x07, 0x06, 0x04, 0x01, 0x0a, 0x07, 0x04, 0x0e, 0x08, 0x05, 0x00, 0x08, 0x05, 0x00])?;
/// let mut areas = Areas::new(256, 300);
/// let Verdict::Met { lead_len, course, .. } = handover.decide(&mut areas)? else { panic!("some course meets it") };
/// assert_eq!((lead_len, course), (1, &[PREVIOUS_SCALE, PREVIOUS_SCALE][..]));
///
/// let announced = 0x0002;
/// let mut words = [0; 3];
/// let kept = [PREVIOUS_SCALE, CURRENT_SCALE | announced, CURRENT_SCALE];
/// assert!(handover.truth(&kept, 2, &mut words)?);
/// let broken = [PREVIOUS_SCALE, CURRENT_SCALE | announced, PREVIOUS_SCALE];
/// assert!(!handover.truth(&broken, 2, &mut words)?);
/// # Ok::<(), yuktrob::Refusal>(())
/// ```
pub const PREVIOUS_SCALE: u16 = 0x4000;

/// The bit of signal 15 in a place: headings have the current revision's scale. A place has either this flag or [`PREVIOUS_SCALE`].
///
/// ```
/// use yuktrob::{truth, CURRENT_SCALE, PREVIOUS_SCALE};
/// assert_eq!(truth(&[0x03, 0x0f], &[CURRENT_SCALE, PREVIOUS_SCALE], 1, &mut [0; 2]), Ok(true));
/// for wrong in [0x0000, CURRENT_SCALE | PREVIOUS_SCALE] {
///     assert_eq!(truth(&[0x03, 0x0f], &[CURRENT_SCALE, wrong], 1, &mut [0; 2]).unwrap_err().number, 19);
/// }
/// ```
pub const CURRENT_SCALE: u16 = 0x8000;

/// How many words truth asks for: one a place.
///
/// ```
/// let places = [0x4000, 0x4001];
/// let mut words = vec![0; yuktrob::words_len(places.len())];
/// assert_eq!(yuktrob::truth(&[0x03, 0x00], &places, 1, &mut words), Ok(false));
/// assert_eq!(words, [0, 1]);
/// ```
pub const fn words_len(places: usize) -> usize {
    places
}

/// Truth of a rule on a course: the truth at the first place. The places after the first `lead_len` repeat for ever, and each of all the
/// places has one scale flag, [`PREVIOUS_SCALE`] or [`CURRENT_SCALE`]. Afterwards word i has bit e where entry e is true at place i, and
/// words past the course are as they were. Refused (1 to 9, 16 to 19, of which 19 is asked before 18), no word is written.
///
/// ```
/// let eventually = [0x09, 0x06, 0x03, 0x00, 0x08, 0x05, 0x00];
/// let mut words = [7; 3];
/// assert_eq!(yuktrob::truth(&eventually, &[0x4000, 0x4001], 1, &mut words), Ok(true));
/// assert_eq!(words, [27, 31, 7]);
/// assert_eq!(yuktrob::truth(&eventually, &[], 0, &mut words).unwrap_err().number, 16);
/// ```
pub fn truth(rule: &[u8], places: &[u16], lead_len: usize, words: &mut [u64]) -> Result<bool, Refusal> {
    exported::truth(rule, places, lead_len, words).map(|told| told == 1)
}
