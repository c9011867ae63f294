//! The two scale flags. Signal 14 says that a heading has the previous revision's scale, signal 15 that it has the current one's, and a
//! place has exactly one of them.

pub const PREVIOUS_SCALE: u8 = 14;
pub const CURRENT_SCALE: u8 = 15;

/// The bits of the flags, first the one that a step's place gets if either would do.
pub const FLAGS: [u16; 2] = [1 << PREVIOUS_SCALE, 1 << CURRENT_SCALE];

/// Both bits.
pub const BOTH: u16 = FLAGS[0] | FLAGS[1];

/// Whether a value may stand in a course.
pub fn is_place(value: u16) -> bool {
    FLAGS.contains(&(value & BOTH))
}

/// The place of a step that requires these signals present and these absent, if there is one: of the two places that have one flag and
/// beside it just what is required present, the first that agrees with all that is required.
pub fn place(present: u16, absent: u16) -> Option<u16> {
    FLAGS.map(|flag| present & !BOTH | flag).into_iter().find(|place| present & !place == 0 && absent & place == 0)
}

#[cfg(test)]
mod tests {
    use super::*;

    /// Document 02's words for a step's place, over all that may be required of the flags and of one other signal.
    #[test]
    fn places_of_steps() {
        let [previous, current] = FLAGS;
        let required: Vec<u16> = (0..8u16).map(|x| x.rotate_left(PREVIOUS_SCALE.into())).collect();
        for (&present, &absent) in required.iter().flat_map(|p| required.iter().map(move |a| (p, a))) {
            let missing = present & absent != 0 || present & BOTH == BOTH || absent & BOTH == BOTH;
            let flag = if present & current != 0 || absent & previous != 0 { current } else { previous };
            let expected = if missing { None } else { Some(present | flag) };
            assert_eq!(place(present, absent), expected, "{present:04x} present, {absent:04x} absent");
            assert!(expected.is_none_or(is_place));
        }
    }
}
