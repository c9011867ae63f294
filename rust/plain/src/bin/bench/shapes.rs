//! Rules of the usual shapes, in bytes.

pub use yuktrob_plain::hex::bytes as written;

/// F, G, G F, U, R in bytes, over what they are applied to.
pub fn eventually(f: &[u8]) -> Vec<u8> {
    [&[9, 6][..], f, &[8, 5, 0]].concat()
}
pub fn always(f: &[u8]) -> Vec<u8> {
    [&[10, 7][..], f, &[8, 5, 0]].concat()
}
pub fn infinitely_often(f: &[u8]) -> Vec<u8> {
    always(&eventually(f))
}
pub fn until(f: &[u8], g: &[u8]) -> Vec<u8> {
    [&[9, 6][..], g, &[7], f, &[8, 5, 0]].concat()
}
pub fn release(f: &[u8], g: &[u8]) -> Vec<u8> {
    [&[10, 7][..], g, &[6], f, &[8, 5, 0]].concat()
}

/// The same kind of part for each of the first signals, joined by an or (6) or an and (7).
pub fn each(signals: u8, joint: u8, part: impl Fn(u8) -> Vec<u8>) -> Vec<u8> {
    (0..signals).map(part).rev().reduce(|all, one| [&[joint][..], &one, &all].concat()).unwrap_or(vec![1])
}

/// At every place each of the first signals is present now or absent at the next place.
pub fn each_or_absent_next(signals: u8) -> Vec<u8> {
    always(&each(signals, 7, |j| vec![6, 3, j, 8, 4, j]))
}

/// At every place signal 0 is present now or absent so many places on.
pub fn or_absent_later(places: usize) -> Vec<u8> {
    always(&[&[6, 3, 0][..], &vec![8; places], &[4, 0]].concat())
}
