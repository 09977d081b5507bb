//! Lent buffers between guard bytes, which are looked at after each call.

use super::{Codec, Numbers};

/// How many bytes stand before a lent slice, and how many behind it. The number is odd, so that no lent slice is aligned.
const GUARD: usize = 61;

/// The guard byte at a place; none is a cell, and no two neighbours are alike.
fn guard(place: usize) -> u8 {
    0xa0 | (place * 7 % 32) as u8
}

/// Lends a copy of a slice that lies between guard bytes, looks at these after the call, and brings back what the call left in the
/// copy.
pub fn lend<T>(slice: &mut [u8], call: impl FnOnce(&mut [u8]) -> T) -> T {
    let lent = GUARD..GUARD + slice.len();
    let mut bytes: Vec<u8> = (0..lent.end + GUARD).map(guard).collect();
    bytes[lent.clone()].copy_from_slice(slice);
    let answer = call(&mut bytes[lent.clone()]);
    // The compiler may take it that a call leaves the bytes outside its slices, and in those that it only reads.
    let bytes = std::hint::black_box(bytes);
    let changed = (0..lent.start).chain(lent.end..bytes.len()).find(|&place| bytes[place] != guard(place));
    assert_eq!(changed, None, "a byte outside the lent bytes {lent:?} has changed");
    slice.copy_from_slice(&bytes[lent]);
    answer
}

/// Lends a copy of a slice, as `lend` does, to a call that only reads it.
pub fn lend_to_read<T>(slice: &[u8], call: impl FnOnce(&[u8]) -> T) -> T {
    let mut copy = slice.to_vec();
    let answer = lend(&mut copy, |lent| call(lent));
    assert_eq!(copy, slice, "a slice that is only read has changed");
    answer
}

/// Encodes between guards.
pub fn encode<C: Codec>(shape: &Numbers, payload: &[u8], field: &mut [u8]) -> Result<(), usize> {
    lend_to_read(payload, |payload| lend(field, |field| C::encode(shape, payload, field)))
}

/// Decodes between guards.
pub fn decode<C: Codec>(shape: &Numbers, payload: &mut [u8], field: &[u8]) -> Result<usize, usize> {
    lend_to_read(field, |field| lend(payload, |payload| C::decode(shape, payload, field)))
}

/// Corrects between guards.
pub fn correct<C: Codec>(shape: &Numbers, field: &mut [u8]) -> Result<usize, usize> {
    lend(field, |field| C::correct(shape, field))
}
