//! Fields that were written, damage to them, and what must come of it.

use super::reference::ERASED;
use super::*;

/// The field of a payload as an implementation writes it.
pub fn encoded<C: Codec>(random: &mut Random, shape: &Numbers, payload: &[u8]) -> Vec<u8> {
    let mut field = random.bytes(shape.plan().unwrap().cells);
    guards::encode::<C>(shape, payload, &mut field).unwrap();
    field
}

/// A payload and its field: as an implementation writes it or, half the time, as it was written before.
pub fn written<C: Codec>(random: &mut Random, shape: &Numbers) -> (Vec<u8>, Vec<u8>) {
    let payload = random.bytes(shape.plan().unwrap().bytes);
    let earlier = random.once_in(2);
    let field = if earlier { reference::earlier_field(shape, &payload) } else { encoded::<C>(random, shape, &payload) };
    (payload, field)
}

/// A payload and both of its fields, which are one where there is no padding.
pub fn written_now_and_before<C: Codec>(random: &mut Random, shape: &Numbers) -> (Vec<u8>, Vec<Vec<u8>>) {
    let payload = random.bytes(shape.plan().unwrap().bytes);
    let mut fields = vec![encoded::<C>(random, shape, &payload), reference::earlier_field(shape, &payload)];
    fields.dedup();
    (payload, fields)
}

/// A field with some cells flipped.
pub fn flipped(field: &[u8], cells: &[usize]) -> Vec<u8> {
    let mut field = field.to_vec();
    for &cell in cells {
        field[cell] ^= 1;
    }
    field
}

/// A field with some cells erased.
pub fn erased(field: &[u8], cells: &[usize]) -> Vec<u8> {
    let mut field = field.to_vec();
    for &cell in cells {
        field[cell] = ERASED;
    }
    field
}

/// A damaged field is read as the payload and corrected to the field, with the count of the cells where it differs.
pub fn assert_undone<C: Codec>(random: &mut Random, shape: &Numbers, payload: &[u8], field: &[u8], damaged: &[u8]) {
    let count = reference::differences(damaged, field);
    assert_undone_with::<C>(random, shape, payload, field, damaged, [count, count]);
}

/// A damaged field is read as the payload and corrected to the field, each with a count.
pub fn assert_undone_with<C: Codec>(
    random: &mut Random,
    shape: &Numbers,
    payload: &[u8],
    field: &[u8],
    damaged: &[u8],
    [of_decode, of_correct]: [usize; 2],
) {
    let mut read = random.bytes(payload.len());
    assert_eq!(guards::decode::<C>(shape, &mut read, damaged), Ok(of_decode), "{shape:?} {damaged:?}");
    assert_eq!(read, payload, "{shape:?} {damaged:?}");
    let mut corrected = damaged.to_vec();
    assert_eq!(guards::correct::<C>(shape, &mut corrected), Ok(of_correct), "{shape:?} {damaged:?}");
    assert_eq!(corrected, field, "{shape:?} {damaged:?}");
}

/// A field is refused with a number, by decode and by correct, which leave every byte.
pub fn assert_refused<C: Codec>(random: &mut Random, shape: &Numbers, field: &[u8], number: usize) {
    assert_refused_with::<C>(random, shape, shape.plan().unwrap().bytes, field, number);
}

/// So is a field whose payload has some length.
pub fn assert_refused_with<C: Codec>(random: &mut Random, shape: &Numbers, length: usize, field: &[u8], number: usize) {
    let before = random.bytes(length);
    let mut read = before.clone();
    assert_eq!(guards::decode::<C>(shape, &mut read, field), Err(number), "{shape:?} {field:?}");
    assert_eq!(read, before, "{shape:?} {field:?}");
    let mut corrected = field.to_vec();
    assert_eq!(guards::correct::<C>(shape, &mut corrected), Err(number), "{shape:?} {field:?}");
    assert_eq!(corrected, field, "{shape:?} {field:?}");
}
