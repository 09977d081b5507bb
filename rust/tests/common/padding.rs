//! Padding, the cells that hold neither payload nor check: fields with any value of it, and what must come of them.

use super::damage::{assert_refused, assert_undone, encoded, erased, flipped};
use super::*;

/// The most padding, as it is written; less is cut from its end.
const WRITTEN: [u8; 7] = [1, 0, 1, 0, 1, 0, 1];

/// Is the padding read: is it as it is written, or all zeros, as it was written before?
pub fn is_right(padding: &[u8]) -> bool {
    *padding == WRITTEN[..padding.len()] || padding.iter().all(|&cell| cell == 0)
}

/// The padding of so many cells as it is written or, half the time, as it was written before.
pub fn right(random: &mut Random, length: usize) -> Vec<u8> {
    if random.once_in(2) {
        vec![0; length]
    } else {
        WRITTEN[..length].to_vec()
    }
}

/// The padding cells of a shape, in byte order.
pub fn cells(shape: &Numbers) -> Vec<usize> {
    let plan = shape.plan().unwrap();
    reference::data_cells(shape)[plan.bytes * 8..].to_vec()
}

/// Every value of so many padding cells.
fn every_value(length: usize) -> impl Iterator<Item = Vec<u8>> {
    (0..1usize << length).map(move |value| (0..length).map(|i| (value >> i & 1) as u8).collect())
}

/// Small shapes of each kind: flat ones by strength, stacks, and flat ones by window.
fn small_shapes() -> [Vec<Numbers>; 3] {
    let mut shapes = [(); 3].map(|()| Vec::new());
    for (w, h) in (1..=9).flat_map(|w| (1..=9).map(move |h| (w, h))) {
        shapes[0].extend((1..=5).map(|t| Numbers::of_strength(w, h, 1, t)));
        shapes[1].extend((1..=4).map(|t| Numbers::of_strength(w, h, 2 + (w + h) % 3, t)));
        shapes[2].extend([(1, 1), (2, 2), (2, 3), (3, 1), (3, 3)].map(|(p, q)| Numbers::of_window(w, h, p, q)));
    }
    shapes
}

/// A field with some padding: as it is, with each padding cell flipped, and with each erased. It is undone, and keeps that padding, or is
/// refused with 7 where the padding is wrong.
fn assert_padding<C: Codec>(random: &mut Random, shape: &Numbers, payload: &[u8], padding: &[u8]) {
    let field = reference::field_with(shape, payload, padding);
    let mut fields = vec![field.clone()];
    for cell in cells(shape) {
        fields.push(flipped(&field, &[cell]));
        fields.extend(C::ERASURES.then(|| erased(&field, &[cell])));
    }
    for damaged in fields {
        if is_right(padding) {
            assert_undone::<C>(random, shape, payload, &field, &damaged);
        } else {
            assert_refused::<C>(random, shape, &damaged, 7);
        }
    }
}

/// A field with the padding as it is written, as it was written before, and with any.
pub fn try_some_values<C: Codec>(random: &mut Random, shape: &Numbers, payload: &[u8]) {
    let length = shape.plan().unwrap().capacity % 8;
    for padding in [WRITTEN[..length].to_vec(), vec![0; length], random.bits(length)] {
        assert_padding::<C>(random, shape, payload, &padding);
    }
}

/// Every value of every padding, of no cell and of 1 to 7, in small shapes of each kind with no payload and with some: what is written,
/// and what is read.
pub fn try_every_value<C: Codec>() {
    let mut random = outside::random(23);
    let kinds = if C::WINDOWS { 3 } else { 2 };
    for shapes in &small_shapes()[..kinds] {
        // By the number of padding cells: the shapes with no payload, and those with some.
        let mut tried = [[0; 2]; 8];
        for shape in shapes {
            let plan = shape.plan().unwrap();
            let (payload, length) = (random.bytes(plan.bytes), plan.capacity % 8);
            let field = encoded::<C>(&mut random, shape, &payload);
            assert_eq!(field, reference::field_with(shape, &payload, &WRITTEN[..length]), "{shape:?} {payload:?}");
            for padding in every_value(length) {
                assert_padding::<C>(&mut random, shape, &payload, &padding);
            }
            tried[length][plan.bytes.min(1)] += 1;
        }
        println!("every padding: {tried:?}");
        assert!(tried.iter().flatten().all(|&times| times >= 1));
    }
}
