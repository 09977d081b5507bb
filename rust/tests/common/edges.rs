//! Shapes at the edges of the classes, and the comparisons on them: one column, one row, and columns fewer than the classes, as
//! many, and just above a multiple of them, at every strength; and the same of the sides of windows.

use super::*;

/// The most cells of such a shape, for the reference's sake.
const MOST_CELLS: usize = 3000;

/// The columns for a number of classes.
fn widths(m: usize) -> Vec<usize> {
    let last = 255 / m * m + 1;
    let mut widths = vec![1, 2, m / 2, m.saturating_sub(1), m, m + 1, 2 * m, 2 * m + 1, 3 * m + 1, last - 1, last, 255, 256];
    widths.retain(|w| (1..=256).contains(w));
    widths.sort_unstable();
    widths.dedup();
    widths
}

/// The shapes of one strength in some planes.
fn shapes_of(d: usize, t: usize) -> Vec<Numbers> {
    let m = reference::number_of_classes(&Numbers::of_strength(1, 1, d, t));
    let mut shapes = Vec::new();
    for w in widths(m) {
        for h in [1, 2, 3, t, t + 1, 13, 64, 256] {
            if h <= 256 && w * h * d <= MOST_CELLS {
                shapes.push(Numbers::of_strength(w, h, d, t));
            }
        }
    }
    shapes
}

/// The rows and the columns of some windows: small ones, square ones to the largest, and long ones.
const WINDOWS: [(usize, usize); 18] = [
    (1, 1),
    (1, 2),
    (2, 1),
    (2, 2),
    (2, 3),
    (3, 2),
    (1, 7),
    (5, 3),
    (8, 8),
    (22, 22),
    (22, 23),
    (23, 22),
    (1, 512),
    (512, 1),
    (2, 256),
    (256, 2),
    (16, 32),
    (64, 8),
];

/// The shapes that such windows rule: fields of sides fewer than the window's, as many, and just above a multiple of them.
pub fn window_shapes() -> Vec<Numbers> {
    let mut shapes = Vec::new();
    for (p, q) in WINDOWS {
        for w in widths(q) {
            for h in [1, 2, p.saturating_sub(1), p, p + 1, 2 * p, 2 * p + 1, 13] {
                if (1..=256).contains(&h) && w * h <= MOST_CELLS {
                    shapes.push(Numbers::of_window(w, h, p, q));
                }
            }
        }
    }
    shapes
}

/// The shapes of all strengths: flat, in two planes and in more.
pub fn edge_shapes() -> Vec<Numbers> {
    let flat = (1..=32).flat_map(|t| shapes_of(1, t));
    let stacks = (1..=8).flat_map(|t| [2, 3, 5, 16].into_iter().flat_map(move |d| shapes_of(d, t)));
    flat.chain(stacks).collect()
}

/// A field with right padding, then with some cells of a hole turned over.
fn field_with_hole(random: &mut Random, shape: &Numbers) -> Vec<u8> {
    let plan = shape.plan().unwrap();
    let (payload, padding) = (random.bytes(plan.bytes), padding::right(random, plan.capacity % 8));
    let mut field = reference::field_with(shape, &payload, &padding);
    for cell in hole(random, shape) {
        field[cell] ^= u8::from(!random.once_in(4));
    }
    field
}

/// Each such shape, a few times: written, read and corrected with a hole, with erased cells, with other damage, and with lengths
/// that may be refused.
pub fn compare_edges<C: Codec>(rounds: usize) {
    let mut random = outside::random(10);
    let [mut encoded, mut decoded, mut corrected] = [(); 3].map(|()| Tally::default());
    let ruled = if C::WINDOWS { window_shapes() } else { Vec::new() };
    for shape in edge_shapes().into_iter().chain(ruled) {
        let plan = shape.plan().unwrap();
        for _ in 0..outside::rounds(rounds) {
            let (payload, before) = (random.bytes(plan.bytes), random.bytes(plan.cells));
            compare_encode::<C>(&shape, &payload, &before, &mut encoded);
            let field = field_with_hole(&mut random, &shape);
            compare_decode::<C>(&shape, &payload, &field, &mut decoded);
            compare_correct::<C>(&shape, &field, &mut corrected);
            if C::ERASURES {
                let mut field = field;
                erasures::erase_some(&mut random, &shape, &mut field);
                compare_decode::<C>(&shape, &payload, &field, &mut decoded);
                compare_correct::<C>(&shape, &field, &mut corrected);
            }
            let (payload, field) = (lent_payload(&mut random, &shape), lent_field::<C>(&mut random, &shape));
            compare_encode::<C>(&shape, &payload, &field, &mut encoded);
            compare_decode::<C>(&shape, &payload, &field, &mut decoded);
            compare_correct::<C>(&shape, &field, &mut corrected);
        }
    }
    encoded.assert_numbers("encode at the edges", &[3, 4]);
    decoded.assert_numbers("decode at the edges", &of_field::<C>(&[3, 4, 5, 6, 7]));
    corrected.assert_numbers("correct at the edges", &of_field::<C>(&[4, 5, 6, 7]));
}
