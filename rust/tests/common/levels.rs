//! Fields of levels: the comparisons with the reference. An implementation of their operations is a `Codec` too: its payload is
//! digits, and it is lent no erased cells, as it knows none.

use super::reference::MAX_LEVEL;
use super::words::{change, lent_digits, lent_field, levels, shape_with_words, small_shapes};
use super::*;

/// The worked examples.
pub fn try_worked_examples<C: Codec>() {
    let mut field = [255; 12];
    assert_eq!(C::encode(&Numbers::of_strength(12, 1, 1, 2), &[1, 2, 3, 4, 5, 6, 7, 8, 9, 10], &mut field), Ok(()));
    assert_eq!(field, [21, 12, 1, 2, 3, 4, 5, 6, 7, 8, 9, 10]);
    let seven = Numbers::of_strength(7, 1, 1, 1);
    let read = |field: [u8; 7]| {
        let mut digits = [255; 5];
        let answer = C::decode(&seven, &mut digits, &field);
        (answer, digits)
    };
    let mended = |mut field: [u8; 7]| (C::correct(&seven, &mut field), field);
    assert_eq!(read([0, 3, 0, 0, 0, 0, 9]), (Ok(1), [0; 5]));
    assert_eq!(mended([0, 3, 0, 0, 0, 0, 9]), (Ok(2), [0; 7]));
    assert_eq!(read([0, 4, 0, 0, 0, 0, 24]), (Ok(1), [5, 0, 0, 0, 0]));
    assert_eq!(mended([0, 4, 0, 0, 0, 0, 24]), (Ok(2), [0, 5, 0, 0, 0, 0, 0]));
    for (field, number) in [([0, 3, 0, 0, 0, 0, 25], 12), ([24, 0, 0, 0, 0, 0, 0], 6)] {
        assert_eq!(read(field), (Err(number), [255; 5]));
        assert_eq!(mended(field), (Err(number), field));
    }
}

/// Random encodings.
pub fn compare_encodings<C: Codec>(times: usize) {
    compare_many_of(shape_with_words, 24, times, "encode levels", &of_shape::<C>(&[1, 2, 3, 4, 12]), |random, shape, tally| {
        let digits = lent_digits(random, shape);
        let planned = shape.plan().map_or(20, |plan| plan.cells);
        let n = length(random, planned);
        let field = random.bytes(n);
        compare_encode::<C>(shape, &digits, &field, tally);
    });
}

/// Random decodings.
pub fn compare_decodings<C: Codec>(times: usize) {
    compare_many_of(
        shape_with_words,
        25,
        times,
        "decode levels",
        &of_shape::<C>(&[1, 2, 3, 4, 6, 12]),
        |random, shape, tally| {
            let (digits, field) = (lent_digits(random, shape), lent_field(random, shape));
            compare_decode::<C>(shape, &digits, &field, tally);
        },
    );
}

/// Random corrections.
pub fn compare_corrections<C: Codec>(times: usize) {
    compare_many_of(shape_with_words, 26, times, "correct levels", &of_shape::<C>(&[1, 2, 4, 6, 12]), |random, shape, tally| {
        let field = lent_field(random, shape);
        compare_correct::<C>(shape, &field, tally);
    });
}

/// A field with a hole, other damage, and lengths that may be refused: written, read and corrected.
fn compare_some<C: Codec>(random: &mut Random, shape: &Numbers, [encoded, decoded, corrected]: &mut [Tally; 3]) {
    let plan = shape.plan().unwrap();
    let (digits, before) = (levels(random, plan.digits), random.bytes(plan.cells));
    compare_encode::<C>(shape, &digits, &before, encoded);
    let mut field = reference::field_of_digits(shape, &digits);
    let cells = hole(random, shape);
    change(random, &mut field, &cells);
    compare_decode::<C>(shape, &random.bytes(plan.digits), &field, decoded);
    compare_correct::<C>(shape, &field, corrected);
    let (digits, field) = (lent_digits(random, shape), lent_field(random, shape));
    compare_encode::<C>(shape, &digits, &field, encoded);
    compare_decode::<C>(shape, &digits, &field, decoded);
    compare_correct::<C>(shape, &field, corrected);
}

/// The largest shapes, among them those of the longest classes.
pub fn compare_large<C: Codec>() {
    let mut random = outside::random(27);
    let mut tallies = [(); 3].map(|()| Tally::default());
    let long = [(256, 256, 1, 1), (256, 256, 1, 2), (256, 16, 16, 1), (16, 256, 16, 2), (17, 241, 15, 3)];
    let long = long.map(|(w, h, d, t)| Numbers::of_strength(w, h, d, t));
    for shape in large_shapes(C::WINDOWS).into_iter().chain(long) {
        compare_some::<C>(&mut random, &shape, &mut tallies);
    }
}

/// Shapes at the edges of the classes.
pub fn compare_edges<C: Codec>(rounds: usize) {
    let mut random = outside::random(28);
    let mut tallies = [(); 3].map(|()| Tally::default());
    let ruled = if C::WINDOWS { edges::window_shapes() } else { Vec::new() };
    for shape in edges::edge_shapes().into_iter().chain(ruled) {
        for _ in 0..outside::rounds(rounds) {
            compare_some::<C>(&mut random, &shape, &mut tallies);
        }
    }
    let [encoded, decoded, corrected] = tallies;
    encoded.assert_numbers("encode levels at the edges", &[3, 4, 12]);
    decoded.assert_numbers("decode levels at the edges", &[3, 4, 6, 12]);
    corrected.assert_numbers("correct levels at the edges", &[4, 6, 12]);
}

/// Shapes near the limits of windows, with lengths that are the plan's and lengths that are not.
pub fn compare_near_the_limits<C: Codec>() {
    let mut random = outside::random(29);
    let [mut encoded, mut decoded, mut corrected] = [(); 3].map(|()| Tally::default());
    for shape in windows::shapes_near_the_limits() {
        let planned = shape.plan().map_or((5, 7), |plan| (plan.digits, plan.cells));
        for (digits, cells) in [planned, (planned.0 + 1, planned.1), (planned.0, planned.1 + 1), (0, 0)] {
            let (digits, field) = (levels(&mut random, digits), levels(&mut random, cells));
            compare_encode::<C>(&shape, &digits, &field, &mut encoded);
            compare_decode::<C>(&shape, &digits, &field, &mut decoded);
            compare_correct::<C>(&shape, &field, &mut corrected);
        }
    }
    for (operation, tally) in [("encode", &encoded), ("decode", &decoded), ("correct", &corrected)] {
        println!("{operation} levels near the limits: {:?}", tally.numbers);
        assert!([1, 2, 11].iter().all(|&number| tally.numbers[number] >= 1000) && tally.numbers[4] >= 50, "{operation}");
    }
    assert!(encoded.numbers[0] >= 50 && encoded.numbers[3] >= 50 && decoded.numbers[3] >= 50);
}

/// Every length near the plan's of small shapes, the payload's and the field's, whole and with bytes that are no levels.
pub fn compare_lengths<C: Codec>() {
    let mut random = outside::random(30);
    let [mut encoded, mut decoded, mut corrected] = [(); 3].map(|()| Tally::default());
    for cut in small_shapes::<C>() {
        let near = |n: usize| [n, n + 1, n.saturating_sub(1), n + 5, n + 6, 0, 2 * n];
        for (digits, cells) in near(cut.data.len()).into_iter().flat_map(|n| near(cut.cells()).map(|cells| (n, cells))) {
            for last in [0, MAX_LEVEL, 25, 255] {
                let end = |mut bytes: Vec<u8>| {
                    bytes.iter_mut().last().into_iter().for_each(|byte| *byte = last);
                    bytes
                };
                let (digits, field) = (end(levels(&mut random, digits)), end(levels(&mut random, cells)));
                compare_encode::<C>(&cut.shape, &digits, &field, &mut encoded);
                compare_decode::<C>(&cut.shape, &digits, &field, &mut decoded);
                compare_correct::<C>(&cut.shape, &field, &mut corrected);
            }
        }
    }
    let came = |tally: &Tally| (0..tally.numbers.len()).filter(|&number| tally.numbers[number] > 0).collect::<Vec<usize>>();
    assert_eq!(came(&encoded), [0, 3, 4, 12]);
    assert_eq!(came(&decoded), [0, 3, 4, 6, 12]);
    assert_eq!(came(&corrected), [0, 4, 6, 12]);
}
