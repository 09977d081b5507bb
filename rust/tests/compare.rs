//! The proved library against the reference implementation: every operation, 200,000 times each where `VARMINTFOIL_ROUNDS` does not say
//! otherwise, numbers, figures and the final bytes of every buffer.

mod common;

use common::archive::{answered, counted, decoded, numbers, shape_of};
use common::*;
use varmintfoil::{ffi, Distance, Refusal, Shape, Window};

/// How often each operation is compared.
const TIMES: usize = 200_000;

/// The C interface, with its figures of a refusal tested.
struct Proved;

impl Codec for Proved {
    type Reference = Reference;

    fn encode(s: &Numbers, payload: &[u8], field: &mut [u8]) -> Result<(), usize> {
        answered(ffi::encode(numbers(s), payload, field))
    }

    fn decode(s: &Numbers, payload: &mut [u8], field: &[u8]) -> Result<usize, usize> {
        counted(ffi::decode(numbers(s), payload, field))
    }

    fn correct(s: &Numbers, field: &mut [u8]) -> Result<usize, usize> {
        counted(ffi::correct(numbers(s), field))
    }
}

/// The safe wrapper; a shape that it refuses has no further operation.
struct Wrapper;

impl Codec for Wrapper {
    type Reference = Reference;

    fn encode(s: &Numbers, payload: &[u8], field: &mut [u8]) -> Result<(), usize> {
        let shape = shape_of(s)?;
        let answer = varmintfoil::encode_into(&shape, payload, field);
        let owned = varmintfoil::encode(&shape, payload);
        match answer {
            Ok(()) => assert_eq!(owned.as_deref(), Ok(&*field)),
            Err(Refusal::PayloadLength) => assert_eq!(owned, Err(Refusal::PayloadLength)),
            Err(_) => assert!(owned.is_ok()),
        }
        answer.map_err(Refusal::number)
    }

    fn decode(s: &Numbers, payload: &mut [u8], field: &[u8]) -> Result<usize, usize> {
        let shape = shape_of(s)?;
        let answer = varmintfoil::decode_into(&shape, field, payload);
        decoded(answer, varmintfoil::decode(&shape, field), payload)
    }

    fn correct(s: &Numbers, field: &mut [u8]) -> Result<usize, usize> {
        varmintfoil::correct(&shape_of(s)?, field).map_err(Refusal::number)
    }
}

/// The plan of a shape by the archive and by the wrapper is the reference's, which is given.
fn compare_plan(shape: &Numbers) -> Result<reference::Plan, usize> {
    let answer = shape.plan();
    let p = ffi::plan(numbers(shape));
    let expected = match answer {
        Ok(plan) => [0, plan.classes, plan.capacity, plan.bytes, plan.cells, plan.used, plan.digits],
        Err(number) => [number, 0, 0, 0, 0, 0, 0],
    };
    let actual = [p.number, p.classes, p.capacity, p.bytes, p.cells, p.used, p.digits];
    assert_eq!(actual, expected, "{shape:?}");
    let figures = |s: &Shape| [s.classes(), s.capacity(), s.payload_bytes(), s.cells(), s.used_classes(), s.payload_digits()];
    let wrapped = shape_of(shape).map(|s| figures(&s));
    assert_eq!(wrapped.as_ref().map(|figures| &figures[..]), answer.as_ref().map(|_| &expected[1..]), "{shape:?}");
    answer
}

#[test]
fn plans() {
    let mut random = outside::random(1);
    let mut tally = Tally::default();
    let listed = [large_shapes(true), edges::edge_shapes(), edges::window_shapes(), windows::shapes_near_the_limits()].concat();
    for round in 0..outside::rounds(TIMES) {
        let shape = if round < listed.len() { listed[round] } else { any_shape(&mut random, true) };
        let answer = compare_plan(&shape);
        if let Ok(s) = shape_of(&shape) {
            let Window { rows: p, columns: q } = s.window();
            assert_eq!(Numbers { w: s.columns(), h: s.rows(), d: s.planes(), t: s.strength(), p, q }, shape);
        }
        tally.note(&shape, number_of(&answer));
    }
    tally.assert_numbers("plan", &[1, 2, 11]);
    tally.assert_stacks("plan");
}

/// Every flat shape up to 12 by 12 at every strength, stacks of 1 to 6 columns, 1 to 5 rows and 2 to 5 planes at every strength, and
/// every window of up to 7 rows by 8 columns, and four of 506 or 512 cells, on every field of up to 9 by 9.
fn small_shapes() -> Vec<Numbers> {
    let flat = (1..=12).flat_map(|w| (1..=12).flat_map(move |h| (1..=32).map(move |t| Numbers::of_strength(w, h, 1, t))));
    let stacks = (1..=6).flat_map(|w| (1..=5).flat_map(move |h| (2..=5).map(move |d| (w, h, d))));
    let stacks = stacks.flat_map(|(w, h, d)| (1..=8).map(move |t| Numbers::of_strength(w, h, d, t)));
    let windows = (1..=7).flat_map(|p| (1..=8).map(move |q| (p, q))).chain([(512, 1), (1, 512), (16, 32), (22, 23)]);
    let ruled = windows.flat_map(|(p, q)| (1..=9).flat_map(move |w| (1..=9).map(move |h| Numbers::of_window(w, h, p, q))));
    flat.chain(stacks).chain(ruled).collect()
}

/// The plans of small fields, where some classes hold no cell. Where both sides of a flat field are at least its strength, or those of
/// its window, all of them do.
#[test]
fn plans_of_small_fields() {
    let shapes = small_shapes();
    let (mut narrow, mut wordless) = (0, 0);
    for shape in &shapes {
        let plan = compare_plan(shape).unwrap();
        let (rows, columns) = if shape.is_ruled() { (shape.p, shape.q) } else { (shape.t, shape.t) };
        if shape.d == 1 && rows <= shape.h && columns <= shape.w {
            assert_eq!(plan.used, plan.classes, "{shape:?}");
        }
        assert!(plan.used <= plan.classes.min(plan.cells), "{shape:?}");
        // Of each class that holds a cell at most five cells are left over.
        assert!(plan.digits / 5 * 6 <= plan.cells && plan.cells <= plan.digits / 5 * 6 + 5 * plan.used, "{shape:?}");
        narrow += usize::from(plan.used < plan.classes);
        wordless += usize::from(plan.digits == 0);
    }
    assert_eq!((shapes.len(), narrow), (10_428, 7_062), "all shapes, and those with a class that holds no cell");
    assert_eq!(wordless, 8_467, "those with no word of six cells");
}

#[test]
fn classes_of_cells() {
    compare_many(2, TIMES, "class", &[1, 2, 4, 11], |random, shape, tally| {
        let side = |random: &mut Random, n: usize| match random.below(8) {
            0 => refused_number(random, n),
            1 => n,
            _ => random.below(n.clamp(1, 256)),
        };
        let (row, plane, column) = (side(random, shape.h), side(random, shape.d), side(random, shape.w));
        let answer = reference::class_of(shape, row, plane, column);
        let actual = ffi::class_of(numbers(shape), row, plane, column);
        let expected = (number_of(&answer), answer.unwrap_or(0));
        assert_eq!((actual.number, actual.class_index), expected, "{shape:?} {row} {plane} {column}");
        if let Ok(s) = shape_of(shape) {
            let wrapped = varmintfoil::class_of(&s, row, plane, column);
            assert_eq!(wrapped, answer.map_err(|_| Refusal::OutsideShape), "{shape:?} {row} {plane} {column}");
            assert_eq!(s.cell(row, plane, column).is_ok(), answer.is_ok());
        }
        tally.note(shape, number_of(&answer));
    });
}

#[test]
fn encodings() {
    compare_encodings::<Proved>(TIMES);
}

#[test]
fn decodings() {
    compare_decodings::<Proved>(TIMES);
}

#[test]
fn corrections() {
    compare_corrections::<Proved>(TIMES);
}

#[test]
fn the_wrapper() {
    compare_encodings::<Wrapper>(TIMES / 10);
    compare_decodings::<Wrapper>(TIMES / 10);
    compare_corrections::<Wrapper>(TIMES / 10);
}

#[test]
fn large_fields() {
    compare_large::<Proved>();
}

#[test]
fn long_classes() {
    compare_long_classes::<Proved>();
}

#[test]
fn edges_of_the_classes() {
    edges::compare_edges::<Proved>(2);
}

#[test]
fn every_padding() {
    padding::try_every_value::<Proved>();
}

#[test]
fn clusters_are_undone() {
    undo_clusters::<Proved>(TIMES);
}

#[test]
fn two_clusters_are_filled() {
    erasures::fill_two_clusters::<Proved>(TIMES);
}

#[test]
fn erased_cells_of_a_class() {
    erasures::erase_classes::<Proved>(TIMES / 4);
}

#[test]
fn erased_padding() {
    erasures::erase_padding::<Proved>(TIMES / 4);
}

#[test]
fn erased_cells_beside_a_flip() {
    erasures::erase_beside_a_flip::<Proved>(TIMES / 4);
}

#[test]
fn classes_near_the_limits_of_windows() {
    let mut tally = Tally::default();
    for shape in windows::shapes_near_the_limits() {
        for (row, plane, column) in [(0, 0, 0), (8, 0, 4), (3, 1, 4), (9, 0, 0), (usize::MAX, 0, 0)] {
            let answer = reference::class_of(&shape, row, plane, column);
            let actual = ffi::class_of(numbers(&shape), row, plane, column);
            let expected = (number_of(&answer), answer.unwrap_or(0));
            assert_eq!((actual.number, actual.class_index), expected, "{shape:?} {row} {plane} {column}");
            tally.note(&shape, expected.0);
        }
    }
    tally.assert_numbers("class near the limits", &[1, 2, 4, 11]);
}

#[test]
fn windows_near_the_limits() {
    windows::compare_near_the_limits::<Proved>();
    windows::compare_near_the_limits::<Wrapper>();
}

#[test]
fn windows_are_undone() {
    windows::undo_windows::<Proved>(TIMES);
}

#[test]
fn two_windows_are_filled() {
    windows::fill_two_windows::<Proved>(TIMES / 2);
}

#[test]
fn patches_are_undone() {
    windows::undo_patches::<Proved>(TIMES / 4);
}

#[test]
fn every_set_in_a_window() {
    windows::undo_every_set::<Proved>(5, 3, &[(9, 9, 3, 3), (8, 11, 2, 5), (11, 8, 5, 2), (40, 1, 1, 9), (1, 40, 9, 1)]);
}

#[test]
fn every_two_windows() {
    windows::fill_every_two::<Proved>(5, 4);
}

#[test]
fn every_patch() {
    windows::undo_every_patch::<Proved>(8, 5);
}

#[test]
fn distance_tests() {
    let mut random = outside::random(9);
    let mut numbers = [0usize; 10];
    let mut holds = 0;
    let rounds = outside::rounds(TIMES);
    for _ in 0..rounds {
        let t = match random.below(8) {
            0 => random.pick(&[0, 19, 256 + 3, 65_537, (1 << 32) + 3, usize::MAX]),
            1 => random.from(1, 18),
            _ => random.from(1, 7),
        };
        let m = match random.below(10) {
            0 => random.pick(&[0, 4097, 65_536 + 7, (1 << 32) + 7, usize::MAX]),
            1 => random.pick(&[1, 2, 4095, 4096]),
            2..=4 => random.from(1, 4096),
            _ => random.from(1, 100),
        };
        let below = |random: &mut Random| match random.below(12) {
            0 => m,
            1 => random.pick(&[(1 << 32) + 1, 65_536, usize::MAX, m.saturating_add(1)]),
            _ => random.below(m.clamp(1, 5000)),
        };
        let (b, c) = (below(&mut random), below(&mut random));
        compare_distance(m, b, c, t, &mut numbers, &mut holds);
    }
    // The settings of the stacks, each at its own strength and at all others; settings that hold at every strength.
    for (m, b, c) in
        [(1, 0, 0), (2, 1, 1), (7, 2, 3), (12, 3, 5), (27, 4, 10), (38, 7, 11), (70, 16, 25), (92, 9, 39), (4093, 550, 2331)]
    {
        for t in 0..=19 {
            compare_distance(m, b, c, t, &mut numbers, &mut holds);
        }
    }
    println!("distance test: {numbers:?}, {holds} hold");
    let often = holds >= 1000 && numbers[0] >= holds + 1000 && numbers[2] >= 1000 && numbers[9] >= 1000;
    assert!(often || outside::fewer());
    assert_eq!(numbers[0] + numbers[2] + numbers[9], rounds + 9 * 20);
}

/// The number, the verdict, the triple and the number of triples tried.
type DistanceFigures = (usize, usize, [i32; 3], usize);

fn compare_distance(m: usize, b: usize, c: usize, t: usize, numbers: &mut [usize; 10], holds: &mut usize) {
    let refused = |number: usize| -> DistanceFigures { (number, 0, [0, 0, 0], 0) };
    let expected = match reference::distance_test(m, b, c, t) {
        Ok(d) => (0, usize::from(d.holds), [d.row, d.plane, d.column], d.tried),
        Err(number) => refused(number),
    };
    let d = ffi::distance_test(m, b, c, t);
    let actual = (d.number, d.holds, [d.row, d.plane, d.column], d.tried);
    assert_eq!(actual, expected, "m {m}, b {b}, c {c}, t {t}");
    let wrapped = match varmintfoil::distance_test(m, b, c, t) {
        Ok(Distance::Holds { tried, .. }) => (0, 1, [0, 0, 0], tried),
        Ok(Distance::Fails { row, plane, column, tried, .. }) => (0, 0, [row, plane, column], tried),
        Ok(other) => panic!("an unlisted verdict: {other:?}"),
        Err(refusal) => refused(refusal.number()),
    };
    assert_eq!(wrapped, expected, "m {m}, b {b}, c {c}, t {t}");
    numbers[expected.0] += 1;
    *holds += expected.1;
}
