//! Windows: shapes that they rule, damage inside one of them, also where it hangs over the field's edge, and what must come of it.

use super::clusters::{any_place, bytes_of, grown, joined, Place};
use super::damage::{assert_undone, erased, flipped, written, written_now_and_before};
use super::*;
use std::collections::BTreeSet;

/// Sides of a window near the limits, and such that a product of two would not fit, or would leave 0 or 1 where it is cut.
pub const SIDES: [usize; 17] = [0, 1, 2, 3, 22, 23, 24, 170, 171, 256, 257, 511, 512, 513, 1 << 32, 1 << 63, usize::MAX];

/// A shape that a window rules: a small window mostly, sometimes a square, long or large one.
pub fn ruled_shape(random: &mut Random) -> Numbers {
    let (w, h) = sides(random);
    let (p, q) = match random.below(12) {
        0 => (random.from(1, 22), random.from(1, 22)),
        1 => {
            let p = random.from(1, 512);
            (p, random.from(1, 512 / p))
        }
        2 => random.pick(&[(1, 511), (511, 1), (1, 512), (512, 1), (2, 256), (256, 2), (22, 23), (23, 22), (16, 32)]),
        _ => (random.from(1, 5), random.from(1, 5)),
    };
    Numbers::of_window(w, h, p, q)
}

/// Gives a shape another window, strength or number of planes, most often such that it is refused.
pub fn change_window(random: &mut Random, shape: &mut Numbers) {
    let (one, other) = (random.pick(&SIDES), random.pick(&SIDES));
    match random.below(8) {
        0 => shape.p = one,
        1 => shape.q = one,
        2 => (shape.p, shape.q) = (one, other),
        3 => (shape.t, shape.p, shape.q) = (0, one, other),
        4 => (shape.t, shape.p, shape.q) = (0, 0, 0),
        5 => shape.t = random.below(34),
        6 => shape.d = random.from(1, 5),
        _ => (shape.d, shape.t, shape.p, shape.q) = (random.from(2, 5), 0, random.below(4), random.below(4)),
    }
}

/// The row and the column where a window begins; each may lie before the field's first.
type Corner = (isize, isize);

/// Where a window can begin so that it has a cell of the field.
fn corners(shape: &Numbers) -> impl Iterator<Item = Corner> {
    let (w, h, p, q) = (shape.w as isize, shape.h as isize, shape.p as isize, shape.q as isize);
    (1 - p..h).flat_map(move |row| (1 - q..w).map(move |column| (row, column)))
}

/// Such a place by chance.
fn any_corner(random: &mut Random, shape: &Numbers) -> Corner {
    let first = |random: &mut Random, side: usize, length: usize| random.below(length + side - 1) as isize + 1 - side as isize;
    (first(random, shape.p, shape.h), first(random, shape.q, shape.w))
}

/// The cells of the field in the window that begins there, as bytes.
fn cells_of(shape: &Numbers, (row, column): Corner) -> Vec<usize> {
    let part = |first: isize, side: usize, length: usize| first.max(0) as usize..length.min((first + side as isize) as usize);
    let columns = part(column, shape.q, shape.w);
    part(row, shape.p, shape.h).flat_map(|row| columns.clone().map(move |column| row * shape.w + column)).collect()
}

/// The cells of some window.
pub fn any_window(random: &mut Random, shape: &Numbers) -> Vec<usize> {
    let corner = any_corner(random, shape);
    cells_of(shape, corner)
}

/// Does the window that begins there hang over the field's first row, its last, its first column, its last?
fn hangs_over(shape: &Numbers, (row, column): Corner) -> [bool; 4] {
    let past = |first: isize, side: usize, length: usize| first + side as isize > length as isize;
    [row < 0, past(row, shape.p, shape.h), column < 0, past(column, shape.q, shape.w)]
}

/// Any cells of any one window are undone, and counted: windows inside the field and over each of its edges.
pub fn undo_windows<C: Codec>(times: usize) {
    let mut random = outside::random(16);
    let (mut inside, mut over) = (0, [0; 4]);
    for _ in 0..outside::rounds(times) {
        let shape = ruled_shape(&mut random);
        let (payload, field) = written::<C>(&mut random, &shape);
        let corner = any_corner(&mut random, &shape);
        let cells = some_of(&mut random, &cells_of(&shape, corner));
        assert_undone::<C>(&mut random, &shape, &payload, &field, &flipped(&field, &cells));
        let hangs = hangs_over(&shape, corner);
        inside += usize::from(hangs == [false; 4]);
        for (over, hangs) in over.iter_mut().zip(hangs) {
            *over += usize::from(hangs);
        }
    }
    println!("windows: {inside} inside, {over:?} over the first and last row and column");
    assert!(inside >= 100 && over.iter().all(|&times| times >= 100) || outside::fewer());
}

/// Any erased cells of any two windows are filled, and counted once.
pub fn fill_two_windows<C: Codec>(times: usize) {
    let mut random = outside::random(17);
    let (mut apart, mut overlapping) = (0, 0);
    for _ in 0..outside::rounds(times) {
        let shape = ruled_shape(&mut random);
        let (payload, field) = written::<C>(&mut random, &shape);
        let (one, other) = (any_window(&mut random, &shape), any_window(&mut random, &shape));
        if one.iter().any(|cell| other.contains(cell)) {
            overlapping += 1;
        } else {
            apart += 1;
        }
        let cells = some_of(&mut random, &[one, other].concat());
        assert_undone::<C>(&mut random, &shape, &payload, &field, &erased(&field, &cells));
    }
    println!("two windows: {apart} apart, {overlapping} overlapping");
    assert!(apart >= 100 && overlapping >= 100 || outside::fewer());
}

/// A patch of at most t cells that touch by sides or corners is undone by a window of t by t, for each t up to 22.
pub fn undo_patches<C: Codec>(times: usize) {
    let mut random = outside::random(18);
    let mut torn = 0;
    for round in 0..outside::rounds(times) {
        let t = round % 22 + 1;
        let (w, h) = (random.from(1, 30), random.from(1, 30));
        let shape = Numbers::of_window(w, h, t, t);
        let (payload, field) = written::<C>(&mut random, &shape);
        let start = any_place(&mut random, &shape);
        let patch = grown(&mut random, &shape, start, t, &[]);
        torn += usize::from(!is_cluster(&shape, &patch));
        let cells = some_of(&mut random, &bytes_of(&shape, &patch));
        assert_undone::<C>(&mut random, &shape, &payload, &field, &flipped(&field, &cells));
    }
    println!("patches: {torn} are no cluster");
    assert!(torn >= 100 || outside::fewer());
}

/// Are the cells one cluster, joined by sides alone?
fn is_cluster(shape: &Numbers, cells: &[Place]) -> bool {
    let sides_alone = Numbers { t: 1, ..*shape };
    let mut found = vec![cells[0]];
    let mut next = 0;
    while next < found.len() {
        let around = joined(&sides_alone, found[next]);
        let new: Vec<Place> = around.into_iter().filter(|place| cells.contains(place) && !found.contains(place)).collect();
        found.extend(new);
        next += 1;
    }
    found.len() == cells.len()
}

/// Fields of at most so many columns and rows, each with windows of at most so many rows and columns, larger than the field too.
fn small_shapes(side: usize, window: usize) -> Vec<Numbers> {
    let pairs = |most: usize| (1..=most).flat_map(move |one| (1..=most).map(move |other| (one, other)));
    pairs(side).flat_map(|(w, h)| pairs(window).map(move |(p, q)| Numbers::of_window(w, h, p, q))).collect()
}

/// Every set of cells inside one window, wherever it lies, flipped or erased, comes back: in every small field, and in some others.
pub fn undo_every_set<C: Codec>(side: usize, window: usize, others: &[(usize, usize, usize, usize)]) {
    let mut random = outside::random(19);
    let mut sets = 0;
    let others = others.iter().map(|&(w, h, p, q)| Numbers::of_window(w, h, p, q));
    for shape in small_shapes(side, window).into_iter().chain(others) {
        let (payload, fields) = written_now_and_before::<C>(&mut random, &shape);
        for corner in corners(&shape) {
            let cells = cells_of(&shape, corner);
            for set in 0..1usize << cells.len() {
                let chosen: Vec<usize> = (0..cells.len()).filter(|i| set >> i & 1 == 1).map(|i| cells[i]).collect();
                for field in &fields {
                    assert_undone::<C>(&mut random, &shape, &payload, field, &flipped(field, &chosen));
                    assert_undone::<C>(&mut random, &shape, &payload, field, &erased(field, &chosen));
                }
                sets += 1;
            }
        }
    }
    println!("{sets} sets of cells in one window");
}

/// Every two windows, wherever they lie, with all their cells erased, are filled: in every small field.
pub fn fill_every_two<C: Codec>(side: usize, window: usize) {
    let mut random = outside::random(20);
    for shape in small_shapes(side, window) {
        let (payload, fields) = written_now_and_before::<C>(&mut random, &shape);
        for (one, other) in corners(&shape).flat_map(|one| corners(&shape).map(move |other| (one, other))) {
            let cells = [cells_of(&shape, one), cells_of(&shape, other)].concat();
            for field in &fields {
                assert_undone::<C>(&mut random, &shape, &payload, field, &erased(field, &cells));
            }
        }
    }
}

/// Every patch of at most t cells of a field that touch by sides or corners, as sets of places.
fn every_patch(shape: &Numbers, t: usize) -> BTreeSet<BTreeSet<Place>> {
    let all = (0..shape.h).flat_map(|row| (0..shape.w).map(move |column| (row, 0, column)));
    let mut last: BTreeSet<BTreeSet<Place>> = all.map(|place| BTreeSet::from([place])).collect();
    let mut patches = last.clone();
    for _ in 1..t {
        let mut larger = BTreeSet::new();
        for patch in &last {
            for place in patch.iter().flat_map(|&place| joined(shape, place)).filter(|place| !patch.contains(place)) {
                let mut grown = patch.clone();
                grown.insert(place);
                larger.insert(grown);
            }
        }
        patches.extend(larger.iter().cloned());
        last = larger;
    }
    patches
}

/// Every patch of at most t cells that touch by sides or corners is undone by a window of t by t, for each small t.
pub fn undo_every_patch<C: Codec>(side: usize, most: usize) {
    let mut random = outside::random(21);
    for t in 1..=most {
        let shape = Numbers::of_window(side, side, t, t);
        let (payload, fields) = written_now_and_before::<C>(&mut random, &shape);
        let patches = every_patch(&shape, t);
        println!("{} patches of at most {t} cells", patches.len());
        for patch in patches {
            let cells = bytes_of(&shape, &Vec::from_iter(patch));
            for field in &fields {
                assert_undone::<C>(&mut random, &shape, &payload, field, &flipped(field, &cells));
            }
        }
    }
}

/// Every pair of sides near the limits, at strengths that have a window, have none or are refused, in one plane and in two, and in
/// fields that are refused.
pub fn shapes_near_the_limits() -> Vec<Numbers> {
    let mut shapes = Vec::new();
    for (w, h, d) in [(5, 9, 1), (5, 4, 2), (257, 1, 1), (5, 0, 2)] {
        for t in [0, 1, 3, 8, 9, 32, 33, usize::MAX] {
            for p in SIDES {
                shapes.extend(SIDES.map(|q| Numbers { w, h, d, t, p, q }));
            }
        }
    }
    shapes
}

/// Each of these shapes, with lengths that are the plan's and lengths that are not.
pub fn compare_near_the_limits<C: Codec>() {
    let mut random = outside::random(22);
    let [mut encoded, mut decoded, mut corrected] = [(); 3].map(|()| Tally::default());
    for shape in shapes_near_the_limits() {
        let planned = shape.plan().map_or((1, 7), |plan| (plan.bytes, plan.cells));
        for (bytes, cells) in [planned, (planned.0 + 1, planned.1), (planned.0, planned.1 + 1), (0, 0)] {
            let (payload, field) = (random.bytes(bytes), random.bits(cells));
            compare_encode::<C>(&shape, &payload, &field, &mut encoded);
            compare_decode::<C>(&shape, &payload, &field, &mut decoded);
            compare_correct::<C>(&shape, &field, &mut corrected);
        }
    }
    for (operation, tally) in [("encode", &encoded), ("decode", &decoded), ("correct", &corrected)] {
        println!("{operation} near the limits: {:?}", tally.numbers);
        assert!([1, 2, 11].iter().all(|&number| tally.numbers[number] >= 1000) && tally.numbers[4] >= 50, "{operation}");
    }
    assert!(encoded.numbers[0] >= 50 && encoded.numbers[3] >= 50 && decoded.numbers[3] >= 50);
}
