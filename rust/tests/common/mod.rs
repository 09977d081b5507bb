//! Random inputs for the comparisons, and the comparisons themselves.

#![allow(dead_code)]

#[cfg(feature = "archive")]
pub mod archive;
pub mod clusters;
pub mod damage;
pub mod edges;
pub mod erasures;
pub mod faults;
pub mod guards;
pub mod levels;
pub mod outside;
pub mod padding;
pub mod random;
#[path = "../../others/reference.rs"]
pub mod reference;
pub mod windows;
pub mod words;

pub use clusters::{cluster, damaged_cells, hole, some_of};
pub use random::Random;
pub use reference::Shape as Numbers;

impl Numbers {
    /// Does a window rule?
    pub fn is_ruled(&self) -> bool {
        self.t == 0
    }

    /// The most cells of a cluster that is undone: the strength or, where a window rules, its smaller side.
    pub fn extent(&self) -> usize {
        if self.is_ruled() {
            self.p.min(self.q)
        } else {
            self.t
        }
    }

    /// A stack whose three sides all differ.
    pub fn uneven_stack(&self) -> bool {
        self.d > 1 && self.w != self.h && self.h != self.d && self.w != self.d
    }

    pub fn plan(&self) -> Result<reference::Plan, usize> {
        reference::plan(self)
    }
}

/// The columns and rows of a field: few mostly, sometimes many of one or middling.
pub fn sides(random: &mut Random) -> (usize, usize) {
    match random.below(300) {
        0 => (random.from(1, 64), random.from(1, 64)),
        1 => (random.from(1, 256), random.from(1, 3)),
        2 => (random.from(1, 3), random.from(1, 256)),
        3..=99 => (random.from(1, 16), random.from(1, 16)),
        _ => (random.from(1, 7), random.from(1, 7)),
    }
}

/// A shape within the limits; where windows are wanted, once in four one that a window rules.
pub fn lawful_shape(random: &mut Random, windows: bool) -> Numbers {
    if windows && random.once_in(4) {
        return windows::ruled_shape(random);
    }
    let flat = random.once_in(2);
    let (w, h) = sides(random);
    let d = if flat {
        1
    } else if random.once_in(20) {
        random.from(2, 16)
    } else {
        random.from(2, 5)
    };
    let t = if !flat {
        random.from(1, 8)
    } else if random.once_in(3) {
        random.from(1, 32)
    } else {
        random.from(1, 6)
    };
    Numbers::of_strength(w, h, d, t)
}

/// A number that no limit takes, among them those that a narrower type would take for `n`.
pub fn refused_number(random: &mut Random, n: usize) -> usize {
    let huge = [
        65_537,
        65_536 + n,
        256 + n,
        (1 << 32) + 1,
        (1 << 32) + n,
        1 << 32,
        1 << 63,
        usize::MAX,
        usize::MAX - n + 1,
        n.wrapping_neg(),
    ];
    if random.once_in(2) {
        random.pick(&huge)
    } else {
        random.pick(&[0, 9, 17, 33, 257, 300])
    }
}

/// A shape, once in four with one or more numbers outside the limits; where windows are wanted, now and then with another window.
pub fn any_shape(random: &mut Random, windows: bool) -> Numbers {
    let mut shape = lawful_shape(random, windows);
    if windows && random.once_in(8) {
        windows::change_window(random, &mut shape);
    }
    if random.once_in(4) {
        match random.below(8) {
            0 => shape.w = refused_number(random, shape.w),
            1 => shape.h = refused_number(random, shape.h),
            2 => shape.d = refused_number(random, shape.d),
            3 => (shape.w, shape.h, shape.d) = (256, random.from(129, 256), random.from(2, 16)),
            4 => {
                (shape.w, shape.h, shape.d) = random.pick(&[(1 << 32, 1 << 32, 1), (1 << 63, 2, 1), (usize::MAX, usize::MAX, 1)])
            }
            5 => (shape.w, shape.t) = (refused_number(random, shape.w), refused_number(random, shape.t)),
            _ => shape.t = refused_number(random, shape.t),
        }
    }
    shape
}

/// The largest shapes, flat and stacked, and the strengths to try there; where windows are wanted, those that they rule too.
pub fn large_shapes(windows: bool) -> Vec<Numbers> {
    let mut shapes = Vec::new();
    for t in [5, 8, 16, 31, 32] {
        shapes.push(Numbers::of_strength(256, 256, 1, t));
    }
    for t in 4..=8 {
        shapes.push(Numbers::of_strength(256, 16, 16, t));
    }
    for t in [5, 8] {
        shapes.push(Numbers::of_strength(17, 241, 15, t));
    }
    for t in [1, 2, 3, 32] {
        shapes.push(Numbers::of_strength(256, 1, 1, t));
        shapes.push(Numbers::of_strength(1, 256, 1, t));
    }
    if windows {
        for (p, q) in [(4, 4), (8, 8), (3, 17), (22, 22), (23, 22), (16, 32), (1, 512), (512, 1), (2, 256), (256, 2)] {
            shapes.push(Numbers::of_window(256, 256, p, q));
        }
    }
    shapes
}

/// A length, once in six not the plan's.
pub fn length(random: &mut Random, planned: usize) -> usize {
    if !random.once_in(6) {
        return planned;
    }
    let other = [planned + 1, planned.saturating_sub(1), 0, 1, planned + 8, planned * 2, planned / 2, random.below(40)];
    random.pick(&other)
}

/// A field with right padding mostly, sometimes with any, then damaged within or beyond the strength; or garbage. A byte of garbage, or
/// of a bad cell, may be that of an erased one.
fn damaged_field(random: &mut Random, shape: &Numbers) -> Vec<u8> {
    let plan = shape.plan().unwrap();
    let (payload, length) = (random.bytes(plan.bytes), plan.capacity % 8);
    let padding = if random.once_in(4) { random.bits(length) } else { padding::right(random, length) };
    let mut field = reference::field_with(shape, &payload, &padding);
    let flips = match random.below(12) {
        0 => Vec::new(),
        way @ 1..=9 => damaged_cells(random, shape, way),
        10 => {
            field = random.bits(plan.cells);
            Vec::new()
        }
        _ => {
            field = random.bytes(plan.cells);
            Vec::new()
        }
    };
    for cell in some_of(random, &flips) {
        field[cell] ^= 1;
    }
    if random.once_in(10) {
        let cell = random.below(plan.cells);
        field[cell] = random.pick(&[2, 3, 128, 254, 255]);
    }
    field
}

/// A field, damaged in any way; with erased cells, half the time, or with none.
pub fn any_field(random: &mut Random, shape: &Numbers, with_erasures: bool) -> Vec<u8> {
    let mut field = damaged_field(random, shape);
    if !with_erasures {
        for cell in field.iter_mut().filter(|cell| **cell == reference::ERASED) {
            *cell = 3;
        }
    } else if random.once_in(2) {
        erasures::erase_some(random, shape, &mut field);
    }
    field
}

/// A field of some length for a shape, within the limits or not.
pub fn lent_field<C: Codec>(random: &mut Random, shape: &Numbers) -> Vec<u8> {
    let Ok(plan) = shape.plan() else {
        let n = random.below(40);
        return random.bytes(n);
    };
    let mut field = any_field(random, shape, C::ERASURES);
    field.resize(length(random, plan.cells), 0);
    field
}

/// A payload of some length for a shape, within the limits or not.
pub fn lent_payload(random: &mut Random, shape: &Numbers) -> Vec<u8> {
    let planned = shape.plan().map_or(10, |plan| plan.bytes);
    let n = length(random, planned);
    random.bytes(n)
}

/// How often each number came up, and how often a stack of three different sides succeeded at each strength.
#[derive(Default)]
pub struct Tally {
    pub numbers: [usize; 13],
    pub uneven_stacks: [usize; 9],
}

impl Tally {
    pub fn note(&mut self, shape: &Numbers, number: usize) {
        self.numbers[number] += 1;
        if number == 0 && shape.uneven_stack() {
            self.uneven_stacks[shape.t] += 1;
        }
    }

    /// No number came up but those listed, and each of them often, where there were enough rounds.
    pub fn assert_numbers(&self, operation: &str, listed: &[usize]) {
        println!("{operation}: {:?}, uneven stacks {:?}", self.numbers, self.uneven_stacks);
        for (number, &times) in self.numbers.iter().enumerate() {
            if number == 0 || listed.contains(&number) {
                assert!(times >= 100 || outside::fewer(), "{operation} gave {number} only {times} times");
            } else {
                assert_eq!(times, 0, "{operation} gave {number}, which is not listed");
            }
        }
    }

    /// Stacks of three different sides succeeded at each of the eight strengths, where there were enough rounds.
    pub fn assert_stacks(&self, operation: &str) {
        for (t, &times) in self.uneven_stacks.iter().enumerate().skip(1) {
            assert!(times >= 100 || outside::fewer(), "{operation}: few stacks of three different sides at strength {t}");
        }
    }
}

/// The number of a result.
pub fn number_of<T>(result: &Result<T, usize>) -> usize {
    *result.as_ref().err().unwrap_or(&0)
}

/// The three operations on buffers of an implementation that is compared with the reference.
pub trait Codec {
    /// What it is compared with: the reference's three operations, or those on fields of levels.
    type Reference: Codec;
    /// Does it read erased cells? Else it is lent none.
    const ERASURES: bool = true;
    /// Does it know windows? Else no shape has one.
    const WINDOWS: bool = true;

    fn encode(shape: &Numbers, payload: &[u8], field: &mut [u8]) -> Result<(), usize>;
    fn decode(shape: &Numbers, payload: &mut [u8], field: &[u8]) -> Result<usize, usize>;
    fn correct(shape: &Numbers, field: &mut [u8]) -> Result<usize, usize>;
}

/// The numbers of refusals that an operation of an implementation gives for fields of accepted shapes: 10 where it reads erased cells,
/// and others.
pub fn of_field<C: Codec>(others: &[usize]) -> Vec<usize> {
    others.iter().copied().chain(C::ERASURES.then_some(10)).collect()
}

/// The numbers of refusals that an operation of an implementation gives: 11 where it knows windows, and others.
pub fn of_shape<C: Codec>(others: &[usize]) -> Vec<usize> {
    others.iter().copied().chain(C::WINDOWS.then_some(11)).collect()
}

/// Names an implementation whose three operations are functions of a module, and the reference for them; what is in brackets are their
/// first parameters, for the shape of a name. What it does not know follows.
#[allow(unused_macros)]
macro_rules! codec {
    (
        $name:ident like $reference:ident,
        $module:ident::{$encode:ident, $decode:ident, $correct:ident},
        $shape:ident => ($($number:expr),+) $(, no $unknown:ident)*
    ) => {
        pub struct $name;

        impl Codec for $name {
            type Reference = $reference;
            $(const $unknown: bool = false;)*

            fn encode($shape: &Numbers, payload: &[u8], field: &mut [u8]) -> Result<(), usize> {
                $module::$encode($($number),+, payload, field)
            }

            fn decode($shape: &Numbers, payload: &mut [u8], field: &[u8]) -> Result<usize, usize> {
                $module::$decode($($number),+, payload, field)
            }

            fn correct($shape: &Numbers, field: &mut [u8]) -> Result<usize, usize> {
                $module::$correct($($number),+, field)
            }
        }
    };
}
#[allow(unused_imports)]
pub(crate) use codec;

// The reference itself; the tests that compare with no other try it too.
codec!(Reference like Reference, reference::{encode, decode, correct}, s => (s));
codec!(ReferenceLevels like ReferenceLevels, reference::{encode_levels, decode_levels, correct_levels}, s => (s), no ERASURES);

/// One encoding, with all final bytes.
pub fn compare_encode<C: Codec>(shape: &Numbers, payload: &[u8], field: &[u8], tally: &mut Tally) {
    let mut expected = field.to_vec();
    let mut actual = field.to_vec();
    let answer = C::Reference::encode(shape, payload, &mut expected);
    assert_eq!(guards::encode::<C>(shape, payload, &mut actual), answer, "{shape:?} {payload:?} {field:?}");
    assert_eq!(actual, expected, "{shape:?} {payload:?} {field:?}");
    tally.note(shape, number_of(&answer));
}

/// One decoding, with all final bytes.
pub fn compare_decode<C: Codec>(shape: &Numbers, payload: &[u8], field: &[u8], tally: &mut Tally) {
    let mut expected = payload.to_vec();
    let mut actual = payload.to_vec();
    let answer = C::Reference::decode(shape, &mut expected, field);
    assert_eq!(guards::decode::<C>(shape, &mut actual, field), answer, "{shape:?} {payload:?} {field:?}");
    assert_eq!(actual, expected, "{shape:?} {payload:?} {field:?}");
    tally.note(shape, number_of(&answer));
}

/// One correction, with all final bytes.
pub fn compare_correct<C: Codec>(shape: &Numbers, field: &[u8], tally: &mut Tally) {
    let mut expected = field.to_vec();
    let mut actual = field.to_vec();
    let answer = C::Reference::correct(shape, &mut expected);
    assert_eq!(guards::correct::<C>(shape, &mut actual), answer, "{shape:?} {field:?}");
    assert_eq!(actual, expected, "{shape:?} {field:?}");
    tally.note(shape, number_of(&answer));
}

/// Random calls of one operation, each on a shape of its own; each listed number must come up, and no other. Where 11 is listed,
/// shapes have windows.
pub fn compare_many(
    test: u64,
    times: usize,
    operation: &str,
    listed: &[usize],
    compare: impl FnMut(&mut Random, &Numbers, &mut Tally),
) {
    compare_many_of(any_shape, test, times, operation, listed, compare);
}

/// Random calls of one operation, on shapes that are made in a given way.
pub fn compare_many_of(
    make: impl Fn(&mut Random, bool) -> Numbers,
    test: u64,
    times: usize,
    operation: &str,
    listed: &[usize],
    mut compare: impl FnMut(&mut Random, &Numbers, &mut Tally),
) {
    let mut random = outside::random(test);
    let mut tally = Tally::default();
    for _ in 0..outside::rounds(times) {
        let shape = make(&mut random, listed.contains(&11));
        compare(&mut random, &shape, &mut tally);
    }
    tally.assert_numbers(operation, listed);
    tally.assert_stacks(operation);
}

/// Random encodings.
pub fn compare_encodings<C: Codec>(times: usize) {
    compare_many(3, times, "encode", &of_shape::<C>(&[1, 2, 3, 4]), |random, shape, tally| {
        let payload = lent_payload(random, shape);
        let planned = shape.plan().map_or(20, |plan| plan.cells);
        let n = length(random, planned);
        let field = random.bytes(n);
        compare_encode::<C>(shape, &payload, &field, tally);
    });
}

/// Random decodings.
pub fn compare_decodings<C: Codec>(times: usize) {
    compare_many(4, times, "decode", &of_field::<C>(&of_shape::<C>(&[1, 2, 3, 4, 5, 6, 7])), |random, shape, tally| {
        let payload = lent_payload(random, shape);
        let field = lent_field::<C>(random, shape);
        compare_decode::<C>(shape, &payload, &field, tally);
    });
}

/// Random corrections.
pub fn compare_corrections<C: Codec>(times: usize) {
    compare_many(5, times, "correct", &of_field::<C>(&of_shape::<C>(&[1, 2, 4, 5, 6, 7])), |random, shape, tally| {
        let field = lent_field::<C>(random, shape);
        compare_correct::<C>(shape, &field, tally);
    });
}

/// The largest shapes: encoded, then decoded and corrected whole, damaged within the promise and beyond it, with other padding, and with
/// erased cells.
pub fn compare_large<C: Codec>() {
    let mut random = outside::random(6);
    let mut tally = Tally::default();
    for shape in large_shapes(C::WINDOWS) {
        let plan = shape.plan().unwrap();
        let payload = random.bytes(plan.bytes);
        let mut field = random.bytes(plan.cells);
        compare_encode::<C>(&shape, &payload, &field, &mut tally);
        guards::encode::<C>(&shape, &payload, &mut field).unwrap();
        let (hole, larger) = (hole(&mut random, &shape), cluster(&mut random, &shape, 3 * shape.extent()));
        for cells in [Vec::new(), hole, larger] {
            let damaged = damage::flipped(&field, &cells);
            let lent = random.bytes(plan.bytes);
            compare_decode::<C>(&shape, &lent, &damaged, &mut tally);
            compare_correct::<C>(&shape, &damaged, &mut tally);
        }
        padding::try_some_values::<C>(&mut random, &shape, &payload);
        if C::ERASURES {
            erasures::compare_erased::<C>(&mut random, &shape, &field, &mut tally);
        }
    }
}

/// The largest fields at low strengths, whose classes are long: one cell damaged, low in its class so that the reference's search ends
/// soon; and erased cells, of which the reference fills any two of a class soon.
pub fn compare_long_classes<C: Codec>() {
    let mut random = outside::random(7);
    let mut tally = Tally::default();
    let by_strength =
        [(256, 256, 1, 1), (256, 256, 1, 2), (256, 256, 1, 3), (256, 16, 16, 1), (16, 256, 16, 2), (17, 241, 15, 3)];
    let by_strength = by_strength.map(|(w, h, d, t)| Numbers::of_strength(w, h, d, t));
    let by_window = [(1, 1), (1, 2), (2, 1)].map(|(p, q)| Numbers::of_window(256, 256, p, q));
    for shape in by_strength.into_iter().chain(by_window.into_iter().filter(|_| C::WINDOWS)) {
        let plan = shape.plan().unwrap();
        let payload = random.bytes(plan.bytes);
        let mut field = random.bytes(plan.cells);
        compare_encode::<C>(&shape, &payload, &field, &mut tally);
        guards::encode::<C>(&shape, &payload, &mut field).unwrap();
        compare_decode::<C>(&shape, &payload, &field, &mut tally);
        if C::ERASURES {
            erasures::compare_erased::<C>(&mut random, &shape, &field, &mut tally);
        }
        let damaged = damage::flipped(&field, &[random.below(2000)]);
        compare_decode::<C>(&shape, &random.bytes(plan.bytes), &damaged, &mut tally);
        compare_correct::<C>(&shape, &damaged, &mut tally);
        // The last cell and the padding, without the search.
        let damaged = damage::flipped(&field, &[plan.cells - 1]);
        damage::assert_undone::<C>(&mut random, &shape, &payload, &field, &damaged);
        padding::try_some_values::<C>(&mut random, &shape, &payload);
    }
}

/// Demand 3 itself: any cells of any one cluster of at most t cells, or of any one window, are undone, and counted.
pub fn undo_clusters<C: Codec>(times: usize) {
    let mut random = outside::random(8);
    let mut tally = Tally::default();
    for _ in 0..outside::rounds(times) {
        let shape = lawful_shape(&mut random, C::WINDOWS);
        let (payload, field) = damage::written::<C>(&mut random, &shape);
        let hit = hole(&mut random, &shape);
        let cells = some_of(&mut random, &hit);
        damage::assert_undone::<C>(&mut random, &shape, &payload, &field, &damage::flipped(&field, &cells));
        tally.note(&shape, 0);
    }
    tally.assert_stacks("clusters");
}
