//! One shape, and the contests of encode, decode and correct on it.

use crate::liquid::Liquid;
use crate::turns::{contest, Contestant, Standing};
use crate::{plain, same};
use std::hint::black_box;
use std::ops::Range;
use varmintfoil::ffi::{self, ShapeNumbers};
use varmintfoil::{Shape, Window};

/// A thing of each contestant, in the order of the tables: the proved library, the same text as Rust, plain Rust, liquid-dsp, a
/// copy.
pub type Each<T> = [T; 5];

/// A shape with a payload, its field and the field with a hole of t cells; where a window rules, t is the number of its columns.
pub struct Card {
    numbers: ShapeNumbers,
    pub shape: Shape,
    payload: Vec<u8>,
    field: Vec<u8>,
    hole: Range<usize>,
    damaged: Vec<u8>,
}

/// Pseudo-random bytes.
pub fn random_bytes(count: usize) -> Vec<u8> {
    let mut state = 0x9e37_79b9_7f4a_7c15u64;
    let mut byte = || {
        state ^= state << 13;
        state ^= state >> 7;
        state ^= state << 17;
        (state >> 32) as u8
    };
    (0..count).map(|_| byte()).collect()
}

/// The numbers of a shape as the same text has them.
pub fn numbers_in_text(numbers: ShapeNumbers) -> same::ShapeNumbers {
    let ShapeNumbers { columns, rows, planes, strength, window } = numbers;
    let window = same::Window { rows: window.rows, columns: window.columns };
    same::ShapeNumbers { columns, rows, planes, strength, window }
}

/// Turns cells over.
fn turn_over(cells: &mut [u8]) {
    cells.iter_mut().for_each(|cell| *cell ^= 1);
}

impl Card {
    pub fn new(columns: usize, rows: usize, planes: usize, strength: usize) -> Card {
        Card::of(ShapeNumbers { columns, rows, planes, strength, ..ShapeNumbers::default() }, strength)
    }

    /// A flat field that a window rules.
    pub fn with_window(columns: usize, rows: usize, window: Window) -> Card {
        Card::of(ShapeNumbers { columns, rows, planes: 1, strength: 0, window }, window.columns)
    }

    /// A field with a hole of so many cells in a row, in its middle.
    fn of(numbers: ShapeNumbers, damage: usize) -> Card {
        let ShapeNumbers { columns, rows, planes, .. } = numbers;
        let shape = Shape::of_numbers(numbers).unwrap();
        let payload = random_bytes(shape.payload_bytes());
        let field = varmintfoil::encode(&shape, &payload).unwrap();
        let middle = (planes / 2 * rows + rows / 2) * columns;
        let hole = middle..middle + damage;
        let mut damaged = field.clone();
        turn_over(&mut damaged[hole.clone()]);
        Card { numbers, shape, payload, field, hole, damaged }
    }

    /// Writing: encode, and liquid-dsp's coding and interleaving.
    pub fn encode(&self) -> Each<Option<Standing>> {
        let ShapeNumbers { columns: w, rows: h, planes: d, strength: t, .. } = self.numbers;
        let [mut one, mut text, mut other, mut third] = [(); 4].map(|()| vec![0; self.field.len()]);
        let mut liquid = Liquid::new(&self.payload, t);
        let standings = contest([
            some(|| assert_eq!(ffi::encode(black_box(self.numbers), black_box(&self.payload), &mut one), 0)),
            some(|| assert!(same::encode(black_box(numbers_in_text(self.numbers)), black_box(&self.payload), &mut text).is_ok())),
            some(|| assert!(plain::encode(black_box(w), h, d, t, black_box(&self.payload), &mut other).is_ok())),
            liquid.as_mut().and_then(|liquid| some(|| liquid.write(black_box(&self.payload)))),
            some(|| third.copy_from_slice(black_box(&self.field))),
        ]);
        assert!([one, text, other].iter().all(|field| *field == self.field));
        standings
    }

    /// Reading a damaged field: decode, and liquid-dsp's putting in order and decoding.
    pub fn decode(&self) -> Each<Option<Standing>> {
        let ShapeNumbers { columns: w, rows: h, planes: d, strength: t, .. } = self.numbers;
        let [mut one, mut text, mut other, mut fourth] = [(); 4].map(|()| vec![0; self.payload.len()]);
        let mut third = vec![0; self.field.len()];
        let mut liquid = Liquid::new(&self.payload, t);
        let read = liquid.is_some();
        let standings = contest([
            some(|| assert_eq!(ffi::decode(black_box(self.numbers), &mut one, black_box(&self.damaged)).count, t)),
            some(|| {
                assert_eq!(same::decode(black_box(numbers_in_text(self.numbers)), &mut text, black_box(&self.damaged)), Ok(t))
            }),
            some(|| assert_eq!(plain::decode(black_box(w), h, d, t, &mut other, black_box(&self.damaged)), Ok(t))),
            liquid.as_mut().and_then(|liquid| some(|| liquid.read(black_box(&mut fourth)))),
            some(|| third.copy_from_slice(black_box(&self.damaged))),
        ]);
        assert!([one, text, other].iter().all(|payload| *payload == self.payload) && (!read || fourth == self.payload));
        standings
    }

    /// Correcting a damaged field; liquid-dsp reads, as it has no such operation. After each call the hole is made
    /// again, within the time.
    pub fn correct(&self) -> Each<Option<Standing>> {
        let ShapeNumbers { columns: w, rows: h, planes: d, strength: t, .. } = self.numbers;
        let [mut one, mut text, mut other, mut third] = [(); 4].map(|()| self.damaged.clone());
        let mut fourth = vec![0; self.payload.len()];
        let mut liquid = Liquid::new(&self.payload, t);
        let standings = contest([
            some(|| {
                assert_eq!(ffi::correct(black_box(self.numbers), black_box(&mut one)).count, t);
                turn_over(&mut one[self.hole.clone()]);
            }),
            some(|| {
                assert_eq!(same::correct(black_box(numbers_in_text(self.numbers)), black_box(&mut text)), Ok(t));
                turn_over(&mut text[self.hole.clone()]);
            }),
            some(|| {
                assert_eq!(plain::correct(black_box(w), h, d, t, black_box(&mut other)), Ok(t));
                turn_over(&mut other[self.hole.clone()]);
            }),
            liquid.as_mut().and_then(|liquid| some(|| liquid.read(black_box(&mut fourth)))),
            some(|| third.copy_from_slice(black_box(&self.damaged))),
        ]);
        assert!([one, text, other].iter().all(|field| *field == self.damaged));
        standings
    }

    /// Decoding and correcting a field with two holes of t erased cells, each beside the same with a hole of t flipped cells: by
    /// the proved library alone.
    pub fn erased(&self) -> [Standing; 2] {
        let t = self.numbers.strength;
        let erase = |cells: &mut [u8]| [0..t, self.hole.clone()].map(|hole| cells[hole].fill(varmintfoil::ERASED));
        let mut lost = self.field.clone();
        erase(&mut lost);
        let [mut one, mut other] = [(); 2].map(|()| vec![0; self.payload.len()]);
        let [_, decode] = contest([
            some(|| assert_eq!(ffi::decode(black_box(self.numbers), &mut one, black_box(&lost)).count, 2 * t)),
            some(|| assert_eq!(ffi::decode(black_box(self.numbers), &mut other, black_box(&self.damaged)).count, t)),
        ]);
        assert!(one == self.payload && other == self.payload);
        let [mut one, mut other] = [lost.clone(), self.damaged.clone()];
        let [_, correct] = contest([
            some(|| {
                assert_eq!(ffi::correct(black_box(self.numbers), black_box(&mut one)).count, 2 * t);
                erase(&mut one);
            }),
            some(|| {
                assert_eq!(ffi::correct(black_box(self.numbers), black_box(&mut other)).count, t);
                turn_over(&mut other[self.hole.clone()]);
            }),
        ]);
        [decode, correct].map(Option::unwrap)
    }

    /// Encoding, decoding and correcting, each beside the same of another card: by the proved library alone.
    pub fn beside(&self, other: &Card) -> [Standing; 3] {
        let cards = [self, other];
        let [mut one, mut two] = cards.map(|card| vec![0; card.field.len()]);
        let [_, encode] = contest([
            some(|| assert_eq!(ffi::encode(black_box(self.numbers), black_box(&self.payload), &mut one), 0)),
            some(|| assert_eq!(ffi::encode(black_box(other.numbers), black_box(&other.payload), &mut two), 0)),
        ]);
        assert!(one == self.field && two == other.field);
        let [mut one, mut two] = cards.map(|card| vec![0; card.payload.len()]);
        let [_, decode] = contest([
            some(|| assert_eq!(ffi::decode(black_box(self.numbers), &mut one, black_box(&self.damaged)).count, self.hole.len())),
            some(|| {
                assert_eq!(ffi::decode(black_box(other.numbers), &mut two, black_box(&other.damaged)).count, other.hole.len())
            }),
        ]);
        assert!(one == self.payload && two == other.payload);
        let [mut one, mut two] = cards.map(|card| card.damaged.clone());
        let [_, correct] = contest([
            some(|| {
                assert_eq!(ffi::correct(black_box(self.numbers), black_box(&mut one)).count, self.hole.len());
                turn_over(&mut one[self.hole.clone()]);
            }),
            some(|| {
                assert_eq!(ffi::correct(black_box(other.numbers), black_box(&mut two)).count, other.hole.len());
                turn_over(&mut two[other.hole.clone()]);
            }),
        ]);
        [encode, decode, correct].map(Option::unwrap)
    }

    /// The three contests.
    pub fn operations(&self) -> [(&'static str, Each<Option<Standing>>); 3] {
        [("encode", self.encode()), ("decode", self.decode()), ("correct", self.correct())]
    }
}

/// A contestant that is there.
pub fn some<'a>(call: impl FnMut() + 'a) -> Contestant<'a> {
    Some(Box::new(call))
}
