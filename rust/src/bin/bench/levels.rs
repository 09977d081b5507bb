//! Fields of levels: the contests of their three operations, by the proved library, by its text as Rust, by plain Rust and by a copy of
//! the cells.

use crate::contest::{numbers_in_text, random_bytes, some};
use crate::turns::{contest, Standing};
use crate::{plain, same};
use std::hint::black_box;
use varmintfoil::ffi::{self, ShapeNumbers};
use varmintfoil::{Shape, MAX_LEVEL};

/// A thing of each contestant: the proved library, the same text as Rust, plain Rust, a copy.
pub type Each<T> = [T; 4];

/// A shape with digits, their field, and the field with some cells changed.
pub struct Levels {
    numbers: ShapeNumbers,
    pub shape: Shape,
    payload: Vec<u8>,
    field: Vec<u8>,
    damaged: Vec<u8>,
}

/// Cells of each word of a class.
const WORD: usize = 6;

/// The changes of a cell that are undone.
const CHANGES: [i8; 4] = [1, 2, 3, -1];

impl Levels {
    fn new([columns, rows, planes, strength]: [usize; 4]) -> Levels {
        let numbers = ShapeNumbers { columns, rows, planes, strength, ..ShapeNumbers::default() };
        let shape = Shape::of_numbers(numbers).unwrap();
        let payload: Vec<u8> = random_bytes(shape.payload_digits()).iter().map(|byte| byte % (MAX_LEVEL + 1)).collect();
        let field = varmintfoil::encode_levels(&shape, &payload).unwrap();
        let damaged = field.clone();
        Levels { numbers, shape, payload, field, damaged }
    }

    /// Makes the n-th change of a cell, or the first behind it that leaves a level.
    fn change(&mut self, cell: usize, n: usize) {
        let level = self.damaged[cell];
        let mut changed = CHANGES.iter().cycle().skip(n).filter_map(|&change| level.checked_add_signed(change));
        self.damaged[cell] = changed.find(|&level| level <= MAX_LEVEL).unwrap();
    }

    /// A hole of t cells in a row, in the middle: each is 1 higher or, where it is the greatest level, 1 lower.
    pub fn with_hole(field: [usize; 4]) -> Levels {
        let [columns, rows, planes, strength] = field;
        let mut levels = Levels::new(field);
        let middle = (planes / 2 * rows + rows / 2) * columns;
        (middle..middle + strength).for_each(|cell| levels.change(cell, 0));
        levels
    }

    /// One cell of every word changed: the first of the first word of a class, the second of the second, and round again; at each round
    /// by the next of the changes.
    pub fn with_faults(field: [usize; 4]) -> Levels {
        let [columns, rows, _, _] = field;
        let mut levels = Levels::new(field);
        let mut classes = vec![Vec::new(); levels.shape.classes()];
        for cell in 0..levels.field.len() {
            let line = cell / columns;
            let class = varmintfoil::class_of(&levels.shape, line % rows, line / rows, cell % columns).unwrap();
            classes[class].push(cell);
        }
        for cells in classes {
            cells.chunks_exact(WORD).enumerate().for_each(|(i, word)| levels.change(word[i % WORD], i / WORD));
        }
        levels
    }

    fn encode(&self) -> Each<Option<Standing>> {
        let ShapeNumbers { columns: w, rows: h, planes: d, strength: t, .. } = self.numbers;
        let [mut one, mut text, mut other, mut third] = [(); 4].map(|()| vec![0; self.field.len()]);
        let in_text = numbers_in_text(self.numbers);
        let standings = contest([
            some(|| assert_eq!(ffi::encode_levels(black_box(self.numbers), black_box(&self.payload), &mut one), 0)),
            some(|| assert!(same::encode_levels(black_box(in_text), black_box(&self.payload), &mut text).is_ok())),
            some(|| assert!(plain::encode_levels(black_box(w), h, d, t, black_box(&self.payload), &mut other).is_ok())),
            some(|| third.copy_from_slice(black_box(&self.field))),
        ]);
        assert!([one, text, other].iter().all(|field| *field == self.field));
        standings
    }

    fn decode(&self) -> Each<Option<Standing>> {
        let ShapeNumbers { columns: w, rows: h, planes: d, strength: t, .. } = self.numbers;
        let [mut one, mut text, mut other] = [(); 3].map(|()| vec![0; self.payload.len()]);
        let mut third = vec![0; self.field.len()];
        let in_text = numbers_in_text(self.numbers);
        let standings = contest([
            some(|| assert_eq!(ffi::decode_levels(black_box(self.numbers), &mut one, black_box(&self.damaged)).number, 0)),
            some(|| assert!(same::decode_levels(black_box(in_text), &mut text, black_box(&self.damaged)).is_ok())),
            some(|| assert!(plain::decode_levels(black_box(w), h, d, t, &mut other, black_box(&self.damaged)).is_ok())),
            some(|| third.copy_from_slice(black_box(&self.damaged))),
        ]);
        assert!([one, text, other].iter().all(|payload| *payload == self.payload));
        standings
    }

    /// After each call the cells are changed again, within the time.
    fn correct(&self) -> Each<Option<Standing>> {
        let ShapeNumbers { columns: w, rows: h, planes: d, strength: t, .. } = self.numbers;
        let changed: Vec<usize> = (0..self.field.len()).filter(|&cell| self.field[cell] != self.damaged[cell]).collect();
        let damage = |field: &mut [u8]| changed.iter().for_each(|&cell| field[cell] = self.damaged[cell]);
        let [mut one, mut text, mut other, mut third] = [(); 4].map(|()| self.damaged.clone());
        let in_text = numbers_in_text(self.numbers);
        let standings = contest([
            some(|| {
                assert_eq!(ffi::correct_levels(black_box(self.numbers), black_box(&mut one)).count, changed.len());
                damage(&mut one);
            }),
            some(|| {
                assert_eq!(same::correct_levels(black_box(in_text), black_box(&mut text)), Ok(changed.len()));
                damage(&mut text);
            }),
            some(|| {
                assert_eq!(plain::correct_levels(black_box(w), h, d, t, black_box(&mut other)), Ok(changed.len()));
                damage(&mut other);
            }),
            some(|| third.copy_from_slice(black_box(&self.damaged))),
        ]);
        assert!([one, text, other].iter().all(|field| *field == self.damaged));
        standings
    }

    /// The contests of the three operations.
    pub fn operations(&self) -> [(&'static str, Each<Option<Standing>>); 3] {
        let [decode, correct] = self.mending();
        [("encode", self.encode()), decode, correct]
    }

    /// Those of the two that get the changed field.
    pub fn mending(&self) -> [(&'static str, Each<Option<Standing>>); 2] {
        [("decode", self.decode()), ("correct", self.correct())]
    }
}
