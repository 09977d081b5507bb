//! Shapes of fields of levels, cut into words; digits, fields and damage for them.

use super::reference::{Word, CHANGES, MAX_LEVEL};
use super::*;

/// A shape and its cells: those of each word, those that hold digits, and those that belong to no word.
pub struct Cut {
    pub shape: Numbers,
    pub words: Vec<Word<usize>>,
    pub data: Vec<usize>,
    pub ignored: Vec<usize>,
}

impl Cut {
    pub fn new(shape: Numbers) -> Cut {
        let words = reference::words(&shape);
        Cut { shape, data: reference::digit_cells(&words), ignored: reference::ignored_cells(&shape), words }
    }

    pub fn cells(&self) -> usize {
        reference::cells(&self.shape)
    }

    /// The digits of a field.
    pub fn digits_of(&self, field: &[u8]) -> Vec<u8> {
        self.data.iter().map(|&cell| field[cell]).collect()
    }

    /// Some digits and their field, as an implementation writes it.
    pub fn written<C: Codec>(&self, random: &mut Random) -> (Vec<u8>, Vec<u8>) {
        let (digits, mut field) = (levels(random, self.data.len()), random.bytes(self.cells()));
        guards::encode::<C>(&self.shape, &digits, &mut field).unwrap();
        (digits, field)
    }

    /// A field is read as the digits and corrected to the field of them. Decode counts the cells of words where it differs from that, and
    /// correct all cells.
    pub fn assert_undone<C: Codec>(&self, random: &mut Random, field: &[u8], damaged: &[u8]) {
        let all = reference::differences(damaged, field);
        let of_words = all - self.ignored.iter().filter(|&&cell| damaged[cell] != field[cell]).count();
        damage::assert_undone_with::<C>(random, &self.shape, &self.digits_of(field), field, damaged, [of_words, all]);
    }

    /// A field is refused with a number, by decode and by correct, which leave every byte.
    pub fn assert_refused<C: Codec>(&self, random: &mut Random, field: &[u8], number: usize) {
        damage::assert_refused_with::<C>(random, &self.shape, self.data.len(), field, number);
    }
}

/// Levels by chance; half the time mostly those near both ends.
pub fn levels(random: &mut Random, n: usize) -> Vec<u8> {
    let ends = random.once_in(2);
    let mut level = || match ends && !random.once_in(4) {
        true => random.pick(&[0, 0, 1, 2, 22, 23, 24, 24]),
        false => random.below(25) as u8,
    };
    (0..n).map(|_| level()).collect()
}

/// Six levels by chance.
pub fn any_word(random: &mut Random) -> Word<u8> {
    levels(random, 6).try_into().unwrap()
}

/// A level after a change, where it is one.
pub fn changed(level: u8, change: i32) -> Option<u8> {
    let after = i32::from(level) + change;
    (0..=i32::from(MAX_LEVEL)).contains(&after).then_some(after as u8)
}

/// Changes cells of a field, each by −1, 1, 2 or 3, such that it is a level still.
pub fn change(random: &mut Random, field: &mut [u8], cells: &[usize]) {
    for &cell in cells {
        let after: Vec<u8> = CHANGES.into_iter().filter_map(|change| changed(field[cell], change)).collect();
        field[cell] = random.pick(&after);
    }
}

/// Small shapes of each kind, with words and no cell over, with both, and with no word: flat ones and stacks by strength, and flat ones
/// by window, which is smaller than the field, longer than one of its sides, or larger than the field.
pub fn small_shapes<C: Codec>() -> Vec<Cut> {
    let flat =
        [(6, 1, 1), (1, 6, 1), (7, 1, 1), (12, 1, 2), (13, 2, 2), (5, 5, 1), (5, 5, 3), (8, 7, 3), (9, 11, 4), (13, 13, 5)];
    let stacks = [(3, 2, 2, 1), (4, 3, 2, 2), (5, 4, 3, 2), (2, 3, 2, 3), (7, 4, 3, 3), (6, 5, 4, 4), (3, 3, 3, 8)];
    let windows = [
        (5, 4, 1, 1),
        (12, 1, 1, 2),
        (7, 7, 2, 2),
        (11, 8, 2, 3),
        (8, 11, 3, 2),
        (26, 2, 4, 4),
        (2, 26, 4, 4),
        (40, 1, 7, 3),
        (1, 40, 3, 170),
        (4, 3, 4, 3),
        (4, 4, 16, 32),
    ];
    let flat = flat.into_iter().map(|(w, h, t)| Numbers::of_strength(w, h, 1, t));
    let stacks = stacks.into_iter().map(|(w, h, d, t)| Numbers::of_strength(w, h, d, t));
    let windows = windows.into_iter().map(|(w, h, p, q)| Numbers::of_window(w, h, p, q)).filter(|_| C::WINDOWS);
    flat.chain(stacks).chain(windows).map(Cut::new).collect()
}

/// A shape; where it is accepted and has no word, half the time another.
pub fn shape_with_words(random: &mut Random, windows: bool) -> Numbers {
    let shape = any_shape(random, windows);
    let wordless = reference::test(&shape).is_ok() && reference::words(&shape).is_empty();
    if wordless && random.once_in(2) {
        return shape_with_words(random, windows);
    }
    shape
}

/// A field of levels, damaged in any way, or garbage; now and then with a cell that is no level.
fn any_field(random: &mut Random, shape: &Numbers) -> Vec<u8> {
    let plan = shape.plan().unwrap();
    let mut field = reference::field_of_digits(shape, &levels(random, plan.digits));
    let cells = match random.below(12) {
        way @ 0..=9 => damaged_cells(random, shape, way),
        _ => Vec::new(),
    };
    let cells = some_of(random, &cells);
    match random.below(12) {
        0 => field = levels(random, plan.cells),
        1 => cells.iter().for_each(|&cell| field[cell] = random.below(25) as u8),
        2 if random.once_in(4) => field = random.bytes(plan.cells),
        _ => change(random, &mut field, &cells),
    }
    if random.once_in(3) {
        for cell in some_of(random, &reference::ignored_cells(shape)) {
            field[cell] = random.below(25) as u8;
        }
    }
    if random.once_in(10) {
        let cell = random.below(plan.cells);
        field[cell] = random.pick(&NO_LEVELS);
    }
    field
}

/// Some bytes that are no levels.
pub const NO_LEVELS: [u8; 6] = [25, 26, 32, 128, 254, 255];

/// A field of levels of some length for a shape, within the limits or not.
pub fn lent_field(random: &mut Random, shape: &Numbers) -> Vec<u8> {
    let Ok(plan) = shape.plan() else {
        let n = random.below(40);
        return random.bytes(n);
    };
    let mut field = any_field(random, shape);
    field.resize(length(random, plan.cells), 0);
    field
}

/// Digits of some number for a shape, within the limits or not; now and then one that is none.
pub fn lent_digits(random: &mut Random, shape: &Numbers) -> Vec<u8> {
    let planned = shape.plan().map_or(10, |plan| plan.digits);
    let n = length(random, planned);
    let mut digits = levels(random, n);
    if n > 0 && random.once_in(6) {
        digits[random.below(n)] = random.pick(&NO_LEVELS);
    }
    digits
}
