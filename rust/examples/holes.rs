//! What two holes of t connected cells each do: random payloads and random holes, counted. `holes SEED ROUNDS CELLS`: 1 and 10000
//! where they are left out, and the cells of a hole, t where they are.

#[allow(dead_code)]
mod beyond;
#[path = "../tests/common/random.rs"]
mod random;

use beyond::within_promise;
use random::Random;
use varmintfoil::{correct, decode, encode, Refusal, Shape};

/// The side and the strength of the fields measured.
const FIELDS: [(usize, usize); 5] = [(5, 3), (16, 4), (32, 4), (64, 8), (256, 8)];

/// The most cells of a hole, so that two have room in the smallest field.
const MAX_SIZE: usize = 8;

/// A hole: a cell at random, to which neighbours are joined at random until there are so many.
fn hole(random: &mut Random, shape: &Shape, size: usize) -> Vec<usize> {
    let mut cells = vec![(random.below(shape.rows()), random.below(shape.columns()))];
    while cells.len() < size {
        let (row, column) = random.pick(&cells);
        let next = match random.below(4) {
            0 => (row + 1, column),
            1 => (row.wrapping_sub(1), column),
            2 => (row, column + 1),
            _ => (row, column.wrapping_sub(1)),
        };
        if next.0 < shape.rows() && next.1 < shape.columns() && !cells.contains(&next) {
            cells.push(next);
        }
    }
    cells.iter().map(|&(row, column)| row * shape.columns() + column).collect()
}

/// Two holes that share no cell.
fn two_holes(random: &mut Random, shape: &Shape, size: usize) -> Vec<usize> {
    loop {
        let (one, other) = (hole(random, shape, size), hole(random, shape, size));
        if one.iter().all(|cell| !other.contains(cell)) {
            return [one, other].concat();
        }
    }
}

/// How often the payload was right, the field refused and another payload read; and how often the test told, of a payload that was
/// right and of another, that the damage was beyond the promise.
#[derive(Default)]
struct Tally {
    right: usize,
    right_told: usize,
    refused: usize,
    other: usize,
    other_told: usize,
}

impl Tally {
    /// One round: a payload, two holes of so many cells in its field, and what is read.
    fn round(&mut self, random: &mut Random, shape: &Shape, size: usize) -> Result<(), Refusal> {
        let payload = random.bytes(shape.payload_bytes());
        let mut field = encode(shape, &payload)?;
        for cell in two_holes(random, shape, size) {
            field[cell] ^= 1;
        }
        let Ok(read) = decode(shape, &field) else {
            self.refused += 1;
            return Ok(());
        };
        let mut corrected = field.clone();
        correct(shape, &mut corrected)?;
        let told = usize::from(!within_promise(shape, &field, &corrected));
        if read.payload == payload {
            self.right += 1;
            self.right_told += told;
        } else {
            self.other += 1;
            self.other_told += told;
        }
        Ok(())
    }

    /// The percentages: without the test right, refused and another payload; with it right, refused or told, and another payload
    /// that is not told; and of the other payloads those told.
    fn percentages(&self) -> [f64; 7] {
        let rounds = self.right + self.refused + self.other;
        let told = self.right_told + self.other_told;
        [
            (self.right, rounds),
            (self.refused, rounds),
            (self.other, rounds),
            (self.right - self.right_told, rounds),
            (self.refused + told, rounds),
            (self.other - self.other_told, rounds),
            (self.other_told, self.other),
        ]
        .map(|(part, whole)| 100.0 * part as f64 / whole as f64)
    }
}

/// The argument at a place, if it is there.
fn argument(place: usize, most: usize) -> Option<usize> {
    let text = std::env::args().nth(place)?;
    let number = text.parse().ok().filter(|number| (1..=most).contains(number));
    Some(number.unwrap_or_else(|| {
        eprintln!("usage: holes SEED ROUNDS CELLS, each at least 1, CELLS at most {MAX_SIZE}");
        std::process::exit(1)
    }))
}

fn main() -> Result<(), Refusal> {
    let (seed, rounds) = (argument(1, usize::MAX).unwrap_or(1), argument(2, usize::MAX).unwrap_or(10_000));
    let size = argument(3, MAX_SIZE);
    let each = size.map_or("t".to_string(), |size| size.to_string());
    println!("Two holes of connected cells, {each} in each and none in both, all flipped.");
    println!("Percent of {rounds} rounds, seed {seed}.");
    println!();
    println!("              |     without the test     |          with the test           | of another,");
    println!("field       t |  right  refused  another |  right  refused or told  another |        told");
    for (side, strength) in FIELDS {
        let shape = Shape::new(side, side, 1, strength)?;
        let mut random = Random::new(seed as u64);
        let mut tally = Tally::default();
        for _ in 0..rounds {
            tally.round(&mut random, &shape, size.unwrap_or(strength))?;
        }
        let [a, b, c, d, e, f, told] = tally.percentages();
        print!("{:<10} {strength:>2} |", format!("{side} x {side}"));
        println!("{a:>7.1}{b:>9.1}{c:>9.1} |{d:>7.2}{e:>17.2}{f:>9.2} |{told:>12.2}");
    }
    Ok(())
}
