//! Damage beyond the promise can be told: a field with one hole, and the same with two holes, which is read as another payload.

use varmintfoil::{correct, decode, encode, Refusal, Shape};

/// May the damage have been one hole of at most t connected cells or, where a window rules, inside one window? `before` is the field as
/// it was read, `after` as `correct` left it.
///
/// Where it was one hole, the cells that `correct` flips are at most t, and any two of them are less than t apart: the sum of the
/// absolute differences of row, plane and column. Where it was inside a window, any two of them are fewer rows apart than the
/// window has, and fewer columns. Where they are not, the damage was beyond the promise, and the payload may be another one.
///
/// The test is for fields without erased cells. Each of these that is filled counts as flipped, so that two holes of them, which are
/// within the promise, are told as beyond it.
pub fn within_promise(shape: &Shape, before: &[u8], after: &[u8]) -> bool {
    let (columns, rows, strength, window) = (shape.columns(), shape.rows(), shape.strength(), shape.window());
    let flipped: Vec<usize> = (0..shape.cells()).filter(|&cell| before[cell] != after[cell]).collect();
    let most = if strength == 0 { window.rows * window.columns } else { strength };
    let place = |cell: usize| [cell / columns % rows, cell / columns / rows, cell % columns];
    let near = |one: usize, other: usize| {
        let (one, other) = (place(one), place(other));
        let apart = [0, 1, 2].map(|i| one[i].abs_diff(other[i]));
        if strength == 0 {
            apart[0] < window.rows && apart[2] < window.columns
        } else {
            apart.iter().sum::<usize>() < strength
        }
    };
    flipped.len() <= most && flipped.iter().all(|&one| flipped.iter().all(|&other| near(one, other)))
}

/// Flips four cells in a square; the row and the column are those of the first.
fn punch(shape: &Shape, field: &mut [u8], row: usize, column: usize) -> Result<(), Refusal> {
    for (down, right) in [(0, 0), (0, 1), (1, 0), (1, 1)] {
        field[shape.cell(row + down, 0, column + right)?] ^= 1;
    }
    Ok(())
}

/// Reads a field, and says what the test tells.
fn read(shape: &Shape, field: &[u8]) -> Result<String, Refusal> {
    let read = decode(shape, field)?;
    let mut corrected = field.to_vec();
    correct(shape, &mut corrected)?;
    let told = if within_promise(shape, field, &corrected) { "within" } else { "beyond" };
    Ok(format!("{}, {} cells flipped, {told} the promise", String::from_utf8_lossy(&read.payload), read.mended))
}

fn main() -> Result<(), Refusal> {
    let shape = Shape::new(16, 16, 1, 4)?;
    let mut field = encode(&shape, b"abcdefghijklmnopqrstuvwxyz")?;
    punch(&shape, &mut field, 5, 4)?;
    println!("one hole: {}", read(&shape, &field)?);
    punch(&shape, &mut field, 13, 4)?;
    println!("two holes: {}", read(&shape, &field)?);
    Ok(())
}
