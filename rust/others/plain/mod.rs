//! The baseline of the benchmark: encode, decode and correct in plain safe Rust, written for speed; and the same of fields of levels.
//!
//! The check cells are marked in a bit map, one bit a cell; payload moves between bits and cells 64 cells at a time; the
//! syndromes are taken in row by row, over a vector with the positions of all columns. A refusal is the number that
//! `include/varmintfoil.h` lists. Shapes have a strength here, and no window.

#![deny(unsafe_code)]

mod lanes;
mod layout;
mod levels;
mod narrow;
mod syndromes;
mod words;

pub use levels::{correct_levels, decode_levels, encode_levels};

use layout::Layout;
use syndromes::syndromes;

/// Encode (write): 1, 2, 3, 4.
pub fn encode(
    columns: usize,
    rows: usize,
    planes: usize,
    strength: usize,
    payload: &[u8],
    field: &mut [u8],
) -> Result<(), usize> {
    let layout = Layout::new(columns, rows, planes, strength)?;
    if payload.len() != layout.capacity / 8 {
        return Err(3);
    }
    if field.len() != layout.cells {
        return Err(4);
    }
    words::scatter(payload, &layout.checks, field);
    let mut left = syndromes(&layout, field);
    // In byte order the checks of a class hold bit 0, 1, 2 and so on of its syndrome.
    layout.each_check(|cell, class| {
        field[cell] = (left[class] & 1) as u8;
        left[class] >>= 1;
    });
    Ok(())
}

/// Decode (read): 1, 2, 3, 4, 5, 6, 7. Gives the number of cells corrected on the way.
pub fn decode(
    columns: usize,
    rows: usize,
    planes: usize,
    strength: usize,
    payload: &mut [u8],
    field: &[u8],
) -> Result<usize, usize> {
    let layout = Layout::new(columns, rows, planes, strength)?;
    if payload.len() != layout.capacity / 8 {
        return Err(3);
    }
    if field.len() != layout.cells {
        return Err(4);
    }
    let damage = examine(&layout, field)?;
    words::gather(field, &layout.checks, &damage, payload);
    Ok(damage.len())
}

/// Correct (mend) a field where it lies: 1, 2, 4, 5, 6, 7. Gives the number of cells changed.
pub fn correct(columns: usize, rows: usize, planes: usize, strength: usize, field: &mut [u8]) -> Result<usize, usize> {
    let layout = Layout::new(columns, rows, planes, strength)?;
    if field.len() != layout.cells {
        return Err(4);
    }
    let damage = examine(&layout, field)?;
    for &cell in &damage {
        field[cell] ^= 1;
    }
    Ok(damage.len())
}

/// The cells to turn over, in byte order: 5, 6, 7.
fn examine(layout: &Layout, field: &[u8]) -> Result<Vec<usize>, usize> {
    if field.iter().fold(0, |all, cell| all | cell) > 1 {
        return Err(5);
    }
    let syndromes = syndromes(layout, field);
    let classes = layout.settings.m;
    if (0..classes).any(|class| syndromes[class] as usize > layout.sizes.get(class)) {
        return Err(6);
    }
    let damaged = (0..classes).filter(|&class| syndromes[class] > 0);
    let mut damage: Vec<usize> = damaged.map(|class| layout.cell_at(class, syndromes[class] as usize)).collect();
    damage.sort_unstable();
    // The last data cells, those that fill no byte, from the last on: after correction they hold the padding, or zeros.
    let last = layout.capacity % 8;
    let values = layout.last_data_cells(last).map(|cell| field[cell] ^ u8::from(damage.contains(&cell)));
    let held = values.enumerate().fold(0, |held, (i, value)| held | value << i);
    if held != 0 && held != words::PADDING >> (8 - last) {
        return Err(7);
    }
    Ok(damage)
}
