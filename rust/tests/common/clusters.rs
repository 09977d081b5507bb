//! Cells that are joined, and clusters of them. Where a window rules, cells that touch by a corner are joined too.

use super::{reference, windows, Numbers, Random};

/// A cell by its row, plane and column.
pub type Place = (usize, usize, usize);

/// Some cell.
pub fn any_place(random: &mut Random, shape: &Numbers) -> Place {
    (random.below(shape.h), random.below(shape.d), random.below(shape.w))
}

/// The cells that are joined to a cell.
pub fn joined(shape: &Numbers, (row, plane, column): Place) -> Vec<Place> {
    let (above, before) = (row.wrapping_sub(1), column.wrapping_sub(1));
    let corners = [(row + 1, column + 1), (row + 1, before), (above, column + 1), (above, before)];
    let corners = corners.iter().filter(|_| shape.is_ruled()).map(|&(row, column)| (row, plane, column));
    let mut places = vec![
        (row + 1, plane, column),
        (above, plane, column),
        (row, plane + 1, column),
        (row, plane.wrapping_sub(1), column),
        (row, plane, column + 1),
        (row, plane, before),
    ];
    places.extend(corners);
    places.retain(|&(row, plane, column)| row < shape.h && plane < shape.d && column < shape.w);
    places
}

/// A random cluster of at most `size` cells from a start on, without those that are taken.
pub fn grown(random: &mut Random, shape: &Numbers, start: Place, size: usize, taken: &[Place]) -> Vec<Place> {
    let mut cells = vec![start];
    for _ in 0..4 * size {
        if cells.len() == size {
            break;
        }
        let mut around = joined(shape, random.pick(&cells));
        around.retain(|place| !cells.contains(place) && !taken.contains(place));
        if !around.is_empty() {
            cells.push(random.pick(&around));
        }
    }
    cells
}

/// Cells as bytes of the field.
pub fn bytes_of(shape: &Numbers, cells: &[Place]) -> Vec<usize> {
    cells.iter().map(|&(row, plane, column)| reference::byte_of(shape, row, plane, column)).collect()
}

/// The cells of a random cluster of at most `size` cells, as bytes of the field.
pub fn cluster(random: &mut Random, shape: &Numbers, size: usize) -> Vec<usize> {
    let start = any_place(random, shape);
    let cells = grown(random, shape, start, size, &[]);
    bytes_of(shape, &cells)
}

/// The cells of a random hole that is undone, as bytes of the field: a cluster or, where a window rules, now and then all that such a
/// window has.
pub fn hole(random: &mut Random, shape: &Numbers) -> Vec<usize> {
    if shape.is_ruled() && !random.once_in(3) {
        return windows::any_window(random, shape);
    }
    cluster(random, shape, shape.extent())
}

/// Cells to be damaged, in one of the ways 0 to 9: mostly a hole that is undone; 6 is a cluster beyond the strength, 7 and 8 are a few
/// cells, and 9 any number of them, wherever they lie.
pub fn damaged_cells(random: &mut Random, shape: &Numbers, way: usize) -> Vec<usize> {
    let cells = reference::cells(shape);
    match way {
        6 => {
            let size = shape.extent() + random.from(1, 6);
            cluster(random, shape, size)
        }
        7 | 8 => (0..random.from(1, 3)).map(|_| random.below(cells)).collect(),
        9 => (0..random.from(1, cells)).map(|_| random.below(cells)).collect(),
        _ => hole(random, shape),
    }
}

/// Some of the cells of a list: none, all or a random choice.
pub fn some_of(random: &mut Random, cells: &[usize]) -> Vec<usize> {
    match random.below(4) {
        0 => Vec::new(),
        1 => cells.to_vec(),
        _ => cells.iter().copied().filter(|_| random.once_in(2)).collect(),
    }
}
