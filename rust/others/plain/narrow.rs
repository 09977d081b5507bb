//! The syndromes where the rows are narrow or the classes few, over positions of sixteen bits.

use super::layout::{back, Layout, Settings};

/// The most lanes: one for each class and one for each column.
pub const LANES: usize = 272;

/// What a step to a row whose start lies `by` classes back adds to each lane, by its distance from that start.
struct Step {
    by: usize,
    rise: u16,
    pattern: [u16; 2 * LANES],
}

impl Step {
    #[inline(always)]
    fn new(layout: &Layout, by: usize) -> Step {
        let (w, m) = (layout.columns, layout.settings.m);
        let mut pattern = [0; 2 * LANES];
        pattern[..(w + by) % m].fill(1);
        for i in m..w + 2 * m {
            pattern[i] = pattern[i - m];
        }
        Step { by, rise: ((w + by) / m) as u16, pattern }
    }
}

/// Goes to the next row: the positions of all lanes, and the row's start.
#[inline(always)]
fn next(positions: &mut [u16], step: &Step, start: usize, m: usize) -> usize {
    let rise = step.rise.wrapping_sub(u16::from(start < step.by));
    let start = back(start, step.by, m);
    for (position, more) in positions.iter_mut().zip(&step.pattern[m - start..]) {
        *position = position.wrapping_add(rise).wrapping_add(*more);
    }
    start
}

/// Adds the positions of the cells that are 1.
fn take(sums: &mut [u16], positions: &[u16], row: &[u8]) {
    for ((sum, position), cell) in sums.iter_mut().zip(positions).zip(row) {
        *sum ^= position & 0u16.wrapping_sub(u16::from(*cell));
    }
}

/// The exclusive or of the positions modulo 65,536 in each lane, of the cells that are 1.
pub fn sums(layout: &Layout, field: &[u8]) -> [u16; LANES] {
    let (w, Settings { m, b, c }) = (layout.columns, layout.settings);
    let mut positions = [0; LANES];
    let positions = &mut positions[..m + w];
    positions[..m].fill(1);
    for i in m..m + w {
        positions[i] = positions[i - m] + 1;
    }
    let mut sums = [0; LANES];
    let down = Step::new(layout, b);
    let mut start = 0;
    let mut planes = field.chunks_exact(w * layout.rows);
    let mut plane = |positions: &mut [u16], mut start: usize, cells: &[u8]| {
        let mut rows = cells.chunks_exact(w);
        take(&mut sums[start..], &positions[start..], rows.next().unwrap());
        for row in rows {
            start = next(positions, &down, start, m);
            take(&mut sums[start..], &positions[start..], row);
        }
        start
    };
    start = plane(positions, start, planes.next().unwrap());
    if layout.planes > 1 {
        let under = Step::new(layout, back(c, b * (layout.rows - 1) % m, m));
        for cells in planes {
            start = next(positions, &under, start, m);
            start = plane(positions, start, cells);
        }
    }
    sums
}
