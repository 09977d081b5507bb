//! A shape within the limits: its classes, their sizes and its check cells.

use super::lanes::{Lanes, Step};
use super::words::{bit, take};

/// The most classes that a shape can have, at strength 32 of a flat field.
pub const MAX_CLASSES: usize = 512;

/// The most columns.
pub const MAX_COLUMNS: usize = 256;

/// m, b and c of a stack, for strengths 1 to 8.
const STACK: [(usize, usize, usize); 8] =
    [(1, 0, 0), (2, 1, 1), (7, 2, 3), (12, 3, 5), (27, 4, 10), (38, 7, 11), (70, 16, 25), (92, 9, 39)];

/// The class of a cell is (column − b × row − c × plane) mod m; b and c are below m.
#[derive(Clone, Copy)]
pub struct Settings {
    pub m: usize,
    pub b: usize,
    pub c: usize,
}

/// A shape within the limits, and what follows from it.
pub struct Layout {
    pub columns: usize,
    pub rows: usize,
    pub planes: usize,
    pub settings: Settings,
    pub cells: usize,
    pub capacity: usize,
    /// The number of cells of each class.
    pub sizes: Lanes,
    /// The check cells, a bit a cell, with one word more than they fill.
    pub checks: Vec<u64>,
}

/// a − z modulo m, both below m.
pub fn back(a: usize, z: usize, m: usize) -> usize {
    if a < z {
        a + m - z
    } else {
        a - z
    }
}

/// The number of binary digits.
fn bit_length(n: usize) -> usize {
    (usize::BITS - n.leading_zeros()) as usize
}

/// The class of the first cell of each row, plane after plane.
#[inline(always)]
fn starts(rows: usize, planes: usize, settings: Settings) -> impl Iterator<Item = usize> {
    let Settings { m, b, c } = settings;
    let firsts = std::iter::successors(Some(0), move |&first| Some(back(first, c, m))).take(planes);
    firsts.flat_map(move |first| std::iter::successors(Some(first), move |&start| Some(back(start, b, m))).take(rows))
}

impl Layout {
    /// The layout of a shape: 1, 2.
    pub fn new(columns: usize, rows: usize, planes: usize, strength: usize) -> Result<Layout, usize> {
        let sides = (1..=MAX_COLUMNS).contains(&columns) && (1..=256).contains(&rows) && (1..=16).contains(&planes);
        if !sides || columns * rows * planes > 65_536 {
            return Err(1);
        }
        if strength == 0 || strength > if planes == 1 { 32 } else { 8 } {
            return Err(2);
        }
        // Flat: (t² + 1)/2 and t for odd t, t²/2 and t + 1 for even t.
        let flat = ((strength * strength).div_ceil(2), strength | 1, 0);
        let (m, b, c) = if planes > 1 { STACK[strength - 1] } else { flat };
        let settings = Settings { m, b: b % m, c: c % m };
        let cells = columns * rows * planes;
        let checks = vec![0; cells / 64 + 2];
        let sizes = Lanes::zeros(m);
        let mut layout = Layout { columns, rows, planes, settings, cells, capacity: 0, sizes, checks };
        layout.mark_checks();
        layout.capacity = cells - (0..m).map(|class| bit_length(layout.sizes.get(class))).sum::<usize>();
        Ok(layout)
    }

    /// Counts the cells of each class and marks the check cells, row by row.
    fn mark_checks(&mut self) {
        let (w, m) = (self.columns, self.settings.m);
        let (laps, rest) = (w / m, w % m);
        let most = laps + usize::from(rest > 0);
        let row = Step::new(m, m, laps, rest);
        // Can a position of this row be a power of two?
        let may_hold = |sizes: &Lanes| next_power(sizes.low) <= sizes.high + most;
        let sizes = &mut self.sizes;
        for (line, start) in starts(self.rows, self.planes, self.settings).enumerate() {
            if may_hold(sizes) {
                sizes.bound();
            }
            if may_hold(sizes) {
                let mark = if laps == 0 { mark_distinct } else { mark_laps };
                mark(&mut self.checks, line * w, w, start, m, sizes);
            }
            sizes.step(&row, m - start, 0);
        }
    }

    fn is_check(&self, cell: usize) -> bool {
        self.checks[cell / 64] & bit(cell) != 0
    }

    /// Visits the check cells in byte order, with the class of each.
    #[inline(always)]
    pub fn each_check(&self, mut visit: impl FnMut(usize, usize)) {
        let (w, m) = (self.columns, self.settings.m);
        // Of a number below 768 the part below the fraction's point is exact.
        let inverse = (1 << 26) / m + 1;
        let mut starts = starts(self.rows, self.planes, self.settings);
        let mut start = starts.next().unwrap();
        let mut end = w;
        for (i, &word) in self.checks.iter().enumerate() {
            let mut left = word;
            while left != 0 {
                let cell = 64 * i + left.leading_zeros() as usize;
                while cell >= end {
                    start = starts.next().unwrap();
                    end += w;
                }
                let place = start + cell + w - end;
                visit(cell, place - ((place * inverse) >> 26) * m);
                left ^= bit(cell);
            }
        }
    }

    /// Visits all cells in byte order, with the class of each.
    #[inline(always)]
    pub fn each_cell(&self, mut visit: impl FnMut(usize, usize)) {
        let (w, m) = (self.columns, self.settings.m);
        for (line, start) in starts(self.rows, self.planes, self.settings).enumerate() {
            let mut class = start;
            for cell in line * w..(line + 1) * w {
                visit(cell, class);
                class = if class + 1 == m { 0 } else { class + 1 };
            }
        }
    }

    /// The cell of a class with a position.
    pub fn cell_at(&self, class: usize, position: usize) -> usize {
        let (w, m) = (self.columns, self.settings.m);
        let (laps, rest) = (w / m, w % m);
        let mut before = 0;
        for (line, start) in starts(self.rows, self.planes, self.settings).enumerate() {
            let first = back(class, start, m);
            let here = laps + usize::from(first < rest);
            if before + here >= position {
                return line * w + first + (position - before - 1) * m;
            }
            before += here;
        }
        unreachable!("the class has so many cells");
    }

    /// The last cells that are no checks.
    pub fn last_data_cells(&self, count: usize) -> impl Iterator<Item = usize> + '_ {
        (0..self.cells).rev().filter(|&cell| !self.is_check(cell)).take(count)
    }
}

/// The least power of two above a number.
fn next_power(n: usize) -> usize {
    1 << bit_length(n)
}

/// Marks the checks of a row with fewer columns than classes, where each class has one cell at most.
fn mark_distinct(checks: &mut [u64], base: usize, w: usize, start: usize, m: usize, sizes: &Lanes) {
    let wrapped = (start + w).saturating_sub(m);
    let behind = &sizes.list[start..start + w - wrapped];
    let mut power = next_power(sizes.low);
    while power <= sizes.high + 1 {
        mark_equal(checks, base, behind, (power - 1) as u8);
        mark_equal(checks, base + w - wrapped, &sizes.list[..wrapped], (power - 1) as u8);
        power *= 2;
    }
}

/// Marks those of some cells in a row whose class has so many cells before.
fn mark_equal(checks: &mut [u64], base: usize, sizes: &[u8], before: u8) {
    for (i, sizes) in sizes.chunks(64).enumerate() {
        let mut equal = [0; 64];
        for (equal, &size) in equal.iter_mut().zip(sizes) {
            *equal = u8::from(size == before);
        }
        let (bits, cell) = (take(&equal), base + 64 * i);
        checks[cell / 64] |= bits >> (cell % 64);
        checks[cell / 64 + 1] |= bits << 1 << (63 - cell % 64);
    }
}

/// Marks the checks of a row with as many columns as classes or more.
fn mark_laps(checks: &mut [u64], base: usize, w: usize, start: usize, m: usize, sizes: &Lanes) {
    let (laps, rest) = (w / m, w % m);
    let mut power = next_power(sizes.low);
    while power <= sizes.high + laps + 1 {
        let mut mark = |column: usize, size: u8| {
            // So many cells of the class lie in the row before the power's.
            let lap = usize::from((power as u8).wrapping_sub(1).wrapping_sub(size));
            if lap < laps + usize::from(column < rest) {
                let cell = base + column + lap * m;
                checks[cell / 64] |= bit(cell);
            }
        };
        sizes.list[start..m].iter().enumerate().for_each(|(i, &size)| mark(i, size));
        sizes.list[..start].iter().enumerate().for_each(|(i, &size)| mark(m - start + i, size));
        power *= 2;
    }
}
