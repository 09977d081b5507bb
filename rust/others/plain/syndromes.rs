//! The syndromes of a field's classes, row by row.
//!
//! The cell in column x of a row has the position E(start + x) in its class, where `start` is the class of the row's first cell
//! and E, for this row, gives the position that the next cell of class y mod m has, and one more for each lap of y. Stepping to
//! the next row adds the same pattern, rotated, and a constant.

use super::lanes::{Lanes, Step, LANES};
use super::layout::{back, Layout, Settings, MAX_CLASSES};
use super::narrow;

/// For each class the exclusive or of the positions of its cells that are 1.
pub type Syndromes = [u32; MAX_CLASSES];

/// The syndromes of a field whose cells are 0 or 1.
pub fn syndromes(layout: &Layout, field: &[u8]) -> Syndromes {
    let m = layout.settings.m;
    let lanes = m + layout.columns;
    let mut syndromes = [0; MAX_CLASSES];
    let mut fold = |sums: &[u16]| {
        for sums in sums.chunks(m) {
            syndromes.iter_mut().zip(sums).for_each(|(syndrome, &sum)| *syndrome ^= u32::from(sum));
        }
    };
    if lanes <= narrow::LANES && (layout.columns < 64 || m < MIN_CLASSES) {
        fold(&narrow::sums(layout, field)[..lanes]);
    } else {
        let mut walk = Walk::new(layout);
        walk.all_rows(layout, field);
        walk.fold(0);
        walk.fold(1);
        fold(&walk.sums[..lanes]);
    }
    // The one position that sixteen bits do not hold.
    if m == 1 && layout.cells == 65_536 {
        syndromes[0] ^= u32::from(field[65_535]) << 16;
    }
    syndromes
}

/// With so many classes a row's positions lie in two blocks of 128 at most.
const MIN_CLASSES: usize = 8;

/// Where a pass over the rows stands.
struct Walk {
    /// E for this row.
    positions: Lanes,
    /// For the blocks of 128 positions with an even and with an odd number: the block at hand, and the sums of its positions,
    /// their lowest seven bits and above them the parity of their number.
    blocks: [usize; 2],
    block_sums: [[u8; LANES]; 2],
    /// The exclusive or of positions in each lane, without those of the blocks at hand.
    sums: [u16; LANES],
}

impl Walk {
    #[inline(always)]
    fn new(layout: &Layout) -> Walk {
        let m = layout.settings.m;
        let positions = Lanes::laps(m, m + layout.columns);
        Walk { positions, blocks: [0, 1], block_sums: [[0; LANES]; 2], sums: [0; LANES] }
    }

    /// Takes in all rows.
    fn all_rows(&mut self, layout: &Layout, field: &[u8]) {
        let (w, Settings { m, b, c }) = (layout.columns, layout.settings);
        let step_back = |back: usize| Step::new(m, m + w, (w + back) / m, (w + back) % m);
        let (down, next_row) = (b, step_back(b));
        let under = back(c, b * (layout.rows - 1) % m, m);
        let next_plane = (layout.planes > 1).then(|| step_back(under));
        let mut start = 0;
        for (plane, rows) in field.chunks_exact(w * layout.rows).enumerate() {
            for (i, row) in rows.chunks_exact(w).enumerate() {
                let (step, by) = match &next_plane {
                    Some(step) if i == 0 => (step, under),
                    _ => (&next_row, down),
                };
                if plane + i > 0 {
                    let less = usize::from(start < by);
                    start = back(start, by, m);
                    self.positions.step(step, m - start, less);
                }
                self.take(start, row);
            }
        }
    }

    /// Takes in the cells of a row.
    #[inline(always)]
    fn take(&mut self, start: usize, row: &[u8]) {
        if self.positions.low / 128 != self.positions.high / 128 && self.positions.steps >= 8 {
            self.positions.bound();
        }
        let (low, high) = (self.positions.low, self.positions.high);
        let block = low / 128;
        self.turn_to(block);
        let positions = &self.positions.list[start..];
        let [even, odd] = &mut self.block_sums;
        if high / 128 == block {
            let sums = if block % 2 == 0 { even } else { odd };
            take_in_block(&mut sums[start..], positions, row);
        } else {
            take_in_two(&mut even[start..], &mut odd[start..], positions, row);
        }
    }

    /// Makes a block and the next the ones at hand.
    #[inline(always)]
    fn turn_to(&mut self, block: usize) {
        for block in [block, block + 1] {
            if self.blocks[block % 2] != block {
                self.fold(block % 2);
                self.blocks[block % 2] = block;
            }
        }
    }

    /// Adds the sums of a block at hand to those before it.
    fn fold(&mut self, which: usize) {
        let high = self.blocks[which] as u16 * 128;
        for (sum, part) in self.sums.iter_mut().zip(&mut self.block_sums[which][..self.positions.count]) {
            let odd = 0u16.wrapping_sub(u16::from(*part >> 7));
            *sum ^= u16::from(*part & 127) ^ (high & odd);
            *part = 0;
        }
    }
}

/// Adds the positions, all in one block, of the cells that are 1.
fn take_in_block(sums: &mut [u8], positions: &[u8], row: &[u8]) {
    for ((sum, position), cell) in sums.iter_mut().zip(positions).zip(row) {
        *sum ^= (position | 128) & 0u8.wrapping_sub(*cell);
    }
}

/// Adds the positions, in an even block and an odd one, of the cells that are 1.
fn take_in_two(even: &mut [u8], odd: &mut [u8], positions: &[u8], row: &[u8]) {
    for (((even, odd), position), cell) in even.iter_mut().zip(odd).zip(positions).zip(row) {
        let part = (position | 128) & 0u8.wrapping_sub(*cell);
        let is_odd = 0u8.wrapping_sub(position >> 7);
        *odd ^= part & is_odd;
        *even ^= part & !is_odd;
    }
}
