//! Fields of levels: passes over the cells, each class with the place and the sum of its open word.

use super::layout::{Layout, MAX_CLASSES};

/// The greatest level.
const MAX_LEVEL: u8 = 24;

/// The multipliers of the cells of a word.
const MULTIPLIERS: [u32; 6] = [1, 5, 6, 11, 16, 21];

/// For each remainder of a sum the place and the change, read less written, of the one fault that leaves it.
const FAULTS: [(usize, i8); 25] = faults();

const fn faults() -> [(usize, i8); 25] {
    let (mut faults, changes) = ([(0, 0); 25], [-1, 1, 2, 3]);
    let mut i = 0;
    while i < 24 {
        let (place, change) = (i / 4, changes[i % 4]);
        faults[(MULTIPLIERS[place] as i32 * change as i32).rem_euclid(25) as usize] = (place, change);
        i += 1;
    }
    faults
}

/// The number of digits: five in each word of six cells of a class.
fn digits(layout: &Layout) -> usize {
    (0..layout.settings.m).map(|class| layout.sizes.get(class) / 6 * 5).sum()
}

/// Visits all cells in byte order, with the class of each and its place in its word, or 6 where it belongs to none.
#[inline(always)]
fn each_cell(layout: &Layout, mut visit: impl FnMut(usize, usize, usize)) {
    // For each class the place of its next cell, and how many words are left.
    let mut next = [(0u8, 0u16); MAX_CLASSES];
    for (class, (_, words)) in next.iter_mut().enumerate().take(layout.settings.m) {
        *words = (layout.sizes.get(class) / 6) as u16;
    }
    layout.each_cell(|cell, class| {
        let (place, words) = &mut next[class];
        if *words == 0 {
            return visit(cell, class, 6);
        }
        visit(cell, class, usize::from(*place));
        *place += 1;
        if *place == 6 {
            (*place, *words) = (0, *words - 1);
        }
    });
}

/// A cell that was changed, the rank of its digit where it holds one, and the level that was written.
struct Fault {
    cell: usize,
    rank: Option<usize>,
    level: u8,
}

/// The faults of a field, and the cells of no word that are not 0: 12, 6.
fn examine(layout: &Layout, field: &[u8]) -> Result<(Vec<Fault>, Vec<usize>), usize> {
    if field.iter().any(|&cell| cell > MAX_LEVEL) {
        return Err(12);
    }
    let (mut faults, mut ignored, mut reached) = (Vec::new(), Vec::new(), true);
    // For each class the sum of its open word, and the cell and the rank at each place of it.
    let mut open = vec![(0, [(0, 0); 6]); layout.settings.m];
    let mut rank = 0;
    each_cell(layout, |cell, class, place| {
        if place == 6 {
            if field[cell] != 0 {
                ignored.push(cell);
            }
            return;
        }
        let (sum, cells) = &mut open[class];
        *sum += MULTIPLIERS[place] * u32::from(field[cell]);
        cells[place] = (cell, rank);
        rank += usize::from(place > 0);
        if place == 5 {
            if *sum % 25 != 0 {
                let (place, change) = FAULTS[(*sum % 25) as usize];
                let (cell, rank) = cells[place];
                // Below 0 it wraps to a large number.
                let level = field[cell].wrapping_sub(change as u8);
                reached &= level <= MAX_LEVEL;
                faults.push(Fault { cell, rank: (place > 0).then_some(rank), level });
            }
            *sum = 0;
        }
    });
    if reached {
        Ok((faults, ignored))
    } else {
        Err(6)
    }
}

/// Encode levels (shaded write): 1, 2, 3, 4, 12.
pub fn encode_levels(
    columns: usize,
    rows: usize,
    planes: usize,
    strength: usize,
    payload: &[u8],
    field: &mut [u8],
) -> Result<(), usize> {
    let layout = Layout::new(columns, rows, planes, strength)?;
    if payload.len() != digits(&layout) {
        return Err(3);
    }
    if field.len() != layout.cells {
        return Err(4);
    }
    if payload.iter().any(|&digit| digit > MAX_LEVEL) {
        return Err(12);
    }
    let mut open = vec![(0, 0); layout.settings.m];
    let mut rank = 0;
    each_cell(&layout, |cell, class, place| match place {
        0 => open[class] = (cell, 0),
        6 => field[cell] = 0,
        _ => {
            let (check, sum) = &mut open[class];
            field[cell] = payload[rank];
            *sum += MULTIPLIERS[place] * u32::from(payload[rank]);
            rank += 1;
            if place == 5 {
                field[*check] = ((25 - *sum % 25) % 25) as u8;
            }
        }
    });
    Ok(())
}

/// Decode levels (shaded read): 1, 2, 3, 4, 12, 6. Gives the number of cells of words corrected on the way.
pub fn decode_levels(
    columns: usize,
    rows: usize,
    planes: usize,
    strength: usize,
    payload: &mut [u8],
    field: &[u8],
) -> Result<usize, usize> {
    let layout = Layout::new(columns, rows, planes, strength)?;
    if payload.len() != digits(&layout) {
        return Err(3);
    }
    if field.len() != layout.cells {
        return Err(4);
    }
    let (faults, _) = examine(&layout, field)?;
    let mut rank = 0;
    each_cell(&layout, |cell, _, place| {
        if (1..6).contains(&place) {
            payload[rank] = field[cell];
            rank += 1;
        }
    });
    for fault in &faults {
        if let Some(rank) = fault.rank {
            payload[rank] = fault.level;
        }
    }
    Ok(faults.len())
}

/// Correct levels (shaded mend) where they lie: 1, 2, 4, 12, 6. Gives the number of all cells changed.
pub fn correct_levels(columns: usize, rows: usize, planes: usize, strength: usize, field: &mut [u8]) -> Result<usize, usize> {
    let layout = Layout::new(columns, rows, planes, strength)?;
    if field.len() != layout.cells {
        return Err(4);
    }
    let (faults, ignored) = examine(&layout, field)?;
    faults.iter().for_each(|fault| field[fault.cell] = fault.level);
    ignored.iter().for_each(|&cell| field[cell] = 0);
    Ok(faults.len() + ignored.len())
}
