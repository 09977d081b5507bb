//! Sixty-four cells and a word: the first cell is the highest bit, as in the payload.

/// The eight cells of each byte, the first in the lowest byte of the word.
static CELLS: [u64; 256] = cells_of_bytes();

const fn cells_of_bytes() -> [u64; 256] {
    let mut table = [0; 256];
    let mut byte = 0;
    while byte < 256 {
        let mut cell = 0;
        while cell < 8 {
            table[byte] |= (byte as u64 >> (7 - cell) & 1) << (8 * cell);
            cell += 1;
        }
        byte += 1;
    }
    table
}

/// The bit of a cell in its word.
pub fn bit(cell: usize) -> u64 {
    1 << (63 - cell % 64)
}

/// Sixty-four cells from a word.
#[inline(always)]
fn put(bits: u64, cells: &mut [u8; 64]) {
    for (byte, cells) in bits.to_be_bytes().into_iter().zip(cells.chunks_exact_mut(8)) {
        cells.copy_from_slice(&CELLS[usize::from(byte)].to_le_bytes());
    }
}

/// A word from sixty-four cells, each 0 or 1.
#[inline(always)]
pub fn take(cells: &[u8; 64]) -> u64 {
    let mut bits = 0;
    for cells in cells.chunks_exact(8) {
        let eight = u64::from_le_bytes(cells.try_into().unwrap());
        bits = bits << 8 | eight.wrapping_mul(0x8040_2010_0804_0201) >> 56;
    }
    bits
}

/// The padding, a bit a cell, from its first cell on.
pub const PADDING: u8 = 0b1010_1010;

/// Sixty-four bits of the payload from a bit on, with the padding after its end.
#[inline(always)]
fn read(payload: &[u8], rank: usize) -> u64 {
    let (byte, shift) = (rank / 8, rank % 8);
    let nine = |bytes: &[u8]| {
        let (eight, last) = bytes.split_at(8);
        u64::from_be_bytes(eight.try_into().unwrap()) << shift | u64::from(last[0]) >> (8 - shift)
    };
    if let Some(bytes) = payload.get(byte..byte + 9) {
        return nine(bytes);
    }
    let mut bytes = [PADDING; 9];
    let rest = payload.get(byte..).unwrap_or(&[]);
    bytes[..rest.len()].copy_from_slice(rest);
    nine(&bytes)
}

/// The bits with a 0 put in at each check, and the number of checks.
#[inline(always)]
fn with_checks(mut bits: u64, mut checks: u64) -> (u64, usize) {
    let mut count = 0;
    while checks != 0 {
        let check = 1 << 63 >> checks.leading_zeros();
        let from = check | (check - 1);
        bits = bits & !from | (bits & from) >> 1;
        checks ^= check;
        count += 1;
    }
    (bits, count)
}

/// The bits with each check taken out, moved up, and the number of checks.
#[inline(always)]
fn without_checks(mut bits: u64, mut checks: u64) -> (u64, usize) {
    let mut count = 0;
    while checks != 0 {
        let check = checks & checks.wrapping_neg();
        let below = check - 1;
        bits = bits & !(below | check) | (bits & below) << 1;
        checks ^= check;
        count += 1;
    }
    (bits, count)
}

/// Writes the payload's bits and the padding into the cells that are no checks, and 0 into all others.
pub fn scatter(payload: &[u8], checks: &[u64], field: &mut [u8]) {
    let mut rank = 0;
    let mut words = field.chunks_exact_mut(64);
    let mut marks = checks.iter();
    for (cells, &checks) in words.by_ref().zip(marks.by_ref()) {
        let (bits, count) = with_checks(read(payload, rank), checks);
        put(bits, cells.try_into().unwrap());
        rank += 64 - count;
    }
    let rest = words.into_remainder();
    let mut cells = [0; 64];
    put(with_checks(read(payload, rank), checks[checks.len() - 2]).0, &mut cells);
    rest.copy_from_slice(&cells[..rest.len()]);
}

/// Bits on their way into a payload.
struct Writer<'a> {
    payload: &'a mut [u8],
    at: usize,
    held: u64,
    count: usize,
}

impl Writer<'_> {
    /// Appends the first bits of a word, whose others are 0.
    #[inline(always)]
    fn push(&mut self, bits: u64, count: usize) {
        self.held |= bits >> self.count;
        let before = self.count;
        self.count += count;
        if self.count >= 64 {
            self.flush();
            self.count -= 64;
            self.held = bits << 1 << (63 - before);
        }
    }

    /// Writes the word held, as far as the payload goes.
    #[inline(always)]
    fn flush(&mut self) {
        let bytes = self.held.to_be_bytes();
        if let Some(eight) = self.payload.get_mut(self.at..self.at + 8) {
            eight.copy_from_slice(&bytes);
        } else {
            let rest = &mut self.payload[self.at..];
            rest.copy_from_slice(&bytes[..rest.len()]);
        }
        self.at += 8;
    }
}

/// Reads the payload from the cells that are no checks, with the damaged cells turned over; the damage is in byte order.
pub fn gather(field: &[u8], checks: &[u64], damage: &[usize], payload: &mut [u8]) {
    let mut damage = damage.iter().copied().peekable();
    let mut writer = Writer { payload, at: 0, held: 0, count: 0 };
    let mut last = [0; 64];
    let words = field.chunks_exact(64);
    last[..words.remainder().len()].copy_from_slice(words.remainder());
    for (i, (cells, &checks)) in words.chain([&last[..]]).zip(checks).enumerate() {
        let mut bits = take(cells.try_into().unwrap());
        while let Some(cell) = damage.next_if(|cell| cell / 64 == i) {
            bits ^= bit(cell);
        }
        let (bits, count) = without_checks(bits, checks);
        writer.push(bits, 64 - count);
    }
    if writer.count > 0 && writer.at < writer.payload.len() {
        writer.flush();
    }
}
