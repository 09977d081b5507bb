//! Numbers side by side that differ by less than 256, one for each class or more, and what a row adds to them.

/// The most lanes: one for each class, at most 512, and one for each column, at most 256.
pub const LANES: usize = 768;

/// The number of lanes is a multiple of this, for the vectors.
const CHUNK: usize = 16;

/// Numbers that differ by less than 256.
pub struct Lanes {
    /// The numbers, modulo 256.
    pub list: [u8; LANES],
    /// How many there are, a multiple of the chunk.
    pub count: usize,
    /// All numbers lie between these.
    pub low: usize,
    pub high: usize,
    /// How many steps were made since these were found.
    pub steps: usize,
}

/// What a step adds to each lane: the rise, and one more for some, by their distance from the next row's start.
pub struct Step {
    rise: usize,
    pattern: [u8; LANES + 512],
}

impl Step {
    /// One more for each lane whose distance modulo m is below `more`.
    #[inline(always)]
    pub fn new(m: usize, lanes: usize, rise: usize, more: usize) -> Step {
        let mut pattern = [0; LANES + 512];
        pattern[..more].fill(1);
        for i in m..m + lanes.next_multiple_of(CHUNK) {
            pattern[i] = pattern[i - m];
        }
        Step { rise, pattern }
    }
}

impl Lanes {
    /// Numbers that are all 0.
    #[inline(always)]
    pub fn zeros(lanes: usize) -> Lanes {
        Lanes { list: [0; LANES], count: lanes.next_multiple_of(CHUNK), low: 0, high: 0, steps: 0 }
    }

    /// Lane y has the number 1 + y / m.
    #[inline(always)]
    pub fn laps(m: usize, lanes: usize) -> Lanes {
        let count = lanes.next_multiple_of(CHUNK);
        let mut list = [0; LANES];
        list[..m].fill(1);
        for i in m..count {
            list[i] = list[i - m] + 1;
        }
        Lanes { list, count, low: 1, high: 1 + (count - 1) / m, steps: 0 }
    }

    /// The number of a lane.
    pub fn get(&self, lane: usize) -> usize {
        self.low + usize::from(self.list[lane].wrapping_sub(self.low as u8))
    }

    /// Adds what a step adds, less `less`, where the lane at the start lies `offset` into the pattern.
    #[inline(always)]
    pub fn step(&mut self, step: &Step, offset: usize, less: usize) {
        let rise = (step.rise as u8).wrapping_sub(less as u8);
        for (lane, more) in self.list[..self.count].iter_mut().zip(&step.pattern[offset..]) {
            *lane = lane.wrapping_add(rise).wrapping_add(*more);
        }
        // No number is below 0.
        self.low = (self.low + step.rise).saturating_sub(less);
        self.high = self.high + step.rise + 1 - less;
        self.steps += 1;
        if self.high - self.low > 250 {
            self.bound();
        }
    }

    /// Finds the least and the greatest number.
    pub fn bound(&mut self) {
        let (mut least, mut greatest) = (u8::MAX, 0);
        for lane in &self.list[..self.count] {
            let above = lane.wrapping_sub(self.low as u8);
            least = least.min(above);
            greatest = greatest.max(above);
        }
        self.high = self.low + usize::from(greatest);
        self.low += usize::from(least);
        self.steps = 0;
    }
}
