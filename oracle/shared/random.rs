//! Numbers that follow from a seed, and rows made of them.

/// splitmix64.
pub struct Random(pub u64);

impl Random {
    pub fn word(&mut self) -> u64 {
        self.0 = self.0.wrapping_add(0x9e37_79b9_7f4a_7c15);
        let mut z = self.0;
        z = (z ^ (z >> 30)).wrapping_mul(0xbf58_476d_1ce4_e5b9);
        z = (z ^ (z >> 27)).wrapping_mul(0x94d0_49bb_1331_11eb);
        z ^ (z >> 31)
    }

    pub fn below(&mut self, end: u64) -> u64 {
        self.word() % end
    }

    pub fn one_of<T: Copy>(&mut self, list: &[T]) -> T {
        list[self.below(list.len() as u64) as usize]
    }

    /// A row of which one bit in 64, 32, .. 2, or all but so many, are set.
    pub fn density(&mut self) -> u64 {
        let sparse = (0..self.below(6)).fold(self.word(), |row, _| row & self.word());
        if self.below(2) == 0 { sparse } else { !sparse }
    }

    /// Lanes of one width, each clear, full, its lowest or highest bit alone, or anything: where a
    /// subtraction that wraps lends from lane to lane.
    fn lanes(&mut self) -> u64 {
        let width = 1 << self.below(6);
        let full = u64::MAX >> (64 - width);
        (0..64 / width).fold(0, |row, lane| {
            let any = self.word() & full;
            row | self.one_of(&[0, full, 1, 1 << (width - 1), any]) << (lane * width)
        })
    }

    /// A row that is full, or nearly, but for one block; or the reverse.
    fn one_block(&mut self) -> u64 {
        let order = self.below(7);
        let block = mask(self.below(64 >> order) << order, order);
        let noise = self.density();
        self.one_of(&[!block, block, !block & noise, block | noise])
    }

    pub fn row(&mut self) -> u64 {
        match self.below(4) {
            0 => self.word(),
            1 => self.density(),
            2 => self.lanes(),
            _ => self.one_block(),
        }
    }
}

/// The bits of a block within one row.
pub fn mask(place: u64, order: u64) -> u64 {
    (u64::MAX >> (64 - (1 << order))) << place
}
