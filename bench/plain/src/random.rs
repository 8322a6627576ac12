/// Random numbers by splitmix64: the same from the same seed.
pub struct Random(u64);

impl Random {
    pub fn new(seed: u64) -> Random {
        Random(seed)
    }

    fn next(&mut self) -> u64 {
        self.0 = self.0.wrapping_add(0x9e37_79b9_7f4a_7c15);
        let mut z = self.0;
        z = (z ^ (z >> 30)).wrapping_mul(0xbf58_476d_1ce4_e5b9);
        z = (z ^ (z >> 27)).wrapping_mul(0x94d0_49bb_1331_11eb);
        z ^ (z >> 31)
    }

    /// A number below `end`.
    pub fn below(&mut self, end: u16) -> u16 {
        (self.next() % u64::from(end)) as u16
    }

    pub fn one_of<T>(&mut self, mut items: impl ExactSizeIterator<Item = T>) -> Option<T> {
        match u16::try_from(items.len()) {
            Ok(len @ 1..) => items.nth(usize::from(self.below(len))),
            _ => None,
        }
    }
}
