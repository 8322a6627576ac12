use std::ops::BitAnd;

/// A set of loads: load b is bit b mod 64 of word b / 64.
#[derive(Clone, Copy, PartialEq, Eq, Debug)]
pub struct LoadSet([u64; 4]);

impl LoadSet {
    pub const NONE: LoadSet = LoadSet([0; 4]);
    pub const ALL: LoadSet = LoadSet([u64::MAX; 4]);

    pub fn has(&self, load: u8) -> bool {
        self.0[word(load)] & bit(load) != 0
    }

    pub fn insert(&mut self, load: u8) {
        self.0[word(load)] |= bit(load);
    }

    pub fn remove(&mut self, load: u8) {
        self.0[word(load)] &= !bit(load);
    }

    pub fn without(mut self, load: u8) -> LoadSet {
        self.remove(load);
        self
    }

    /// The lowest load of the set.
    pub fn first(&self) -> Option<u8> {
        let k = self.0.iter().position(|&word| word != 0)?;
        Some((64 * k as u32 + self.0[k].trailing_zeros()) as u8)
    }

    /// The loads of the set in rising order.
    pub fn loads(self) -> impl Iterator<Item = u8> {
        (0u32..).zip(self.0).flat_map(|(k, mut word)| {
            std::iter::from_fn(move || {
                if word == 0 {
                    return None;
                }
                let load = 64 * k + word.trailing_zeros();
                word &= word - 1;
                Some(load as u8)
            })
        })
    }
}

impl BitAnd for LoadSet {
    type Output = LoadSet;

    fn bitand(self, other: LoadSet) -> LoadSet {
        LoadSet(std::array::from_fn(|k| self.0[k] & other.0[k]))
    }
}

fn word(load: u8) -> usize {
    usize::from(load / 64)
}

fn bit(load: u8) -> u64 {
    1 << (load % 64)
}
