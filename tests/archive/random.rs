//! Repeatable random numbers (splitmix64), and damage done by them.

/// What noise can be made of.
pub trait Noise: Copy + PartialEq {
    fn of(bits: u64) -> Self;
}

impl Noise for u8 {
    fn of(bits: u64) -> u8 {
        bits as u8
    }
}

impl Noise for u32 {
    fn of(bits: u64) -> u32 {
        bits as u32
    }
}

pub struct Random(u64);

impl Random {
    pub fn new(seed: u64) -> Random {
        Random(seed)
    }

    pub fn next(&mut self) -> u64 {
        self.0 = self.0.wrapping_add(0x9E37_79B9_7F4A_7C15);
        let mut z = self.0;
        z = (z ^ z >> 30).wrapping_mul(0xBF58_476D_1CE4_E5B9);
        z = (z ^ z >> 27).wrapping_mul(0x94D0_49BB_1331_11EB);
        z ^ z >> 31
    }

    /// A number below `bound`, which is not 0.
    pub fn below(&mut self, bound: usize) -> usize {
        (self.next() % bound as u64) as usize
    }

    /// A number from `low` to `high`, both included.
    pub fn within(&mut self, low: usize, high: usize) -> usize {
        low + self.below(high - low + 1)
    }

    /// True once in `n` times.
    pub fn once_in(&mut self, n: usize) -> bool {
        self.below(n) == 0
    }

    pub fn pick<T: Copy>(&mut self, choices: &[T]) -> T {
        choices[self.below(choices.len())]
    }

    pub fn byte(&mut self) -> u8 {
        self.next() as u8
    }

    pub fn noise<T: Noise>(&mut self, count: usize) -> Vec<T> {
        (0..count).map(|_| T::of(self.next())).collect()
    }

    /// Flips a bit, sets, drops or inserts bytes, or cuts the end off.
    pub fn damage(&mut self, bytes: &mut Vec<u8>) {
        let place = self.below(bytes.len() + 1);
        let some = self.pick(&[1, 1, 1, 2, 3, 9]);
        match self.below(5) {
            _ if place == bytes.len() => bytes.extend(self.noise::<u8>(some)),
            0 => bytes[place] ^= 1 << self.below(8),
            1 => bytes[place] = self.byte(),
            2 => drop(bytes.drain(place..(place + some).min(bytes.len()))),
            3 => drop(bytes.splice(place..place, self.noise(some))),
            _ => bytes.truncate(place),
        }
    }
}
