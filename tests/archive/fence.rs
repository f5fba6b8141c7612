//! Slices to lend to a call: each stands between random noise at a random alignment, and knows what stood there before.

use crate::random::{Noise, Random};
use std::ops::Range;

pub struct Fenced<T> {
    place: Range<usize>,
    now: Vec<T>,
    before: Vec<T>,
}

impl<T: Noise> Fenced<T> {
    /// A copy of `content`.
    pub fn new(random: &mut Random, content: &[T]) -> Fenced<T> {
        let (front, back) = (random.within(1, 16), random.within(1, 16));
        let before = [&random.noise(front), content, &random.noise(back)].concat();
        Fenced { place: front..front + content.len(), now: before.clone(), before }
    }

    pub fn slice(&self) -> &[T] {
        &self.now[self.place.clone()]
    }

    pub fn slice_mut(&mut self) -> &mut [T] {
        &mut self.now[self.place.clone()]
    }

    /// Whether `written` stands at the front of the slice, and all else in it and about it is as it was.
    pub fn holds(&self, written: &[T]) -> bool {
        let (front, behind) = (self.place.start, self.place.start + written.len());
        behind <= self.place.end
            && self.now[..front] == self.before[..front]
            && self.now[front..behind] == *written
            && self.now[behind..] == self.before[behind..]
    }
}

/// Lends slices to write, with noise as their old content.
pub struct Lender<T> {
    pub random: Random,
    noise: Vec<T>,
}

impl<T: Noise> Lender<T> {
    /// For slices of up to `most` elements.
    pub fn new(seed: u64, most: usize) -> Lender<T> {
        let mut random = Random::new(seed);
        let noise = random.noise(2 * most + 1);
        Lender { random, noise }
    }

    pub fn lend(&mut self, length: usize) -> Fenced<T> {
        let from = self.random.below(self.noise.len() - length);
        Fenced::new(&mut self.random, &self.noise[from..from + length])
    }
}

/// The answer of a call to fenced copies of a table and a query; none if a byte in them or about them has changed.
pub fn call<A>(random: &mut Random, table: &[u8], query: &[u8], call: impl FnOnce(&[u8], &[u8]) -> A) -> Option<A> {
    let (table, query) = (Fenced::new(random, table), Fenced::new(random, query));
    let answer = call(table.slice(), query.slice());
    (table.holds(&[]) && query.holds(&[])).then_some(answer)
}
