//! Random left joins whose condition errs on some merges: their operands have rows twice, variables that are free in some rows, and
//! projected trusts, of which some are unknown. Many stand under an ensure trust.

use crate::inputs;
use crate::random::Random;
use crate::tables;
use crate::vectors;

/// Variables 0 to 3 stand in patterns, and these in project trusts, once each.
const TO_PROJECT: [u8; 6] = [4, 5, 9, 10, 14, 15];

struct Maker<'a> {
    random: &'a mut Random,
    terms: &'a [u32],
    to_project: Vec<u8>,
    /// What conditions are about.
    variables: Vec<u8>,
}

impl Maker<'_> {
    fn set(&mut self) -> Vec<u8> {
        inputs::one_pattern(self.random, self.terms)
    }

    /// A set, a union of two, or one with itself.
    fn sets(&mut self) -> Vec<u8> {
        let one = self.set();
        match self.random.below(6) {
            0 | 1 => [vec![0x30], one, self.set()].concat(),
            2 => [vec![0x30], one.clone(), one].concat(),
            _ => one,
        }
    }

    fn operand(&mut self, depth: usize) -> Vec<u8> {
        if depth > 0 && self.random.once_in(4) {
            return self.left_join(depth - 1);
        }
        let sets = self.sets();
        match self.to_project.pop() {
            Some(variable) if self.random.once_in(2) => {
                self.variables.push(variable);
                [vec![0x50 | variable], sets].concat()
            }
            _ => sets,
        }
    }

    fn condition(&mut self, depth: usize) -> Vec<u8> {
        let [v, w] = [0; 2].map(|_| self.random.pick(&self.variables));
        match self.random.below(if depth == 0 { 7 } else { 12 }) {
            0 => vec![v],
            1 | 2 => vec![0x10 | v, w],
            3 | 4 => [&[0x20 | v][..], &vectors::of_term(self.random.pick(self.terms))].concat(),
            5 | 6 => vec![0x30 | v, w],
            7 => [vec![0x40], self.condition(depth - 1)].concat(),
            8 | 9 => [vec![0x50], self.condition(depth - 1), self.condition(depth - 1)].concat(),
            _ => [vec![0x60], self.condition(depth - 1), self.condition(depth - 1)].concat(),
        }
    }

    /// The condition is made last: it may be about the trusts that the operands project.
    fn left_join(&mut self, depth: usize) -> Vec<u8> {
        let (left, right) = (self.operand(depth), self.operand(depth));
        [vec![0x20], self.condition(2), left, right].concat()
    }

    fn query(&mut self) -> Vec<u8> {
        let (left_join, variable) = (self.left_join(2), self.random.pick(&self.variables));
        let above = match self.random.below(8) {
            0..4 => {
                let (low, high) = (self.random.within(0, 1_000), self.random.within(1_500, 2_000));
                vec![0x60, (low >> 4) as u8, (low << 4 | high >> 8) as u8, high as u8]
            }
            4 => vec![0x40, variable],
            5 => vec![0x40, 0x40, variable],
            _ => vec![],
        };
        [above, left_join].concat()
    }
}

pub fn inputs(random: &mut Random) -> (Vec<u8>, Vec<u8>) {
    let records = random.within(4, 24);
    let terms = inputs::few_terms(random, 3);
    let table = tables::table_of_terms(random, records, |random| random.pick(&terms));
    let mut maker = Maker { random, terms: &terms, to_project: TO_PROJECT.to_vec(), variables: vec![0, 1, 2, 3] };
    let query = maker.query();
    (table, query)
}
