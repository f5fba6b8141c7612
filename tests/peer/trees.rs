//! Random tables and queries that have a counterpart in SPARQL: few terms and variables, so that rows join and miss, and conditions on
//! variables that are set, set in some rows, and never set, so that they often err.

use crate::paper::{self, VARIABLES};
use crate::random::Random;
use crate::tables;
use crate::vectors;

/// Levels of nodes over pattern sets.
const DEEPEST: usize = 4;
/// Levels of conditions over simple ones.
const DEEPEST_CONDITION: usize = 2;
const MOST_RECORDS: usize = 20;

/// A node's bytes, and the variables that its rows may have.
#[derive(Clone)]
struct Made {
    bytes: Vec<u8>,
    variables: Vec<u8>,
}

struct Maker<'a> {
    random: &'a mut Random,
    terms: Vec<u32>,
    all: Vec<u8>,
    in_patterns: Vec<u8>,
    /// For project trusts, and those that are not used yet.
    trusts: Vec<u8>,
    to_project: Vec<u8>,
}

fn pair(head: Vec<u8>, left: Made, right: Made) -> Made {
    let variables = [left.variables, right.variables].concat();
    Made { bytes: [head, left.bytes, right.bytes].concat(), variables }
}

impl<'a> Maker<'a> {
    fn new(random: &'a mut Random, terms: Vec<u32>, trusts: bool) -> Maker<'a> {
        let mut variables: Vec<u8> = (0..VARIABLES as u8).collect();
        let mut some = |count| (0..count).map(|_| variables.swap_remove(random.below(variables.len()))).collect::<Vec<u8>>();
        let (in_patterns, never, trusts) = (some(4), some(1), some(if trusts { 3 } else { 0 }));
        let all = [&in_patterns[..], &never, &trusts].concat();
        Maker { random, terms, all, in_patterns, to_project: trusts.clone(), trusts }
    }

    /// None for a term; seldom one that the pattern has already.
    fn variable_of_slot(&mut self, before: &[u8]) -> Option<u8> {
        if self.random.once_in(3) {
            return None;
        }
        let variable = self.random.pick(&self.in_patterns);
        let again = before.contains(&variable) && !self.random.once_in(4);
        Some(if again { self.random.pick(&self.in_patterns) } else { variable })
    }

    fn set(&mut self, count: usize) -> Made {
        let (mut bytes, mut variables) = (vec![count as u8], Vec::new());
        for _ in 0..count {
            let first = variables.len();
            for _ in 0..3 {
                let variable = self.variable_of_slot(&variables[first..]);
                bytes.extend(match variable {
                    Some(variable) => [0x10, 0, variable],
                    None => vectors::of_term(self.random.pick(&self.terms)),
                });
                variables.extend(variable);
            }
        }
        Made { bytes, variables }
    }

    /// A set, or the trust of a set of one pattern.
    fn leaf(&mut self) -> Made {
        if self.to_project.is_empty() || self.random.once_in(3) {
            let count = self.random.pick(&[0, 1, 1, 1, 1, 1, 2, 2, 3]);
            return self.set(count);
        }
        let variable = self.to_project.pop().expect("one is left");
        let Made { bytes, mut variables } = self.set(1);
        variables.push(variable);
        Made { bytes: [vec![0x50 | variable], bytes].concat(), variables }
    }

    /// The trusts among variables.
    fn trusts_of(&self, variables: &[u8]) -> Vec<u8> {
        variables.iter().copied().filter(|variable| self.trusts.contains(variable)).collect()
    }

    /// Mostly one of the operands' variables.
    fn variable(&mut self, operands: &[u8]) -> u8 {
        let from = if operands.is_empty() || self.random.once_in(8) { &self.all } else { operands };
        self.random.pick(from)
    }

    /// Often whether one trust of the operands is less than another.
    fn condition(&mut self, operands: &[u8], depth: usize) -> Vec<u8> {
        let mut trusts = self.trusts_of(operands);
        if trusts.len() > 1 && self.random.once_in(3) {
            let one = trusts.swap_remove(self.random.below(trusts.len()));
            return vec![0x30 | one, self.random.pick(&trusts)];
        }
        let [v, w] = [0; 2].map(|_| self.variable(operands));
        let of = |maker: &mut Self| maker.condition(operands, depth - 1);
        match self.random.below(if depth == 0 { 8 } else { 14 }) {
            0 | 1 => vec![v],
            2 | 3 => vec![0x10 | v, w],
            4 | 5 => [&[0x20 | v][..], &vectors::of_term(self.random.pick(&self.terms))].concat(),
            6 => vec![0x30 | v, w],
            7 => vec![0x70],
            8 | 9 => [vec![0x40], of(self)].concat(),
            10 | 11 => [vec![0x50], of(self), of(self)].concat(),
            _ => [vec![0x60], of(self), of(self)].concat(),
        }
    }

    /// Now and then of a node with itself.
    fn union(&mut self, depth: usize) -> Made {
        let left = self.below(depth);
        let again = self.trusts_of(&left.variables).is_empty() && self.random.once_in(4);
        let right = if again { left.clone() } else { self.below(depth) };
        pair(vec![0x30], left, right)
    }

    /// Often with a union as the right operand, so that variables are set in some of its rows.
    fn left_join(&mut self, depth: usize) -> Made {
        let left = self.below(depth);
        let right = if self.random.once_in(2) { self.union(1) } else { self.below(depth) };
        let variables = [&left.variables[..], &right.variables].concat();
        let condition = self.condition(&variables, DEEPEST_CONDITION);
        pair([vec![0x20], condition].concat(), left, right)
    }

    fn filter(&mut self, depth: usize) -> Made {
        let Made { bytes, variables } = self.below(depth);
        let condition = self.condition(&variables, DEEPEST_CONDITION);
        Made { bytes: [vec![0x40], condition, bytes].concat(), variables }
    }

    fn node(&mut self, depth: usize) -> Made {
        match self.random.below(9) {
            _ if depth == 0 => self.leaf(),
            0 | 1 => {
                let (left, right) = (self.below(depth), self.below(depth));
                pair(vec![0x10], left, right)
            }
            2..5 => self.left_join(depth),
            5 | 6 => self.union(depth),
            _ => self.filter(depth),
        }
    }

    fn below(&mut self, depth: usize) -> Made {
        let depth = self.random.below(depth);
        self.node(depth)
    }
}

/// A sound table and a query. Where the query projects trusts, those of the table are known.
pub fn random(random: &mut Random) -> (Vec<u8>, Vec<u8>) {
    let count = random.within(2, 3) as u32;
    let first = random.pick(&[1, 1, 9, 1_048_573]);
    let terms: Vec<u32> = (first..first + count).collect();
    let trusts = random.once_in(2);
    let records = random.within(0, MOST_RECORDS);
    let mut table = tables::table_of_terms(random, records, |random| random.pick(&terms));
    if trusts {
        table = known(random, &table);
    }
    let depth = random.within(1, DEEPEST);
    let query = Maker::new(random, terms, trusts).node(depth).bytes;
    (table, query)
}

/// The same triples with known trusts, few so that some are equal.
fn known(random: &mut Random, table: &[u8]) -> Vec<u8> {
    let mut known = |terms| tables::record(terms, true, random.pick(&[0, 999, 1_000, 1_900, 2_000]));
    paper::records(table).expect("a sound table").iter().flat_map(|record| known(record.terms)).collect()
}
