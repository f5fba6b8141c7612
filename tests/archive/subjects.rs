//! Random tables whose terms are few and near one another, queries about their subjects, and the subjects that the scans of a query
//! ask for. A subject that is asked for is often one of the table, or one less or one more.

use crate::paper::{self, Choice, Inputs, Kind, Node, Pattern, Slot, CHECK_LIMIT, RECORD_BYTES, VARIABLES};
use crate::random::Random;
use crate::rows::{self, Outcome, Seen, Value};
use crate::tables;
use crate::vectors;

pub const LAST_TERM: u32 = 1_048_575;
const PATTERN_BYTES: usize = 9;

/// Random cases are evaluated as far as so many rows of space, and left out if they take more steps: so many, and some a record.
const MOST_SPACE: usize = 300;
const MOST_STEPS: usize = 10_000;
const STEPS_A_RECORD: usize = 16;

pub fn evaluate(inputs: Inputs, seen: &mut Seen) -> Option<Outcome> {
    let steps = MOST_STEPS + STEPS_A_RECORD * inputs.0.len() / RECORD_BYTES;
    rows::evaluate_within(inputs, MOST_SPACE, steps as u64, seen)
}

// ---- Tables

pub type Triple = [u32; 3];

pub fn triples(table: &[u8]) -> Vec<Triple> {
    paper::records(table).expect("a sound table").iter().map(|record| record.terms).collect()
}

/// A few records: subjects and predicates are some of a few terms that follow one another, and objects any of these; now and then all
/// three are one term.
pub fn table(random: &mut Random) -> Vec<u8> {
    let count = random.within(3, 8) as u32;
    let first = random.pick(&[1, 1, 2, 100, 253, 4_093, 65_533, 524_285, LAST_TERM - count, LAST_TERM - count + 1]);
    let terms: Vec<u32> = (first..first + count).collect();
    let [subjects, predicates] = [6, 3].map(|most| {
        let some = random.within(1, most);
        (0..some).map(|_| random.pick(&terms)).collect::<Vec<u32>>()
    });
    let records = random.within(0, 24);
    tables::table_of_triples(random, records, |random| {
        let subject = random.pick(&subjects);
        if random.once_in(10) {
            return [subject; 3];
        }
        [subject, random.pick(&predicates), random.pick(&terms)]
    })
}

/// So many records, or somewhat fewer, to stand behind a record: of its subject or of greater ones, up to `most`, and with predicates
/// and objects of the table.
pub fn behind(random: &mut Random, triples: &[Triple], place: usize, count: usize, most: u32) -> Vec<u8> {
    let (before, greatest) = (triples[place], [LAST_TERM; 3]);
    if before == greatest {
        return Vec::new();
    }
    tables::table_of_triples(random, count, |random| {
        let subject = random.within(before[0] as usize, most.max(before[0]) as usize) as u32;
        let [[_, predicate, _], [_, _, object]] = [0; 2].map(|_| random.pick(triples));
        let triple = [subject, predicate, object];
        if triple > before {
            triple
        } else {
            greatest
        }
    })
}

// ---- Queries

/// The kind of a slot, in its first byte, that is a variable.
const VARIABLE: u8 = 0x10;

fn of_variable(variable: u8) -> [u8; 3] {
    [VARIABLE, 0, variable]
}

/// Makes a query about some records. Its patterns are made about one row: in it a variable has one term, so that patterns often fit
/// together.
pub struct Maker<'a> {
    random: &'a mut Random,
    triples: &'a [Triple],
    /// Whether every pattern names its subject.
    named: bool,
    row: [Option<u32>; VARIABLES as usize],
    in_patterns: Vec<u8>,
    in_conditions: Vec<u8>,
    /// For project trusts, once each.
    to_project: Vec<u8>,
}

impl<'a> Maker<'a> {
    pub fn new(random: &'a mut Random, triples: &'a [Triple], named: bool) -> Maker<'a> {
        let mut in_patterns: Vec<u8> = (0..VARIABLES as u8).collect();
        let some = random.within(4, 12);
        while in_patterns.len() > some {
            in_patterns.swap_remove(random.below(in_patterns.len()));
        }
        let in_conditions = in_patterns.clone();
        let to_project = in_patterns.split_off(some - 2);
        Maker { random, triples, named, row: [None; VARIABLES as usize], in_patterns, in_conditions, to_project }
    }

    /// A record to make a pattern about, often one whose subject a variable has.
    fn triple(&mut self) -> Triple {
        let linked: Vec<Triple> =
            self.triples.iter().copied().filter(|triple| self.row.contains(&Some(triple[0]))).collect();
        match self.random.below(3) {
            0 | 1 if !linked.is_empty() => self.random.pick(&linked),
            _ if self.triples.is_empty() => [1, 2, LAST_TERM],
            _ => self.random.pick(self.triples),
        }
    }

    /// The term, one less or one more.
    fn near(&mut self, term: u32) -> [u8; 3] {
        let near = match self.random.below(12) {
            0 => term - 1,
            1 => term + 1,
            _ => term,
        };
        vectors::of_term(near.clamp(1, LAST_TERM))
    }

    /// A variable that has the term, or has none and takes it; now and then any.
    fn variable(&mut self, term: u32) -> [u8; 3] {
        let any = self.random.once_in(12);
        let fits = |variable: &u8| any || self.row[usize::from(*variable)].map_or(true, |other| other == term);
        let fitting: Vec<u8> = self.in_patterns.iter().copied().filter(fits).collect();
        if fitting.is_empty() {
            return vectors::of_term(term);
        }
        let variable = self.random.pick(&fitting);
        self.row[usize::from(variable)].get_or_insert(term);
        of_variable(variable)
    }

    /// Bound are the variables of the patterns before.
    fn subject(&mut self, term: u32, bound: &[u8]) -> [u8; 3] {
        let fitting: Vec<u8> = bound.iter().copied().filter(|bound| self.row[usize::from(*bound)] == Some(term)).collect();
        match self.random.below(6) {
            0..3 if !fitting.is_empty() => of_variable(self.random.pick(&fitting)),
            0 if !bound.is_empty() => of_variable(self.random.pick(bound)),
            1 | 2 if !self.named => self.variable(term),
            _ => self.near(term),
        }
    }

    fn other(&mut self, term: u32) -> [u8; 3] {
        match self.random.below(8) {
            0..5 => self.variable(term),
            5 | 6 => vectors::of_term(term),
            _ => self.near(term),
        }
    }

    /// A set of one to four patterns.
    fn set(&mut self) -> Vec<u8> {
        let count = self.random.within(1, 4);
        let (mut set, mut bound) = (vec![count as u8], Vec::new());
        for _ in 0..count {
            let [subject, predicate, object] = self.triple();
            let slots = [self.subject(subject, &bound), self.other(predicate), self.other(object)];
            bound.extend(slots.iter().filter(|slot| slot[0] == VARIABLE).map(|slot| slot[2]));
            set.extend(slots.concat());
        }
        set
    }

    fn condition(&mut self, depth: usize) -> Vec<u8> {
        let [v, w] = [0; 2].map(|_| self.random.pick(&self.in_conditions));
        match self.random.below(if depth == 0 { 5 } else { 8 }) {
            0 => vec![v],
            1 => vec![0x10 | v, w],
            2 => {
                let [_, _, object] = self.triple();
                [&[0x20 | v][..], &vectors::of_term(object)].concat()
            }
            3 => vec![0x30 | v, w],
            4 => vec![0x70],
            5 => [vec![0x40], self.condition(depth - 1)].concat(),
            6 => [vec![0x50], self.condition(depth - 1), self.condition(depth - 1)].concat(),
            _ => [vec![0x60], self.condition(depth - 1), self.condition(depth - 1)].concat(),
        }
    }

    /// Nodes over pattern sets, so many levels of them at most.
    pub fn node(&mut self, depth: usize) -> Vec<u8> {
        if depth == 0 {
            return self.set();
        }
        let below = self.random.below(depth);
        match self.random.below(6) {
            0 => [vec![0x10], self.node(below), self.node(below)].concat(),
            1 => [vec![0x20], self.condition(1), self.node(below), self.node(below)].concat(),
            2 => [vec![0x30], self.node(below), self.node(below)].concat(),
            3 => [vec![0x40], self.condition(1), self.node(below)].concat(),
            4 if !self.to_project.is_empty() => {
                let variable = self.to_project.pop().expect("one is left");
                [vec![0x50 | variable], self.node(below)].concat()
            }
            _ => {
                let (low, high) = (self.random.within(0, 900), self.random.within(1_500, 2_000));
                [vec![0x60, (low >> 4) as u8, (low << 4 | high >> 8) as u8, high as u8], self.node(below)].concat()
            }
        }
    }
}

// ---- Scans

pub fn tree(query: &[u8]) -> Node {
    paper::query(query, CHECK_LIMIT).expect("a sound query")
}

/// A pattern set of a query, and its place.
pub struct Set<'a> {
    pub place: usize,
    pub patterns: &'a [Pattern],
}

pub fn sets(tree: &Node) -> Vec<Set<'_>> {
    let mut sets = Vec::new();
    tree.each(&mut |node| {
        if let Kind::Patterns(patterns) = &node.kind {
            sets.push(Set { place: node.place, patterns });
        }
    });
    sets
}

/// One scan of the table for a pattern.
pub struct Scan {
    /// The pattern's number in its set.
    pub pattern: usize,
    pub subject: Slot,
    /// The term that the subject asks for; none where it is free.
    pub term: Option<u32>,
}

/// The scans for a pattern set: for each pattern one for each row of the set of the patterns before it, by either choice. None where
/// these are too many to tell.
pub fn scans(table: &[u8], query: &[u8], set: &Set) -> Option<Vec<Scan>> {
    let mut scans = Vec::new();
    for (pattern, [subject, ..]) in set.patterns.iter().enumerate() {
        let first = set.place + 1;
        let before = [&[pattern as u8], &query[first..first + PATTERN_BYTES * pattern]].concat();
        let evaluated = evaluate((table, &before, Choice::Least), &mut Seen::default());
        let Some(Outcome::Rows(evaluation)) = evaluated else { return None };
        for row in evaluation.rows {
            let term = match subject {
                Slot::Term(term) => Some(*term),
                Slot::Variable(variable) => match row.values.get(variable) {
                    Some(Value::Term(term)) => Some(*term),
                    _ => None,
                },
            };
            scans.push(Scan { pattern, subject: *subject, term });
        }
    }
    Some(scans)
}
