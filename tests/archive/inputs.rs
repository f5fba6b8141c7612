//! Random tables with random queries, each sound or damaged.

use crate::paper::CHECK_LIMIT;
use crate::queries::{self, Nested, Query, MANY_PATTERNS, NARROW};
use crate::random::Random;
use crate::tables;
use crate::vectors;

/// Every sort of table and query that a check may meet.
pub fn wide(random: &mut Random, nested: &mut Nested) -> (Vec<u8>, Vec<u8>) {
    let size = tables::table_size(random);
    let mut table = tables::table(random, size);
    while random.once_in(5) {
        tables::damage_table(random, &mut table);
    }
    let damaged = random.once_in(2);
    (table, queries::random_query(random, nested, CHECK_LIMIT, damaged))
}

/// So many terms, mostly different; half of the time they are the least.
pub fn few_terms(random: &mut Random, count: usize) -> Vec<u32> {
    const TERMS: [u32; 10] = [1, 2, 15, 16, 255, 4_096, 65_535, 65_536, 0x80000, 0xFFFFF];
    if random.once_in(2) {
        return (1..=count as u32).collect();
    }
    (0..count).map(|_| random.pick(&TERMS)).collect()
}

/// Small tables of few terms, and queries about them. Most are sound.
pub fn narrow(random: &mut Random, nested: &mut Nested) -> (Vec<u8>, Vec<u8>) {
    let (records, terms) = (random.within(0, 24), random.within(2, 3));
    let terms = few_terms(random, terms);
    let mut table = tables::table_of_terms(random, records, |random| random.pick(&terms));
    if random.once_in(25) {
        tables::damage_table(random, &mut table);
    }
    let most = random.pick(&[4, 12, 30, 60]);
    let budget = random.within(1, most);
    let Query { mut bytes, pieces, .. } = Query::new(random, nested, &NARROW.with_terms(&terms), budget);
    if random.once_in(25) {
        queries::damage_query(random, &mut bytes, &pieces);
    }
    (table, bytes)
}

/// A table of at most 8 triples, and a set of patterns on it.
pub fn pattern_set(random: &mut Random) -> (Vec<u8>, Vec<u8>) {
    let records = random.within(0, 14);
    let terms = few_terms(random, 2);
    let table = tables::table_of_terms(random, records, |random| random.pick(&terms));
    (table, queries::pattern_set(random, &MANY_PATTERNS.with_terms(&terms)))
}

/// A set of at most so many patterns in up to four parts, which have no variable in common. Now and then a pattern stands twice, or has a
/// term that no record has.
fn set_of_parts(random: &mut Random, terms: usize, most: usize) -> Vec<u8> {
    let (count, parts) = (random.within(1, most), random.within(1, 4));
    let mut patterns: Vec<[[u8; 3]; 3]> = Vec::new();
    for place in 0..count {
        let part = random.below(parts);
        patterns.push(match random.below(12) {
            0 if place > 0 => random.pick(&patterns),
            _ => [0; 3].map(|_| match random.below(6) {
                0 => vectors::of_term(random.within(1, terms) as u32),
                _ => [0x10, 0, (4 * part + random.below(4)) as u8],
            }),
        });
    }
    if random.once_in(8) {
        patterns[random.below(count)][random.below(3)] = vectors::of_term(9);
    }
    [&[count as u8], patterns.as_flattened().as_flattened()].concat()
}

/// A table of up to so many records with at most 8 terms, and how many terms these are.
fn table_of_few(random: &mut Random, most: usize) -> (Vec<u8>, usize) {
    let (records, terms) = (random.within(1, most), random.within(1, 8));
    (tables::table_of_terms(random, records, |random| random.within(1, terms) as u32), terms)
}

/// A table of few terms, and a set of patterns in several parts.
pub fn parts(random: &mut Random) -> (Vec<u8>, Vec<u8>) {
    let (table, terms) = table_of_few(random, 500);
    let most = random.pick(&[3, 6, 15]);
    (table, set_of_parts(random, terms, most))
}

/// A table of few terms, and unions and project trusts over some sets.
pub fn additive(random: &mut Random) -> (Vec<u8>, Vec<u8>) {
    let most = random.pick(&[4, 30, 120]);
    let (table, terms) = table_of_few(random, most);
    let sets = random.within(1, 5);
    let mut operands: Vec<Vec<u8>> =
        (0..sets).map(|_| if random.once_in(10) { vec![0x00] } else { set_of_parts(random, terms, 4) }).collect();
    let mut unused: Vec<u8> =
        (0..16).filter(|v| !operands.iter().any(|set| set[1..].chunks(3).any(|slot| slot == [0x10, 0, *v]))).collect();
    while operands.len() > 1 || random.once_in(3) {
        let at = random.below(operands.len());
        if random.once_in(3) {
            operands[at].splice(0..0, unused.pop().map(|variable| 0x50 | variable));
        } else if at > 0 {
            let right = operands.remove(at);
            operands[at - 1] = [&[0x30], &operands[at - 1][..], &right].concat();
        }
    }
    (table, operands.remove(0))
}

/// A slot of one of the variables 0 to 3, or of a term.
fn slot(random: &mut Random, terms: &[u32]) -> [u8; 3] {
    if random.below(3) > 0 {
        return [0x10, 0, random.below(4) as u8];
    }
    vectors::of_term(random.pick(terms))
}

/// A set of one pattern.
pub fn one_pattern(random: &mut Random, terms: &[u32]) -> Vec<u8> {
    [&[0x01][..], &slot(random, terms), &slot(random, terms), &slot(random, terms)].concat()
}

/// A condition for a left join: true, or whether two of the variables 0 to 3 are the same, which errs where one is free.
fn condition(random: &mut Random) -> Vec<u8> {
    if random.once_in(2) {
        return vec![0x70];
    }
    vec![0x10 | random.below(4) as u8, random.below(4) as u8]
}

/// A small table, and the union of some sets and left joins about it, some under a project trust: a variable is set in some rows
/// and free in others before and behind them.
pub fn unions(random: &mut Random) -> (Vec<u8>, Vec<u8>) {
    let records = random.within(4, 24);
    let terms = few_terms(random, 3);
    let table = tables::table_of_terms(random, records, |random| random.pick(&terms));
    let mut query = if random.once_in(4) { vec![0x5F] } else { vec![] };
    let operands = random.within(2, 6) as u8;
    for operand in 1..=operands {
        if operand < operands {
            query.push(0x30);
        }
        if random.once_in(3) {
            query.push(0x50 | 3 + operand);
        }
        if random.once_in(3) {
            query.push(0x20);
            query.extend(condition(random));
            query.extend(one_pattern(random, &terms));
        }
        query.extend(one_pattern(random, &terms));
    }
    (table, query)
}

/// A table of most of 27 or 64 triples and a long query about them: its ceiling may be above the greatest.
pub fn dense(random: &mut Random, nested: &mut Nested) -> (Vec<u8>, Vec<u8>) {
    let most = random.within(3, 4);
    let table = tables::table_of_terms(random, 60, |random| random.within(1, most) as u32);
    let budget = random.within(40, 300);
    (table, Query::new(random, nested, &NARROW, budget).bytes)
}
