//! Random tables, sound and damaged. Their bytes are written here from document 01, not by paper.rs.

use crate::random::Random;
use std::collections::BTreeSet;

/// A record's 9 bytes.
pub fn record(terms: [u32; 3], known: bool, trust: u32) -> [u8; 9] {
    let [subject, predicate, object] = terms.map(u128::from);
    let all = subject << 52 | predicate << 32 | object << 12 | u128::from(known) << 11 | u128::from(trust);
    all.to_be_bytes()[7..].try_into().expect("9 of 16 bytes")
}

/// A record whose trust is in thousandths, or unknown.
pub fn fact(terms: [u32; 3], trust: Option<i32>) -> [u8; 9] {
    record(terms, trust.is_some(), trust.map_or(0, |trust| (trust + 1_000) as u32))
}

/// A table of records whose trusts are in thousandths, or unknown.
pub fn facts(facts: &[([u32; 3], Option<i32>)]) -> Vec<u8> {
    facts.iter().flat_map(|(terms, trust)| fact(*terms, *trust)).collect()
}

/// Trusts of facts by their numbers: some are unknown, and of the others each occurs.
pub fn trust_of(i: u32) -> Option<i32> {
    (i % 7 != 3).then_some((i * 37 % 2_001) as i32 - 1_000)
}

/// A table of triples in any order, with trusts by the places of its records.
pub fn of_triples(triples: impl IntoIterator<Item = [u32; 3]>) -> Vec<u8> {
    let rising: BTreeSet<[u32; 3]> = triples.into_iter().collect();
    rising.into_iter().zip(0..).flat_map(|(terms, i)| fact(terms, trust_of(i))).collect()
}

/// The store W of document 01.
pub fn w() -> Vec<u8> {
    facts(&[([1, 10, 11], Some(900)), ([1, 10, 12], Some(200)), ([1, 20, 21], Some(800)), ([2, 20, 21], None)])
}

/// `count` sound records: every subject, predicate and object from a range of its own.
pub fn large(count: usize) -> Vec<u8> {
    let one = |i: usize| {
        let known = i % 7 != 0;
        let terms = [1 + i / 4_000, 1 + i / 10 % 400, 1_048_566 + i % 10].map(|term| term as u32);
        record(terms, known, if known { i as u32 % 2_001 } else { 0 })
    };
    (0..count).flat_map(one).collect()
}

/// A sound table of `count` records, or somewhat fewer where two would be equal.
pub fn table(random: &mut Random, count: usize) -> Vec<u8> {
    let ranges: &[usize] = if count < 5_000 { &[3, 3, 17, 300, 70_000, 1_048_575] } else { &[300, 70_000, 1_048_575] };
    let most = random.pick(ranges);
    table_of_terms(random, count, |random| random.within(1, most) as u32)
}

/// The same with terms of a choice.
pub fn table_of_terms(random: &mut Random, count: usize, term: impl Fn(&mut Random) -> u32) -> Vec<u8> {
    table_of_triples(random, count, |random| [0; 3].map(|_| term(random)))
}

/// The same with triples of a choice.
pub fn table_of_triples(random: &mut Random, count: usize, triple: impl Fn(&mut Random) -> [u32; 3]) -> Vec<u8> {
    let mut triples = BTreeSet::new();
    for _ in 0..count {
        triples.insert(triple(random));
    }
    let mut bytes = Vec::new();
    for triple in triples {
        let trust = random.pick(&[0, 1, 999, 1000, 1999, 2000]);
        let trust = if random.once_in(2) { trust } else { random.within(0, 2000) };
        let known = !random.once_in(5);
        bytes.extend(record(triple, known, if known { trust as u32 } else { 0 }));
    }
    bytes
}

/// A number of records: mostly few, now and then many, or about as many as a table may have.
pub fn table_size(random: &mut Random) -> usize {
    match random.below(8_000) {
        0 => random.within(65_530, 65_545),
        1..=40 => random.within(200, 3_000),
        41..=800 => random.within(12, 60),
        _ => random.within(0, 12),
    }
}

/// Sets some bits of a table, counted from the start of the record `number`.
fn set_bits(table: &mut [u8], number: usize, from: usize, width: usize, value: usize) {
    for i in 0..width {
        let bit = number * 72 + from + i;
        let mask = 0x80 >> (bit % 8);
        table[bit / 8] = table[bit / 8] & !mask | if value >> (width - 1 - i) & 1 == 1 { mask } else { 0 };
    }
}

/// Damages a table in one way; the result may still be sound.
pub fn damage_table(random: &mut Random, table: &mut Vec<u8>) {
    let count = table.len() / 9;
    if count == 0 {
        return random.damage(table);
    }
    let at = random.below(count);
    match random.below(9) {
        0 => set_bits(table, at, 20 * random.below(3), 20, 0),
        1 => set_bits(table, at, 61, 11, random.within(2001, 2047)),
        2 => set_bits(table, at, 60, 12, random.within(1, 2047)),
        3 => {
            // Two records change places, often neighbours.
            let other = if random.once_in(2) { random.below(count) } else { (at + 1) % count };
            for i in 0..9 {
                table.swap(9 * at + i, 9 * other + i);
            }
        }
        4 => {
            // A record twice, the second perhaps with another trust.
            let twice = table[9 * at..9 * at + 9].to_vec();
            table.splice(9 * at..9 * at, twice);
            if random.once_in(2) {
                set_bits(table, at, 60, 12, 2048 + random.within(0, 2000));
            }
        }
        5 => {
            // One term of a record takes its neighbour's value or another.
            let from = 20 * random.below(3);
            let value = random.pick(&[1, 2, 3, 1_048_575]);
            set_bits(table, at, from, 20, value);
        }
        _ => random.damage(table),
    }
}
