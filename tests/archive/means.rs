//! The trust of a pattern set's row, written from document 01 and request 4 of document 02: by the choice the least or the mean of the
//! trusts of the distinct records that its patterns use. And sorts of means, of which none may come too seldom.

use crate::paper::Choice;
use crate::report::Report;
use crate::rows::Trust;
use std::collections::{BTreeMap, BTreeSet};

/// The trust of a row that uses no record.
const OF_NONE: i32 = 1_000;

/// A record that a pattern uses: its number in the table, and its trust.
pub type Used = (usize, Trust);

/// The trusts of the distinct records; none if one is unknown.
fn known(used: &[Used]) -> Option<Vec<i32>> {
    let distinct: BTreeMap<usize, Trust> = used.iter().copied().collect();
    distinct.into_values().collect()
}

/// The mean, rounded down to a whole number, also below 0; none of no numbers.
fn mean(numbers: &[i32]) -> Option<i32> {
    let sum: i32 = numbers.iter().sum();
    // The remainder is never below 0.
    sum.checked_div_euclid(numbers.len() as i32)
}

/// The trust of a row by the records that it uses, one for each pattern.
pub fn aggregated(choice: Choice, used: &[Used]) -> Trust {
    let known = known(used)?;
    let of_some = match choice {
        Choice::Least => known.into_iter().min(),
        Choice::Mean => mean(&known),
    };
    Some(of_some.unwrap_or(OF_NONE))
}

// ---- Sorts of means

/// What may be so of a known mean. Most are rules by which it would be another.
pub const KNOWN: [&str; 8] = [
    "not the least",
    "another if a record counted for each pattern that uses it",
    "another if the divisor were the number of patterns",
    "another if equal trusts counted once",
    "another if rounded towards 0",
    "another if rounded to the nearest",
    "another if rounded up",
    "of different trusts, without a remainder",
];

/// What may be so of an unknown mean.
pub const UNKNOWN: [&str; 2] =
    ["unknown beside known trusts", "unknown beside known trusts, by a record of several patterns"];

/// How often means were of each sort.
#[derive(Default)]
pub struct SeenMeans {
    pub known: [u64; KNOWN.len()],
    pub unknown: [u64; UNKNOWN.len()],
}

impl SeenMeans {
    /// Counts the mean of a row that uses some records.
    pub fn count(&mut self, used: &[Used]) {
        match known(used) {
            Some(distinct) => add_each(&mut self.known, sorts_of_known(used, &distinct).map(u64::from)),
            None => add_each(&mut self.unknown, sorts_of_unknown(used).map(u64::from)),
        }
    }

    pub fn add(&mut self, other: &SeenMeans) {
        add_each(&mut self.known, other.known);
        add_each(&mut self.unknown, other.unknown);
    }

    /// How many were not the least.
    pub fn not_least(&self) -> u64 {
        self.known[0]
    }

    /// Counts a case of the report for each sort; `cases` says what was counted.
    pub fn enough(&self, report: &mut Report, cases: &str, least: u64) {
        for (sort, count) in KNOWN.iter().zip(self.known).chain(UNKNOWN.iter().zip(self.unknown)) {
            println!("means in {cases}, {sort}: {count}");
            report.case(count >= least, || format!("only {count} means in {cases}, {sort}"));
        }
    }
}

fn add_each<const N: usize>(sums: &mut [u64; N], counts: [u64; N]) {
    sums.iter_mut().zip(counts).for_each(|(sum, count)| *sum += count);
}

fn sorts_of_known(used: &[Used], distinct: &[i32]) -> [bool; KNOWN.len()] {
    let by_patterns: Vec<i32> = used.iter().filter_map(|(_, trust)| *trust).collect();
    let different: BTreeSet<i32> = distinct.iter().copied().collect();
    let by_trusts: Vec<i32> = different.iter().copied().collect();
    let (sum, count, patterns) = (distinct.iter().sum::<i32>(), distinct.len() as i32, used.len() as i32);
    let (down, remainder) = (sum.div_euclid(count), sum.rem_euclid(count));
    [
        different.first() != Some(&down),
        mean(&by_patterns) != Some(down),
        sum.div_euclid(patterns) != down,
        mean(&by_trusts) != Some(down),
        sum / count != down,
        2 * remainder >= count,
        remainder > 0,
        remainder == 0 && different.len() > 1,
    ]
}

fn sorts_of_unknown(used: &[Used]) -> [bool; UNKNOWN.len()] {
    let beside_known = used.iter().any(|(_, trust)| trust.is_some());
    let patterns_of = |record: &Used| used.iter().filter(|other| *other == record).count();
    let repeated = used.iter().any(|record| record.1.is_none() && patterns_of(record) > 1);
    [beside_known, beside_known && repeated]
}
