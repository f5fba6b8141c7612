//! A query beside its rewriting: both evaluated by the calls, by one choice.

use crate::ffi;
use crate::paper::{refusal, Inputs, CHOICES, NONE};
use crate::push::MOST_RESULT;
use crate::report::{hex, shown, Report};
use crate::spaces::Spaces;
use std::collections::BTreeMap;

/// How often the two evaluations had each pair of numbers, and how often the rewriting needed less.
#[derive(Default)]
struct Counts {
    numbers: BTreeMap<(u32, u32), u64>,
    lesser_peaks: u64,
    fewer_pairs: u64,
}

/// The counts by each choice.
#[derive(Default)]
pub struct Compared([Counts; CHOICES.len()]);

impl Compared {
    /// Evaluates a query and its rewriting, both by the calls, in row spaces of one length with different old contents and
    /// with different tallies. Answers whether both have rows, and the same.
    pub fn test(&mut self, report: &mut Report, spaces: &mut Spaces, what: &str, inputs: Inputs, words: usize) -> bool {
        let (table, query, choice) = inputs;
        let mut output = [0; MOST_RESULT];
        let rewritten = ffi::rewrite(query, &mut output);
        if rewritten.refusal != NONE {
            return false;
        }
        let rewriting = &output[..rewritten.length as usize];
        let [(one, one_space), (other, other_space)] = [query, rewriting].map(|query| {
            let (mut space, tally) = (spaces.0.lend(words), spaces.tally());
            (ffi::evaluate((table, query, choice), space.slice_mut(), tally), space)
        });
        let counts = &mut self.0[choice as usize];
        let good = match one.refusal.number {
            0 => {
                counts.lesser_peaks += u64::from(other.peak < one.peak);
                counts.fewer_pairs += u64::from(other.pairs < one.pairs);
                other.refusal == NONE
                    && other.rows == one.rows
                    && other_space.slice() == one_space.slice()
                    && other.peak <= one.peak
                    && other.pairs <= one.pairs
            }
            1..=4 => other.refusal == one.refusal,
            8 => other.refusal == NONE || other.refusal == refusal(8, 0),
            _ => false,
        };
        report.case(good, || {
            let rewriting = format!("=> {one}, and of its rewriting {} => {other}", hex(rewriting));
            format!("{what}: eval {} {words} {rewriting}", shown(inputs))
        });
        *counts.numbers.entry((one.refusal.number, other.refusal.number)).or_default() += 1;
        good && one.refusal == NONE && one.rows > 0
    }

    pub fn enough(&self, report: &mut Report) {
        for (choice, counts) in CHOICES.iter().zip(&self.0) {
            for (one, other, least) in [(0, 0, 25_000), (8, 8, 5_000), (8, 0, 500), (1, 1, 50), (3, 3, 50), (4, 4, 50)] {
                let count = counts.numbers.get(&(one, other)).copied().unwrap_or(0);
                let pairs = format!("{count} queries and rewritings with numbers {one} and {other} by {choice:?}");
                println!("{pairs}");
                report.case(count >= least, || format!("only {pairs}"));
            }
            let Counts { lesser_peaks, fewer_pairs, .. } = counts;
            println!(
                "answered rewritings by {choice:?} with a lesser peak: {lesser_peaks}, with fewer pairs: {fewer_pairs}"
            );
            let enough = *lesser_peaks >= 500 && *fewer_pairs >= 500;
            report.case(enough, || format!("too few rewritings need less by {choice:?}"));
        }
    }
}
