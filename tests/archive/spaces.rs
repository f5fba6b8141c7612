//! Row spaces of awkward lengths, and the test of an evaluation in one.

use crate::fence::{self, Lender};
use crate::ffi;
use crate::paper::{Choice, Inputs, Tally, CHOICES};
use crate::report::{shown, Report};
use crate::rows::{Outcome, ROW_WORDS};

/// The longest row space that is lent: more rows than any capacity.
const MOST_WORDS: usize = 70_000 * ROW_WORDS;

/// Row spaces to lend to calls.
pub struct Spaces(pub Lender<u32>);

impl Spaces {
    pub fn new(seed: u64) -> Spaces {
        Spaces(Lender::new(seed, MOST_WORDS))
    }

    /// A tally, often with a count at or just below its end.
    pub fn tally(&mut self) -> Tally {
        let [answered, refused] = [0; 2].map(|_| self.0.random.pick(&[0, 1, 41, 65_535, u32::MAX - 1, u32::MAX]));
        Tally { answered, refused }
    }

    /// Least or mean, drawn.
    pub fn choice(&mut self) -> Choice {
        self.0.random.pick(&CHOICES)
    }

    /// Calls in a row space of `words` words; it and the inputs stand between noise at random alignments. The case fails if
    /// the answer or a word of the row space is not the expected one, or if anything else has changed.
    pub fn test(&mut self, report: &mut Report, what: &str, inputs: Inputs, outcome: &Outcome, words: usize) {
        let tally = self.tally();
        let (expected, after) = outcome.answer(words, tally);
        let mut space = self.0.lend(words);
        let (table, query, choice) = inputs;
        let call = |table: &[u8], query: &[u8]| ffi::evaluate((table, query, choice), space.slice_mut(), tally);
        let Some(got) = fence::call(&mut self.0.random, table, query, call) else {
            return report.case(false, || format!("{what}: an input was changed"));
        };
        if got == expected && !space.holds(after.as_deref().unwrap_or(&[])) {
            return report.case(false, || format!("{what}: wrong words after eval {} {words} => {got}", shown(inputs)));
        }
        report.evaluate(what, inputs, words, expected, got);
    }

    /// The same in row spaces of all awkward lengths.
    pub fn test_lengths(&mut self, report: &mut Report, what: &str, inputs: Inputs, outcome: &Outcome) {
        for words in lengths(outcome) {
            self.test(report, what, inputs, outcome, words);
        }
    }
}

/// Words of row spaces: first just too few and just enough, then fewer and more, also such as no whole rows fill.
pub fn lengths(outcome: &Outcome) -> Vec<usize> {
    let (space, more): (usize, &[usize]) = match outcome {
        Outcome::Rows(evaluation) => (evaluation.space, &[1, 16, 17, 33, 3_000]),
        Outcome::Above(space) => (*space, &[1, 16]),
        Outcome::Refused(_) => (2, &[1, 100]),
    };
    let enough = space * ROW_WORDS;
    let mut words = vec![enough.saturating_sub(1), enough, 0, 16, 17, enough.saturating_sub(17)];
    words.extend(more.iter().map(|more| enough + more));
    words
}
