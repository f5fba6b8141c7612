//! Variables, and outputs of awkward lengths beside row spaces; the test of totals with them.

use crate::fence::{self, Lender};
use crate::ffi;
use crate::groups::{Totals, GROUP_WORDS};
use crate::paper::{refusal, Inputs, VARIABLES};
use crate::random::Random;
use crate::report::{shown, Report};
use crate::rows::{Outcome, MOST_ROWS};
use crate::spaces::{self, Spaces};

/// The longest output that is lent: for more entries than there can be.
const MOST_WORDS: usize = GROUP_WORDS * MOST_ROWS + 100;

/// Row spaces and outputs to lend to calls.
pub struct Outputs {
    pub spaces: Spaces,
    outputs: Lender<u32>,
}

impl Outputs {
    pub fn new(seed: u64) -> Outputs {
        Outputs { spaces: Spaces::new(seed), outputs: Lender::new(!seed, MOST_WORDS) }
    }

    /// Calls in a row space of `words` words and with an output of `room` words; they and the inputs stand between noise at random
    /// alignments. The case fails if the answer, a word of the row space or a word of the output is not the expected one, or if
    /// anything else has changed.
    pub fn test(&mut self, report: &mut Report, what: &str, inputs: Inputs, totals: &Totals, [words, room]: [usize; 2]) {
        let (tally, variable) = (self.spaces.tally(), totals.variable);
        let (expected, after, written) = totals.answer([words, room], tally);
        let (mut space, mut output) = (self.spaces.0.lend(words), self.outputs.lend(room));
        let (table, query, choice) = inputs;
        let call = |table: &[u8], query: &[u8]| {
            ffi::totals((table, query, choice), variable, space.slice_mut(), output.slice_mut(), tally)
        };
        let Some(got) = fence::call(&mut self.spaces.0.random, table, query, call) else {
            return report.case(false, || format!("{what}: an input was changed"));
        };
        let said = || format!("totals9 {} {variable} {words} {room} => {got}", shown(inputs));
        if got == expected && !space.holds(after.as_deref().unwrap_or(&[])) {
            return report.case(false, || format!("{what}: wrong words in the row space after {}", said()));
        }
        if got == expected && !output.holds(&written) {
            return report.case(false, || format!("{what}: wrong words in the output after {}", said()));
        }
        report.totals(what, inputs, (variable, words, room), expected, got);
    }

    /// The same in row spaces and with outputs of all awkward lengths.
    pub fn test_lengths(&mut self, report: &mut Report, what: &str, inputs: Inputs, totals: &Totals) {
        for words in spaces::lengths(totals.outcome) {
            for room in rooms(totals) {
                self.test(report, what, inputs, totals, [words, room]);
            }
        }
    }

    /// Totals of one of the 16 variables beside an evaluation, both by the calls, in row spaces of one length with different old
    /// contents: the row spaces end alike, and the counts add up to the evaluation's rows.
    pub fn test_beside(
        &mut self,
        report: &mut Report,
        what: &str,
        inputs: Inputs,
        variable: u32,
        [words, room]: [usize; 2],
    ) {
        let [mut one, mut other] = [0; 2].map(|_| self.spaces.0.lend(words));
        let (mut output, tally) = (self.outputs.lend(room), self.spaces.tally());
        let totalled = ffi::totals(inputs, variable, one.slice_mut(), output.slice_mut(), tally);
        let evaluated = ffi::evaluate(inputs, other.slice_mut(), tally);
        let entries = output.slice().chunks(GROUP_WORDS).take(totalled.length as usize / GROUP_WORDS);
        let counted: u64 = entries.map(|entry| u64::from(entry[1])).sum();
        let good = match (evaluated.refusal.number, totalled.refusal.number) {
            (0, 0) => one.slice() == other.slice() && counted == u64::from(evaluated.rows),
            (0, 10) => one.slice() == other.slice(),
            (8, _) => one.slice() == other.slice() && totalled.refusal == refusal(8, 0),
            (1..=7, _) => one.holds(&[]) && other.holds(&[]) && totalled.refusal == evaluated.refusal,
            _ => false,
        };
        report.case(good, || {
            let call = format!("{} {variable} {words} {room}", shown(inputs));
            format!("{what}: totals9 {call} => {totalled}, beside the evaluation {evaluated}")
        });
    }
}

/// Words of outputs: first just enough and just too few, then none and more.
pub fn rooms(totals: &Totals) -> [usize; 6] {
    let needed = totals.needed();
    [needed, needed.saturating_sub(1), 0, needed + 1, needed + 2, needed + 40]
}

/// A variable for totals of what an evaluation comes to: often one that a row has, or any of the 16, or now and then one above them.
pub fn variable(random: &mut Random, outcome: &Outcome) -> u32 {
    if random.once_in(12) {
        let any = random.next() as u32;
        return random.pick(&[16, 17, 31, 255, 256, 65_536, 1 << 31, u32::MAX, any.max(16)]);
    }
    let set: Vec<u32> = match outcome {
        Outcome::Rows(evaluation) if !evaluation.rows.is_empty() && !random.once_in(3) => {
            evaluation.rows[random.below(evaluation.rows.len())].values.keys().copied().collect()
        }
        _ => Vec::new(),
    };
    if set.is_empty() {
        random.below(VARIABLES as usize) as u32
    } else {
        random.pick(&set)
    }
}
