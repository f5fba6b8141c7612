//! Counts cases, and shows those that fail.

use crate::paper::{Ceiling, Choice, Evaluated, Inputs, Refusal, Rewritten, Tally, Totalled};
use std::fmt::{Display, Formatter, Result};

/// Failures that are shown in full; later ones are only counted.
const SHOWN: u64 = 20;

#[derive(Default)]
pub struct Report {
    passed: u64,
    failed: u64,
}

impl Report {
    /// Counts a case; `message` says what is wrong if it fails.
    pub fn case(&mut self, good: bool, message: impl FnOnce() -> String) {
        if good {
            self.passed += 1;
            return;
        }
        self.failed += 1;
        if self.failed <= SHOWN {
            println!("FAILED {}", message());
        }
    }

    /// Counts a case of a call; `inputs` says what the call took.
    fn answer<A: PartialEq + Display>(&mut self, what: &str, expected: A, got: A, inputs: impl FnOnce() -> String) {
        self.case(expected == got, || format!("{what}: {} => {expected}, but got {got}", inputs()));
    }

    /// Counts a case of the check.
    pub fn check(&mut self, what: &str, table: &[u8], query: &[u8], expected: Refusal, got: Refusal) {
        self.answer(what, expected, got, || format!("check {} {}", hex(table), hex(query)));
    }

    /// Counts a case of the rewriting, or of the reading of a text, into an output of `room` bytes.
    pub fn written(&mut self, call: &str, what: &str, (input, room): (&[u8], usize), expected: Rewritten, got: Rewritten) {
        self.answer(what, expected, got, || format!("{call} {} {room}", hex(input)));
    }

    /// Counts a case of the ceiling.
    pub fn ceiling(&mut self, what: &str, table: &[u8], query: &[u8], expected: Ceiling, got: Ceiling) {
        self.answer(what, expected, got, || format!("ceiling {} {}", hex(table), hex(query)));
    }

    /// Counts a case of the evaluation, in a row space of `words` words.
    pub fn evaluate(&mut self, what: &str, inputs: Inputs, words: usize, expected: Evaluated, got: Evaluated) {
        self.answer(what, expected, got, || format!("eval {} {words}", shown(inputs)));
    }

    /// Counts a case of totals of a variable, in a row space of `words` words and with an output of `room` words.
    pub fn totals(
        &mut self,
        what: &str,
        inputs: Inputs,
        (variable, words, room): (u32, usize, usize),
        expected: Totalled,
        got: Totalled,
    ) {
        self.answer(what, expected, got, || format!("totals9 {} {variable} {words} {room}", shown(inputs)));
    }

    /// Says what a part of the test found.
    pub fn part(&self, name: &str) {
        println!("{name}: {} passed and {} failed so far", self.passed, self.failed);
    }

    /// Prints the last line of a test program; its exit status.
    pub fn finish(&self) -> i32 {
        println!("{} passed, {} failed", self.passed, self.failed);
        i32::from(self.failed != 0)
    }
}

// ---- Answers as in the vectors

impl Display for Refusal {
    fn fmt(&self, to: &mut Formatter) -> Result {
        write!(to, "{} {}", self.number, self.place)
    }
}

impl Display for Rewritten {
    fn fmt(&self, to: &mut Formatter) -> Result {
        write!(to, "{} {}", self.refusal, self.length)
    }
}

impl Display for Ceiling {
    fn fmt(&self, to: &mut Formatter) -> Result {
        write!(to, "{} {}", self.refusal, self.ceiling)
    }
}

impl Display for Tally {
    fn fmt(&self, to: &mut Formatter) -> Result {
        write!(to, "(tally {}, {})", self.answered, self.refused)
    }
}

impl Display for Evaluated {
    fn fmt(&self, to: &mut Formatter) -> Result {
        write!(to, "{} {} {} {} {}", self.refusal, self.rows, self.peak, self.pairs, self.tally)
    }
}

impl Display for Totalled {
    fn fmt(&self, to: &mut Formatter) -> Result {
        write!(to, "{} {} {}", self.refusal, self.length, self.tally)
    }
}

/// The choice, and the bytes as in the vectors.
pub fn shown((table, query, choice): Inputs) -> String {
    let choice = match choice {
        Choice::Least => "(least)",
        Choice::Mean => "(mean)",
    };
    format!("{choice} {} {}", hex(table), hex(query))
}

/// Bytes as in the vectors; of long ones only the front and the length.
pub fn hex(bytes: &[u8]) -> String {
    const MOST: usize = 600;
    if bytes.is_empty() {
        return "-".to_string();
    }
    let text: String = bytes.iter().take(MOST).map(|byte| format!("{byte:02x}")).collect();
    if bytes.len() > MOST {
        format!("{text}...({} bytes)", bytes.len())
    } else {
        text
    }
}
