//! The calls that write bytes to an output: their answers for an output of any length, and the test of one with awkward lengths.

use crate::fence::{Fenced, Lender};
use crate::ffi;
use crate::pages::Pages;
use crate::paper::{refusal, Refusal, Rewritten, NONE};
use crate::push::MOST_RESULT;
use crate::report::{hex, Report};
use crate::typed::MOST_QUERY;
use crate::vectors;

/// What an independent reading makes of an input: the bytes to write, or a refusal that does not depend on the output.
pub type Outcome = Result<Vec<u8>, Refusal>;

pub struct Call {
    /// As in the vectors.
    pub name: &'static str,
    pub call: fn(&[u8], &mut [u8]) -> Rewritten,
    /// The number of the refusal of an output.
    pub too_short: u32,
    /// An output of so many bytes always does.
    pub most: usize,
}

pub const REWRITE: Call = Call { name: "rewrite", call: ffi::rewrite, too_short: 9, most: MOST_RESULT };
pub const READ_TEXT: Call = Call { name: "text", call: ffi::read_text, too_short: 12, most: MOST_QUERY };

impl Call {
    /// The answer for an output of `room` bytes, and what is written to its front.
    pub fn answer<'a>(&self, outcome: &'a Outcome, room: usize) -> (Rewritten, &'a [u8]) {
        let refused = |refusal| (Rewritten { refusal, length: 0 }, &[][..]);
        match outcome {
            Err(refusal) => refused(*refusal),
            Ok(result) if result.len() > room => refused(refusal(self.too_short, result.len())),
            Ok(result) => (Rewritten { refusal: NONE, length: result.len() as u64 }, result),
        }
    }

    /// Outputs that are too short, just long enough, and longer.
    pub fn rooms(&self, input: &[u8], outcome: &Outcome) -> Vec<usize> {
        match outcome {
            Ok(result) => vec![0, result.len() - 1, result.len(), result.len() + 1, self.most],
            Err(_) => vec![0, input.len(), self.most],
        }
    }

    /// The call's answer on an output of the greatest length, and what it has written.
    pub fn written(&self, input: &[u8]) -> (Rewritten, Vec<u8>) {
        let mut output = vec![0; self.most];
        let answer = (self.call)(input, &mut output);
        output.truncate(answer.length as usize);
        (answer, output)
    }

    /// The same by an independent reading.
    pub fn expected(&self, outcome: &Outcome) -> (Rewritten, Vec<u8>) {
        let (answer, written) = self.answer(outcome, self.most);
        (answer, written.to_vec())
    }

    /// Whether the call answers so on an output of `room` bytes, and leaves those behind the result as they were.
    pub fn is_right(&self, input: &[u8], outcome: &Outcome, room: usize) -> bool {
        let (answer, written) = self.answer(outcome, room);
        let mut output = vec![0xA5; room];
        let got = (self.call)(input, &mut output);
        got == answer && output.starts_with(written) && output[written.len()..].iter().all(|byte| *byte == 0xA5)
    }
}

/// Outputs to lend to a call.
pub struct Outputs {
    call: Call,
    lender: Lender<u8>,
}

impl Outputs {
    pub fn new(call: Call, seed: u64) -> Outputs {
        let lender = Lender::new(seed, call.most);
        Outputs { call, lender }
    }

    /// Calls with the input and an output of `room` bytes, each between random bytes at random alignments. The case fails if
    /// the answer is not the expected one, or if a byte differs that is not the result's.
    pub fn test(&mut self, report: &mut Report, what: &str, input: &[u8], outcome: &Outcome, room: usize) {
        let (answer, written) = self.call.answer(outcome, room);
        let around_input = Fenced::new(&mut self.lender.random, input);
        let mut output = self.lender.lend(room);
        let got = (self.call.call)(around_input.slice(), output.slice_mut());
        if got == answer && !(output.holds(written) && around_input.holds(&[])) {
            let name = self.call.name;
            return report.case(false, || format!("{what}: wrong bytes after {name} {} {room}", hex(input)));
        }
        report.written(self.call.name, what, (input, room), answer, got);
    }

    /// The vectors of a file, `INPUT ROOM => NUMBER PLACE LENGTH WRITTEN`, by the call and by an independent reading.
    pub fn test_vectors(&mut self, report: &mut Report, file: &str, text: &str, read: fn(&[u8]) -> Outcome) {
        for vector in vectors::of(self.call.name, text) {
            let (input, room) = (vectors::bytes(&vector.inputs[0]), vectors::number(&vector.inputs[1]) as usize);
            let [number, place, length] = [0, 1, 2].map(|i| vectors::number(&vector.answer[i]));
            let written = vectors::bytes(&vector.answer[3]);
            let expected = Rewritten { refusal: Refusal { number: number as u32, place }, length };
            let (what, outcome) = (format!("line {} of {file}", vector.line), read(&input));
            let right = self.call.answer(&outcome, room) == (expected, &written);
            report.case(right, || format!("{what}: the independent reading differs"));
            self.test(report, &what, &input, &outcome, room);
        }
    }

    /// A test with outputs that are too short, just long enough, and longer.
    pub fn test_rooms(&mut self, report: &mut Report, what: &str, input: &[u8], outcome: &Outcome) {
        for room in self.call.rooms(input, outcome) {
            self.test(report, what, input, outcome, room);
        }
    }
}

/// The ends of a mapping at which the slices of a call may stand.
#[derive(Clone, Copy)]
pub enum End {
    First,
    Last,
}

/// Inputs and outputs that stand at an end of their pages.
pub struct AtPageEnds {
    call: Call,
    input: Pages,
    output: Pages,
}

impl AtPageEnds {
    /// For inputs of up to `most` bytes.
    pub fn new(call: Call, most: usize) -> AtPageEnds {
        let (input, output) = (Pages::new(most), Pages::new(call.most));
        AtPageEnds { call, input, output }
    }

    /// Calls with the input and an output of `room` bytes, both at the same end of their pages. The case fails if the answer is not the
    /// expected one, or if a byte of them differs that is not the result's.
    pub fn test(&mut self, report: &mut Report, what: &str, input: &[u8], outcome: &Outcome, (room, end): (usize, End)) {
        let (answer, written) = self.call.answer(outcome, room);
        let at = |pages, length| match end {
            End::First => Pages::at_start(pages, length),
            End::Last => Pages::at_end(pages, length),
        };
        let (lent, output) = (at(&mut self.input, input.len()), at(&mut self.output, room));
        lent.copy_from_slice(input);
        output.fill(0xA5);
        let got = (self.call.call)(lent, output);
        let right = lent == input && output.starts_with(written) && output[written.len()..].iter().all(|byte| *byte == 0xA5);
        if got == answer && !right {
            let name = self.call.name;
            return report.case(false, || format!("{what}: wrong bytes after {name} {} {room}", hex(input)));
        }
        report.written(self.call.name, what, (input, room), answer, got);
    }
}
