//! Tests `randwyler_read_text` of the built archive against an independent reading (typed.rs): random and damaged texts, all starts of
//! right ones, and every short row of pieces. What was read passes the check, but for 5 and 7. The last line is 'N passed, M failed'.

mod chains;
mod fence;
mod ffi;
mod grammar;
mod pages;
mod paper;
mod push;
mod random;
mod report;
mod results;
mod stack;
mod tables;
mod texts;
mod typed;
mod vectors;

use pages::Pages;
use paper::refusal;
use push::NODE_KINDS;
use random::Random;
use report::{hex, Report};
use results::{AtPageEnds, End, Outcome, READ_TEXT};
use typed::TEXT_LIMIT;

const SOUND_TEXTS: usize = 100_000;
const DAMAGED_TEXTS: usize = 150_000;
const DENSE_TEXTS: usize = 300;
const TEXTS_TO_CUT: usize = 1_500;
/// Room for texts that are too long.
const MOST_TEXT: usize = 4 * TEXT_LIMIT;

/// What a text may come to, and its query in the check.
const OUTCOMES: [&str; 7] = [
    "accepted, and answered by the check",
    "accepted, and refused by the check with 5",
    "accepted, and refused by the check with 7",
    "refused at its first byte",
    "refused inside",
    "refused at its length",
    "refused as too long",
];
/// How often it must come to each.
const LEAST: [u64; OUTCOMES.len()] = [50_000, 100, 3_000, 20_000, 100_000, 50_000, 30];
/// How often every kind of node must stand directly in every other that has operands.
const LEAST_NESTED: u64 = 100;

struct Texts<'a> {
    report: &'a mut Report,
    lent: AtPageEnds,
    met: [u64; OUTCOMES.len()],
    /// How often a kind of node stood directly in another.
    nested: [[u64; NODE_KINDS.len()]; NODE_KINDS.len()],
}

impl Texts<'_> {
    /// Calls with a text and an output that is too short, and one that is just long enough or longer, at both ends of their pages.
    fn test(&mut self, what: &str, text: &[u8], outcome: &Outcome) {
        let met = match outcome {
            Ok(query) => self.check(what, text, query),
            Err(_) if text.len() > TEXT_LIMIT => 6,
            Err(refused) if refused.place == text.len() as u64 => 5,
            Err(refused) if refused.place > 0 => 4,
            Err(_) => 3,
        };
        self.met[met] += 1;
        let needed = outcome.as_ref().map_or(2, Vec::len);
        let more = if self.met[met] % 2 == 0 { 0 } else { 7 };
        for places in [(needed - 1, End::Last), (needed + more, End::First), (needed, End::Last)] {
            self.lent.test(self.report, what, text, outcome, places);
        }
    }

    /// The check of a query that was read, and its length; what it came to.
    fn check(&mut self, what: &str, text: &[u8], query: &[u8]) -> usize {
        let tokens = grammar::tokens(text).map_or(0, |tokens| tokens.len());
        self.report.case(query.len() <= 4 * tokens, || format!("{what}: over 4 bytes for each token of {}", hex(text)));
        let (expected, got) = (paper::check(&[], query), ffi::check(&[], query));
        self.report.check(what, &[], query, expected, got);
        match got.number {
            0 => {
                self.count_nested(query);
                0
            }
            5 => 1,
            7 => 2,
            number => {
                self.report.case(false, || format!("{what}: {} is read, and refused with {number}", hex(text)));
                0
            }
        }
    }

    /// Counts what stands in what in a right query.
    fn count_nested(&mut self, query: &[u8]) {
        let Ok(tree) = paper::query(query, query.len()) else { return };
        tree.each(&mut |node| {
            for operand in node.kind.operands() {
                self.nested[node.kind.number()][operand.kind.number()] += 1;
            }
        });
    }

    fn test_read(&mut self, what: &str, text: &[u8]) {
        self.test(what, text, &typed::query(text));
    }

    /// A place inside by the call alone: what stands before it is whole, or refused at its length; with the byte there it is refused as
    /// the text is.
    fn test_place(&mut self, what: &str, text: &[u8]) {
        let refused = ffi::read_text(text, &mut []).refusal;
        let place = refused.place as usize;
        if refused.number != 11 || place >= text.len() {
            return;
        }
        for length in [place, place + 1] {
            let got = ffi::read_text(&text[..length], &mut []).refusal;
            let whole = length == place && got.number == 12;
            self.report.case(whole || got == refusal(11, place), || format!("{what}: {length} bytes of {}", hex(text)));
        }
    }
}

fn random_texts(texts: &mut Texts) {
    let mut random = Random::new(1);
    for number in 0..SOUND_TEXTS {
        let size = texts::size(&mut random);
        let text = texts::sound(&mut random, size);
        let outcome = typed::query(&text);
        let right = outcome.is_ok() || text.len() > TEXT_LIMIT;
        texts.report.case(right, || format!("random text {number}: typed.rs refuses {}", hex(&text)));
        texts.test(&format!("random text {number}"), &text, &outcome);
    }
    for number in 0..DENSE_TEXTS {
        let text = texts::dense(&mut random);
        texts.test_read(&format!("dense text {number}"), &text);
    }
}

fn damaged_texts(texts: &mut Texts) {
    let mut random = Random::new(2);
    for number in 0..DAMAGED_TEXTS {
        let (text, what) = (texts::damaged(&mut random), format!("damaged text {number}"));
        texts.test_read(&what, &text);
        if text.len() <= TEXT_LIMIT {
            texts.test_place(&what, &text);
        }
    }
}

/// All starts of right texts. The last brace makes a text whole, so each answer is known without typed.rs, but for the bytes.
fn starts(texts: &mut Texts) {
    let mut random = Random::new(3);
    for number in 0..TEXTS_TO_CUT {
        let size = random.within(0, 6);
        let text = texts::sound(&mut random, size);
        let whole = text.iter().rposition(|byte| *byte == b'}').expect("a brace") + 1;
        let read = typed::query(&text);
        for length in 0..=text.len() {
            let (start, what) = (&text[..length], format!("start {number}, {length} bytes"));
            let expected = if length < whole { Err(refusal(11, length)) } else { read.clone() };
            let right = typed::query(start) == expected;
            texts.report.case(right, || format!("{what}: typed.rs has another answer for {}", hex(start)));
            texts.test(&what, start, &expected);
        }
    }
}

const PIECES: [&str; 16] = [
    "{",
    "}",
    " ",
    ".",
    "1 2 3",
    "?0",
    "OPTIONAL",
    "UNION",
    "FILTER(",
    ")",
    "TRUST AS",
    "ENSURE TRUST(0,1)",
    "!",
    "&&",
    "BOUND(?0)",
    "?0=?1",
];
const MOST_PIECES: u32 = 4;

/// Every row of up to four pieces: by itself, as a group, and as the condition of a filter.
fn rows_of_pieces(texts: &mut Texts) {
    for count in 0..=MOST_PIECES {
        for number in 0..PIECES.len().pow(count) {
            let piece = |place| PIECES[number / PIECES.len().pow(place) % PIECES.len()];
            let row: String = (0..count).map(piece).collect();
            for text in [format!("{row}"), format!("{{{row}}}"), format!("{{FILTER({row})}}")] {
                texts.test_read(&format!("'{text}'"), text.as_bytes());
            }
        }
    }
}

/// A byte beside the pages ends the program, so that one which a call reads there would.
fn page_ends(report: &mut Report) {
    for option in ["--touch-before", "--touch-behind"] {
        report.case(stack::run_child(&[option]).is_none(), || format!("{option}: no signal"));
    }
}

fn run() -> i32 {
    let mut report = Report::default();
    page_ends(&mut report);
    let lent = AtPageEnds::new(READ_TEXT, MOST_TEXT);
    let mut texts = Texts { report: &mut report, lent, met: [0; OUTCOMES.len()], nested: Default::default() };
    for (name, part) in [
        ("random texts", random_texts as fn(&mut Texts)),
        ("damaged texts", damaged_texts),
        ("starts", starts),
        ("rows of pieces", rows_of_pieces),
    ] {
        part(&mut texts);
        texts.report.part(name);
    }
    let (met, nested) = (texts.met, texts.nested);
    for (outer, counts) in NODE_KINDS.iter().zip(nested).skip(1) {
        for (inner, count) in NODE_KINDS.iter().zip(counts) {
            report.case(count >= LEAST_NESTED, || format!("{inner} stood only {count} times in {outer}"));
        }
    }
    for ((outcome, count), least) in OUTCOMES.iter().zip(met).zip(LEAST) {
        println!("texts {outcome}: {count}");
        report.case(count >= least, || format!("only {count} texts are {outcome}"));
    }
    report.finish()
}

fn main() {
    let arguments: Vec<String> = std::env::args().skip(1).collect();
    if let [option] = &arguments[..] {
        Pages::new(1).touch(option == "--touch-behind");
        return;
    }
    let run = std::thread::Builder::new().stack_size(stack::OWN_STACK).spawn(run);
    std::process::exit(run.expect("a thread").join().unwrap_or(101));
}
