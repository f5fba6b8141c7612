//! Tests `randwyler_read_text` of the built archive: vectors, texts by hand, an independent reading (typed.rs), limits, ends of pages, and
//! the stack it needs. random_texts.rs has the random ones. The last line is 'N passed, M failed'.

mod chains;
mod deep_texts;
mod fence;
mod ffi;
mod grammar;
mod known_typed;
mod pages;
mod paper;
mod push;
mod random;
mod report;
mod results;
mod stack;
mod tables;
mod texts;
mod threads;
mod typed;
mod vectors;

use paper::{refusal, Rewritten, NONE};
use random::Random;
use report::Report;
use results::{AtPageEnds, End, Outcome, Outputs, READ_TEXT};
use stack::Deepest;
use typed::{MOST_QUERY, TEXT_LIMIT};

const VECTORS: &str = include_str!("../vectors/06-text.txt");

/// Lends outputs of all awkward lengths, between random bytes and at the ends of pages.
struct Lent {
    outputs: Outputs,
    pages: AtPageEnds,
}

impl Lent {
    fn new(seed: u64) -> Lent {
        Lent { outputs: Outputs::new(READ_TEXT, seed), pages: AtPageEnds::new(READ_TEXT, 2 * TEXT_LIMIT) }
    }

    fn test(&mut self, report: &mut Report, what: &str, text: &[u8], expected: &Outcome) {
        self.outputs.test_rooms(report, what, text, expected);
        for room in READ_TEXT.rooms(text, expected) {
            for end in [End::First, End::Last] {
                self.pages.test(report, what, text, expected, (room, end));
            }
        }
    }

    /// The same for an answer by hand, which typed.rs must have too.
    fn test_known(&mut self, report: &mut Report, what: &str, text: &[u8], expected: &Outcome) {
        report.case(typed::query(text) == *expected, || format!("{what}: typed.rs has another answer"));
        self.test(report, what, text, expected);
    }
}

/// Every vector with its own output, and with others.
fn vectors(report: &mut Report) {
    let mut lent = Lent::new(1);
    lent.outputs.test_vectors(report, "06-text.txt", VECTORS, typed::query);
    for vector in vectors::of("text", VECTORS) {
        let text = vectors::bytes(&vector.inputs[0]);
        lent.test(report, &format!("line {} of 06-text.txt", vector.line), &text, &typed::query(&text));
    }
}

fn by_hand(report: &mut Report) {
    let mut lent = Lent::new(2);
    for (text, query) in known_typed::accepted() {
        lent.test_known(report, &format!("'{text}'"), text.as_bytes(), &Ok(query));
    }
    for (text, place) in known_typed::refused() {
        lent.test_known(report, &text.escape_ascii().to_string(), &text, &Err(refusal(11, place)));
    }
}

fn numbers(report: &mut Report) {
    let mut lent = Lent::new(5);
    for (text, expected) in known_typed::numbers() {
        lent.test_known(report, &text, text.as_bytes(), &expected);
    }
}

/// Texts of 4,095 to 4,097 bytes, and far longer ones.
fn limits(report: &mut Report) {
    let mut lent = Lent::new(3);
    for (what, text, expected) in known_typed::at_limit() {
        lent.test_known(report, what, &text, &expected);
    }
}

/// The deepest and the longest texts with all outputs. A query has at most 4 bytes for each token.
fn deep(report: &mut Report) {
    let (mut lent, mut longest) = (Lent::new(4), 0);
    for chain in deep_texts::all() {
        let expected = typed::query(&chain.query);
        lent.test(report, &chain.name, &chain.query, &expected);
        if let (Ok(query), Ok(tokens)) = (&expected, grammar::tokens(&chain.query)) {
            let bound = 4 * tokens.len();
            report.case(query.len() <= bound, || format!("{}: {} bytes, above {bound}", chain.name, query.len()));
            longest = longest.max(query.len());
        }
    }
    println!("the longest query: {longest} bytes");
}

/// A pointer with length 0 may be NULL.
fn null_pointers(report: &mut Report) {
    let mut output = [0xA5; 4];
    let mut test = |what, text: Option<&[u8]>, output: Option<&mut [u8]>, number, place| {
        let room = output.as_ref().map_or(0, |bytes| bytes.len());
        let expected = Rewritten { refusal: refusal(number, place), length: 0 };
        let got = ffi::read_text_or_null(text, output);
        report.written("text", what, (text.unwrap_or(&[]), room), expected, got);
    };
    test("NULL text", None, Some(&mut output), 11, 0);
    test("NULL text and output", None, None, 11, 0);
    test("empty text, NULL output", Some(b""), None, 11, 0);
    test("NULL output", Some(b"{}"), None, 12, 1);
    test("NULL output, longer query", Some(b"{1 2 3}"), None, 12, 10);
    test("NULL output, bad text", Some(b"{.}"), None, 11, 1);
    test("NULL output, start of a text", Some(b"{"), None, 11, 1);
    test("NULL output, long text", Some(&[b' '; TEXT_LIMIT + 1]), None, 11, TEXT_LIMIT);
    report.case(output == [0xA5; 4], || "NULL text: the output was changed".to_string());
}

fn on_threads(report: &mut Report) {
    let make = |random: &mut Random| {
        let size = random.within(0, 30);
        let text = if random.once_in(3) { texts::damaged(random) } else { texts::sound(random, size) };
        let expected = typed::query(&text);
        let room = random.pick(&[expected.as_ref().map_or(0, Vec::len) + 1, MOST_QUERY]);
        (text, expected, room)
    };
    threads::all_right(report, make, |(text, expected, room)| READ_TEXT.is_right(text, expected, *room));
}

fn deepest() -> Deepest<(Rewritten, Vec<u8>)> {
    Deepest {
        figure: "RANDWYLER_STACK_READ_TEXT_KIB",
        chains: deep_texts::all(),
        shallow: deep_texts::shallow(),
        shallow_kib: stack::SHALLOW,
        refusal: |text| typed::query(text).err().unwrap_or(NONE),
        call: |text| READ_TEXT.written(text),
        expected: |text| READ_TEXT.expected(&typed::query(text)),
    }
}

fn parts(report: &mut Report) {
    vectors(report);
    report.part("vectors");
    by_hand(report);
    null_pointers(report);
    report.part("texts by hand and NULL");
    numbers(report);
    report.part("numbers");
    limits(report);
    deep(report);
    report.part("limits, and deep and long texts");
}

fn main() {
    stack::main(parts, on_threads, deepest);
}
