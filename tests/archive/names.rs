//! Tests the names of include/randwyler.rs, which tests/embed/run holds to those of the header: the calls give each refusal under its
//! name, take and write what the sizes say, and have the choice of least or mean. The last line is 'N passed, M failed'.

mod chains;
mod conditions;
mod deep_texts;
mod grammar;
mod groups;
mod limits;
mod means;
mod paper;
mod push;
mod random;
#[path = "../../include/randwyler.rs"]
mod randwyler;
mod report;
mod rows;
mod tables;
mod typed;
mod vectors;

use randwyler::*;
use report::Report;

const TALLY: Tally = Tally { answered: 0, refused: 0 };
/// The calls' parameter `mean`.
const LEAST: bool = false;
const MEAN: bool = true;

/// Counts a case about a number that a call gives.
fn number(report: &mut Report, what: &str, expected: u32, got: u32) {
    report.case(got == expected, || format!("{what}: the number is {got}, its name says {expected}"));
}

/// Check, ceiling, evaluation and totals of a table and a query, in enough row space and with enough output.
fn all_but_rewrite(report: &mut Report, what: &str, expected: u32, table: &[u8], query: &[u8]) {
    let (mut space, mut output) = (vec![0; MOST_ROWS * ROW_WORDS], vec![0; MOST_TOTALS_WORDS]);
    number(report, &format!("check, {what}"), expected, check(table, query).number);
    number(report, &format!("ceiling, {what}"), expected, ceiling_of(table, query).number);
    for mean in [LEAST, MEAN] {
        number(report, &format!("evaluation, {what}"), expected, evaluate(table, query, mean, &mut space, TALLY).number);
        let totalled = totals_of(table, query, mean, 0, &mut space, &mut output, TALLY);
        number(report, &format!("totals, {what}"), expected, totalled.number);
    }
}

/// An evaluation by least in a row space of so many words, and what then stands in it.
fn in_words(table: &[u8], query: &[u8], words: usize) -> (Evaluated, Vec<u32>) {
    let mut space = vec![7; words];
    (evaluate(table, query, LEAST, &mut space, TALLY), space)
}

/// Every refusal of every call that has it.
fn refusals(report: &mut Report) {
    let (w, large) = (tables::w(), tables::large(MOST_RECORDS + 1));
    let swapped = [&w[9..18], &w[..9]].concat();
    let long = limits::unions(MOST_QUERY_BYTES + 1);
    for (what, expected, table, query) in [
        ("a sound table and query", ANSWERED, &w[..], &[0x00][..]),
        ("a table that ends inside a record", TABLE_LENGTH, &w[..w.len() - 1], &[0x00]),
        ("a record too many", TOO_MANY_RECORDS, &large, &[0x00]),
        ("a record of zeros", BAD_RECORD, &[0; RECORD_BYTES], &[0x00]),
        ("two records in the other order", NOT_RISING, &swapped, &[0x00]),
        ("a byte too many", QUERY_TOO_LONG, &w, &long),
        ("no query", MALFORMED, &w, &[]),
        ("a variable projected twice", VARIABLE_CLASH, &w, &[0x51, 0x51, 0x00]),
    ] {
        all_but_rewrite(report, what, expected, table, query);
    }
    let mut output = [0; MOST_RESULT_BYTES];
    for (what, expected, query, room) in [
        ("a sound query", ANSWERED, &[0x00][..], 1),
        ("a byte too many", QUERY_TOO_LONG, &limits::unions(MOST_REWRITE_QUERY_BYTES + 1), MOST_RESULT_BYTES),
        ("no query", MALFORMED, &[], 1),
        ("a variable projected twice", VARIABLE_CLASH, &[0x51, 0x51, 0x00], 3),
        ("no output", OUTPUT_TOO_SHORT, &[0x00], 0),
    ] {
        number(report, &format!("rewriting, {what}"), expected, rewrite(query, &mut output[..room]).number);
    }
    for (what, expected, text, room) in [
        ("a right text", ANSWERED, "{}", 1),
        ("no text", BAD_TEXT, "", 1),
        ("a text with a fault", BAD_TEXT, "{.}", 1),
        ("no output", NO_ROOM_FOR_QUERY, "{}", 0),
    ] {
        number(report, &format!("a text, {what}"), expected, read_text(text.as_bytes(), &mut output[..room]).number);
    }
    number(report, "no row space", NO_ROOM, in_words(&w, &[0x00], 0).0.number);
}

/// A text of the greatest length, and one more byte; what was read is taken by all other calls.
fn texts(report: &mut Report) {
    let mut output = [0; MOST_TEXT_QUERY_BYTES];
    let mut text = b"{?0 20 21 OPTIONAL{?0 10 ?1}}".to_vec();
    for (length, expected) in [(MOST_TEXT_BYTES, ANSWERED), (MOST_TEXT_BYTES + 1, BAD_TEXT)] {
        text.resize(length, b' ');
        number(report, &format!("a text of {length} bytes"), expected, read_text(&text, &mut output).number);
    }
    let query = vectors::query("20 70 A B");
    report.case(output.starts_with(&query), || "a text of the greatest length: other bytes".to_string());
    all_but_rewrite(report, "a query that was read", ANSWERED, &tables::w(), &output[..query.len()]);
}

/// What is just taken, and what is refused for one more.
fn greatest_inputs(report: &mut Report) {
    let large = tables::large(MOST_RECORDS + 1);
    let most = &large[..MOST_RECORDS * RECORD_BYTES];
    all_but_rewrite(report, "the most records", ANSWERED, most, &[0x00]);
    all_but_rewrite(report, "the longest query", ANSWERED, &[], &limits::unions(MOST_QUERY_BYTES));
    let mut output = [0; MOST_RESULT_BYTES];
    let longest = limits::unions(MOST_REWRITE_QUERY_BYTES);
    number(report, "rewriting, the longest query", ANSWERED, rewrite(&longest, &mut output).number);

    let cut = ceiling_of(most, &vectors::query("03 P R T"));
    report
        .case((cut.number, cut.ceiling) == (ANSWERED, MOST_CEILING), || format!("three patterns of every record: {cut:?}"));

    // The last variable, and one behind it.
    for (variable, expected) in [(VARIABLES - 1, ANSWERED), (VARIABLES, MALFORMED)] {
        let query = vectors::query(&format!("01 1{variable:05x} 000001 000001"));
        all_but_rewrite(report, &format!("variable {variable}"), expected, &[], &query);
    }
}

fn row_spaces(report: &mut Report) {
    // The empty set lists one row, without a table too.
    for (words, expected) in [(ROW_WORDS - 1, NO_ROOM), (ROW_WORDS, ANSWERED)] {
        number(report, &format!("one row in {words} words"), expected, in_words(&[], &[0x00], words).0.number);
    }
    let table = tables::large(MOST_ROWS);
    for (what, query, words, expected) in [
        ("the most rows, a word short", "S", MOST_ROWS * ROW_WORDS - 1, NO_ROOM),
        ("the most rows", "S", MOST_ROWS * ROW_WORDS, ANSWERED),
        ("a row more, with words for it", "30 S 00", (MOST_ROWS + 1) * ROW_WORDS, NO_ROOM),
    ] {
        number(report, what, expected, in_words(&table, &vectors::query(query), words).0.number);
    }
}

/// The totals of a variable by least in a row space for the most rows, with an output of so many words.
fn in_room(table: &[u8], query: &[u8], variable: usize, room: usize) -> Totalled {
    totals_of(table, query, LEAST, variable as u32, &mut vec![7; MOST_ROWS * ROW_WORDS], &mut vec![7; room], TALLY)
}

fn outputs(report: &mut Report) {
    let no_room = totals_of(&[], &[0x00], LEAST, 0, &mut [7; ROW_WORDS - 1], &mut [7; GROUP_WORDS], TALLY);
    number(report, "totals, no row space", NO_ROOM, no_room.number);
    let variable = in_room(&[], &[0x00], VARIABLES, GROUP_WORDS);
    number(report, "totals, a variable behind the last", BAD_TOTALS, variable.number);
    // One row, and as many as there can be, each with another subject.
    let subjects: Vec<_> = (1..=MOST_ROWS as u32).map(|subject| ([subject, 1, 1], Some(0))).collect();
    for (what, table, query, variable, words) in [
        ("one entry", vec![], "00", VARIABLES - 1, GROUP_WORDS),
        ("the most entries", tables::facts(&subjects), "S", 0, MOST_TOTALS_WORDS),
    ] {
        let query = vectors::query(query);
        let (short, exact) = (in_room(&table, &query, variable, words - 1), in_room(&table, &query, variable, words));
        let right = (short.number, short.place) == (BAD_TOTALS, words as u64);
        report.case(right, || format!("{what}, a word short: {short:?}"));
        let right = (exact.number, exact.length) == (ANSWERED, words as u64);
        report.case(right, || format!("{what}: {exact:?}"));
    }
}

/// The words of rows and entries, by known trusts and terms.
fn words(report: &mut Report) {
    const FREE: u32 = 0;
    let last_term = 1_048_575;
    let project = vectors::query(&format!("5f 01 100000 000001 {last_term:06x}"));
    for (trust, word, cell) in [
        (Some(-1_000), 0, FIRST_TRUST_CELL),
        (Some(0), TRUST_ZERO, FIRST_TRUST_CELL + TRUST_ZERO),
        (Some(1_000), TRUST_ZERO + 1_000, FIRST_TRUST_CELL + TRUST_ZERO + 1_000),
        (None, UNKNOWN_TRUST, UNKNOWN_TRUST_CELL),
    ] {
        let table = tables::fact([last_term, 1, last_term], trust);
        let (answer, row) = in_words(&table, &project, ROW_WORDS);
        let mut expected = vec![FREE; VARIABLES];
        (expected[0], expected[VARIABLES - 1]) = (FIRST_TRUST_CELL - 1, cell);
        expected.push(word);
        let right = (answer.number, answer.rows) == (ANSWERED, 1) && row == expected;
        report.case(right, || format!("trust {trust:?}: the row is {row:?}, and not {expected:?}"));
        let mut entry = [7; GROUP_WORDS];
        totals_of(&table, &project, LEAST, VARIABLES as u32 - 1, &mut [7; ROW_WORDS], &mut entry, TALLY);
        report.case(entry == [cell, 1, word], || format!("trust {trust:?}: the entry is {entry:?}"));
    }
}

/// The table and the query as parameters in the header, of the calls as they are exported to Rust, and of those on slices.
const IN_C: &str = "const uint8_t *table, size_t table_len, const uint8_t *query, size_t query_len";
const IN_RAW: &str = "table: *const u8, table_len: usize, query: *const u8, query_len: usize";
const IN_RUST: &str = "table: &[u8], query: &[u8]";

/// The two calls that take the choice declare it behind the query.
fn choice_declared(report: &mut Report) {
    let (header, in_rust) = (include_str!("../../include/randwyler.h"), include_str!("../../include/randwyler.rs"));
    let packed = |text: &str| text.split_whitespace().collect::<String>();
    for (file, text, inputs, mean, [space, variable]) in [
        ("randwyler.h", header, IN_C, "bool mean", ["uint32_t *space", "uint32_t variable"]),
        ("randwyler.rs", in_rust, IN_RAW, "mean: bool", ["space: *mut u32", "variable: u32"]),
        ("randwyler.rs", in_rust, IN_RUST, "mean: bool", ["space: &mut [u32]", "variable: u32"]),
    ] {
        for (call, behind) in [("evaluate", space), ("totals_of", variable)] {
            let declared = format!("{call}({inputs}, {mean}, {behind},");
            report.case(packed(text).contains(&packed(&declared)), || format!("include/{file} does not have {declared}"));
        }
    }
}

/// The mean of -5 and -1000 is -502.5, rounded down.
fn choices(report: &mut Report) {
    let table = tables::facts(&[([1, 1, 1], Some(-5)), ([1, 1, 2], Some(-1_000))]);
    let query = vectors::query(&vectors::set("?0 1 1, ?0 1 2"));
    for (mean, trust) in [(LEAST, TRUST_ZERO - 1_000), (MEAN, TRUST_ZERO - 503)] {
        let (mut row, mut entry) = ([7; ROW_WORDS], [7; GROUP_WORDS]);
        let answer = evaluate(&table, &query, mean, &mut row, TALLY);
        let right = (answer.number, answer.rows, row[0], row[VARIABLES]) == (ANSWERED, 1, 1, trust);
        report.case(right, || format!("mean {mean}: {answer:?} with the row {row:?}"));
        let answer = totals_of(&table, &query, mean, 0, &mut row, &mut entry, TALLY);
        let right = (answer.number, entry) == (ANSWERED, [1, 1, trust]);
        report.case(right, || format!("mean {mean}: {answer:?} with the entry {entry:?}"));
    }
}

/// The same numbers in the independent readings.
fn readings(report: &mut Report) {
    for (name, value, read) in [
        ("RECORD_BYTES", RECORD_BYTES, paper::RECORD_BYTES),
        ("MOST_RECORDS", MOST_RECORDS, paper::MOST_RECORDS),
        ("MOST_QUERY_BYTES", MOST_QUERY_BYTES, paper::CHECK_LIMIT),
        ("MOST_REWRITE_QUERY_BYTES", MOST_REWRITE_QUERY_BYTES, push::REWRITE_LIMIT),
        ("MOST_RESULT_BYTES", MOST_RESULT_BYTES, push::MOST_RESULT),
        ("MOST_TEXT_BYTES", MOST_TEXT_BYTES, typed::TEXT_LIMIT),
        ("MOST_TEXT_QUERY_BYTES", MOST_TEXT_QUERY_BYTES, typed::MOST_QUERY),
        ("ROW_WORDS", ROW_WORDS, rows::ROW_WORDS),
        ("VARIABLES", VARIABLES, paper::VARIABLES as usize),
        ("MOST_ROWS", MOST_ROWS, rows::MOST_ROWS),
        ("GROUP_WORDS", GROUP_WORDS, groups::GROUP_WORDS),
        ("MOST_TOTALS_WORDS", MOST_TOTALS_WORDS, groups::GROUP_WORDS * rows::MOST_ROWS),
    ] {
        report.case(value == read, || format!("{name} is {value}, and {read} by the documents"));
    }
}

/// How many shapes of query the stack was measured on, as the files say it that give the figures.
fn shapes(report: &mut Report) {
    let (all, more) = (chains::all(&[], MOST_QUERY_BYTES).len(), chains::of_many_pairs(MOST_QUERY_BYTES).len());
    let shapes = format!("{all} shapes; for evaluation {more} more");
    let texts = format!("for typed queries {} texts of 4,096 bytes", deep_texts::all().len());
    for (file, text) in [
        ("include/randwyler.h", include_str!("../../include/randwyler.h")),
        ("include/randwyler.rs", include_str!("../../include/randwyler.rs")),
        ("docs/INTEGRATION.md", include_str!("../../docs/INTEGRATION.md")),
    ] {
        let text = text.split([' ', '\n', '*', '/']).filter(|word| !word.is_empty()).collect::<Vec<_>>().join(" ");
        report.case(text.contains(&shapes), || format!("{file} does not say {shapes}"));
        report.case(text.contains(&texts), || format!("{file} does not say {texts}"));
    }
}

fn main() {
    let mut report = Report::default();
    refusals(&mut report);
    report.part("refusals");
    greatest_inputs(&mut report);
    texts(&mut report);
    row_spaces(&mut report);
    outputs(&mut report);
    words(&mut report);
    choice_declared(&mut report);
    choices(&mut report);
    readings(&mut report);
    report.part("sizes and words");
    shapes(&mut report);
    std::process::exit(report.finish());
}
