//! Tests `randwyler_check` of the built archive: vectors, an independent reading (paper.rs), limits, and the stack it needs.
//! The last line is 'N passed, M failed'.

mod chains;
mod fence;
mod ffi;
mod inputs;
mod limits;
mod paper;
mod queries;
mod random;
mod report;
mod stack;
mod tables;
mod threads;
mod vectors;

use limits::{AtLimit, NullInput, TableAtLimit};
use paper::{refusal, Refusal, CHECK_LIMIT, NONE};
use queries::{Nested, Query, KINDS, WIDE};
use random::Random;
use report::Report;
use stack::Deepest;

const RANDOM_CASES: usize = 300_000;
const CUT_QUERIES: usize = 1_000;

/// Calls with copies of both inputs that stand between random bytes at random alignments. The case fails if the answer is
/// not the expected one, or if a byte of the copies or about them has changed.
fn fenced(report: &mut Report, random: &mut Random, what: &str, table: &[u8], query: &[u8], expected: Refusal) {
    match fence::call(random, table, query, ffi::check) {
        Some(got) => report.check(what, table, query, expected, got),
        None => report.case(false, || format!("{what}: an input was changed")),
    }
}

fn vectors(report: &mut Report) {
    for vector in vectors::of("check", include_str!("../vectors/base.txt")) {
        let [table, query] = [0, 1].map(|i| vectors::bytes(&vector.inputs[i]));
        let [number, place] = [0, 1].map(|i| vectors::number(&vector.answer[i]));
        let expected = Refusal { number: number as u32, place };
        let what = format!("line {} of base.txt", vector.line);
        report.case(paper::check(&table, &query) == expected, || format!("{what}: paper.rs differs"));
        report.check(&what, &table, &query, expected, ffi::check(&table, &query));
    }
}

/// All queries of one and two bytes. Those of one byte have their answers here by hand too.
fn short_queries(report: &mut Report) {
    for byte in 0..=255u8 {
        let by_hand = match byte {
            0x00 => NONE,
            0x01..=0x0F | 0x10 | 0x20 | 0x30 | 0x40 | 0x50..=0x5F => refusal(6, 1),
            _ => refusal(6, 0),
        };
        report.case(paper::check(&[], &[byte]) == by_hand, || format!("query {byte:02x}: paper.rs differs"));
        report.check("one byte", &[], &[byte], by_hand, ffi::check(&[], &[byte]));
        for second in 0..=255 {
            let query = [byte, second];
            report.check("two bytes", &[], &query, paper::check(&[], &query), ffi::check(&[], &query));
        }
    }
}

fn random_cases(report: &mut Report, nested: &mut Nested) {
    let mut random = Random::new(1);
    let mut seen = [0u64; 8];
    for number in 0..RANDOM_CASES {
        let (table, query) = inputs::wide(&mut random, nested);
        let expected = paper::check(&table, &query);
        seen[expected.number as usize] += 1;
        fenced(report, &mut random, &format!("random case {number}"), &table, &query, expected);
    }
    for (number, count) in seen.iter().enumerate() {
        println!("random cases with number {number}: {count}");
        report.case(*count > 0, || format!("no random case has number {number}"));
    }
}

/// Well-formed queries, cut at each byte and with a byte too many. The maker of the query knows where its pieces start, so
/// the places are known without paper.rs.
fn cuts(report: &mut Report, nested: &mut Nested) {
    let mut random = Random::new(2);
    for _ in 0..CUT_QUERIES {
        let size = random.within(1, 120);
        let Query { mut bytes, pieces, .. } = Query::new(&mut random, nested, &WIDE, size);
        for cut in 0..bytes.len() {
            let inside = pieces.iter().find(|(start, length)| *start < cut && cut < start + length);
            let expected = refusal(6, inside.map_or(cut, |piece| piece.0));
            report.check("cut", &[], &bytes[..cut], expected, ffi::check(&[], &bytes[..cut]));
        }
        let whole = bytes.len();
        bytes.extend(random.noise::<u8>(1 + whole % 3));
        report.check("surplus", &[], &bytes, refusal(6, whole), ffi::check(&[], &bytes));
    }
}

fn table_limits(report: &mut Report) {
    let mut random = Random::new(3);
    for TableAtLimit { what, table, query, refusal: expected } in limits::of_tables() {
        report.case(paper::check(&table, &query) == expected, || format!("{what}: paper.rs differs"));
        fenced(report, &mut random, what, &table, &query, expected);
    }
}

fn query_limits(report: &mut Report) {
    let mut random = Random::new(4);
    for AtLimit { what, query, refusal: expected } in limits::about(CHECK_LIMIT) {
        report.case(paper::check(&[], &query) == expected, || format!("{what}: paper.rs differs"));
        fenced(report, &mut random, &what, &[], &query, expected);
        fenced(report, &mut random, &what, &[0; 9], &query, refusal(3, 0));
    }
}

/// A pointer with length 0 may be NULL.
fn null_pointers(report: &mut Report) {
    for NullInput { what, table, query, refusal: expected } in limits::null_inputs() {
        let (table, query) = (table.as_deref(), query.as_deref());
        let got = ffi::check_or_null(table, query);
        report.check(what, table.unwrap_or(&[]), query.unwrap_or(&[]), expected, got);
    }
}

fn on_threads(report: &mut Report) {
    let make = |random: &mut Random| {
        let (table, query) = inputs::wide(random, &mut [[0; KINDS]; KINDS]);
        let expected = paper::check(&table, &query);
        (table, query, expected)
    };
    threads::all_right(report, make, |(table, query, expected)| ffi::check(table, query) == *expected);
}

fn deepest() -> Deepest<Refusal> {
    Deepest {
        figure: "RANDWYLER_STACK_CHECK_KIB",
        chains: chains::all(&[], CHECK_LIMIT),
        shallow: chains::of_few_pairs(),
        shallow_kib: stack::SHALLOW,
        refusal: stack::of_query,
        call: |query| ffi::check(&[], query),
        expected: |query| paper::check(&[], query),
    }
}

fn parts(report: &mut Report) {
    let mut nested = [[0; KINDS]; KINDS];
    vectors(report);
    report.part("vectors");
    null_pointers(report);
    short_queries(report);
    report.part("NULL and short queries");
    table_limits(report);
    query_limits(report);
    report.part("limits");
    cuts(report, &mut nested);
    report.part("cut queries");
    random_cases(report, &mut nested);
    queries::all_nested(report, &nested, 1);
    report.part("random cases");
}

fn main() {
    stack::main(parts, on_threads, deepest);
}
