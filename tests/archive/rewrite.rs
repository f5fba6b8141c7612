//! Tests `randwyler_rewrite` of the built archive: vectors, cases by hand, an independent push (push.rs), limits, the
//! longest results, and the stack it needs. The last line is 'N passed, M failed'.

mod chains;
mod fence;
mod ffi;
mod grammar;
mod limits;
mod longest;
mod pages;
mod paper;
mod push;
mod queries;
mod random;
mod report;
mod results;
mod stack;
mod tables;
mod threads;
mod typed;
mod vectors;

use limits::AtLimit;
use paper::{refusal, Rewritten, NONE};
use push::{Seen, MOST_RESULT, NODE_KINDS, REWRITE_LIMIT, UNDER};
use queries::{Nested, KINDS};
use random::Random;
use report::Report;
use results::{Outcome, Outputs, REWRITE};
use stack::Deepest;

const SOUND_CASES: usize = 240_000;
const DAMAGED_CASES: usize = 100_000;

/// The rewriting by push.rs, where nobody counts the bounds.
fn pushed(query: &[u8]) -> Outcome {
    push::rewriting(query, &mut Seen::default())
}

/// What was rewritten passes the check, and is its own rewriting if it is short enough.
fn again(report: &mut Report, what: &str, result: &[u8]) {
    report.check(what, &[], result, NONE, ffi::check(&[], result));
    if result.len() <= REWRITE_LIMIT {
        let mut output = vec![0xA5; MOST_RESULT];
        let got = ffi::rewrite(result, &mut output);
        let length = result.len() as u64;
        report.written("rewrite", what, (result, MOST_RESULT), Rewritten { refusal: NONE, length }, got);
        report.case(output.starts_with(result), || format!("{what}: rewriting {} again differs", report::hex(result)));
    }
}

fn vectors(report: &mut Report) {
    Outputs::new(REWRITE, 1).test_vectors(report, "base.txt", include_str!("../vectors/base.txt"), pushed);
}

/// Queries and their rewritings, both written down by hand.
fn by_hand(report: &mut Report) {
    let mut outputs = Outputs::new(REWRITE, 2);
    for (what, query, result) in [
        ("a join, u = 1000", "60 5dc7d0 10 A B", "10 60 5dc7d0 A 60 5dc7d0 B"),
        ("a join, u = 500", "60 5dc5dc 10 A B", "60 5dc5dc 10 60 5dc7d0 A 60 5dc7d0 B"),
        ("a join under none", "10 A 60 5dc7d0 B", "10 A 60 5dc7d0 B"),
        ("a left join, u = 1000", "60 5dc7d0 20 70 A B", "60 5dc7d0 20 70 60 5dc7d0 A B"),
        ("a left join, u = 999", "60 0007cf 20 00 A B", "60 0007cf 20 00 60 0007d0 A B"),
        ("a bound in a left join's right", "60 5dc7d0 20 70 A 60 0017d0 B", "60 5dc7d0 20 70 60 5dc7d0 A 60 0017d0 B"),
        ("a bound in a join's right", "60 5dc7cf 10 A 60 6005dc B", "60 5dc7cf 10 60 5dc7d0 A 60 6005dc B"),
        ("a join in a join", "60 5dc7cf 10 10 A B 00", "60 5dc7cf 10 10 60 5dc7d0 A 60 5dc7d0 B 60 5dc7d0 00"),
        ("-1000 to 1000", "60 0007d0 A", "60 0007d0 A"),
        ("-1000 to 1000 of a join", "60 0007d0 10 A B", "10 60 0007d0 A 60 0007d0 B"),
        ("three bounds", "60 1005dc 60 2007cf 60 0005dd 00", "60 2005dc 00"),
        ("l above u", "60 7d0000 30 00 60 0007d0 00", "30 60 7d0000 00 60 7d0000 00"),
        ("filter and project trust", "60 5dc7cf 40 50 0f 1102 53 00", "40 50 0f 1102 53 60 5dc7cf 00"),
    ] {
        let (query, result) = (vectors::query(query), vectors::query(result));
        report.case(pushed(&query).as_ref() == Ok(&result), || format!("{what}: push.rs differs"));
        outputs.test_rooms(report, what, &query, &Ok(result));
    }
}

/// A pointer with length 0 may be NULL.
fn null_pointers(report: &mut Report) {
    let refused = |number, place| Rewritten { refusal: refusal(number, place), length: 0 };
    let mut test = |what, query: Option<&[u8]>, output: Option<&mut [u8]>, expected| {
        let room = output.as_ref().map_or(0, |bytes| bytes.len());
        let input = (query.unwrap_or(&[]), room);
        report.written("rewrite", what, input, expected, ffi::rewrite_or_null(query, output));
    };
    let mut output = [0xA5; 4];
    test("NULL query", None, Some(&mut output), refused(6, 0));
    test("NULL query and output", None, None, refused(6, 0));
    test("empty query, NULL output", Some(&[]), None, refused(6, 0));
    test("NULL output", Some(&[0x00]), None, refused(9, 1));
    test("NULL output, bad query", Some(&[0x00, 0x00]), None, refused(6, 1));
    test("NULL output, clash", Some(&[0x51, 0x51, 0x00]), None, refused(7, 0));
    test("NULL output, long query", Some(&[0x00; REWRITE_LIMIT + 1]), None, refused(5, 0));
    report.case(output == [0xA5; 4], || "NULL query: the output was changed".to_string());
}

fn query_limits(report: &mut Report) {
    let mut outputs = Outputs::new(REWRITE, 3);
    for AtLimit { what, query, refusal } in limits::about(REWRITE_LIMIT) {
        let expected = pushed(&query);
        report.case(expected.as_ref().err().unwrap_or(&NONE) == &refusal, || format!("{what}: push.rs differs"));
        outputs.test_rooms(report, &what, &query, &expected);
    }
}

/// Under u = 999 a join of two empty sets grows from 3 bytes to 15, since the join and both sets are wrapped; a join inside
/// it would not be, since u = 1000 goes to the operands. So unions, one byte for each, hold joins of 3 bytes.
fn longest_results(report: &mut Report) {
    const JOINS: usize = 255;
    let below_1000 = [0x60, 0x5D, 0xC7, 0xCF];
    let odd = [&below_1000[..], &[0x30].repeat(JOINS - 1), &[0x10, 0x00, 0x00].repeat(JOINS)].concat();
    let even = [&[0x50], &odd[..]].concat();
    let mut outputs = Outputs::new(REWRITE, 4);
    let longest = longest::results(REWRITE_LIMIT);
    for (query, bytes, most) in [(odd, 1_023, 4_079), (even, 1_024, 4_080)] {
        let what = format!("the longest result of {bytes} bytes");
        let expected = pushed(&query);
        let length = expected.as_ref().map_or(0, Vec::len);
        report.case((query.len(), length) == (bytes, most), || format!("{what}: {length} of {} bytes", query.len()));
        report.case(longest[bytes] == most, || format!("{what}: longest.rs has {}", longest[bytes]));
        outputs.test_rooms(report, &what, &query, &expected);
        println!("{what}: {length}");
    }
    for (bytes, length) in longest.iter().enumerate() {
        report.case(*length <= 5 * bytes, || format!("a query of {bytes} bytes may have a result of {length}"));
    }
}

fn random_cases(report: &mut Report) {
    let (mut random, mut outputs) = (Random::new(5), Outputs::new(REWRITE, 6));
    let mut nested: Nested = [[0; KINDS]; KINDS];
    let (mut seen, mut numbers) = (Seen::default(), [0u64; 10]);
    for number in 0..SOUND_CASES + DAMAGED_CASES {
        let query = queries::random_query(&mut random, &mut nested, REWRITE_LIMIT, number >= SOUND_CASES);
        let what = format!("random case {number}");
        let expected = push::rewriting(&query, &mut seen);
        numbers[expected.as_ref().err().unwrap_or(&NONE).number as usize] += 1;
        outputs.test_rooms(report, &what, &query, &expected);
        if let Ok(result) = &expected {
            report.case(result.len() <= 5 * query.len(), || format!("{what}: over 5 times as long"));
            again(report, &what, result);
        }
    }
    for number in [0, 5, 6, 7] {
        println!("random queries with number {number}: {}", numbers[number]);
        report.case(numbers[number] > 0, || format!("no random query has number {number}"));
    }
    for (kind, counts) in NODE_KINDS.iter().zip(seen) {
        for (bound, count) in UNDER.iter().zip(counts) {
            report.case(count >= 100, || format!("{kind} stood only {count} times under {bound}"));
        }
    }
}

fn on_threads(report: &mut Report) {
    let make = |random: &mut Random| {
        let damaged = random.once_in(4);
        let query = queries::random_query(random, &mut [[0; KINDS]; KINDS], REWRITE_LIMIT, damaged);
        let expected = pushed(&query);
        let room = random.pick(&[expected.as_ref().map_or(0, Vec::len) + 1, MOST_RESULT]);
        (query, expected, room)
    };
    threads::all_right(report, make, |(query, expected, room)| REWRITE.is_right(query, expected, *room));
}

/// Every chain under none, under u = 1000 and under u = 999.
fn deepest() -> Deepest<(Rewritten, Vec<u8>)> {
    let roots: [&[u8]; 3] = [&[], chains::E, &[0x60, 0x5D, 0xC7, 0xCF]];
    Deepest {
        figure: "RANDWYLER_STACK_REWRITE_KIB",
        chains: roots.iter().flat_map(|root| chains::all(root, REWRITE_LIMIT)).collect(),
        shallow: chains::of_few_pairs(),
        shallow_kib: stack::SHALLOW,
        refusal: stack::of_query,
        call: |query| REWRITE.written(query),
        expected: |query| REWRITE.expected(&pushed(query)),
    }
}

fn parts(report: &mut Report) {
    vectors(report);
    report.part("vectors");
    by_hand(report);
    null_pointers(report);
    report.part("cases by hand and NULL");
    query_limits(report);
    report.part("limits");
    longest_results(report);
    report.part("longest results");
    random_cases(report);
    report.part("random cases");
}

fn main() {
    stack::main(parts, on_threads, deepest);
}
