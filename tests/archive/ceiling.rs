//! Tests `randwyler_ceiling_of` of the built archive: vectors, cases by hand, tables made by a rule, independent ceilings (ceilings.rs,
//! which is held to the rows of rows.rs), limits, and the stack it needs. The last line is 'N passed, M failed'.

mod ceilings;
mod chains;
mod conditions;
mod fence;
mod ffi;
mod inputs;
mod kinds;
mod known_ceilings;
mod limits;
mod means;
mod paper;
mod queries;
mod random;
mod random_sets;
mod report;
mod rows;
mod stack;
mod subjects;
mod tables;
mod threads;
mod vectors;

use known_ceilings::{test as known, CUT};
use limits::{AtLimit, NullInput, TableAtLimit};
use paper::{Ceiling, Refusal, CHECK_LIMIT, NONE};
use queries::{Nested, KINDS};
use random::Random;
use report::Report;
use stack::Deepest;

type Inputs = fn(&mut Random, &mut Nested) -> (Vec<u8>, Vec<u8>);

/// Random cases.
const CASES: [(Inputs, usize); 3] = [(inputs::narrow, 120_000), (inputs::wide, 20_000), (inputs::dense, 2_000)];
/// Files of vectors: the call of those for ceilings, and how many they are. From the first the lines that request 5 changes are gone.
const FILES: [(&str, &str, usize, &str); 2] = [
    ("base.txt", "ceiling", 656, include_str!("../vectors/base.txt")),
    ("05-ceiling.txt", "exact", 250, include_str!("../vectors/05-ceiling.txt")),
];

/// A vector is `TABLE QUERY => NUMBER PLACE CEILING`.
fn vectors(report: &mut Report) {
    let mut random = Random::new(1);
    for (name, call, lines, text) in FILES {
        let all = vectors::of(call, text);
        report.case(all.len() == lines, || format!("{name} has {} vectors, not {lines}", all.len()));
        for vector in all {
            let [table, query] = [0, 1].map(|i| vectors::bytes(&vector.inputs[i]));
            let [number, place, ceiling] = [0, 1, 2].map(|i| vectors::number(&vector.answer[i]));
            let expected = Ceiling { refusal: Refusal { number: number as u32, place }, ceiling: ceiling as u32 };
            known(report, &mut random, &format!("line {} of {name}", vector.line), (&table, &query), expected);
        }
    }
}

/// Ceilings on the store W, and on one record with a term twice.
fn by_hand(report: &mut Report) {
    let (w, twice) = (tables::w(), tables::fact([5, 5, 6], None));
    let mut random = Random::new(2);
    for (what, table, query, ceiling) in [
        ("case 9", &w[..], "10 A B", 4),
        ("one pattern", &w, "A", 2),
        ("no pattern", &w, "00", 1),
        ("a union", &w, "30 A S", 6),
        ("a union with nothing", &w, "30 N B", 2),
        ("a join with nothing", &w, "10 A N", 0),
        ("a left join", &w, "20 4070 A S", 8),
        ("a left join with nothing on its right", &w, "20 70 A N", 2),
        ("a left join with nothing on its left", &w, "20 70 N A", 0),
        ("a left join with one row on its right", &w, "20 70 A 00", 2),
        ("a left join on a condition that errs, with as many rows", &w, "20 10 07 A 00", 2),
        ("a filter that keeps nothing", &w, "40 4070 A", 2),
        ("a bound that keeps nothing", &w, "60 7d0000 A", 2),
        ("project trust", &w, "5f A", 2),
        ("a variable twice, different terms", &w, "01 100000 100000 100001", 0),
        ("a variable twice, one term", &twice, "01 100003 100003 100001", 1),
        ("a variable twice, the first and the last slot", &twice, "01 100003 100002 100003", 0),
        ("a variable three times", &twice, "01 100003 100003 100003", 0),
        ("terms beside a variable twice", &twice, "01 100003 000005 100003", 0),
    ] {
        let expected = Ceiling { refusal: NONE, ceiling };
        known(report, &mut random, what, (table, &vectors::query(query)), expected);
    }
    known_ceilings::on_w(report);
    known_ceilings::on_few(report);
    report.part("cases by hand");
    known_ceilings::paths(report);
    known_ceilings::circles(report);
    known_ceilings::layers(report);
    known_ceilings::every_record(report);
    known_ceilings::graphs(report);
    report.part("tables by a rule");
    known_ceilings::about_the_cut(report);
    known_ceilings::cut_nodes(report);
    report.part("ceilings about the cut");
}

fn at_limits(report: &mut Report) {
    let mut random = Random::new(3);
    // The sound ones of limits::about are unions with the empty set, one for two bytes.
    let of = |refusal, ceiling| Ceiling { refusal, ceiling: if refusal == NONE { ceiling } else { 0 } };
    for AtLimit { what, query, refusal } in limits::about(CHECK_LIMIT) {
        known(report, &mut random, &what, (&[], &query), of(refusal, (query.len() as u32 + 1) / 2));
    }
    for TableAtLimit { what, table, query, refusal } in limits::of_tables() {
        known(report, &mut random, what, (&table, &query), of(refusal, 1));
    }
    for NullInput { what, table, query, refusal } in limits::null_inputs() {
        let (table, query) = (table.as_deref(), query.as_deref());
        let got = ffi::ceiling_or_null(table, query);
        report.ceiling(what, table.unwrap_or(&[]), query.unwrap_or(&[]), of(refusal, 1), got);
    }
}

fn random_cases(report: &mut Report) {
    let mut random = Random::new(4);
    let mut nested: Nested = [[0; KINDS]; KINDS];
    let (mut numbers, mut zeros, mut cuts) = ([0u64; 8], 0, 0);
    for (number, inputs) in CASES.iter().flat_map(|(inputs, count)| vec![inputs; *count]).enumerate() {
        let (table, query) = inputs(&mut random, &mut nested);
        let expected = ceilings::ceiling(&table, &query);
        numbers[expected.refusal.number as usize] += 1;
        zeros += u64::from(expected == Ceiling { refusal: NONE, ceiling: 0 });
        cuts += u64::from(expected.ceiling == CUT);
        ceilings::test(report, &mut random, &format!("random case {number}"), (&table, &query), expected);
    }
    println!("random cases by number: {numbers:?}");
    for number in [0, 1, 3, 4, 6, 7] {
        report.case(numbers[number] > 0, || format!("no random case has number {number}"));
    }
    println!("random cases with ceiling 0: {zeros}, with one that is cut: {cuts}");
    report.case(zeros < numbers[0] / 2 && cuts > 100, || "too few ceilings between 0 and the cut, or at it".to_string());
    queries::all_nested(report, &nested, 100);
}

fn on_threads(report: &mut Report) {
    let make = |random: &mut Random| {
        let (table, query) = inputs::narrow(random, &mut [[0; KINDS]; KINDS]);
        let expected = ceilings::ceiling(&table, &query);
        (table, query, expected)
    };
    threads::all_right(report, make, |(table, query, expected)| ffi::ceiling(table, query) == *expected);
}

fn deepest() -> Deepest<Ceiling> {
    Deepest {
        figure: "RANDWYLER_STACK_CEILING_KIB",
        chains: chains::all(&[], CHECK_LIMIT),
        shallow: chains::of_few_pairs(),
        shallow_kib: stack::SHALLOW,
        refusal: stack::of_query,
        call: |query| ffi::ceiling(&chains::table(), query),
        expected: |query| ceilings::ceiling(&chains::table(), query),
    }
}

fn parts(report: &mut Report) {
    vectors(report);
    report.part("vectors");
    by_hand(report);
    at_limits(report);
    report.part("limits and NULL");
    random_cases(report);
    report.part("random cases");
    random_sets::random_cases(report);
    report.part("random sets");
}

fn main() {
    stack::main(parts, on_threads, deepest);
}
