//! Tests the bound on the row space that docs/INTEGRATION.md makes of ceilings: a query, and its rewriting, is answered in so many rows.
//! examples/embed/space_bound.c, with which this program is linked, must give the same bound. The last line is 'N passed, M failed'.

mod chains;
mod conditions;
mod ffi;
mod inputs;
mod means;
mod paper;
mod queries;
mod random;
mod report;
mod rows;
mod stack;
mod tables;
mod vectors;

use paper::{Evaluated, Inputs, Kind, Node, Tally, CHECK_LIMIT, CHOICES, MOST_RECORDS, NONE};
use queries::KINDS;
use random::Random;
use report::{hex, shown, Report};
use rows::ROW_WORDS;
use std::thread;

const RANDOM_CASES: usize = 60_000;
const DENSE_CASES: usize = 2_000;
/// Queries with a greater bound are left out.
const MOST_BOUND: u64 = 2_000;
/// The longest result of a rewriting.
const MOST_RESULT: usize = 5_120;
/// A ceiling that may stand for any greater number.
const CUT: u32 = 4_294_967_295;

/// The example's bound; none where it knows none.
fn bound_by_example(table: &[u8], query: &[u8]) -> Option<u64> {
    extern "C" {
        fn space_bound(table: *const u8, table_len: usize, query: *const u8, query_len: usize) -> u64;
    }
    // SAFETY: the pointers and lengths are those of slices, which are only read.
    let rows = unsafe { space_bound(table.as_ptr(), table.len(), query.as_ptr(), query.len()) };
    (rows != u64::MAX).then_some(rows)
}

/// The ceiling of a part of a query that is a query too.
fn ceil(table: &[u8], part: &[u8]) -> u32 {
    let answer = ffi::ceiling(table, part);
    assert!(answer.refusal == NONE, "the operand {} is refused", hex(part));
    answer.ceiling
}

/// The document's S, of a node whose last byte is before `end`; none where a ceiling in it is cut.
fn bound(table: &[u8], query: &[u8], node: &Node, end: usize) -> Option<u64> {
    let own = |from: usize, to| Some(ceil(table, &query[from..to])).filter(|rows| *rows < CUT).map(u64::from);
    match &node.kind {
        Kind::Patterns(_) => own(node.place, end),
        Kind::Join(left, right) | Kind::LeftJoin(_, left, right) => {
            let (a, b, c) = (own(left.place, right.place)?, own(right.place, end)?, own(node.place, end)?);
            let operands = bound(table, query, left, right.place)?.max(a + bound(table, query, right, end)?);
            Some(operands.max(a + b + c))
        }
        Kind::Union(left, right) => {
            let a = own(left.place, right.place)?;
            Some(bound(table, query, left, right.place)?.max(a + bound(table, query, right, end)?))
        }
        Kind::Filter(_, operand) | Kind::Project(_, operand) | Kind::Ensure(_, _, operand) => {
            bound(table, query, operand, end)
        }
    }
}

/// The bound of a checked query, which must be the example's too.
fn same_bound(report: &mut Report, what: &str, table: &[u8], query: &[u8], node: &Node) -> Option<u64> {
    let (most, by_example) = (bound(table, query, node, query.len()), bound_by_example(table, query));
    let said =
        || format!("{what}: the bound of {} on {} is {most:?}, by the example {by_example:?}", hex(query), hex(table));
    report.case(most == by_example, said);
    most
}

fn has(node: &Node, test: fn(&Kind) -> bool) -> bool {
    let mut found = false;
    node.each(&mut |node| found |= test(&node.kind));
    found
}

fn has_join(node: &Node) -> bool {
    has(node, |kind| matches!(kind, Kind::Join(..) | Kind::LeftJoin(..)))
}

/// Whether it has only pattern sets, unions and project trusts.
fn is_additive(node: &Node) -> bool {
    !has_join(node) && !has(node, |kind| matches!(kind, Kind::Filter(..) | Kind::Ensure(..)))
}

fn evaluate(inputs: Inputs, rows: u64) -> Evaluated {
    let mut space = vec![7; rows as usize * ROW_WORDS];
    ffi::evaluate(inputs, &mut space, Tally { answered: 0, refused: 0 })
}

/// The bound of a checked query, and its answer and that of its rewriting in so many rows; none if the bound is too great.
fn within(report: &mut Report, what: &str, inputs: Inputs) -> Option<(u64, Evaluated)> {
    let (table, query, choice) = inputs;
    let node = paper::query(query, CHECK_LIMIT).expect("a checked query");
    let most = same_bound(report, what, table, query, &node)?;
    let ceiling = u64::from(ceil(table, query));
    let said = |answer: Evaluated| format!("{what}: eval {} in {most} rows => {answer}", shown(inputs));
    if !has_join(&node) {
        report.case(most <= ceiling, || format!("{what}: bound {most} without a join, ceiling {ceiling}"));
    }
    if most > MOST_BOUND {
        return None;
    }
    let answer = evaluate(inputs, most);
    report.case(answer.refusal == NONE && u64::from(answer.peak) <= most, || said(answer));
    if is_additive(&node) {
        let exact = most == ceiling && u64::from(answer.peak) == ceiling && answer.rows == answer.peak;
        report.case(exact, || format!("{}, and the ceiling is {ceiling}", said(answer)));
    }
    let mut output = [0; MOST_RESULT];
    let rewritten = ffi::rewrite(query, &mut output);
    if rewritten.refusal == NONE {
        let pushed = evaluate((table, &output[..rewritten.length as usize], choice), most);
        report.case(pushed.refusal == NONE, || format!("{}, rewritten", said(pushed)));
    }
    Some((most, answer))
}

/// Bounds and peaks on the store W, by either choice.
fn by_hand(report: &mut Report) {
    let [two, none] = ["?0 20 21, ?0 10 ?1", "?0 20 ?1, ?1 10 ?2"].map(vectors::set);
    for (what, query, most, peak) in [
        ("case 1", "E 10 A B", 8, 6),
        ("case 3", "E 20 70 A B", 8, 7),
        ("a left join on a condition that errs", "20 10 07 A B", 8, 6),
        ("a left join on a condition that errs, at its bound", "20 10 07 A 00", 5, 5),
        ("a join with nothing, of ceiling 0", "10 A N", 2, 2),
        ("nothing joined", "10 N A", 2, 2),
        ("a union", "30 A S", 6, 6),
        ("a union in a union", "30 30 A B 5f A", 6, 6),
        ("a filter that keeps nothing", "40 4070 S", 4, 4),
        ("a join of all, twice", "10 S 10 S S", 84, 16),
        ("two patterns with two rows", &two, 2, 2),
        ("a join with two patterns", &format!("10 A {two}"), 8, 6),
        ("a left join with two patterns that have no row", &format!("20 70 S {none}"), 8, 8),
    ] {
        for choice in CHOICES {
            let found = within(report, what, (&tables::w(), &vectors::query(query), choice));
            let found = found.map(|(most, answer)| (most, answer.peak));
            let right = found == Some((most, peak));
            report.case(right, || format!("{what}: bound and peak are {found:?}, not {most} and {peak}"));
        }
    }
}

/// The example's bounds, and none, on as many records as a table may have.
fn greatest_bounds(report: &mut Report) {
    let large = tables::large(MOST_RECORDS);
    for (what, query, most) in [
        ("every record", "S", Some(65_535)),
        ("every record squared", "02 P R", Some(4_294_836_225)),
        ("a sum below the cut", "30 02 P R S", Some(4_294_901_760)),
        ("a sum above the cut of ceilings below it", "30 02 P R 02 P R", Some(8_589_672_450)),
        ("a join with nothing", "10 02 P R N", Some(4_294_836_225)),
        ("nothing, joined", "10 N 02 P R", Some(4_294_836_225)),
        ("three patterns", "03 P R T", None),
        ("a cut ceiling below filter and bound", "40 70 60 0007d0 5f 03 P R T", None),
        ("a cut ceiling on the left", "10 03 P R T N", None),
        ("a cut ceiling on the right", "10 N 03 P R T", None),
        ("a cut ceiling in a union", "30 03 P R T N", None),
        ("a cut ceiling in a union, the other order", "30 N 03 P R T", None),
        ("a join with a cut ceiling of operands that have none", "10 02 P R S", None),
        ("a left join with a cut ceiling of operands that have none", "20 70 02 P R S", None),
    ] {
        let query = vectors::query(query);
        let node = paper::query(&query, CHECK_LIMIT).expect("a checked query");
        let found = same_bound(report, what, &large, &query, &node);
        report.case(found == most, || format!("{what}: the bound is {found:?}, not {most:?}"));
    }
    for (what, table, query) in [
        ("a table of a byte", &[0][..], &[0][..]),
        ("a bad record", &[0; 9], &[0]),
        ("no query", &[], &[]),
        ("a query that ends early", &[], &[0x10, 0x00]),
        ("bytes behind the query", &[], &[0, 0]),
        ("a variable twice", &[], &[0x51, 0x51, 0x00]),
        ("a long query", &[], &[0; CHECK_LIMIT + 1]),
    ] {
        report.case(bound_by_example(table, query).is_none(), || format!("{what}: has a bound"));
    }
}

/// The deepest queries, refused or not.
fn deepest(report: &mut Report) {
    for chain in chains::all(&[], CHECK_LIMIT) {
        match paper::query(&chain.query, CHECK_LIMIT) {
            Ok(node) => {
                let most = same_bound(report, &chain.name, &tables::w(), &chain.query, &node);
                report.case(most.is_some(), || format!("{}: has no bound", chain.name));
            }
            Err(_) => {
                let most = bound_by_example(&tables::w(), &chain.query);
                report.case(most.is_none(), || format!("{}: refused, and has the bound {most:?}", chain.name));
            }
        }
    }
}

/// Bounds of queries with great ceilings.
fn dense_cases(report: &mut Report) {
    let mut random = Random::new(2);
    let (mut known, mut unknown) = (0, 0);
    for number in 0..DENSE_CASES {
        let (table, query) = inputs::dense(&mut random, &mut [[0; KINDS]; KINDS]);
        let Ok(node) = paper::query(&query, CHECK_LIMIT) else { continue };
        match same_bound(report, &format!("dense case {number}"), &table, &query, &node) {
            Some(_) => known += 1,
            None => unknown += 1,
        }
    }
    println!("dense cases with a bound: {known}, with none: {unknown}");
    report.case(known > 200 && unknown > 100, || "too few dense cases of a kind".to_string());
}

fn random_cases(report: &mut Report) {
    let mut random = Random::new(1);
    let (mut answered, mut exact, mut above_ceiling, mut additive) = (0u64, 0u64, 0u64, 0u64);
    for number in 0..RANDOM_CASES {
        let (table, query) = inputs::narrow(&mut random, &mut [[0; KINDS]; KINDS]);
        if paper::check(&table, &query) != NONE {
            continue;
        }
        let inputs = (&table[..], &query[..], random.pick(&CHOICES));
        let Some((most, answer)) = within(report, &format!("random case {number}"), inputs) else { continue };
        answered += 1;
        exact += u64::from(u64::from(answer.peak) == most);
        above_ceiling += u64::from(answer.peak > ceil(&table, &query));
        let node = paper::query(&query, CHECK_LIMIT).expect("a checked query");
        additive += u64::from(answer.rows > 1 && has(&node, |kind| matches!(kind, Kind::Union(..))) && is_additive(&node));
    }
    println!("answered: {answered}, with a peak at the bound: {exact}, with a peak above the ceiling: {above_ceiling}");
    println!("answered, of sets, unions and project trusts alone: {additive}");
    let enough = answered > RANDOM_CASES as u64 / 2 && exact > 1_000 && above_ceiling > 1_000 && additive > 500;
    report.case(enough, || "too few random cases of a kind".to_string());
}

fn run() -> i32 {
    let mut report = Report::default();
    by_hand(&mut report);
    greatest_bounds(&mut report);
    report.part("cases by hand");
    deepest(&mut report);
    report.part("deepest queries");
    random_cases(&mut report);
    dense_cases(&mut report);
    report.part("random cases");
    report.finish()
}

fn main() {
    let status = thread::Builder::new().stack_size(stack::OWN_STACK).spawn(run).expect("a thread").join().unwrap_or(101);
    std::process::exit(status);
}
