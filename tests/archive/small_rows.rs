//! Conditions on rows of few values: every operator on every sort of cells, by hand and by rows.rs.

use crate::conditions::{Truth, TRUTHS};
use crate::ffi;
use crate::paper::{Choice, Tally, NONE};
use crate::report::Report;
use crate::rows::{self, Outcome, Seen, LEFT_ROWS, MOST_ROWS, ROW_WORDS};
use crate::spaces::Spaces;
use crate::tables;
use crate::vectors;

/// The variables of the conditions.
const X: u32 = 0;
const Y: u32 = 1;

/// Nodes of one row each, in which a variable is free, 5, 6, trust 7, trust 8 and unknown trust.
fn cells(variable: u32) -> [String; 6] {
    let term = |predicate: u32| format!("01 000001 00000{predicate} 10000{variable}");
    let trust = |predicate: u32| format!("5{variable} 01 000001 00000{predicate} 000001");
    ["00".to_string(), term(3), term(4), trust(5), trust(6), trust(7)]
}

fn table_of_cells() -> Vec<u8> {
    let one = |predicate, object, trust| ([1, predicate, object], trust);
    tables::facts(&[one(3, 5, Some(0)), one(4, 6, Some(0)), one(5, 1, Some(7)), one(6, 1, Some(8)), one(7, 1, None)])
}

/// The truth of a condition on the one row of a node, by the call: a filter keeps what is true, and what is false under not.
fn truth_by_call(table: &[u8], condition: &str, node: &str) -> Option<Truth> {
    let kept = |query: String| {
        let inputs = (table, &vectors::query(&query)[..], Choice::Least);
        let answer = ffi::evaluate(inputs, &mut [7; 9 * ROW_WORDS], Tally { answered: 0, refused: 0 });
        (answer.refusal == NONE).then_some(answer.rows)
    };
    match (kept(format!("40 {condition} {node}"))?, kept(format!("40 40 {condition} {node}"))?) {
        (1, 0) => Some(Some(true)),
        (0, 1) => Some(Some(false)),
        (0, 0) => Some(None),
        _ => None,
    }
}

/// T, F or E for each truth.
fn truth_of(letter: char) -> Truth {
    TRUTHS["TFE".find(letter).expect("T, F or E")]
}

/// Tests a condition on every pair of cells: a line for each of X, a letter for each of Y.
fn on_cells(report: &mut Report, condition: &str, lines: [&str; 6]) {
    let table = table_of_cells();
    for (x, line) in cells(X).iter().zip(lines) {
        for (y, letter) in cells(Y).iter().zip(line.chars()) {
            let node = format!("10 {x} {y}");
            let got = truth_by_call(&table, condition, &node);
            report.case(got == Some(truth_of(letter)), || format!("{condition} on {node}: {got:?}, expected {letter}"));
        }
    }
}

/// The truths of the conditions without operands, and of their combinations, by hand.
pub fn truths(report: &mut Report) {
    on_cells(report, "00", ["FFFFFF", "TTTTTT", "TTTTTT", "TTTTTT", "TTTTTT", "TTTTTT"]);
    on_cells(report, "01", ["FTTTTT"; 6]);
    on_cells(report, "10 01", ["EEEEEE", "ETFFFE", "EFTFFE", "EFFTFE", "EFFFTE", "EEEEEE"]);
    on_cells(report, "11 00", ["EEEEEE", "ETFFFE", "EFTFFE", "EFFTFE", "EFFFTE", "EEEEEE"]);
    on_cells(report, "11 01", ["ETTTTE"; 6]);
    on_cells(report, "21 000005", ["ETFFFE"; 6]);
    on_cells(report, "20 000006", ["EEEEEE", "FFFFFF", "TTTTTT", "FFFFFF", "FFFFFF", "EEEEEE"]);
    on_cells(report, "30 01", ["EEEEEE", "EEEEEE", "EEEEEE", "EEEFTE", "EEEFFE", "EEEEEE"]);
    on_cells(report, "31 00", ["EEEEEE", "EEEEEE", "EEEEEE", "EEEFFE", "EEETFE", "EEEEEE"]);
    on_cells(report, "31 01", ["EEEFFE"; 6]);
    on_cells(report, "70", ["TTTTTT"; 6]);
    let mut test = |condition: String, letter| {
        let got = truth_by_call(&[], &condition, "00");
        report.case(got == Some(truth_of(letter)), || format!("{condition}: {got:?}, expected {letter}"));
    };
    // A condition that is true, one that is false and one that errs (?15 is free), and each one's truth, its negation's, and
    // those of and, and of or, with each of the three.
    let given = ["70", "40 70", "1f 0f"];
    let truths = [('T', 'F', "TFE", "TTT"), ('F', 'T', "FFF", "TFE"), ('E', 'E', "EFE", "TEE")];
    for (one, (itself, negation, and, or)) in given.iter().zip(truths) {
        test(one.to_string(), itself);
        test(format!("40 {one}"), negation);
        for ((other, both), either) in given.iter().zip(and.chars()).zip(or.chars()) {
            test(format!("50 {one} {other}"), both);
            test(format!("60 {one} {other}"), either);
        }
    }
}

/// Conditions on X and Y: those without operands, their conjunctions and disjunctions, and the negations of all these.
fn conditions() -> Vec<String> {
    let simple =
        ["00", "01", "10 01", "11 00", "10 00", "20 000001", "21 000001", "21 0fffff", "30 01", "31 00", "31 01", "70"];
    let mut all: Vec<String> = simple.map(str::to_string).to_vec();
    for one in simple {
        for other in simple {
            all.extend(["50", "60"].map(|operator| format!("{operator} {one} {other}")));
        }
    }
    let negations: Vec<String> = all.iter().map(|condition| format!("40 {condition}")).collect();
    all.extend(negations);
    all
}

/// Every such condition in a filter and in a left join, on all pairs of values: X and Y are each free or one of three terms,
/// or free or one of five known trusts or unknown. Every set has one pattern, so that the choice does not matter: it is drawn.
pub fn all_small(report: &mut Report) {
    let trusts = [Some(-1_000), Some(-1), Some(0), Some(1), Some(1_000), None];
    let of_terms = [1, 2, 1_048_575].map(|object| ([1, 1, object], Some(0)));
    let of_trusts = (1..).zip(trusts).map(|(object, trust)| ([1, 2, object], trust));
    let table = tables::facts(&of_terms.into_iter().chain(of_trusts).collect::<Vec<_>>());
    // The objects that go with trusts are ?2 and ?3.
    let term = |variable: u32| format!("30 00 01 000001 000001 10000{variable}");
    let trust = |variable: u32| format!("30 00 5{variable} 01 000001 000002 10000{}", variable + 2);
    let (mut spaces, mut seen) = (Spaces::new(2), Seen::default());
    for (x, y) in [(term(X), term(Y)), (term(X), trust(Y)), (trust(X), trust(Y))] {
        for condition in conditions() {
            for query in [format!("40 {condition} 10 {x} {y}"), format!("20 {condition} {x} {y}")] {
                let bytes = vectors::query(&query);
                let inputs = (&table[..], &bytes[..], spaces.choice());
                let outcome = rows::evaluate_within(inputs, MOST_ROWS, u64::MAX, &mut seen).expect("no limit of steps");
                let Outcome::Rows(evaluation) = &outcome else { panic!("{query} is refused") };
                let words = evaluation.space * ROW_WORDS + 5;
                spaces.test(report, &query, inputs, &outcome, words);
            }
        }
    }
    for (outcome, count) in LEFT_ROWS.iter().zip(seen.left_rows) {
        // No row of X has a variable of Y.
        let never = *outcome == "kept, with no compatible row";
        println!("left rows of few values, {outcome}: {count}");
        report.case(never || count >= 500, || format!("only {count} left rows of few values, {outcome}"));
    }
}
