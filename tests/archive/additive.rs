//! Tests that memory can be ordered by the ceiling of a query of pattern sets, unions and project trusts (request 5 of document 02): it is
//! answered exactly where its ceiling is at most the capacity, and then has so many rows and needs no more space, by least and by mean. The
//! last line is 'N passed, M failed'.

mod ceilings;
mod conditions;
mod fence;
mod ffi;
mod inputs;
mod kinds;
mod known_ceilings;
mod means;
mod paper;
mod queries;
mod random;
mod report;
mod rows;
mod spaces;
mod subjects;
mod tables;
mod vectors;

use kinds::Kinds;
use known_ceilings::CUT;
use paper::{refusal, Ceiling, Evaluated, Inputs, Kind, CHOICES, MOST_RECORDS, NONE};
use random::Random;
use report::Report;
use rows::{Outcome, Seen, MOST_ROWS, ROW_WORDS};
use spaces::Spaces;
use vectors::set;

const RANDOM_CASES: usize = 8_000;
/// rows.rs is not asked where it takes more steps.
const MOST_STEPS: u64 = 20_000;

/// Evaluates in a row space of so many words where rows.rs is not asked. The case fails if the answer is not that of so many rows, or if a
/// word behind them is not 0.
fn evaluate(report: &mut Report, spaces: &mut Spaces, what: &str, inputs: Inputs, rows: u32, words: usize) {
    let (mut space, tally) = (spaces.0.lend(words), spaces.tally());
    let got = ffi::evaluate(inputs, space.slice_mut(), tally);
    let fits = rows as usize <= rows::capacity(words);
    let (refusal, rows) = if fits { (NONE, rows) } else { (refusal(8, 0), 0) };
    let mut expected = Evaluated { refusal, rows, peak: rows, pairs: 0, tally };
    let count = if fits { &mut expected.tally.answered } else { &mut expected.tally.refused };
    *count = count.saturating_add(1);
    report.evaluate(what, inputs, words, expected, got);
    let zeros = space.slice()[rows as usize * ROW_WORDS..].iter().all(|word| *word == 0);
    report.case(zeros, || format!("{what}: a word of {words} behind {rows} rows is not 0"));
}

/// Tests the ceiling of a query, and its evaluation in just as much space, in a word less, in a row less and in more. Answers whether
/// rows.rs was asked, by either choice.
fn test(report: &mut Report, spaces: &mut Spaces, what: &str, (table, query): (&[u8], &[u8]), ceiling: u32) -> bool {
    let expected = Ceiling { refusal: NONE, ceiling };
    ceilings::test(report, &mut spaces.0.random, what, (table, query), expected);
    let enough = (ceiling as usize).min(MOST_ROWS + 1) * ROW_WORDS;
    let mut lengths = vec![enough, enough + ROW_WORDS - 1];
    if ceiling > 0 {
        lengths.extend([enough - 1, enough - ROW_WORDS]);
    }
    let by_choice = CHOICES.map(|choice| {
        let inputs = (table, query, choice);
        let outcome = rows::evaluate_within(inputs, MOST_ROWS, MOST_STEPS, &mut Seen::default());
        for words in &lengths {
            match &outcome {
                Some(outcome) => spaces.test(report, what, inputs, outcome, *words),
                None => evaluate(report, spaces, what, inputs, ceiling, *words),
            }
        }
        if let Some(Outcome::Rows(evaluation)) = &outcome {
            let counts = [evaluation.rows.len(), evaluation.space, evaluation.pairs as usize];
            let same = counts == [ceiling as usize, ceiling as usize, 0];
            report.case(same, || format!("{what}: the ceiling is {ceiling}, and rows.rs has {counts:?}"));
        }
        outcome.is_some()
    });
    by_choice.iter().all(|asked| *asked)
}

fn by_hand(report: &mut Report) {
    let mut spaces = Spaces::new(1);
    let side = |predicate, count| (1..=count).map(move |object| [1, predicate, object]);
    let sides = |one, other| tables::of_triples(side(1, one).chain(side(2, other)));
    let stars = |sizes: &[u32]| tables::of_triples(known_ceilings::stars(sizes));
    let path = |count| tables::of_triples((1..=count).map(|term| [term, 1, term + 1]));
    let (w, large, half) = (tables::w(), tables::large(MOST_RECORDS), tables::large(MOST_RECORDS / 2));
    let (parts, arms, chain) = (set("1 1 ?0, 1 2 ?1"), set("?0 1 ?1, ?0 2 ?2"), set(&known_ceilings::chain(2)));
    for (what, table, query, rows) in [
        ("nothing", vec![], "N", 0),
        ("nothing, of which the trust is projected", w.clone(), "5f N", 0),
        ("nothing three times", w.clone(), "30 30 N N N", 0),
        ("no row of two patterns that match", w.clone(), &set("?0 ?1 ?2, ?2 ?3 ?4"), 0),
        ("the empty set", vec![], "00", 1),
        ("the empty set and nothing", w.clone(), "5f 30 N 00", 1),
        ("the empty set twice", vec![], "30 00 00", 2),
        ("two rows of two patterns", w.clone(), &set("?0 20 21, ?0 10 ?1"), 2),
        ("a union of unions", w.clone(), "30 30 A 5e B 30 5f S 00", 9),
        ("every record", large.clone(), "S", 65_535),
        ("every record, and one", large.clone(), "30 S 00", 65_536),
        ("every record, and one, the other order", large.clone(), "30 5f 00 S", 65_536),
        ("half of it twice", half.clone(), "30 S S", 65_534),
        ("half of it twice, and one", half.clone(), "30 30 S 00 5f S", 65_535),
        ("half of it twice, and two", half, "30 30 S 00 30 S 00", 65_536),
        ("255 times 257", sides(255, 257), &parts, 65_535),
        ("256 times 256", sides(256, 256), &parts, 65_536),
        ("256 times 256, and more", sides(256, 256), &format!("30 S {parts}"), 66_048),
        ("stars with 65,535 rows", stars(&[255, 22, 5, 1]), &arms, 65_535),
        ("stars with 65,536 rows", stars(&[1, 5, 22, 255, 1]), &arms, 65_536),
        ("chains with 65,534 rows", path(65_535), &chain, 65_534),
        ("chains with 65,534 rows, and one", path(65_535), &format!("5f 30 {chain} 00"), 65_535),
        ("chains with 65,534 rows, and two", path(65_535), &format!("5f 30 {chain} 30 00 00"), 65_536),
        ("every record squared", large.clone(), "02 P R", 4_294_836_225),
        ("more than the cut", large, "30 S 03 P R T", CUT),
    ] {
        test(report, &mut spaces, what, (&table, &vectors::query(query)), rows);
    }
}

fn random_cases(report: &mut Report) {
    let (mut random, mut spaces, mut kinds) = (Random::new(2), Spaces::new(3), Kinds::default());
    for number in 0..RANDOM_CASES {
        let (table, query) = inputs::additive(&mut random);
        let rows = ceilings::ceiling(&table, &query).ceiling;
        let by_rows = test(report, &mut spaces, &format!("random case {number}"), (&table, &query), rows);
        let tree = subjects::tree(&query);
        let mut nodes = Vec::new();
        tree.each(&mut |node| nodes.push(node.kind.number()));
        let (union, projected) = (nodes.contains(&3), nodes.contains(&5));
        let linked = matches!(&tree.kind, Kind::Patterns(patterns) if patterns.len() > 1);
        kinds.count(&[
            ("no row", 500, rows == 0),
            ("one row", 500, rows == 1),
            ("up to 300 rows, also by rows.rs", 3_000, rows > 1 && rows <= 300 && by_rows),
            ("301 to 65,535 rows", 400, rows > 300 && rows <= 65_535),
            ("over 65,535 rows", 10, rows > 65_535 && rows < CUT),
            ("rows of a union", 3_000, rows > 0 && union),
            ("rows of a project trust", 1_000, rows > 0 && projected),
            ("rows of both", 1_000, rows > 0 && union && projected),
            ("rows of several patterns alone", 300, rows > 0 && linked),
        ]);
    }
    kinds.enough(report, "random cases");
}

fn main() {
    let mut report = Report::default();
    by_hand(&mut report);
    report.part("cases by hand");
    random_cases(&mut report);
    report.part("random cases");
    std::process::exit(report.finish());
}
