//! Random pattern sets, many in several parts, which have no variable in common, and their ceilings.

use crate::ceilings;
use crate::inputs;
use crate::kinds::{Kind, Kinds};
use crate::known_ceilings::CUT;
use crate::paper::{self, Ceiling, Choice, Pattern, Record, Slot, NONE};
use crate::random::Random;
use crate::report::{hex, Report};
use crate::rows::{self, Outcome, Seen, MOST_ROWS};
use crate::subjects;

const CASES: usize = 40_000;
/// rows.rs is not asked where it takes more steps.
const MOST_STEPS: u64 = 4_000;

/// Of each pattern the first one of its part.
fn parts(patterns: &[Pattern]) -> Vec<usize> {
    let linked =
        |one: &Pattern, other: &Pattern| one.iter().any(|slot| matches!(slot, Slot::Variable(_)) && other.contains(slot));
    let mut first: Vec<usize> = (0..patterns.len()).collect();
    for (one, other) in (0..patterns.len()).flat_map(|one| (0..one).map(move |other| (one, other))) {
        if linked(&patterns[one], &patterns[other]) {
            let (low, high) = (first[one].min(first[other]), first[one].max(first[other]));
            first.iter_mut().filter(|place| **place == high).for_each(|place| *place = low);
        }
    }
    first
}

fn kinds_of_set(records: &[Record], patterns: &[Pattern], figure: u64) -> [Kind; 14] {
    let alone: Vec<u64> = patterns.iter().map(|pattern| ceilings::figure(records, &[*pattern])).collect();
    let unmatched: Vec<usize> = (0..alone.len()).filter(|place| alone[*place] == 0).collect();
    let (last, choices) = (patterns.len() - 1, alone.iter().fold(1, |one: u64, other| one.saturating_mul(*other)));
    let only = |test: fn(usize, usize) -> bool| last > 1 && unmatched.len() == 1 && test(unmatched[0], last);
    let (rows, parts) = (figure > 0, parts(patterns));
    let each: Vec<usize> = (0..=last).filter(|place| parts[*place] == *place).collect();
    let turns = 1 + parts.windows(2).filter(|two| two[0] != two[1]).count();
    let twice = (0..=last).any(|place| patterns[..place].contains(&patterns[place]));
    [
        ("no record for the first pattern alone", 300, only(|place, _| place == 0)),
        ("no record for one between others alone", 300, only(|place, last| place > 0 && place < last)),
        ("no record for the last one alone", 300, only(|place, last| place == last)),
        ("no row, though each pattern has a record", 500, !rows && unmatched.is_empty()),
        ("fewer rows than choices for each pattern alone", 5_000, rows && figure < choices),
        ("as many rows as choices for each of several patterns alone", 1_000, rows && last > 0 && figure == choices),
        ("rows, and two parts in turns", 1_000, rows && each.len() == 2 && turns > 2),
        ("rows, and over two parts in turns", 1_000, rows && each.len() > 2 && turns > each.len()),
        ("rows, and one part of over four patterns", 1_000, rows && each.len() == 1 && last > 3),
        ("rows, and a pattern twice", 1_000, rows && twice),
        ("rows, and 15 patterns", 100, rows && last == 14),
        ("one row", 500, figure == 1),
        ("over 65,535 rows, and fewer than the cut", 300, figure > MOST_ROWS as u64 && figure < u64::from(CUT)),
        ("as many rows as the cut", 20, figure == u64::from(CUT)),
    ]
}

/// The ceilings of sets, by ceilings.rs; and this by the rows of rows.rs, where these are few.
pub fn random_cases(report: &mut Report) {
    let (mut random, mut kinds) = (Random::new(7), Kinds::default());
    for number in 0..CASES {
        let (table, query) = if number % 4 == 0 { inputs::pattern_set(&mut random) } else { inputs::parts(&mut random) };
        let what = format!("random set {number}");
        let expected = ceilings::ceiling(&table, &query);
        ceilings::test(report, &mut random, &what, (&table, &query), expected);
        let inputs = (&table[..], &query[..], Choice::Least);
        let listed = rows::evaluate_within(inputs, MOST_ROWS, MOST_STEPS, &mut Seen::default());
        if let Some(Outcome::Rows(evaluation)) = &listed {
            let by_rows = Ceiling { refusal: NONE, ceiling: evaluation.rows.len() as u32 };
            report.case(by_rows == expected, || {
                format!("{what}: ceilings.rs has {expected} of {} {}, and rows.rs {by_rows}", hex(&table), hex(&query))
            });
        }
        let (records, tree) = (paper::records(&table).expect("a sound table"), subjects::tree(&query));
        let [set] = &subjects::sets(&tree)[..] else { panic!("one set") };
        kinds.count(&kinds_of_set(&records, set.patterns, u64::from(expected.ceiling)));
        kinds.count(&[("rows, and as many by rows.rs", 5_000, expected.ceiling > 1 && listed.is_some())]);
    }
    kinds.enough(report, "sets");
}
