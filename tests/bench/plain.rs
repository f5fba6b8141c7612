//! Tests the plain C evaluation that the bench times (bench/evaluate/plain.c), linked under the name `randwyler_evaluate`,
//! against an independent evaluation (rows.rs) of random queries, by least and by mean, and of joins with many rows. The last line
//! is 'N passed, M failed'.

#[path = "../archive/compared.rs"]
mod compared;
#[path = "../archive/conditions.rs"]
mod conditions;
#[path = "../archive/fence.rs"]
mod fence;
#[path = "../archive/ffi.rs"]
mod ffi;
#[path = "../archive/inputs.rs"]
mod inputs;
#[path = "../archive/left_joins.rs"]
mod left_joins;
#[path = "../archive/left_rows.rs"]
mod left_rows;
#[path = "../archive/many_rows.rs"]
mod many_rows;
#[path = "../archive/means.rs"]
mod means;
#[path = "../archive/paper.rs"]
mod paper;
#[path = "../archive/push.rs"]
mod push;
#[path = "../archive/queries.rs"]
mod queries;
#[path = "../archive/random.rs"]
mod random;
#[path = "../archive/report.rs"]
mod report;
#[path = "../archive/rows.rs"]
mod rows;
#[path = "../archive/spaces.rs"]
mod spaces;
#[path = "../archive/tables.rs"]
mod tables;
#[path = "../archive/vectors.rs"]
mod vectors;

use paper::CHOICES;
use queries::KINDS;
use random::Random;
use report::Report;
use rows::Seen;
use spaces::Spaces;

const CASES: usize = 20_000;
const MOST_SPACE: usize = 300;
const MOST_STEPS: u64 = 10_000;

fn main() {
    let (mut report, mut random, mut spaces) = (Report::default(), Random::new(1), Spaces::new(2));
    let mut seen = Seen::default();
    for number in 0..CASES {
        let (table, query) = match number % 4 {
            0 => inputs::pattern_set(&mut random),
            1 => left_joins::inputs(&mut random),
            _ => inputs::narrow(&mut random, &mut [[0; KINDS]; KINDS]),
        };
        let inputs = (&table[..], &query[..], random.pick(&CHOICES));
        let mut here = Seen::default();
        let Some(outcome) = rows::evaluate_within(inputs, MOST_SPACE, MOST_STEPS, &mut here) else { continue };
        if outcome.has_rows() {
            seen.add(&here);
        }
        let lengths = spaces::lengths(&outcome);
        for words in [lengths[0], lengths[1], random.pick(&lengths[2..])] {
            spaces.test(&mut report, &format!("case {number}"), inputs, &outcome, words);
        }
    }
    left_rows::enough(&mut report, &seen, "random cases with rows", 1_000);
    seen.means.enough(&mut report, "random cases with rows", 500);
    // The right rows of large joins are chained here too.
    many_rows::one_bucket(&mut report);
    many_rows::set_in_some(&mut report);
    many_rows::trusts(&mut report);
    many_rows::about_many_pairs(&mut report);
    many_rows::longest(&mut report);
    many_rows::twenty_thousand(&mut report);
    std::process::exit(report.finish());
}
