//! Calls for valgrind: every slice stands alone on the heap, and row spaces are lent with nothing written in them, as are outputs of
//! totals. The answers are held to the independent readings too. The last line is 'N passed, M failed'.

#[path = "../archive/ceilings.rs"]
mod ceilings;
#[path = "../archive/chains.rs"]
mod chains;
#[path = "../archive/conditions.rs"]
mod conditions;
#[path = "../archive/deep_texts.rs"]
mod deep_texts;
#[path = "../archive/fence.rs"]
mod fence;
#[path = "../archive/ffi.rs"]
mod ffi;
#[path = "../archive/grammar.rs"]
mod grammar;
#[path = "../archive/groups.rs"]
mod groups;
#[path = "../archive/inputs.rs"]
mod inputs;
#[path = "../archive/known_typed.rs"]
mod known_typed;
#[path = "../archive/left_joins.rs"]
mod left_joins;
#[path = "../archive/means.rs"]
mod means;
#[path = "../archive/outputs.rs"]
mod outputs;
#[path = "../archive/pages.rs"]
mod pages;
#[path = "../archive/paper.rs"]
mod paper;
#[path = "../archive/push.rs"]
mod push;
#[path = "../archive/queries.rs"]
mod queries;
#[path = "../archive/random.rs"]
mod random;
#[path = "../archive/report.rs"]
mod report;
#[path = "../archive/results.rs"]
mod results;
#[path = "../archive/rows.rs"]
mod rows;
#[path = "../archive/spaces.rs"]
mod spaces;
#[path = "../archive/tables.rs"]
mod tables;
#[path = "../archive/texts.rs"]
mod texts;
#[path = "../archive/typed.rs"]
mod typed;
#[path = "../archive/vectors.rs"]
mod vectors;

use groups::Totals;
use paper::{Inputs, Tally, CHOICES};
use queries::KINDS;
use random::Random;
use report::Report;
use results::{Call, READ_TEXT, REWRITE};
use rows::{Outcome, Seen};
use std::ops::RangeInclusive;

const CASES: usize = 1_000;
const MOST_SPACE: usize = 200;
const MOST_STEPS: u64 = 4_000;
/// First bytes of sets of over 7 patterns.
const LONG_SETS: RangeInclusive<u8> = 0x08..=0x0F;
/// Stack for the program itself.
const OWN_STACK: usize = 64 << 20;
/// Bytes of the longest output behind the result.
const BEHIND: usize = 8;
const TALLY: Tally = Tally { answered: 4, refused: u32::MAX };

/// All calls with one table and one query; counts what an evaluation with rows saw, and answers whether there are rows.
fn test(report: &mut Report, random: &mut Random, what: &str, inputs: Inputs, seen: &mut Seen) -> bool {
    let (table, query, _) = inputs;
    report.check(what, table, query, paper::check(table, query), ffi::check(table, query));
    report.ceiling(what, table, query, ceilings::ceiling(table, query), ffi::ceiling(table, query));
    test_written(report, random, what, (&REWRITE, query), &push::rewriting(query, &mut push::Seen::default()));
    let mut here = Seen::default();
    let Some(outcome) = rows::evaluate_within(inputs, MOST_SPACE, MOST_STEPS, &mut here) else { return false };
    if outcome.has_rows() {
        seen.add(&here);
    }
    let lengths = spaces::lengths(&outcome);
    for words in [lengths[0], lengths[1], random.pick(&lengths)] {
        let (expected, after) = outcome.answer(words, TALLY);
        let (got, space) = ffi::evaluate_unwritten(inputs, words, TALLY);
        report.evaluate(what, inputs, words, expected, got);
        // There is nothing to compare where a refusal leaves the words that nobody wrote, or where there are none.
        if after.as_ref().is_some_and(|words| !words.is_empty()) {
            report.case(space == after, || format!("{what}: wrong words"));
        }
    }
    test_totals(report, random, what, inputs, &outcome);
    outcome.has_rows()
}

/// A call that writes bytes, with outputs that are too short, just long enough, and longer.
fn test_written(
    report: &mut Report,
    random: &mut Random,
    what: &str,
    (call, input): (&Call, &[u8]),
    outcome: &results::Outcome,
) {
    let needed = outcome.as_ref().map_or(input.len() + 1, Vec::len);
    for room in [needed - 1, needed, needed + BEHIND] {
        let before = random.noise(room);
        let mut output = before.clone().into_boxed_slice();
        let (answer, written) = call.answer(outcome, room);
        report.written(call.name, what, (input, room), answer, (call.call)(input, &mut output));
        // The result at the front, and every other byte as it was. An output of no bytes cannot differ.
        if room > 0 {
            let right = output.starts_with(written) && output[written.len()..] == before[written.len()..];
            report.case(right, || format!("{what}: wrong bytes after {} {} {room}", call.name, report::hex(input)));
        }
    }
}

/// Texts by hand, about as long as the limit, deep, and random.
fn test_texts(report: &mut Report, random: &mut Random) {
    let accepted = known_typed::accepted().into_iter().map(|(text, _)| text.into_bytes());
    let refused = known_typed::refused().into_iter().step_by(7).map(|(text, _)| text);
    let at_limit = known_typed::at_limit().into_iter().map(|(_, text, _)| text);
    let deep = deep_texts::all().into_iter().map(|chain| chain.query);
    let mut texts: Vec<Vec<u8>> = accepted.chain(refused).chain(at_limit).chain(deep).collect();
    texts.extend((0..CASES).map(|number| match number % 2 {
        0 => texts::sound(random, 5),
        _ => texts::damaged(random),
    }));
    for (number, text) in texts.into_iter().enumerate() {
        let (what, text) = (format!("text {number}"), text.into_boxed_slice());
        test_written(report, random, &what, (&READ_TEXT, &text), &typed::query(&text));
    }
}

/// Totals of a variable. An output with nothing written in it shows what an answer depends on, one with noise what is written.
fn test_totals(report: &mut Report, random: &mut Random, what: &str, inputs: Inputs, outcome: &Outcome) {
    let totals = Totals::new(outcome, outputs::variable(random, outcome));
    let (variable, spaces, rooms) = (totals.variable, spaces::lengths(outcome), outputs::rooms(&totals));
    for [words, room] in [[spaces[1], rooms[0]], [spaces[1], rooms[1]], [random.pick(&spaces), random.pick(&rooms)]] {
        let (expected, after, written) = totals.answer([words, room], TALLY);
        let (got, space, entries) = ffi::totals_unwritten(inputs, variable, [words, room], TALLY);
        report.totals(what, inputs, (variable, words, room), expected, got);
        report.case((&space, &entries) == (&after, &written), || format!("{what}: wrong words or entries"));
        let before: Vec<u32> = random.noise(room);
        let mut output = before.clone().into_boxed_slice();
        let mut space = random.noise::<u32>(words).into_boxed_slice();
        let got = ffi::totals(inputs, variable, &mut space, &mut output, TALLY);
        report.totals(what, inputs, (variable, words, room), expected, got);
        let right = output.starts_with(&written) && output[written.len()..] == before[written.len()..];
        report.case(right, || format!("{what}: wrong words in the output"));
    }
}

fn run() -> i32 {
    let (mut report, mut random) = (Report::default(), Random::new(1));
    let (mut errors, mut means, mut long_sets) = (0, 0, 0);
    for number in 0..CASES {
        let (table, query) = match number % 8 {
            0 | 4 => inputs::unions(&mut random),
            1 => left_joins::inputs(&mut random),
            2 | 6 => inputs::pattern_set(&mut random),
            5 => inputs::additive(&mut random),
            _ => inputs::narrow(&mut random, &mut [[0; KINDS]; KINDS]),
        };
        // A boxed slice has no room behind its end.
        let (table, query) = (table.into_boxed_slice(), query.into_boxed_slice());
        let (inputs, mut seen) = ((&table[..], &query[..], random.pick(&CHOICES)), Seen::default());
        let has_rows = test(&mut report, &mut random, &format!("case {number}"), inputs, &mut seen);
        long_sets += u64::from(has_rows && LONG_SETS.contains(&query[0]));
        errors += u64::from(seen.error_kept());
        means += u64::from(seen.means.not_least() > 0);
    }
    println!("cases with a left row kept on an error: {errors}; with a mean that is not the least: {means}");
    println!("sets of over 7 patterns with rows: {long_sets}");
    report.case(errors >= 50, || format!("only {errors} cases with a left row kept on an error"));
    report.case(means >= 50, || format!("only {means} cases with a mean that is not the least"));
    report.case(long_sets >= 5, || format!("only {long_sets} sets of over 7 patterns with rows"));
    test_texts(&mut report, &mut random);
    report.finish()
}

fn main() {
    // typed.rs calls itself once for each level of a text.
    let run = std::thread::Builder::new().stack_size(OWN_STACK).spawn(run);
    std::process::exit(run.expect("a thread").join().unwrap_or(101));
}
