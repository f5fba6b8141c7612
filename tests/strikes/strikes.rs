//! Tests the built program `strikes`: it is run on pairs of files in a temporary folder, and what it prints is held to texts
//! written by hand, and to an independent evaluation (tests/archive/rows.rs) with a printer of its own. The last line is
//! 'N passed, M failed'.

#[path = "../archive/chains.rs"]
mod chains;
#[path = "../archive/conditions.rs"]
mod conditions;
#[path = "../archive/inputs.rs"]
mod inputs;
mod known_texts;
#[path = "../archive/limits.rs"]
mod limits;
#[path = "../archive/means.rs"]
mod means;
#[path = "../archive/paper.rs"]
mod paper;
mod printer;
mod program;
#[path = "../archive/queries.rs"]
mod queries;
#[path = "../archive/random.rs"]
mod random;
#[path = "../archive/report.rs"]
mod report;
#[path = "../archive/rows.rs"]
mod rows;
#[path = "../archive/stack.rs"]
mod stack;
#[path = "../archive/tables.rs"]
mod tables;
#[path = "../archive/vectors.rs"]
mod vectors;

use paper::{CHECK_LIMIT, NONE, RECORD_BYTES};
use printer::{Run, CAPACITY, MOST_FACTS};
use program::{Files, Program};
use queries::{Nested, KINDS};
use random::Random;
use report::Report;
use rows::{Row, Value};
use std::collections::BTreeMap;
use std::process;
use std::thread;

const RANDOM_RUNS: usize = 5_000;
/// Random runs that take the independent evaluation more steps are left out.
const MOST_STEPS: u64 = 500_000;
/// Every kind of run must have come so often.
const LEAST: u64 = 20;

// ---- Random files

/// A facts file that is too long, by little or by much: sound, damaged or noise.
fn long_facts(random: &mut Random) -> Vec<u8> {
    let most = random.pick(&[20, 6_000]);
    let length = MOST_FACTS + random.within(1, most);
    let mut facts = tables::large(length.div_ceil(RECORD_BYTES));
    facts.truncate(length);
    match random.below(3) {
        0 => facts,
        1 => {
            facts[random.below(length)] ^= 1 << random.below(8);
            facts
        }
        _ => random.noise(length),
    }
}

/// A query file that is too long, by little or by much: sound but for its length, or noise.
fn long_query(random: &mut Random) -> Vec<u8> {
    let most = random.pick(&[10, 10_000]);
    let length = CHECK_LIMIT + random.within(1, most);
    if random.once_in(2) {
        random.noise(length)
    } else {
        limits::unions(length)
    }
}

/// About as many records as rows fit, and a query that lists all of them, or most; or half as many, and a join in which no row is
/// compatible with another.
fn about_capacity(random: &mut Random) -> (Vec<u8>, Vec<u8>) {
    let (rows, halves) = (random.within(CAPACITY - 3, CAPACITY + 3) as u32, random.once_in(3));
    let count = if halves { rows / 2 } else { rows };
    let trust = |random: &mut Random| (!random.once_in(4)).then(|| random.within(0, 2_000) as i32 - 1_000);
    let facts: Vec<_> = (1..=count).map(|object| ([3, 1_048_575, 1_000 * object], trust(random))).collect();
    let listed = random.pick(&["S", "5f S", "30 00 S", "60 0007cf S", "60 3e87d0 5a S", "10 S N", "20 70 N S"]);
    let query = if halves { "10 01 100000 0fffff 100001 01 100002 0fffff 100000" } else { listed };
    (tables::facts(&facts), vectors::query(query))
}

/// A table about as long as a facts file may be, and a query about a few of its records.
fn about_facts_limit(random: &mut Random) -> (Vec<u8>, Vec<u8>) {
    let mut facts = tables::large(MOST_FACTS.div_ceil(RECORD_BYTES) + 1);
    let cut = random.pick(&[0, 0, 0, 1, 2, 9, 10]);
    facts.truncate(MOST_FACTS + 1 - cut);
    let (predicate, object) = (random.within(1, 400), 0xFFFF6 + random.below(10));
    (facts, vectors::query(&format!("54 01 100007 {predicate:06x} {object:06x}")))
}

/// The files of a random run.
fn random_files(random: &mut Random) -> Files {
    let mut nested: Nested = [[0; KINDS]; KINDS];
    let (facts, query) = match random.below(20) {
        0..=9 => inputs::narrow(random, &mut nested),
        10..=13 => inputs::wide(random, &mut nested),
        14 => inputs::pattern_set(random),
        15 => inputs::dense(random, &mut nested),
        16 => about_capacity(random),
        17 => about_facts_limit(random),
        18 if random.once_in(4) => (long_facts(random), long_query(random)),
        18 => (long_facts(random), inputs::wide(random, &mut nested).1),
        _ => (inputs::wide(random, &mut nested).0, long_query(random)),
    };
    let mut files = Files::new(facts, query);
    match random.below(30) {
        0 => files.facts = None,
        1 => files.query = None,
        2 if random.once_in(2) => files = Files { facts: None, query: None },
        _ => {}
    }
    files
}

// ---- Kinds of runs

const FILES: [&str; 7] = [
    "no facts file",
    "no query file",
    "neither file",
    "facts file too long",
    "query file too long",
    "both files too long",
    "query file too long, refused for the facts",
];

/// Of the evaluation.
const KEPT: &str = "answered with rows, a left row kept on an error";

/// What can be seen of rows.
const ROWS: [&str; 11] = [
    "row trust from 0 on",
    "row trust below 0",
    "row trust unknown",
    "term",
    "trust from 0 on in a cell",
    "trust below 0 in a cell",
    "trust unknown in a cell",
    "row without a variable",
    "row of two variables and more",
    "variable from 10 on",
    "more than 900 rows",
];

/// How many runs were of each kind.
#[derive(Default)]
struct Kinds(BTreeMap<String, u64>);

impl Kinds {
    fn add(&mut self, kind: impl ToString, holds: bool) {
        *self.0.entry(kind.to_string()).or_default() += u64::from(holds);
    }

    fn of_files(&mut self, files: &Files, run: &Run) {
        let (facts, query) = files.bytes();
        let (long_facts, long_query) = (facts.len() > MOST_FACTS, query.len() > CHECK_LIMIT);
        let for_facts = matches!(run, Run::Refused(refused) if refused.number <= 4);
        let (no_facts, no_query) = (files.facts.is_none(), files.query.is_none());
        let holds = [
            no_facts && !no_query,
            no_query && !no_facts,
            no_facts && no_query,
            long_facts,
            long_query,
            long_facts && long_query,
            long_query && !long_facts && for_facts,
        ];
        FILES.iter().zip(holds).for_each(|(kind, holds)| self.add(kind, holds));
    }

    fn of_rows(&mut self, rows: &[Row]) {
        let trusts = |value: &Value| if let Value::Trust(trust) = value { Some(*trust) } else { None };
        let cells = || rows.iter().flat_map(|row| &row.values);
        let in_cell = |test: fn(Option<i32>) -> bool| cells().any(|(_, value)| trusts(value).is_some_and(test));
        let of_row = |test: fn(&Row) -> bool| rows.iter().any(test);
        let holds = [
            of_row(|row| row.trust.is_some_and(|trust| trust >= 0)),
            of_row(|row| row.trust.is_some_and(|trust| trust < 0)),
            of_row(|row| row.trust.is_none()),
            cells().any(|(_, value)| trusts(value).is_none()),
            in_cell(|trust| trust.is_some_and(|trust| trust >= 0)),
            in_cell(|trust| trust.is_some_and(|trust| trust < 0)),
            in_cell(|trust| trust.is_none()),
            of_row(|row| row.values.is_empty()),
            of_row(|row| row.values.len() >= 2),
            cells().any(|(variable, _)| *variable >= 10),
            rows.len() > 900,
        ];
        ROWS.iter().zip(holds).for_each(|(kind, holds)| self.add(kind, holds));
    }

    fn see(&mut self, files: &Files, run: &Run) {
        self.of_files(files, run);
        match run {
            Run::Refused(refused) => self.add(format!("refused {}", refused.number), true),
            Run::Answered { rows, pairs, left_rows, .. } => {
                self.add("more than 65,535 pairs", *pairs > 65_535);
                self.add(KEPT, left_rows.error_kept() && !rows.is_empty());
                self.add(if rows.is_empty() { "answered without rows" } else { "answered with rows" }, true);
                self.of_rows(rows);
            }
        }
    }

    /// Prints how often each kind came, and counts a case for each: it came often enough.
    fn enough(&self, report: &mut Report) {
        let answers = ["answered with rows", "answered without rows", "more than 65,535 pairs", KEPT].map(str::to_string);
        let refusals = (1..=8).map(|number| format!("refused {number}"));
        let others = FILES.iter().chain(&ROWS).map(|kind| kind.to_string());
        for kind in answers.into_iter().chain(refusals).chain(others) {
            let count = self.0.get(&kind).copied().unwrap_or(0);
            println!("random runs, {kind}: {count}");
            report.case(count >= LEAST, || format!("only {count} random runs: {kind}"));
        }
    }
}

fn random_runs(program: &Program, report: &mut Report) {
    let (mut random, mut kinds) = (Random::new(10), Kinds::default());
    let (mut runs, mut left_out) = (0, 0);
    while runs < RANDOM_RUNS {
        let files = random_files(&mut random);
        let (facts, query) = files.bytes();
        let Some(run) = printer::run(facts, query, MOST_STEPS) else {
            left_out += 1;
            continue;
        };
        runs += 1;
        program.test(report, &format!("random run {runs}"), &files, &run.text());
        kinds.see(&files, &run);
    }
    println!("random runs: {runs}; left out: {left_out}");
    report.case(left_out < RANDOM_RUNS / 5, || format!("{left_out} random runs are left out"));
    kinds.enough(report);
}

/// The deepest queries, on the stack that a program has.
fn deepest(program: &Program, report: &mut Report) {
    for chain in chains::all(&[], CHECK_LIMIT) {
        let run = printer::run(&tables::w(), &chain.query, u64::MAX).expect("no limit of steps");
        let text = if chain.refusal == NONE { run.text() } else { Run::Refused(chain.refusal).text() };
        program.test(report, &chain.name, &Files::new(tables::w(), chain.query), &text);
    }
}

fn run() -> i32 {
    let (program, mut report) = (Program::new(), Report::default());
    known_texts::cases_of_document(&program, &mut report);
    known_texts::absent_files(&program, &mut report);
    known_texts::values(&program, &mut report);
    known_texts::errors(&program, &mut report);
    known_texts::refusals(&program, &mut report);
    known_texts::facts_limit(&program, &mut report);
    known_texts::query_limit(&program, &mut report);
    known_texts::row_limit(&program, &mut report);
    known_texts::most_pairs(&program, &mut report);
    known_texts::longest(&program, &mut report);
    report.part("texts by hand");
    deepest(&program, &mut report);
    report.part("deepest queries");
    random_runs(&program, &mut report);
    report.part("random runs");
    report.finish()
}

fn main() {
    let tests = thread::Builder::new().stack_size(stack::OWN_STACK).spawn(run).expect("a thread");
    process::exit(tests.join().unwrap_or(2));
}
