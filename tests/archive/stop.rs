//! Tests of the built archive for requests 2 and 5: a scan for a subject that is named ends at the first record of a greater one, and
//! begins at its first one if a variable names it; a set with a pattern that no record matches is empty at once; and no answer changes.
//! Evaluations and ceilings whose subjects are terms, variables that are bound, or free: on tables made by a rule, by hand, with the
//! records behind replaced, and at random, by rows.rs and ceilings.rs. The last line is 'N passed, M failed'.

mod ceilings;
mod conditions;
mod fence;
mod ffi;
mod kinds;
mod known_stops;
mod means;
mod paper;
mod printed;
mod random;
mod replaced;
mod report;
mod rows;
mod runs;
mod spaces;
mod subjects;
mod tables;
mod vectors;

use kinds::{Kind, Kinds};
use paper::{Pattern, Record, Slot, VARIABLES};
use random::Random;
use report::Report;
use rows::Seen;
use spaces::Spaces;
use subjects::{Maker, Scan, Triple, LAST_TERM};

const RANDOM_CASES: usize = 60_000;

/// Where a subject that is asked for lies among those of the table.
const PLACES: [&str; 8] = [
    "the only subject",
    "the first subject",
    "between others",
    "the last subject",
    "below all, and none",
    "between two, and none",
    "above all, and none",
    "on a table of no record",
];

fn place_among(triples: &[Triple], term: u32) -> usize {
    let less = triples.iter().any(|triple| triple[0] < term);
    let more = triples.iter().any(|triple| triple[0] > term);
    match (less, triples.iter().any(|triple| triple[0] == term), more) {
        (false, true, false) => 0,
        (false, true, true) => 1,
        (true, true, true) => 2,
        (true, true, false) => 3,
        (false, false, true) => 4,
        (true, false, true) => 5,
        (true, false, false) => 6,
        (false, false, false) => 7,
    }
}

/// What random cases asked for.
#[derive(Default)]
struct Asked {
    /// Scans for a subject, by its place.
    by_terms: [u64; PLACES.len()],
    by_variables: [u64; PLACES.len()],
    /// Scans for a subject by a variable, by that one.
    variables: [u64; VARIABLES as usize],
    /// Sets of queries with rows, by the number of their patterns.
    with_rows: [u64; 5],
    kinds: Kinds,
}

impl Asked {
    fn count(&mut self, triples: &[Triple], patterns: &[Pattern], scans: &[Scan], rows: bool) {
        for Scan { subject, term, .. } in scans {
            match (subject, term) {
                (Slot::Term(term), _) => self.by_terms[place_among(triples, *term)] += 1,
                (Slot::Variable(variable), Some(term)) => {
                    self.by_variables[place_among(triples, *term)] += 1;
                    self.variables[*variable as usize] += 1;
                }
                (Slot::Variable(_), None) => {}
            }
        }
        self.with_rows[patterns.len()] += u64::from(rows);
        self.kinds.count(&kinds_of_scans(triples, scans));
        self.kinds.count(&kinds_of_patterns(triples, patterns, rows));
    }

    fn enough(&self, report: &mut Report) {
        for (by, counts) in [("a term", self.by_terms), ("a variable", self.by_variables)] {
            for (place, count) in PLACES.iter().zip(counts) {
                // A variable is bound by a record.
                let never = by == "a variable" && *place == "on a table of no record";
                println!("scans for a subject by {by}, {place}: {count}");
                report.case(never || count >= 1_000, || format!("only {count} scans for a subject by {by}, {place}"));
            }
        }
        println!("scans for a subject by each variable: {:?}", self.variables);
        report.case(self.variables.iter().all(|count| *count >= 1_000), || "a variable named too few subjects".to_string());
        println!("pattern sets with rows, by the number of patterns: {:?}", &self.with_rows[1..]);
        report.case(self.with_rows[1..].iter().all(|count| *count >= 3_000), || "too few sets have rows".to_string());
        self.kinds.enough(report, "pattern sets");
    }
}

fn kinds_of_scans(triples: &[Triple], scans: &[Scan]) -> [Kind; 6] {
    let pair = |test: fn(&Scan, &Scan) -> bool| scans.windows(2).any(|pair| test(&pair[0], &pair[1]));
    let greatest = scans.iter().any(|scan| scan.term == Some(LAST_TERM));
    [
        (
            "a variable's subjects that rise from scan to scan",
            5_000,
            pair(|one, other| one.pattern == other.pattern && one.term < other.term),
        ),
        (
            "a variable's subjects that fall from scan to scan",
            1_500,
            pair(|one, other| one.pattern == other.pattern && one.term > other.term),
        ),
        (
            "a greater subject than the pattern before",
            3_000,
            pair(|one, other| one.pattern < other.pattern && one.term.is_some() && one.term < other.term),
        ),
        ("a free subject behind one that is named", 2_500, pair(|one, other| one.term.is_some() && other.term.is_none())),
        ("the greatest term as the last subject", 700, greatest && triples.last().is_some_and(|last| last[0] == LAST_TERM)),
        ("the greatest term, and no such subject", 200, greatest && triples.last().is_some_and(|last| last[0] < LAST_TERM)),
    ]
}

fn kinds_of_patterns(triples: &[Triple], patterns: &[Pattern], rows: bool) -> [Kind; 8] {
    // The slot that binds the variable of a pattern's subject: the first of an earlier pattern that has it.
    let bound_by = |slot: usize| {
        patterns.iter().enumerate().any(|(number, [subject, ..])| {
            let binds = patterns[..number].iter().find_map(|pattern| pattern.iter().position(|slot| slot == subject));
            matches!(subject, Slot::Variable(_)) && binds == Some(slot)
        })
    };
    let twice = |predicate: bool, object: bool| {
        patterns.iter().any(|[s, p, o]| matches!(s, Slot::Variable(_)) && (p == s) == predicate && (o == s) == object)
    };
    let free_at_last = patterns.iter().enumerate().any(|(number, pattern)| {
        let free =
            matches!(pattern[0], Slot::Variable(_)) && !patterns[..number].iter().flatten().any(|slot| *slot == pattern[0]);
        let last = triples.last().map(|terms| Record { terms: *terms, known: false, trust: 0 });
        free && last.is_some_and(|last| rows::matched(pattern, &last).is_some())
    });
    [
        ("a subject bound by a subject, and rows", 3_000, rows && bound_by(0)),
        ("a subject bound by a predicate, and rows", 2_500, rows && bound_by(1)),
        ("a subject bound by an object, and rows", 2_500, rows && bound_by(2)),
        ("one variable as subject and predicate, and rows", 1_000, rows && twice(true, false)),
        ("one variable as subject and object, and rows", 1_000, rows && twice(false, true)),
        ("one variable in all slots, and rows", 150, rows && twice(true, true)),
        ("a free subject that the last record matches, and rows", 5_000, rows && free_at_last),
        ("no row", 9_000, !rows),
    ]
}

fn random_cases(report: &mut Report) {
    let (mut random, mut spaces, mut asked, mut seen) = (Random::new(8), Spaces::new(9), Asked::default(), Seen::default());
    // A set alone, and other nodes over some.
    let mut cases = [0; 2];
    for number in 0..RANDOM_CASES {
        let table = subjects::table(&mut random);
        let triples = subjects::triples(&table);
        let depth = random.pick(&[0, 0, 0, 1, 2]);
        let query = Maker::new(&mut random, &triples, false).node(depth);
        let inputs = (&table[..], &query[..], spaces.choice());
        let mut here = Seen::default();
        let Some(outcome) = subjects::evaluate(inputs, &mut here) else { continue };
        cases[depth.min(1)] += 1;
        let what = format!("random case {number}");
        let lengths = spaces::lengths(&outcome);
        for words in [lengths[0], lengths[1], random.pick(&lengths[2..])] {
            spaces.test(report, &what, inputs, &outcome, words);
        }
        if outcome.has_rows() {
            seen.add(&here);
        }
        ceilings::test(report, &mut random, &what, (&table, &query), ceilings::ceiling(&table, &query));
        for set in subjects::sets(&subjects::tree(&query)) {
            if let Some(scans) = subjects::scans(&table, &query, &set) {
                asked.count(&triples, set.patterns, &scans, outcome.has_rows());
            }
        }
    }
    println!("random pattern sets: {}, in other nodes: {}", cases[0], cases[1]);
    report.case(cases[0] >= 30_000 && cases[1] >= 20_000, || "too few random cases".to_string());
    asked.enough(report);
    seen.means.enough(report, "random cases with rows", 1_000);
}

fn main() {
    let mut report = Report::default();
    runs::named_by_terms(&mut report);
    report.part("runs of a subject");
    runs::named_by_variables(&mut report);
    report.part("runs of a subject that a variable names");
    runs::long_chains(&mut report);
    report.part("chains through 65,535 records");
    known_stops::sets(&mut report);
    known_stops::greatest_term(&mut report);
    known_stops::other_nodes(&mut report);
    report.part("rows by hand");
    replaced::random_cases(&mut report);
    report.part("records replaced");
    random_cases(&mut report);
    report.part("random cases");
    std::process::exit(report.finish());
}
