//! Subjects that are named, on tables that are made by a rule, by which their rows are known: runs of records of one subject, asked for by
//! terms and by variables, and chains through as many records as a table may have.

use crate::known_stops::{Fact, Store};
use crate::means;
use crate::paper::{Choice, CHOICES, MOST_RECORDS};
use crate::report::Report;
use crate::rows::{Row, Value};
use crate::spaces::Spaces;
use crate::subjects::LAST_TERM;
use crate::tables::trust_of;
use std::collections::{BTreeMap, BTreeSet};

/// So many records: each subject has `run` of them, and the next subject is two more. Predicates are the least terms and objects
/// the greatest, and with every second subject the other way round.
fn runs(count: usize, run: usize, first: u32) -> Vec<Fact> {
    let one = |i: usize| {
        let (subject, place) = ((i / run) as u32, (i % run) as u32);
        let (least, greatest) = (1, LAST_TERM - 255);
        let [predicate, object] = if subject % 2 == 0 { [least, greatest] } else { [greatest, least] };
        ([first + 2 * subject, predicate + place / 256, object + place % 256], trust_of(i as u32))
    };
    (0..count).map(one).collect()
}

/// A predicate and an object that a pattern asks for, or a variable in the place of one.
type Asked = (Option<u32>, Option<u32>);

/// The pattern of a subject and what it asks for; these variables stand for what it does not ask for.
fn pattern(subject: &str, (predicate, object): Asked, [v, w]: [u32; 2]) -> String {
    let slot = |term: Option<u32>, variable: u32| term.map_or(format!("?{variable}"), |term| term.to_string());
    format!("{subject} {} {}", slot(predicate, v), slot(object, w))
}

/// The records of each subject, each with its number.
type BySubject = BTreeMap<u32, Vec<(usize, Fact)>>;

fn by_subject(facts: &[Fact]) -> BySubject {
    let mut by_subject = BySubject::new();
    for (number, fact) in facts.iter().enumerate() {
        by_subject.entry(fact.0[0]).or_default().push((number, *fact));
    }
    by_subject
}

/// The patterns `FROM ?0 ?1, ?1 ?2 ?3, ...`, so many, and their rows; the last pattern asks for more. Some chains come back to a record.
fn chain(by_subject: &BySubject, from: u32, links: u32, last: Asked, choice: Choice) -> (String, Vec<Row>) {
    let mut text = Vec::new();
    let mut chains = vec![(from, BTreeMap::new(), vec![])];
    for link in 0..links {
        let asked = if link + 1 == links { last } else { (None, None) };
        let variables = [2 * link, 2 * link + 1];
        let subject = if link == 0 { from.to_string() } else { format!("?{}", 2 * link - 1) };
        text.push(pattern(&subject, asked, variables));
        let mut next = Vec::new();
        for (subject, values, used) in &chains {
            for (number, ([_, predicate, object], trust)) in by_subject.get(subject).into_iter().flatten() {
                let slots = [(asked.0, *predicate), (asked.1, *object)];
                if slots.iter().any(|(asked, term)| asked.is_some_and(|asked| asked != *term)) {
                    continue;
                }
                let (mut values, mut used) = (values.clone(), used.clone());
                let free = variables.into_iter().zip(slots).filter(|(_, (asked, _))| asked.is_none());
                values.extend(free.map(|(variable, (_, term))| (variable, Value::Term(term))));
                used.push((*number, *trust));
                next.push((*object, values, used));
            }
        }
        chains = next;
    }
    let row = |(_, values, used): (u32, BTreeMap<u32, Value>, Vec<means::Used>)| Row {
        values,
        trust: means::aggregated(choice, &used),
    };
    (text.join(", "), chains.into_iter().map(row).collect())
}

/// A term, one less and one more.
fn near(term: u32) -> impl Iterator<Item = u32> {
    (term - 1..=term + 1).filter(|near| (1..=LAST_TERM).contains(near))
}

/// What to ask for beside a subject: nothing, or a record's predicate, its object or both.
fn asked_of(([_, predicate, object], _): Fact) -> [Asked; 4] {
    [(None, None), (Some(predicate), None), (None, Some(object)), (Some(predicate), Some(object))]
}

/// Asks for the subjects of some records, one less and one more, with and without the records' predicates and objects, and for
/// the least and the greatest term.
fn about_records(store: &mut Store, what: &str, numbers: &[usize]) {
    let by_subject = by_subject(&store.facts);
    let mut asked = BTreeSet::from([1, LAST_TERM].map(|term| (term, (None, None))));
    for record in numbers.iter().filter_map(|number| store.facts.get(*number)) {
        asked.extend(near(record.0[0]).flat_map(|subject| asked_of(*record).map(|asked| (subject, asked))));
    }
    for (subject, asked) in asked {
        let (patterns, rows) = chain(&by_subject, subject, 1, asked, store.choice);
        store.test_set(what, &patterns, rows);
    }
}

/// Subjects of some records each, from the least term on, from another on, and up to the greatest. Every set has one pattern, so that the
/// choice does not matter: it is drawn.
fn tables_of_runs(spaces: &mut Spaces, report: &mut Report, count: usize, run: usize, numbers: &[usize]) {
    for first in firsts(count, run) {
        let choice = spaces.choice();
        let mut store = Store::new(runs(count, run, first), choice, spaces, report);
        about_records(&mut store, &format!("{count} records, {run} a subject, from {first} on"), numbers);
    }
}

/// The least term, another one, and the one from which subjects go up to the greatest.
fn firsts(count: usize, run: usize) -> [u32; 3] {
    [1, 100, LAST_TERM - 2 * (count.saturating_sub(1) / run) as u32]
}

/// Numbers of records about the ends of a table and of its blocks of 128 and 256.
const ABOUT_BLOCKS: [usize; 10] = [0, 1, 2, 127, 128, 129, 253, 254, 255, 256];
const ABOUT_MANY_BLOCKS: [usize; 7] = [0, 255, 256, 32_767, 32_768, 65_533, 65_534];

/// How many records a subject has in tables of as many records as there may be, and the first subject.
const MANY: [(usize, u32); 5] =
    [(1, 100), (5, LAST_TERM - 26_212), (256, 3), (MOST_RECORDS, 100), (MOST_RECORDS, LAST_TERM)];

pub fn named_by_terms(report: &mut Report) {
    let mut spaces = Spaces::new(1);
    for count in 0..=20 {
        for run in [1, 2, 3, 7, 20] {
            tables_of_runs(&mut spaces, report, count, run, &(0..count).collect::<Vec<_>>());
        }
    }
    for count in [255, 256, 257] {
        for run in [1, 2, 128, count - 1, count] {
            tables_of_runs(&mut spaces, report, count, run, &ABOUT_BLOCKS);
        }
    }
    for (run, first) in MANY {
        let choice = spaces.choice();
        let mut store = Store::new(runs(MOST_RECORDS, run, first), choice, &mut spaces, report);
        about_records(&mut store, &format!("65,535 records, {run} a subject, from {first} on"), &ABOUT_MANY_BLOCKS);
    }
}

// ---- Subjects by variables

/// The predicate of the records that lead to subjects.
const LEADS: u32 = 500;

/// So many records. In the place of the last ones of `runs` stand records that lead from one subject to those of some records, to terms
/// beside them, and to the least and the greatest term.
fn leading(count: usize, run: usize, first: u32, from: u32, numbers: &[usize]) -> Vec<Fact> {
    let mut facts = runs(count, run, first);
    let subjects = numbers.iter().filter_map(|number| facts.get(*number)).flat_map(|(terms, _)| near(terms[0]));
    let leads: BTreeSet<u32> = subjects.chain([1, LAST_TERM]).collect();
    facts.truncate(count.saturating_sub(leads.len()));
    facts.extend(leads.iter().take(count).map(|object| ([from, LEADS, *object], trust_of(*object % 4_000))));
    facts.sort();
    facts
}

/// Asks for subjects by the objects of the records that lead to them, with so many of the ways to ask for more.
fn led_to(store: &mut Store, what: &str, from: u32, ways: usize) {
    let (by_subject, record) = (by_subject(&store.facts), store.facts[store.facts.len() / 2]);
    for asked in asked_of(record).into_iter().take(ways) {
        let (patterns, rows) = chain(&by_subject, from, 2, asked, store.choice);
        store.test_set(what, &patterns, rows);
    }
}

/// The records that lead to others are of a subject before them, between two of them, or behind them.
fn tables_with_leads(spaces: &mut Spaces, report: &mut Report, count: usize, run: usize, numbers: &[usize]) {
    for first in firsts(count, run) {
        for from in [first.max(2) - 1, first.min(LAST_TERM - 1) + 1, LAST_TERM] {
            let (facts, choice) = (leading(count, run, first, from, numbers), spaces.choice());
            let mut store = Store::new(facts, choice, spaces, report);
            led_to(&mut store, &format!("{count} records, {run} a subject, from {first} on, led to from {from}"), from, 4);
        }
    }
}

pub fn named_by_variables(report: &mut Report) {
    let mut spaces = Spaces::new(3);
    for count in 1..=20 {
        for run in [1, 2, 3, 7, 20] {
            for numbers in [&[0][..], &[0, count / 2], &(0..count).collect::<Vec<_>>()] {
                tables_with_leads(&mut spaces, report, count, run, numbers);
            }
        }
    }
    for count in [255, 256, 257] {
        for run in [1, 2, 100, 128, count] {
            tables_with_leads(&mut spaces, report, count, run, &ABOUT_BLOCKS);
            tables_with_leads(&mut spaces, report, count, run, &(0..count).step_by(11).collect::<Vec<_>>());
        }
    }
    for ((run, first), from) in MANY.into_iter().flat_map(|many| [2, LAST_TERM - 1].map(|from| (many, from))) {
        let choice = spaces.choice();
        let facts = leading(MOST_RECORDS, run, first, from, &ABOUT_MANY_BLOCKS);
        report.case(facts.len() == MOST_RECORDS, || format!("{} records, of which some lead to others", facts.len()));
        let mut store = Store::new(facts, choice, &mut spaces, report);
        led_to(&mut store, &format!("65,535 records, {run} a subject, from {first} on, led to from {from}"), from, 2);
    }
}

// ---- Chains through as many records as a table may have

const SUBJECTS: u32 = 13_107;

/// Subjects are every second term from 1,000 on.
fn subject(number: u32) -> u32 {
    1_000 + 2 * (number % SUBJECTS)
}

/// Five records a subject, whose objects are a subject, none between two or above all, the first, the last, and one below all.
fn linked() -> Vec<Fact> {
    let objects =
        |n: u32| [subject(n * 7_919 + 1), subject(n * 101 + 7) + 1, subject(0), subject(SUBJECTS - 1), 1 + n % 999];
    let of_subject = |n: u32| (1..).zip(objects(n)).map(move |(predicate, object)| [subject(n), predicate, object]);
    (0..SUBJECTS).flat_map(of_subject).enumerate().map(|(i, terms)| (terms, trust_of(i as u32))).collect()
}

pub fn long_chains(report: &mut Report) {
    let (mut spaces, facts) = (Spaces::new(2), linked());
    report.case(facts.len() == MOST_RECORDS, || format!("the chains are on {} records", facts.len()));
    let by_subject = by_subject(&facts);
    let mut store = Store::new(facts, Choice::Least, &mut spaces, report);
    for from in [subject(0), subject(5_000), subject(SUBJECTS - 1), 999, subject(5_000) + 1, subject(SUBJECTS - 1) + 1] {
        for (links, choice) in (1..=4).flat_map(|links| CHOICES.map(|choice| (links, choice))) {
            store.choice = choice;
            let (patterns, rows) = chain(&by_subject, from, links, (None, None), choice);
            store.test_set("a chain on 65,535 records", &patterns, rows);
        }
    }
    // A pattern that no record matches, in each place: there is no row, however many choices there are for the others.
    for unmatched in ["999 ?9 ?10", "?9 6 ?10", "?9 ?10 999999", "?9 ?9 ?10"] {
        for place in 0..3 {
            let mut patterns = vec!["?0 ?1 ?2", "?3 ?4 ?5"];
            patterns.insert(place, unmatched);
            store.test_set("no record for a pattern", &patterns.join(", "), vec![]);
        }
    }
}
