//! Pattern sets with subjects that are named or free, and their ceilings, where the rows are written down by hand.

use crate::ceilings;
use crate::paper::{Ceiling, Choice, NONE};
use crate::printed;
use crate::report::Report;
use crate::rows::{self, Evaluation, Outcome, Row, Trust};
use crate::spaces::{self, Spaces};
use crate::subjects::LAST_TERM;
use crate::tables;
use crate::vectors::{self, set};

/// Of tables with more records rows.rs and ceilings.rs are not asked.
const FEW_RECORDS: usize = 300;

pub type Fact = ([u32; 3], Trust);

/// A table, and what the tests of queries on it found.
pub struct Store<'a> {
    pub facts: Vec<Fact>,
    table: Vec<u8>,
    pub choice: Choice,
    spaces: &'a mut Spaces,
    report: &'a mut Report,
}

impl Store<'_> {
    pub fn new<'a>(facts: Vec<Fact>, choice: Choice, spaces: &'a mut Spaces, report: &'a mut Report) -> Store<'a> {
        Store { table: tables::facts(&facts), facts, choice, spaces, report }
    }

    /// Tests both calls with a query: the evaluation in row spaces that are just too short and just long enough, and another.
    fn test(&mut self, what: &str, query: &str, evaluation: Evaluation, ceiling: u32) {
        let query = vectors::query(query);
        let (inputs, ceiling) = ((&self.table[..], &query[..], self.choice), Ceiling { refusal: NONE, ceiling });
        if self.facts.len() <= FEW_RECORDS {
            let read = rows::evaluate(inputs);
            let agrees = matches!(&read, Outcome::Rows(read) if *read == evaluation);
            self.report.case(agrees, || format!("{what}: rows.rs has {read:?}"));
            let read = ceilings::ceiling(&self.table, &query);
            self.report.case(read == ceiling, || format!("{what}: ceilings.rs has {read}"));
        }
        let outcome = Outcome::Rows(evaluation);
        let lengths = spaces::lengths(&outcome);
        for words in [lengths[0], lengths[1], self.spaces.0.random.pick(&lengths[2..])] {
            self.spaces.test(self.report, what, inputs, &outcome, words);
        }
        ceilings::test(self.report, &mut self.spaces.0.random, what, (&self.table, &query), ceiling);
    }

    /// The same of a pattern set: its space and its ceiling are the number of its rows.
    pub fn test_set(&mut self, what: &str, patterns: &str, rows: Vec<Row>) {
        let (what, ceiling) = (format!("{what}: {patterns}"), rows.len() as u32);
        self.test(&what, &set(patterns), Evaluation { space: rows.len(), rows, pairs: 0 }, ceiling);
    }
}

/// Subjects are 2, 4, 6 and 8. Objects are these, and 1, 3 and 9.
const FACTS: [Fact; 11] = [
    ([2, 2, 4], Some(900)),
    ([2, 2, 9], Some(800)),
    ([2, 4, 6], Some(700)),
    ([4, 2, 3], Some(600)),
    ([4, 2, 8], None),
    ([4, 4, 4], Some(500)),
    ([6, 2, 1], Some(400)),
    ([6, 6, 2], Some(300)),
    ([8, 2, 8], Some(200)),
    ([8, 8, 4], Some(100)),
    ([8, 8, 8], Some(0)),
];

/// What a set is about, its patterns and its rows.
type Known<'a> = (&'a str, &'a str, &'a [&'a str]);

const NAMED: [Known; 15] = [
    ("the first subject", "2 ?0 ?1", &["900 ?0=2 ?1=4", "800 ?0=2 ?1=9", "700 ?0=4 ?1=6"]),
    ("a subject between others", "6 ?0 ?1", &["400 ?0=2 ?1=1", "300 ?0=6 ?1=2"]),
    ("the last subject", "8 ?0 ?1", &["200 ?0=2 ?1=8", "100 ?0=8 ?1=4", "0 ?0=8 ?1=8"]),
    ("below all subjects", "1 ?0 ?1", &[]),
    ("between two subjects", "5 ?0 ?1", &[]),
    ("above all subjects", "9 ?0 ?1", &[]),
    ("the greatest term", "1048575 ?0 ?1", &[]),
    ("an object above the subject", "2 2 9", &["800"]),
    ("a predicate and an object above the subject", "2 4 6", &["700"]),
    ("an object below the subject", "6 2 1", &["400"]),
    ("predicate and object of another subject", "2 8 8", &[]),
    ("a predicate above the subject, of a free object", "2 4 ?15", &["700 ?15=6"]),
    ("a predicate below the subject, of a free object", "8 2 ?15", &["200 ?15=8"]),
    ("an object below the subject, of a free predicate", "8 ?15 4", &["100 ?15=8"]),
    ("predicate and object one variable", "4 ?0 ?0", &["500 ?0=4"]),
];

const BOUND: [Known; 16] = [
    ("by an object, greater, and one above all", "2 2 ?0, ?0 2 ?1", &["600 ?0=4 ?1=3", "? ?0=4 ?1=8"]),
    ("by an object, less", "6 6 ?0, ?0 4 ?1", &["300 ?0=2 ?1=6"]),
    ("by an object, equal", "4 4 ?0, ?0 2 ?1", &["500 ?0=4 ?1=3", "? ?0=4 ?1=8"]),
    ("by an object, below all", "6 2 ?0, ?0 ?1 ?2", &[]),
    (
        "by an object, between two subjects and then the last",
        "4 2 ?0, ?0 ?1 ?2",
        &["? ?0=8 ?1=2 ?2=8", "? ?0=8 ?1=8 ?2=4", "? ?0=8 ?1=8 ?2=8"],
    ),
    ("by an object, less and then equal", "8 8 ?0, ?0 2 ?1", &["100 ?0=4 ?1=3", "? ?0=4 ?1=8", "0 ?0=8 ?1=8"]),
    ("by a predicate, less and then equal", "8 ?0 8, ?0 2 ?1", &["200 ?0=2 ?1=4", "200 ?0=2 ?1=9", "0 ?0=8 ?1=8"]),
    ("by a predicate, greater", "2 ?0 6, ?0 ?1 ?2", &["600 ?0=4 ?1=2 ?2=3", "? ?0=4 ?1=2 ?2=8", "500 ?0=4 ?1=4 ?2=4"]),
    (
        "by a predicate, of a free subject",
        "?0 ?1 4, ?1 ?2 8",
        &["? ?0=4 ?1=4 ?2=2", "100 ?0=8 ?1=8 ?2=2", "0 ?0=8 ?1=8 ?2=8"],
    ),
    (
        "by a subject",
        "?0 2 ?1, ?0 4 ?2",
        &["700 ?0=2 ?1=4 ?2=6", "700 ?0=2 ?1=9 ?2=6", "500 ?0=4 ?1=3 ?2=4", "? ?0=4 ?1=8 ?2=4"],
    ),
    ("by a subject, three patterns", "?0 8 ?1, ?0 2 ?2, ?0 8 ?1", &["100 ?0=8 ?1=4 ?2=8", "0 ?0=8 ?1=8 ?2=8"]),
    ("by a subject, four patterns", "?9 6 ?0, ?9 2 ?1, ?9 6 ?2, ?9 ?3 1", &["300 ?0=2 ?1=1 ?2=2 ?3=2 ?9=6"]),
    (
        "one term in four patterns",
        "4 2 ?0, 4 4 ?1, 4 2 ?2, 4 4 ?3",
        &["500 ?0=3 ?1=4 ?2=3 ?3=4", "? ?0=3 ?1=4 ?2=8 ?3=4", "? ?0=8 ?1=4 ?2=3 ?3=4", "? ?0=8 ?1=4 ?2=8 ?3=4"],
    ),
    ("two patterns before, greater and less", "2 4 ?0, 4 4 ?15, ?0 6 ?2, ?15 4 ?3", &["300 ?0=6 ?2=2 ?3=4 ?15=4"]),
    (
        "terms and variables in turns",
        "2 2 ?0, ?0 4 ?1, ?1 2 ?2, 6 ?3 ?4",
        &[
            "400 ?0=4 ?1=4 ?2=3 ?3=2 ?4=1",
            "300 ?0=4 ?1=4 ?2=3 ?3=6 ?4=2",
            "? ?0=4 ?1=4 ?2=8 ?3=2 ?4=1",
            "? ?0=4 ?1=4 ?2=8 ?3=6 ?4=2",
        ],
    ),
    ("a subject below that of the pattern before", "8 8 ?0, 2 ?1 ?0", &["100 ?0=4 ?1=2"]),
];

const CHAINS: [Known; 3] = [
    ("two links", "?0 2 ?1, ?1 2 ?2", &["600 ?0=2 ?1=4 ?2=3", "? ?0=2 ?1=4 ?2=8", "? ?0=4 ?1=8 ?2=8", "200 ?0=8 ?1=8 ?2=8"]),
    (
        "three links",
        "?0 2 ?1, ?1 2 ?2, ?2 2 ?3",
        &["? ?0=2 ?1=4 ?2=8 ?3=8", "? ?0=4 ?1=8 ?2=8 ?3=8", "200 ?0=8 ?1=8 ?2=8 ?3=8"],
    ),
    (
        "four links",
        "?0 2 ?1, ?1 2 ?2, ?2 2 ?3, ?3 8 ?4",
        &[
            "? ?0=2 ?1=4 ?2=8 ?3=8 ?4=4",
            "? ?0=2 ?1=4 ?2=8 ?3=8 ?4=8",
            "? ?0=4 ?1=8 ?2=8 ?3=8 ?4=4",
            "? ?0=4 ?1=8 ?2=8 ?3=8 ?4=8",
            "100 ?0=8 ?1=8 ?2=8 ?3=8 ?4=4",
            "0 ?0=8 ?1=8 ?2=8 ?3=8 ?4=8",
        ],
    ),
];

const TWICE: [Known; 8] = [
    ("subject and object", "?0 ?1 ?0", &["500 ?0=4 ?1=4", "200 ?0=8 ?1=2", "0 ?0=8 ?1=8"]),
    (
        "subject and predicate",
        "?0 ?0 ?1",
        &["900 ?0=2 ?1=4", "800 ?0=2 ?1=9", "500 ?0=4 ?1=4", "300 ?0=6 ?1=2", "100 ?0=8 ?1=4", "0 ?0=8 ?1=8"],
    ),
    ("all three", "?0 ?0 ?0", &["500 ?0=4", "0 ?0=8"]),
    ("subject and object, bound", "2 2 ?0, ?0 ?1 ?0", &["500 ?0=4 ?1=4"]),
    ("subject and object, bound to the last subject", "4 2 ?0, ?0 ?1 ?0", &["? ?0=8 ?1=2", "? ?0=8 ?1=8"]),
    ("subject and predicate, bound", "2 2 ?0, ?0 ?0 ?1", &["500 ?0=4 ?1=4"]),
    ("all three, bound", "2 2 ?0, ?0 ?0 ?0", &["500 ?0=4"]),
    (
        "in both patterns",
        "?0 ?0 ?1, ?1 ?2 ?1",
        &["500 ?0=2 ?1=4 ?2=4", "500 ?0=4 ?1=4 ?2=4", "100 ?0=8 ?1=4 ?2=4", "0 ?0=8 ?1=8 ?2=2", "0 ?0=8 ?1=8 ?2=8"],
    ),
];

const FREE: [Known; 6] = [
    ("the last record alone", "?0 8 8", &["0 ?0=8"]),
    ("a predicate below the subjects", "?0 2 8", &["? ?0=4", "200 ?0=8"]),
    ("behind a subject that is named", "2 4 ?0, ?1 8 ?2", &["100 ?0=6 ?1=8 ?2=4", "0 ?0=6 ?1=8 ?2=8"]),
    ("before a subject that is named", "?1 8 ?2, 2 4 ?0", &["100 ?0=6 ?1=8 ?2=4", "0 ?0=6 ?1=8 ?2=8"]),
    ("a bound predicate", "2 2 ?0, ?1 ?0 ?2", &["700 ?0=4 ?1=2 ?2=6", "500 ?0=4 ?1=4 ?2=4"]),
    (
        "a bound object",
        "2 2 ?0, ?1 ?2 ?0",
        &["900 ?0=4 ?1=2 ?2=2", "500 ?0=4 ?1=4 ?2=4", "100 ?0=4 ?1=8 ?2=8", "800 ?0=9 ?1=2 ?2=2"],
    ),
];

const UNMATCHED: [Known; 13] = [
    ("the first", "5 ?0 ?1, ?2 ?3 ?4, 2 ?5 ?6", &[]),
    ("one between others", "?2 ?3 ?4, 5 ?0 ?1, 2 ?5 ?6", &[]),
    ("the last", "?2 ?3 ?4, 2 ?5 ?6, 5 ?0 ?1", &[]),
    ("all of them", "5 ?0 ?1, 7 ?2 ?3", &[]),
    ("by its predicate", "?0 2 ?1, ?0 3 ?2", &[]),
    ("by its object, between others", "?0 2 ?1, ?2 ?3 5, ?0 4 ?4", &[]),
    ("by a variable twice", "2 ?0 ?1, 2 ?2 ?2", &[]),
    ("behind one that only a record matches", "8 8 8, 8 8 9", &[]),
    ("none, but the subject that is bound has no such record", "2 4 ?0, ?0 8 ?1", &[]),
    ("none, but a chain ends, beside other patterns", "?4 ?5 ?6, ?0 6 ?1, ?1 4 ?2, ?7 8 ?8, ?2 8 ?3", &[]),
    ("none, one by the last record alone", "2 4 ?0, ?1 8 8", &["0 ?0=6 ?1=8"]),
    ("none, one by the first record alone", "?1 8 8, ?0 2 4", &["0 ?0=2 ?1=8"]),
    ("none, one by a record of unknown trust alone", "2 4 ?0, 4 2 8", &["? ?0=6"]),
];

pub fn sets(report: &mut Report) {
    let mut spaces = Spaces::new(3);
    let mut store = Store::new(FACTS.to_vec(), Choice::Least, &mut spaces, report);
    for (sort, known) in [
        ("named", &NAMED[..]),
        ("bound", &BOUND),
        ("a chain", &CHAINS),
        ("a variable twice", &TWICE),
        ("a free subject", &FREE),
        ("a pattern that no record matches", &UNMATCHED),
    ] {
        for (what, patterns, rows) in known {
            store.test_set(&format!("{sort}, {what}"), patterns, printed::rows(rows));
        }
    }
}

/// The greatest term as a subject, by a term and by a variable.
pub fn greatest_term(report: &mut Report) {
    let facts = [([LAST_TERM - 2, 1, LAST_TERM], Some(10)), ([LAST_TERM, 1, 5], None), ([LAST_TERM; 3], Some(-1_000))];
    let mut spaces = Spaces::new(4);
    let mut store = Store::new(facts.to_vec(), Choice::Least, &mut spaces, report);
    for (what, patterns, rows) in [
        ("one less", "1048574 ?0 ?1", &[][..]),
        ("itself", "1048575 ?0 ?1", &["? ?0=1 ?1=5", "-1000 ?0=1048575 ?1=1048575"]),
        ("by a variable", "1048573 1 ?0, ?0 ?1 5", &["? ?0=1048575 ?1=1"]),
        ("three times", "?0 ?1 ?0, ?0 ?0 ?0", &["-1000 ?0=1048575 ?1=1048575"]),
    ] {
        store.test_set(&format!("the greatest term, {what}"), patterns, printed::rows(rows));
    }
}

/// Sets in other nodes: what the set of one operand names is nothing to that of the other.
pub fn other_nodes(report: &mut Report) {
    let mut spaces = Spaces::new(5);
    let mut store = Store::new(FACTS.to_vec(), Choice::Least, &mut spaces, report);
    for (what, node, sets, rows, [space, pairs, ceiling]) in [
        (
            "a join, the right subject in the left rows",
            "10",
            &["2 2 ?0", "?0 2 ?1"][..],
            &["600 ?0=4 ?1=3", "? ?0=4 ?1=8"][..],
            [10, 12, 12],
        ),
        ("a join with a lesser subject", "10", &["8 8 ?0", "2 ?1 ?0"], &["100 ?0=4 ?1=2"], [6, 6, 6]),
        ("a union with a greater subject", "30", &["2 4 ?0", "8 8 ?0"], &["700 ?0=6", "100 ?0=4", "0 ?0=8"], [3, 0, 3]),
        ("a union with a lesser subject", "30", &["8 8 ?0", "2 4 ?0"], &["100 ?0=4", "0 ?0=8", "700 ?0=6"], [3, 0, 3]),
        ("a union with a free subject", "30", &["2 4 ?0", "?0 8 8"], &["700 ?0=6", "0 ?0=8"], [2, 0, 2]),
        ("a left join, nothing compatible", "20 70", &["2 2 ?0", "?0 8 ?1"], &["900 ?0=4", "800 ?0=9"], [6, 4, 4]),
        ("a left join, ?1 = 3", "20 21 000003", &["2 2 ?0", "?0 2 ?1"], &["600 ?0=4 ?1=3", "800 ?0=9"], [10, 12, 12]),
        ("a left join, bound ?0", "20 00", &["2 2 ?0", "4 4 ?0"], &["500 ?0=4", "800 ?0=9"], [5, 2, 2]),
        (
            "a join with a set of two patterns",
            "10",
            &["2 2 ?0", "?0 2 ?1, ?0 4 ?2"],
            &["500 ?0=4 ?1=3 ?2=4", "? ?0=4 ?1=8 ?2=4"],
            [8, 8, 8],
        ),
        (
            "a left join with two patterns that have no row",
            "20 70",
            &["2 2 ?0", "6 2 ?1, ?1 ?2 ?3"],
            &["900 ?0=4", "800 ?0=9"],
            [4, 0, 2],
        ),
        ("a union with a pattern that no record matches", "30", &["2 4 ?0", "?1 ?2 ?3, 5 ?4 ?5"], &["700 ?0=6"], [1, 0, 1]),
        ("a filter, ?0 = 6", "40 20 000006", &["2 ?1 ?0"], &["700 ?0=6 ?1=4"], [3, 0, 3]),
        (
            "project trust",
            "5f",
            &["4 ?0 ?1"],
            &["600 ?0=2 ?1=3 ?15=t600", "? ?0=2 ?1=8 ?15=t?", "500 ?0=4 ?1=4 ?15=t500"],
            [3, 0, 3],
        ),
        ("ensure trust", "E", &["4 ?0 ?1"], &["600 ?0=2 ?1=3", "500 ?0=4 ?1=4"], [3, 0, 3]),
    ] {
        let operands: Vec<String> = sets.iter().map(|patterns| set(patterns)).collect();
        let evaluation = Evaluation { rows: printed::rows(rows), space, pairs: pairs as u64 };
        store.test(what, &format!("{node} {}", operands.join(" ")), evaluation, ceiling as u32);
    }
}
