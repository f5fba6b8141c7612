//! Queries in which every pattern names its subject, on two tables that are the same up to the first record of a greater subject than any
//! of these: the evaluation and the ceiling are the same, whatever stands behind that record.

use crate::ceilings;
use crate::ffi;
use crate::kinds::{Kind, Kinds};
use crate::paper::{self, Ceiling, Choice, Node, Slot, CHOICES, MOST_RECORDS, RECORD_BYTES};
use crate::random::Random;
use crate::report::{hex, Report};
use crate::rows::{self, Outcome, Seen};
use crate::spaces::{self, Spaces};
use crate::subjects::{self, Maker, Set, LAST_TERM};

const RANDOM_CASES: usize = 110_000;

struct Replaced {
    table: Vec<u8>,
    replaced: Vec<u8>,
    query: Vec<u8>,
    choice: Choice,
    /// The greatest subject that is named, and the number of the first record of a greater one.
    greatest: u32,
    first: usize,
    /// By rows.rs and ceilings.rs, on both tables.
    outcomes: [Outcome; 2],
    ceilings: [Ceiling; 2],
    /// Whether every subject is a term.
    by_terms: bool,
    /// Whether some pattern alone, its subject free if that is a variable, matches records of one table and none of the other.
    unmatched: bool,
    /// Whether a mean was not the least.
    not_least: bool,
}

impl Replaced {
    /// None where no record has a greater subject, where the tables are equal, or where an evaluation takes too long.
    fn new(random: &mut Random) -> Option<Replaced> {
        let table = subjects::table(random);
        let triples = subjects::triples(&table);
        let front = random.within(triples.len().min(1), triples.len());
        let depth = random.pick(&[0, 1, 1, 2, 2, 3]);
        let query = Maker::new(random, &triples[..front], true).node(depth);
        let tree = subjects::tree(&query);
        let sets = subjects::sets(&tree);
        let greatest = greatest_named(&table, &query, &sets)?;
        let first = triples.iter().position(|triple| triple[0] > greatest)?;
        let behind = triples.len() - first - 1;
        let near = LAST_TERM.min(triples[first][0] + 3);
        let (count, most) = match random.below(2_000) {
            0 => (MOST_RECORDS - first - 1, LAST_TERM),
            1..500 => (0, near),
            500..1_000 => (random.within(0, behind), near),
            1_000..1_500 => (behind, near),
            _ => (behind + random.within(1, 20), random.pick(&[near, LAST_TERM])),
        };
        let others = subjects::behind(random, &triples, first, count, most);
        let replaced = [&table[..RECORD_BYTES * (first + 1)], &others].concat();
        if replaced == table {
            return None;
        }
        let (choice, mut seen) = (random.pick(&CHOICES), Seen::default());
        let mut evaluate = |table| subjects::evaluate((table, &query, choice), &mut seen);
        let outcomes = [evaluate(&table)?, evaluate(&replaced)?];
        let ceilings = [&table, &replaced].map(|table| ceilings::ceiling(table, &query));
        let by_terms = sets.iter().flat_map(|set| set.patterns).all(|[subject, ..]| matches!(subject, Slot::Term(_)));
        let matched = [&table, &replaced].map(|table| {
            let records = paper::records(table).expect("a sound table");
            let matches = |pattern| records.iter().any(|record| rows::matched(pattern, record).is_some());
            sets.iter().flat_map(|set| set.patterns).map(matches).collect::<Vec<bool>>()
        });
        let unmatched = matched[0] != matched[1];
        let not_least = seen.means.not_least() > 0;
        Some(Replaced {
            table,
            replaced,
            query,
            choice,
            greatest,
            first,
            outcomes,
            ceilings,
            by_terms,
            unmatched,
            not_least,
        })
    }

    /// Tests both calls on both tables, the evaluation in row spaces that are just too short and just long enough, and another.
    fn test(&self, report: &mut Report, spaces: &mut Spaces, what: &str) {
        let (tables, outcome) = ([&self.table, &self.replaced], &self.outcomes[0]);
        let same = match (outcome, &self.outcomes[1]) {
            (Outcome::Rows(one), Outcome::Rows(other)) => one == other,
            (Outcome::Above(_), Outcome::Above(_)) => true,
            _ => false,
        };
        report.case(same, || format!("{what}: rows.rs has other rows of {}", hex(&self.query)));
        let lengths = spaces::lengths(outcome);
        for words in [lengths[0], lengths[1], spaces.0.random.pick(&lengths[2..])] {
            for table in tables {
                spaces.test(report, what, (table, &self.query, self.choice), outcome, words);
            }
            self.test_beside(report, spaces, what, words);
        }
        let same = self.ceilings[0] == self.ceilings[1];
        report.case(same, || format!("{what}: ceilings.rs has another ceiling of {}", hex(&self.query)));
        for (table, expected) in tables.into_iter().zip(self.ceilings) {
            ceilings::test(report, &mut spaces.0.random, what, (table, &self.query), expected);
        }
    }

    /// Evaluates on both tables with one tally, in row spaces of one length with different old contents.
    fn test_beside(&self, report: &mut Report, spaces: &mut Spaces, what: &str, words: usize) {
        let tally = spaces.tally();
        let [(one, one_space), (other, other_space)] = [&self.table, &self.replaced].map(|table| {
            let mut space = spaces.0.lend(words);
            (ffi::evaluate((table, &self.query, self.choice), space.slice_mut(), tally), space)
        });
        report.case(one == other && one_space.slice() == other_space.slice(), || {
            let [table, replaced, query] = [&self.table, &self.replaced, &self.query].map(|bytes| hex(bytes));
            format!("{what}: eval by {:?} {table} {query} {words} => {one}, and on {replaced} => {other}", self.choice)
        });
    }

    /// The kinds by the tables.
    fn kinds(&self) -> [Kind; 18] {
        let behind = |table: &[u8]| table.len() / RECORD_BYTES - self.first - 1;
        let (old, new) = (behind(&self.table), behind(&self.replaced));
        let triples = subjects::triples(&self.replaced);
        let subject = |number: usize| triples[number][0];
        let before = self.first.checked_sub(1).map(subject);
        let (outcome, ceiling) = (&self.outcomes[0], self.ceilings[0].ceiling);
        let (rows, too_short) = (outcome.has_rows(), spaces::lengths(outcome)[0]);
        [
            ("rows", 10_000, rows),
            ("rows, and a mean that is not the least", 1_000, rows && self.not_least),
            ("no row", 10_000, !rows),
            ("a row space that is too short", 15_000, outcome.refusal(too_short).number == 8),
            ("nothing in the place of records", 6_000, new == 0 && old > 0),
            ("fewer records in the place of others", 4_000, new > 0 && new < old),
            ("as many records in the place of others", 4_000, new == old),
            ("more records in the place of others", 4_000, new > old && old > 0),
            ("records behind the last one", 700, new > old && old == 0),
            ("over 60,000 records in the place of others", 8, new > 60_000),
            ("records behind of the same subject", 7_000, new > 0 && subject(self.first) == subject(self.first + 1)),
            ("the greatest subject just before", 15_000, before == Some(self.greatest)),
            ("no record of the greatest subject", 3_000, before.is_some_and(|before| before < self.greatest)),
            ("all subjects above the greatest", 500, before.is_none()),
            ("subjects by terms alone", 10_000, self.by_terms),
            ("a subject by a variable, and rows", 3_000, !self.by_terms && rows),
            ("a ceiling above 0", 10_000, ceiling > 0),
            ("a pattern without a record on one of the tables alone", 150, self.unmatched),
        ]
    }
}

/// The greatest term that a subject of a query is, or that its variable has in a scan; none where the scans are too many to tell.
fn greatest_named(table: &[u8], query: &[u8], sets: &[Set]) -> Option<u32> {
    let mut named = Vec::new();
    for set in sets {
        named.extend(set.patterns.iter().filter_map(|[subject, ..]| match subject {
            Slot::Term(term) => Some(*term),
            Slot::Variable(_) => None,
        }));
        let scans = subjects::scans(table, query, set)?;
        named.extend(scans.iter().map(|scan| scan.term.expect("a subject that is named")));
    }
    named.into_iter().max()
}

/// The kinds by the nodes of a query with rows.
fn kinds_of_nodes(tree: &Node) -> [Kind; 9] {
    let mut nodes = Vec::new();
    tree.each(&mut |node| nodes.push(&node.kind));
    let has = |test: fn(&paper::Kind) -> bool| nodes.iter().any(|kind| test(kind));
    [
        ("rows of a set alone", 2_500, nodes.len() == 1),
        ("rows of a set of one pattern", 5_000, has(|kind| matches!(kind, paper::Kind::Patterns(set) if set.len() == 1))),
        ("rows of a set of four patterns", 2_000, has(|kind| matches!(kind, paper::Kind::Patterns(set) if set.len() == 4))),
        ("rows of a join", 1_000, has(|kind| matches!(kind, paper::Kind::Join(..)))),
        ("rows of a left join", 1_000, has(|kind| matches!(kind, paper::Kind::LeftJoin(..)))),
        ("rows of a union", 2_000, has(|kind| matches!(kind, paper::Kind::Union(..)))),
        ("rows of a filter", 800, has(|kind| matches!(kind, paper::Kind::Filter(..)))),
        ("rows of a project trust", 2_000, has(|kind| matches!(kind, paper::Kind::Project(..)))),
        ("rows of an ensure trust", 1_000, has(|kind| matches!(kind, paper::Kind::Ensure(..)))),
    ]
}

pub fn random_cases(report: &mut Report) {
    let (mut random, mut spaces, mut kinds) = (Random::new(6), Spaces::new(7), Kinds::default());
    let mut cases = 0;
    for number in 0..RANDOM_CASES {
        let Some(replaced) = Replaced::new(&mut random) else { continue };
        cases += 1;
        replaced.test(report, &mut spaces, &format!("records replaced, case {number}"));
        kinds.count(&replaced.kinds());
        if replaced.outcomes[0].has_rows() {
            kinds.count(&kinds_of_nodes(&subjects::tree(&replaced.query)));
        }
    }
    println!("queries on two tables: {cases}");
    report.case(cases >= 20_000, || format!("only {cases} queries on two tables"));
    kinds.enough(report, "queries on two tables");
}
