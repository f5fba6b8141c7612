//! Evaluations whose rows, peak and pairs are written down by hand. Where every set has at most one pattern they are the same by either
//! choice.

use crate::ffi;
use crate::paper::{refusal, Choice, Evaluated, Inputs, Tally, NONE};
use crate::push::MOST_RESULT;
use crate::report::{hex, Report};
use crate::rows::{self, Evaluation, Outcome, Row, Trust, Value, ROW_WORDS};
use crate::spaces::Spaces;
use crate::tables;
use crate::vectors;

/// A row of terms.
fn terms(trust: Trust, terms: &[(u32, u32)]) -> Row {
    Row { values: terms.iter().map(|(variable, term)| (*variable, Value::Term(*term))).collect(), trust }
}

/// A table, the choice by which queries on it are evaluated, and what their tests found.
pub struct Store<'a> {
    pub table: Vec<u8>,
    pub choice: Choice,
    spaces: Spaces,
    pub report: &'a mut Report,
}

impl Store<'_> {
    pub fn new(table: Vec<u8>, choice: Choice, report: &mut Report) -> Store<'_> {
        Store { table, choice, spaces: Spaces::new(1), report }
    }

    /// Tests a query in row spaces of all awkward lengths, and that its ceiling bounds its rows.
    pub fn test(&mut self, what: &str, query: &str, rows: &[Row], peak: usize, pairs: u64) {
        let query = vectors::query(query);
        let inputs = (&self.table[..], &query[..], self.choice);
        let read = rows::evaluate(inputs);
        let expected = Evaluation { rows: rows.to_vec(), space: peak, pairs };
        let agrees = matches!(&read, Outcome::Rows(read) if *read == expected);
        self.report.case(agrees, || format!("{what}: rows.rs has {read:?}"));
        self.spaces.test_lengths(self.report, what, inputs, &Outcome::Rows(expected));
        let ceiling = ffi::ceiling(&self.table, &query);
        let holds = ceiling.refusal == NONE && ceiling.ceiling as usize >= rows.len();
        self.report.case(holds, || format!("{what}: {} rows, and the ceiling {ceiling}", rows.len()));
    }

    /// Tests a query and its rewriting, which list the same rows, each with a peak and pairs of its own.
    pub fn test_rewriting(&mut self, what: &str, queries: [&str; 2], rows: &[Row], counts: [[u64; 2]; 2]) {
        let mut output = [0; MOST_RESULT];
        let answer = ffi::rewrite(&vectors::query(queries[0]), &mut output);
        let got = &output[..answer.length as usize];
        let right = answer.refusal == NONE && got == vectors::query(queries[1]);
        self.report.case(right, || format!("{what}: rewritten to {}", hex(got)));
        for (query, [peak, pairs]) in queries.into_iter().zip(counts) {
            self.test(&format!("{what}, {query}"), query, rows, peak as usize, pairs);
        }
    }

    fn test_refused(&mut self, what: &str, query: &str, number: u32, place: usize) {
        let outcome = Outcome::Refused(refusal(number, place));
        self.spaces.test_lengths(self.report, what, (&self.table, &vectors::query(query), self.choice), &outcome);
    }
}

/// Tests an evaluation that lists one row, of these words, in row spaces that are too short, just long enough and longer.
pub fn test_words(report: &mut Report, what: &str, inputs: Inputs, [peak, pairs]: [u32; 2], row: [u32; ROW_WORDS]) {
    let enough = peak as usize * ROW_WORDS;
    for words in [0, 16, 17, 33, 34, 50, 51, 52, 67, 68, 85, 1_000] {
        let mut space = vec![0xA5A5_A5A5; words];
        let got = ffi::evaluate(inputs, &mut space, Tally { answered: 3, refused: 8 });
        let (expected, mut after) = if words < enough {
            let tally = Tally { answered: 3, refused: 9 };
            (Evaluated { refusal: refusal(8, 0), rows: 0, peak: 0, pairs: 0, tally }, vec![])
        } else {
            let tally = Tally { answered: 4, refused: 8 };
            (Evaluated { refusal: NONE, rows: 1, peak, pairs: u64::from(pairs), tally }, row.to_vec())
        };
        after.resize(words, 0);
        report.evaluate(what, inputs, words, expected, got);
        report.case(space == after, || format!("{what}: wrong words in {words}: {space:?}"));
    }
}

/// Cases 1 to 8 of document 01; 9 is a ceiling.
pub fn cases_of_document(report: &mut Report, choice: Choice) {
    let mut on_w = Store::new(tables::w(), choice, report);
    let the_row = [terms(Some(800), &[(0, 1), (1, 11)])];
    on_w.test("case 1", "E 10 A B", &the_row, 6, 4);
    on_w.test("case 2", "10 E A E B", &the_row, 3, 1);
    on_w.test("case 3", "E 20 70 A B", &the_row, 7, 4);
    on_w.test("case 4", "E 20 70 E A B", &the_row, 5, 2);
    on_w.test("case 5", "60 0007d0 A", &[terms(Some(800), &[(0, 1)])], 2, 0);
    on_w.test("case 6", "60 0007cf 00", &[], 1, 0);
    on_w.test("case 7", "00", &[terms(Some(1_000), &[])], 1, 0);
    on_w.test_refused("case 8, no byte", "", 6, 0);
    on_w.test_refused("case 8, a byte more", "00 00", 6, 1);
}

/// The shortcuts of document 01 that look harmless.
pub fn shortcuts(report: &mut Report, choice: Choice) {
    let alone = [terms(Some(800), &[(0, 1)])];
    let mut low = Store::new(tables::facts(&[([1, 10, 12], Some(200)), ([1, 20, 21], Some(800))]), choice, report);
    low.test("a merge below the bound", "E 20 70 A B", &[], 3, 1);
    low.test("the bound pushed into the right operand", "E 20 70 A E B", &alone, 2, 0);
    let mut unmatched = Store::new(tables::facts(&[([1, 20, 21], Some(800))]), choice, report);
    unmatched.test("an unmatched left row", "20 70 A B", &alone, 2, 0);
    let mut apart = Store::new(tables::facts(&[([1, 10, 11], Some(900)), ([1, 20, 21], Some(400))]), choice, report);
    apart.test("a trust above u in a merge below it", "60 0005dc 10 A B", &[terms(Some(400), &[(0, 1), (1, 11)])], 3, 1);
}

/// Left joins with two compatible merges for the left row ?0 = 1 and none for ?0 = 2; ?7 is free.
pub fn left_joins(report: &mut Report, choice: Choice) {
    let left = [([1, 20, 21], Some(-350)), ([2, 20, 21], None)];
    let facts = [([1, 10, 5], Some(300)), ([1, 10, 6], Some(-400)), left[0], left[1]];
    let mut store = Store::new(tables::facts(&facts), choice, report);
    let (one, two) = (terms(Some(-350), &[(0, 1)]), terms(None, &[(0, 2)]));
    let (five, six) = (terms(Some(-350), &[(0, 1), (1, 5)]), terms(Some(-400), &[(0, 1), (1, 6)]));
    for (what, condition, rows) in [
        ("true on both", "70", &[&five, &six, &two][..]),
        ("true, false", "21 000005", &[&five, &two]),
        ("false, true", "21 000006", &[&six, &two]),
        ("false on both", "21 000009", &[&one, &two]),
        ("an error on both", "10 07", &[&one, &two]),
        ("true, an error", "60 21 000005 10 07", &[&five, &two]),
        ("an error, true", "60 21 000006 10 07", &[&six, &two]),
        ("an error, false", "50 21 000005 10 07", &[&one, &two]),
        ("false, an error", "50 21 000006 10 07", &[&one, &two]),
        ("true of the left row, false of its merges", "40 01", &[&one, &two]),
    ] {
        let rows: Vec<Row> = rows.iter().map(|row| (*row).clone()).collect();
        store.test(&format!("left join, {what}"), &format!("20 {condition} A B"), &rows, 4 + rows.len(), 4);
    }
}

/// Order, trusts and values of the other nodes.
pub fn other_nodes(report: &mut Report, choice: Choice) {
    let low = Some(-1_000);
    let table =
        [([1, 10, 2], Some(-7)), ([1, 10, 3], None), ([2, 10, 3], Some(1_000)), ([2, 20, 21], low), ([3, 3, 3], Some(0))];
    let mut store = Store::new(tables::facts(&table), choice, report);
    let (a, b) = (terms(Some(-7), &[(0, 1), (1, 2)]), terms(None, &[(0, 1), (1, 3)]));
    let (c, d) = (terms(Some(1_000), &[(0, 2), (1, 3)]), terms(low, &[(0, 2)]));
    let [a, b, c, d] = [a, b, c, d].map(|row| move || row.clone());
    store.test("records in order", "B", &[a(), b(), c()], 3, 0);
    store.test("union", "30 A B", &[d(), a(), b(), c()], 4, 0);
    store.test("union, the other order", "30 B A", &[a(), b(), c(), d()], 4, 0);
    let chosen = |trust, one, other| terms(trust, &[(1, one), (2, other)]);
    let all_chosen = [chosen(Some(-7), 2, 2), chosen(None, 2, 3), chosen(None, 3, 2), chosen(None, 3, 3)];
    store.test("every choice of records", "02 000001 00000a 100001 000001 00000a 100002", &all_chosen, 4, 0);
    let chained = |trust| [terms(Some(trust), &[(0, 1), (1, 2), (2, 3)])];
    // Of -7 and 1000; the mean is 496.5. The merge in a join has the lesser by either choice.
    let trust = if choice == Choice::Mean { 496 } else { -7 };
    store.test("two patterns", "02 100000 00000a 100001 100001 00000a 100002", &chained(trust), 1, 0);
    store.test("two patterns as a join", "10 B 01 100001 00000a 100002", &chained(-7), 7, 9);
    store.test("a join in a union", "30 A 10 B 00", &[d(), a(), b(), c()], 8, 3);
    store.test("a union in the right of a join", "10 A 30 A B", &[d(), terms(low, &[(0, 2), (1, 3)])], 7, 4);
    store.test("a variable three times", "01 100004 100004 100004", &[terms(Some(0), &[(4, 3)])], 1, 0);
    let projected = |row: Row| {
        let trust = (9, Value::Trust(row.trust));
        Row { values: row.values.into_iter().chain([trust]).collect(), ..row }
    };
    store.test("project trust", "59 40 20 000001 B", &[projected(a()), projected(b())], 3, 0);
    store.test("trusts at the bounds", "30 60 000000 A 60 7d07d0 B", &[d(), c()], 4, 0);
    store.test("l above u", "60 7d0000 B", &[], 3, 0);
}
