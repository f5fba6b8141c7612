//! Left joins whose condition errs, with rows, peak and pairs written down by hand from request 3 of document 02: where no merge makes
//! the condition true, the left row stands, one time and with its own trust. Every set has one pattern: all is the same by either choice.

use crate::known_rows::{self, Store};
use crate::paper::Choice;
use crate::printed;
use crate::report::Report;
use crate::rows::{Row, Trust, Value};
use crate::tables;
use crate::vectors;

/// A has the rows `KEPT`. B has 100 ?0=1 ?1=5, ? ?0=1 ?1=6 and 700 ?0=2 ?1=5: two merges for the first row of A, one for the second and
/// none for the third. The trust of no merge is that of a known left row. ?7 is free.
const FACTS: [([u32; 3], Trust); 6] = [
    ([1, 10, 5], Some(100)),
    ([1, 10, 6], None),
    ([1, 20, 21], Some(600)),
    ([2, 10, 5], Some(700)),
    ([2, 20, 21], None),
    ([3, 20, 21], Some(-200)),
];
const KEPT: [&str; 3] = ["600 ?0=1", "? ?0=2", "-200 ?0=3"];

/// What a left join is about, its condition and its rows.
type Known<'a> = (&'a str, &'a str, &'a [&'a str]);

fn store(report: &mut Report, choice: Choice) -> Store<'_> {
    Store::new(tables::facts(&FACTS), choice, report)
}

fn test(store: &mut Store, what: &str, query: &str, rows: &[&str], [peak, pairs]: [u64; 2]) {
    store.test(&format!("errors, {what}"), query, &printed::rows(rows), peak as usize, pairs);
}

/// Tests left joins of a left operand of three rows with a right one of three.
fn test_three_by_three(store: &mut Store, known: &[Known], left: &str, right: &str) {
    for (what, condition, rows) in known {
        test(store, what, &format!("20 {condition} {left} {right}"), rows, [6 + rows.len() as u64, 9]);
    }
}

/// Errors of free cells and terms, and what not, and, or make of them.
pub fn conditions(report: &mut Report, choice: Choice) {
    let mut store = store(report, choice);
    let errors: [Known; 15] = [
        ("same of a free cell", "10 07", &KEPT),
        ("same of a free cell, the other order", "17 00", &KEPT),
        ("is-term of a free cell", "27 000005", &KEPT),
        ("less of a free cell", "37 07", &KEPT),
        ("less of terms", "30 01", &KEPT),
        ("not", "40 10 07", &KEPT),
        ("not of not", "40 40 10 07", &KEPT),
        ("true and an error", "50 70 10 07", &KEPT),
        ("an error and true", "50 10 07 70", &KEPT),
        ("an error and an error", "50 10 07 17 07", &KEPT),
        ("false or an error", "60 4070 10 07", &KEPT),
        ("an error or false", "60 10 07 4070", &KEPT),
        ("an error or an error", "60 10 07 17 07", &KEPT),
        ("not of true and an error", "40 50 70 10 07", &KEPT),
        ("not of an error or false", "40 60 10 07 4070", &KEPT),
    ];
    let merged = ["100 ?0=1 ?1=5", "? ?0=1 ?1=6", "? ?0=2 ?1=5", "-200 ?0=3"];
    let others: [Known; 8] = [
        ("true or an error", "60 70 10 07", &merged),
        ("an error or true", "60 10 07 70", &merged),
        ("not of false and an error", "40 50 4070 10 07", &merged),
        ("not of an error and false", "40 50 10 07 4070", &merged),
        ("false and an error", "50 4070 10 07", &KEPT),
        ("an error and false", "50 10 07 4070", &KEPT),
        ("not of true or an error", "40 60 70 10 07", &KEPT),
        ("not of an error or true", "40 60 10 07 70", &KEPT),
    ];
    // On the merges of the first row, and on that of the second.
    let orders: [Known; 4] = [
        ("an error and then false, an error", "50 21 000005 10 07", &KEPT),
        ("false and then an error, false", "50 21 000006 10 07", &KEPT),
        ("true and then an error, true", "60 21 000005 10 07", &["100 ?0=1 ?1=5", "? ?0=2 ?1=5", "-200 ?0=3"]),
        ("an error and then true, an error", "60 21 000006 10 07", &["? ?0=1 ?1=6", "? ?0=2", "-200 ?0=3"]),
    ];
    for known in [&errors[..], &others, &orders] {
        test_three_by_three(&mut store, known, "A", "B");
    }
}

/// Errors of unknown trusts: ?14 has the trust of the left row, ?15 that of the right row.
pub fn trusts(report: &mut Report, choice: Choice) {
    let [one, two, three] = ["600 ?0=1 ?14=t600", "? ?0=2 ?14=t?", "-200 ?0=3 ?14=t-200"];
    let [five, six] = ["100 ?0=1 ?1=5 ?14=t600 ?15=t100", "? ?0=1 ?1=6 ?14=t600 ?15=t?"];
    let of_two = "? ?0=2 ?1=5 ?14=t? ?15=t700";
    let known: [Known; 11] = [
        ("less, true and an error", "3f 0e", &[five, two, three]),
        ("less, false and an error", "3e 0f", &[one, two, three]),
        ("not of less", "40 3e 0f", &[five, two, three]),
        ("less of one right trust", "3f 0f", &[one, two, three]),
        ("same of a right trust", "1f 0f", &[five, of_two, three]),
        ("same of a left trust", "1e 0e", &[five, six, two, three]),
        ("same of both", "1e 0f", &[one, two, three]),
        ("is-term of a right trust", "2f 000005", &[one, two, three]),
        ("not of is-term of a right trust", "40 2f 000005", &[five, of_two, three]),
        ("not of is-term of a left trust", "40 2e 000005", &[five, six, two, three]),
        ("bound, which never errs", "0f", &[five, six, of_two, three]),
    ];
    test_three_by_three(&mut store(report, choice), &known, "5e A", "5f B");
}

/// Left rows that stand several times on the left, and merges that do on the right.
pub fn repeated(report: &mut Report, choice: Choice) {
    let mut store = store(report, choice);
    let twice = [KEPT, KEPT].concat();
    test(&mut store, "every left row twice", "20 10 07 30 A A B", &twice, [15, 18]);
    // The union holds six rows, of which the filter keeps two.
    test(&mut store, "a left row twice, at once", "20 10 07 40 20 000001 30 A A B", &["600 ?0=1"; 2], [7, 6]);
    test(&mut store, "every right row twice", "20 10 07 A 30 B B", &KEPT, [12, 18]);
    // {?0 10 5} has 100 ?0=1 and 700 ?0=2.
    let of_five = "01 100000 00000a 000005";
    let own = [&KEPT[..], &["100 ?0=1", "700 ?0=2"]].concat();
    test(&mut store, "one row with two trusts", &format!("20 10 07 30 A {of_five} B"), &own, [13, 15]);
    // Of the second row of A, and of that of {?0 10 5}, the one merge errs.
    let true_of_six = ["? ?0=1 ?1=6", "? ?0=2", "-200 ?0=3", "? ?0=1 ?1=6", "700 ?0=2"];
    test(
        &mut store,
        "one row with two trusts, some true",
        &format!("20 60 21 000006 10 07 30 A {of_five} B"),
        &true_of_six,
        [13, 15],
    );
    test(&mut store, "one row on the right, without a variable", "20 10 07 A 00", &KEPT, [7, 3]);
    test(&mut store, "the row without a variable", "20 10 07 00 B", &["1000"], [5, 3]);
    test(&mut store, "the row without a variable, twice", "20 10 07 30 00 00 00", &["1000"; 2], [5, 2]);
}

/// Left joins in operands of others, and below filters.
pub fn nested(report: &mut Report, choice: Choice) {
    let mut store = store(report, choice);
    let (inner, some_true) = ("20 10 07 A B", "20 60 21 000006 10 07 A B");
    for (what, query, rows, counts) in [
        // The inner one has space 9, pairs 9 and the rows `KEPT`.
        ("on the right", format!("20 70 B {inner}"), &["100 ?0=1 ?1=5", "? ?0=1 ?1=6", "? ?0=2 ?1=5"][..], [12, 18]),
        (
            "on the right of another",
            format!("20 10 07 B {inner}"),
            &["100 ?0=1 ?1=5", "? ?0=1 ?1=6", "700 ?0=2 ?1=5"],
            [12, 18],
        ),
        ("on the left", format!("20 21 000005 {inner} B"), &["100 ?0=1 ?1=5", "? ?0=2 ?1=5", "-200 ?0=3"], [9, 18]),
        ("on the left of another", format!("20 10 07 {inner} B"), &KEPT, [9, 18]),
        ("in a join", format!("10 {inner} B"), &["100 ?0=1 ?1=5", "? ?0=1 ?1=6", "? ?0=2 ?1=5"], [9, 18]),
        // This one has the same space and pairs, and ? ?0=1 ?1=6, ? ?0=2, -200 ?0=3: ?1 is free in the rows kept.
        ("on the right, ?1 bound", format!("20 01 A {some_true}"), &["? ?0=1 ?1=6", "? ?0=2", "-200 ?0=3"], [12, 18]),
        ("on the right, ?1 = 6", format!("20 21 000006 A {some_true}"), &["? ?0=1 ?1=6", "? ?0=2", "-200 ?0=3"], [12, 18]),
        ("on the right, not ?1 = 6", format!("20 40 21 000006 A {some_true}"), &KEPT, [12, 18]),
        ("a filter, bound", format!("40 01 {some_true}"), &["? ?0=1 ?1=6"], [9, 9]),
        ("a filter, not bound", format!("40 40 01 {some_true}"), &["? ?0=2", "-200 ?0=3"], [9, 9]),
        ("a filter that errs itself", format!("40 40 10 01 {some_true}"), &["? ?0=1 ?1=6"], [9, 9]),
        ("project trust", format!("5f {inner}"), &["600 ?0=1 ?15=t600", "? ?0=2 ?15=t?", "-200 ?0=3 ?15=t-200"], [9, 9]),
        ("a union", format!("30 {inner} {inner}"), &[KEPT, KEPT].concat(), [12, 18]),
    ] {
        test(&mut store, what, &query, rows, counts);
    }
}

/// What a query under a bound is about, the query and its rewriting, the rows of both, and the peak and pairs of each.
type Rewriting<'a> = (&'a str, [&'a str; 2], &'a [&'a str], [[u64; 2]; 2]);

const REWRITINGS: [Rewriting; 6] = [
    ("a floor", ["E 20 10 07 A B", "E 20 10 07 E A B"], &["600 ?0=1"], [[9, 9], [5, 3]]),
    // -1000 to 0: the left operand gets -1000 to 1000, which drops the row of unknown trust.
    ("a roof", ["60 0003e8 20 10 07 A B", "60 0003e8 20 10 07 60 0007d0 A B"], &["-200 ?0=3"], [[9, 9], [7, 6]]),
    (
        "its own trust above the floor, those of its merges not",
        ["E 20 3e 0f 5e A 5f B", "E 20 3e 0f 5e E A 5f B"],
        &["600 ?0=1 ?14=t600"],
        [[9, 9], [5, 3]],
    ),
    (
        "a true merge below the floor, beside an error",
        ["E 20 3f 0e 5e A 5f B", "E 20 3f 0e 5e E A 5f B"],
        &[],
        [[9, 9], [5, 3]],
    ),
    // The bound of -1000 to 1000 drops unknown trusts alone.
    (
        "any known trust",
        ["60 0007d0 20 10 07 A B", "60 0007d0 20 10 07 60 0007d0 A B"],
        &["600 ?0=1", "-200 ?0=3"],
        [[9, 9], [7, 6]],
    ),
    // Nothing is pushed into the inner left join.
    (
        "a left join on the right",
        ["E 20 10 07 B 20 10 07 A B", "E 20 10 07 E B 20 10 07 A B"],
        &["700 ?0=2 ?1=5"],
        [[12, 18], [10, 12]],
    ),
];

/// Queries under a bound and their rewritings list alike.
pub fn rewritings(report: &mut Report, choice: Choice) {
    let mut store = store(report, choice);
    for (what, queries, rows, counts) in REWRITINGS {
        store.test_rewriting(&format!("errors, {what}"), queries, &printed::rows(rows), counts);
    }
}

/// One left row that stands by an error, beside one right row, needs three rows of space: 51 words, each written down.
pub fn words(report: &mut Report, choice: Choice) {
    let table = tables::facts(&[([1, 10, 5], Some(100)), ([1, 20, 21], Some(600))]);
    let query = vectors::query("20 10 07 A B");
    let row = [1, 0, 0, 0, 0, 0, 0, 0, 0, 0, 0, 0, 0, 0, 0, 0, 1_600];
    known_rows::test_words(report, "errors, word by word", (&table, &query, choice), [3, 1], row);
}

// ---- Sequences of truths

/// All sequences of up to four truths, a letter each: the truths of a condition on the merges of a left row, in order.
fn sequences() -> Vec<String> {
    let mut all = vec![String::new()];
    let mut from = 0;
    for _ in 0..4 {
        let longer: Vec<String> =
            all[from..].iter().flat_map(|shorter| ['T', 'F', 'E'].map(|letter| format!("{shorter}{letter}"))).collect();
        from = all.len();
        all.extend(longer);
    }
    all
}

/// Whether a left trust of 5 is less than the right trust, or the right trust is less: the condition, and the right trusts of T and F.
const COMPARED: [(&str, i32, i32); 2] = [("3e 0f", 9, -7), ("3f 0e", -7, 9)];
const LEFT_TRUST: i32 = 5;

/// Facts of a left row, of a subject of its own, with merges that have these truths; and what is listed for it.
fn of_sequence(subject: u32, sequence: &str, [of_true, of_false]: [i32; 2]) -> (Vec<([u32; 3], Trust)>, Vec<Row>) {
    let left = [(0, Value::Term(subject)), (14, Value::Trust(Some(LEFT_TRUST)))];
    let (mut facts, mut rows) = (Vec::new(), Vec::new());
    for (object, letter) in (1..).zip(sequence.chars()) {
        let trust = match letter {
            'T' => Some(of_true),
            'F' => Some(of_false),
            _ => None,
        };
        facts.push(([subject, 10, object], trust));
        if letter == 'T' {
            let right = [(1, Value::Term(object)), (15, Value::Trust(trust))];
            rows.push(Row { values: left.into_iter().chain(right).collect(), trust: Some(of_true.min(LEFT_TRUST)) });
        }
    }
    facts.push(([subject, 20, 21], Some(LEFT_TRUST)));
    if !sequence.contains('T') {
        rows.push(Row { values: left.into_iter().collect(), trust: Some(LEFT_TRUST) });
    }
    (facts, rows)
}

/// A left row for each sequence: each in a left join alone, all in one, which has many pairs, and each twice in one.
pub fn in_every_order(report: &mut Report, choice: Choice) {
    let (mut store, sequences) = (Store::new(vec![], choice, report), sequences());
    for (condition, of_true, of_false) in COMPARED {
        let query = format!("20 {condition} 5e A 5f B");
        let (mut facts, mut rows, mut right) = (Vec::new(), Vec::new(), 0);
        for (subject, sequence) in (1..).zip(&sequences) {
            let (some_facts, some_rows) = of_sequence(subject, sequence, [of_true, of_false]);
            let b = sequence.len();
            store.table = tables::facts(&some_facts);
            store.test(&format!("errors, '{sequence}' alone"), &query, &some_rows, 1 + b + some_rows.len(), b as u64);
            facts.extend(some_facts);
            rows.extend(some_rows);
            right += b;
        }
        let a = sequences.len();
        store.table = tables::facts(&facts);
        store.test("errors, every sequence", &query, &rows, a + right + rows.len(), (a * right) as u64);
        let twice = [&rows[..], &rows].concat();
        let query = format!("20 {condition} 5e 30 A A 5f B");
        store.test("errors, every sequence twice", &query, &twice, 2 * a + right + twice.len(), (2 * a * right) as u64);
    }
}
