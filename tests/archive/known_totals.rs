//! Totals whose entries are written down by hand. Where every set has at most one pattern they are the same by either choice.

use crate::groups::{Totals, GROUP_WORDS};
use crate::outputs::Outputs;
use crate::paper::{Choice, CHOICES, VARIABLES};
use crate::report::Report;
use crate::rows;
use crate::tables;
use crate::vectors::{self, set};

/// The cells of trusts -1000 and unknown.
const LEAST_TRUST: u32 = 1_048_576;
const UNKNOWN_CELL: u32 = 1_050_577;
/// An unknown trust of a row or an entry.
const UNKNOWN: u32 = 2_001;

type Entry = [u32; GROUP_WORDS];

/// A table, and what the tests of queries on it found.
struct Store<'a> {
    table: Vec<u8>,
    outputs: Outputs,
    report: &'a mut Report,
}

impl Store<'_> {
    fn new(table: Vec<u8>, report: &mut Report) -> Store<'_> {
        Store { table, outputs: Outputs::new(1), report }
    }

    /// Tests totals of a variable by a choice, in row spaces and with outputs of all awkward lengths.
    fn test_by(&mut self, choice: Choice, what: &str, query: &str, variable: u32, entries: &[Entry]) {
        let query = vectors::query(query);
        let inputs = (&self.table[..], &query[..], choice);
        let outcome = rows::evaluate(inputs);
        let totals = Totals::new(&outcome, variable);
        let read = totals.entries();
        self.report.case(read == entries.concat(), || format!("{what}: groups.rs has {read:?}"));
        self.outputs.test_lengths(self.report, what, inputs, &totals);
    }

    /// The same entries by either choice.
    fn test(&mut self, what: &str, query: &str, variable: u32, entries: &[Entry]) {
        CHOICES.into_iter().for_each(|choice| self.test_by(choice, what, query, variable, entries));
    }
}

/// Rows of the store below as (?0, ?1) trust. A: (1, free) -400. B: (1, 5) 300, (2, 5) -100. `C`, which is {?0 30 ?1}: (1, 5) 250,
/// (1, 6) unknown, (2, 7) 1000.
const C: &str = "01 100000 00001e 100001";
const FACTS: [([u32; 3], Option<i32>); 6] = [
    ([1, 10, 5], Some(300)),
    ([1, 20, 21], Some(-400)),
    ([1, 30, 5], Some(250)),
    ([1, 30, 6], None),
    ([2, 10, 5], Some(-100)),
    ([2, 30, 7], Some(1_000)),
];

/// Cells of terms, and free ones.
pub fn terms(report: &mut Report) {
    let mut store = Store::new(tables::facts(&FACTS), report);
    let all = format!("30 B 30 A {C}");
    store.test("a free group between others", &all, 1, &[[5, 3, 900], [0, 1, 600], [6, 1, UNKNOWN], [7, 1, 2_000]]);
    store.test("an unknown trust in a group", &all, 0, &[[1, 4, UNKNOWN], [2, 2, 900]]);
    for variable in 2..VARIABLES {
        store.test("a variable that no row has", &all, variable, &[[0, 6, UNKNOWN]]);
    }
    let last = format!("30 {C} B");
    store.test("the least trust last", &last, 1, &[[5, 3, 900], [6, 1, UNKNOWN], [7, 1, 2_000]]);
    store.test("groups in turns", &last, 0, &[[1, 3, UNKNOWN], [2, 2, 900]]);
    let first = "30 01 000002 00000a 100001 B";
    store.test("the least trust first", first, 1, &[[5, 3, 900]]);
    store.test("a free group first", first, 0, &[[0, 1, 900], [1, 1, 1_300], [2, 1, 900]]);
    store.test("a free group last", &format!("30 {C} A"), 1, &[[5, 1, 1_250], [6, 1, UNKNOWN], [7, 1, 2_000], [0, 1, 600]]);
    let unknown_first = "30 01 100000 00001e 000006 B";
    store.test("an unknown trust first", unknown_first, 0, &[[1, 2, UNKNOWN], [2, 1, 900]]);
    store.test("an unknown trust in the free group", unknown_first, 1, &[[0, 1, UNKNOWN], [5, 2, 900]]);
}

/// The same store's records as they stand, and in another order.
pub fn records(report: &mut Report) {
    let mut store = Store::new(tables::facts(&FACTS), report);
    store.test("subjects", "S", 0, &[[1, 4, UNKNOWN], [2, 2, 900]]);
    store.test("predicates", "S", 1, &[[10, 2, 900], [20, 1, 600], [30, 3, UNKNOWN]]);
    store.test("objects", "S", 2, &[[5, 3, 900], [21, 1, 600], [6, 1, UNKNOWN], [7, 1, 2_000]]);
    store.test(
        "falling cells",
        "30 40 22 000007 S 30 40 22 000006 S 40 22 000005 S",
        2,
        &[[7, 1, 2_000], [6, 1, UNKNOWN], [5, 3, 900]],
    );
    store.test("a left join", "20 70 B A", 0, &[[1, 1, 600], [2, 1, 900]]);
}

/// Cells of trusts.
pub fn trusts(report: &mut Report) {
    let cell = |trust: u32| LEAST_TRUST + trust;
    let facts = [([1, 10, 5], Some(300)), ([1, 10, 6], None), ([1, 10, 7], Some(-1_000)), ([2, 20, 21], Some(1_000))];
    let mut store = Store::new(tables::facts(&facts), report);
    let projected = [[cell(1_300), 1, 1_300], [UNKNOWN_CELL, 1, UNKNOWN], [cell(0), 1, 0]];
    store.test("project trust", "5f B", 15, &projected);
    store.test("project trust of another variable", "52 B", 15, &[[0, 3, UNKNOWN]]);
    store.test("trusts at both ends", "53 30 A B", 3, &[&[[cell(2_000), 1, 2_000]][..], &projected].concat());
    let twice = "53 30 30 B A B";
    store.test(
        "an unknown cell twice",
        twice,
        3,
        &[[cell(1_300), 2, 1_300], [UNKNOWN_CELL, 2, UNKNOWN], [cell(0), 2, 0], [cell(2_000), 1, 2_000]],
    );
    let facts = [
        ([1, 10, 5], Some(300)),
        ([1, 20, 21], Some(800)),
        ([2, 20, 21], Some(500)),
        ([3, 10, 6], Some(-7)),
        ([3, 20, 21], None),
    ];
    // The left row 2 has no partner; the left row 3 has an unknown trust.
    let mut store = Store::new(tables::facts(&facts), report);
    let entries = [[cell(1_300), 1, 1_300], [0, 1, 1_500], [cell(993), 1, UNKNOWN]];
    store.test("a free group between trusts", "20 70 A 5f B", 15, &entries);
    let mut store = Store::new(tables::w(), report);
    store.test("a trust that a join has lessened", "10 5f A B", 15, &[[cell(1_800), 2, 1_200]]);
    store.test(
        "unknown trusts, also of a free cell",
        "30 5f A A",
        15,
        &[[cell(1_800), 1, 1_800], [UNKNOWN_CELL, 1, UNKNOWN], [0, 2, UNKNOWN]],
    );
}

/// Left rows that stand though the condition errs on their merges: what is of the right operand is free in them, and their trusts
/// are their own. ?7 is free.
pub fn errors(report: &mut Report) {
    let mut store = Store::new(tables::facts(&FACTS), report);
    // Of the left row (1, 5) the one merge errs, (2, 5) has none.
    store.test("an error, and no merge", "20 10 07 B A", 0, &[[1, 1, 1_300], [2, 1, 900]]);
    store.test("an error, and no merge, in one group", "20 10 07 B A", 1, &[[5, 2, 900]]);
    // Of the left row (1, free) the merges are (1, 5) and (1, 6).
    store.test("two errors", &format!("20 10 07 A {C}"), 1, &[[0, 1, 600]]);
    store.test("an error and false", &format!("20 50 21 000005 10 07 A {C}"), 1, &[[0, 1, 600]]);
    store.test("false and an error", &format!("20 50 21 000006 10 07 A {C}"), 1, &[[0, 1, 600]]);
    store.test("an error and true", &format!("20 60 21 000006 10 07 A {C}"), 1, &[[6, 1, UNKNOWN]]);
    store.test("true and an error", &format!("20 60 21 000005 10 07 A {C}"), 1, &[[5, 1, 600]]);
    // A free group of left rows before that of merges, and behind it.
    let kept = format!("20 50 21 000006 10 07 A {C}");
    store.test("a free group first, by an error", &format!("30 {kept} B"), 1, &[[0, 1, 600], [5, 2, 900]]);
    store.test("a free group last, by an error", &format!("30 B {kept}"), 1, &[[5, 2, 900], [0, 1, 600]]);
    store.test("one group, in part by an error", &format!("30 {kept} B"), 0, &[[1, 2, 600], [2, 1, 900]]);
    store.test("a left row twice", "20 10 07 30 A A A", 0, &[[1, 2, 600]]);
    // ?15 has the trusts of {?0 30 ?1}: of the left row 250 and then unknown.
    let compared = |condition: &str| format!("20 {condition} A 5f {C}");
    store.test("an unknown trust beside a true", &compared("1f 0f"), 15, &[[LEAST_TRUST + 1_250, 1, 600]]);
    store.test("an unknown trust beside a false", &compared("3f 0f"), 15, &[[0, 1, 600]]);
}

/// Two trusts for each row of `FOUR`, as (?1, ?2): (5, 7) 900 100, (5, 8) 900 800, (6, 7) 300 100, (6, 8) 300 800. So the means are 500,
/// 850, 200 and 550, and so are those of `REPEATED`. Of `SECOND` they are 350 and unknown, of `EQUAL` 500 both times. The rows of `BELOW`,
/// (5, 5), (5, 6), (6, 5) and (6, 6), use one record, two, two and one: the means are -5, -503, -503 and -1000.
const MEANS: [([u32; 3], Option<i32>); 13] = [
    ([1, 10, 5], Some(900)),
    ([1, 10, 6], Some(300)),
    ([1, 20, 7], Some(100)),
    ([1, 20, 8], Some(800)),
    ([2, 30, 5], Some(700)),
    ([2, 30, 6], None),
    ([2, 40, 7], Some(0)),
    ([3, 50, 5], Some(900)),
    ([3, 50, 6], Some(600)),
    ([3, 60, 5], Some(100)),
    ([3, 60, 6], Some(400)),
    ([4, 70, 5], Some(-5)),
    ([4, 70, 6], Some(-1_000)),
];
const FOUR: &str = "?0 10 ?1, ?0 20 ?2";
const REPEATED: &str = "?0 10 ?1, ?0 20 ?2, 1 10 ?1";
const SECOND: &str = "?0 30 ?1, ?0 40 ?2";
const EQUAL: &str = "?0 50 ?1, ?0 60 ?1";
const BELOW: &str = "?0 70 ?1, ?0 70 ?2";

/// What totals are about, the nodes above a set, the set, the variable, and the entries by mean and by least.
type ByChoice<'a> = (&'a str, &'a str, &'a str, u32, &'a [Entry], &'a [Entry]);

fn test_choices(report: &mut Report, known: &[ByChoice]) {
    let mut store = Store::new(tables::facts(&MEANS), report);
    for (what, above, patterns, variable, by_mean, by_least) in known {
        let query = format!("{above} {}", set(patterns));
        store.test_by(Choice::Mean, &format!("{what}, by mean"), &query, *variable, by_mean);
        store.test_by(Choice::Least, &format!("{what}, by least"), &query, *variable, by_least);
    }
}

/// The trust of an entry is the least of its rows' trusts, also where these are means.
pub fn means(report: &mut Report) {
    // {2 30 5} has one row, 700. The filters leave the rows (5, 8) and (6, 8).
    let (of_700, eight) = ("01 000002 00001e 000005", "40 22 000008");
    let [greater, lesser] = [5, 6].map(|term| format!("10 {of_700} 40 21 00000{term} {eight}"));
    test_choices(
        report,
        &[
            // The mean of the four means, and that of the four records, is 525.
            ("one group of four means", "", FOUR, 0, &[[1, 4, 1_200]], &[[1, 4, 1_100]]),
            ("by the first record", "", FOUR, 1, &[[5, 2, 1_500], [6, 2, 1_200]], &[[5, 2, 1_100], [6, 2, 1_100]]),
            ("by the second record", "", FOUR, 2, &[[7, 2, 1_200], [8, 2, 1_550]], &[[7, 2, 1_100], [8, 2, 1_300]]),
            ("a record twice", "", REPEATED, 1, &[[5, 2, 1_500], [6, 2, 1_200]], &[[5, 2, 1_100], [6, 2, 1_100]]),
            ("an unknown mean", "", SECOND, 0, &[[2, 2, UNKNOWN]], &[[2, 2, UNKNOWN]]),
            ("unknown apart", "", SECOND, 1, &[[5, 1, 1_350], [6, 1, UNKNOWN]], &[[5, 1, 1_000], [6, 1, UNKNOWN]]),
            ("means below 0", "", BELOW, 1, &[[5, 2, 497], [6, 2, 0]], &[[5, 2, 0], [6, 2, 0]]),
            // 500, 850 and 550; of the least 800 alone.
            ("a bound of 500 to 1000", "E", FOUR, 0, &[[1, 3, 1_500]], &[[1, 1, 1_800]]),
            ("a merge of 700 with a greater mean", &greater, FOUR, 0, &[[1, 1, 1_700]], &[[1, 1, 1_700]]),
            ("a merge of 700 with a lesser mean", &lesser, FOUR, 0, &[[1, 1, 1_550]], &[[1, 1, 1_300]]),
        ],
    );
}

/// Groups by cells of means.
pub fn cells_of_means(report: &mut Report) {
    let cell = |trust: u32| LEAST_TRUST + trust;
    let own = |trust: u32| [cell(trust), 1, trust];
    test_choices(
        report,
        &[
            ("two equal means", "5f", EQUAL, 15, &[[cell(1_500), 2, 1_500]], &[own(1_100), own(1_400)]),
            ("means below 0", "5f", BELOW, 15, &[own(995), [cell(497), 2, 497], own(0)], &[own(995), [cell(0), 3, 0]]),
            (
                "an unknown mean",
                "5f",
                SECOND,
                15,
                &[own(1_350), [UNKNOWN_CELL, 1, UNKNOWN]],
                &[own(1_000), [UNKNOWN_CELL, 1, UNKNOWN]],
            ),
        ],
    );
}

/// One row, no row, and cells and trusts at their ends.
pub fn few(report: &mut Report) {
    let last_term = 1_048_575;
    let mut store = Store::new(tables::fact([last_term, 1, last_term], Some(-1_000)).to_vec(), report);
    store.test("the greatest term and the least trust", "01 100000 000001 100001", 0, &[[last_term, 1, 0]]);
    store.test("the cell above it", "5f 01 100000 000001 100001", 15, &[[last_term + 1, 1, 0]]);
    let mut store = Store::new(tables::w(), report);
    for variable in 0..VARIABLES {
        store.test("the row of the empty set", "00", variable, &[[0, 1, 2_000]]);
        store.test("no row", "N", variable, &[]);
        store.test("no row that is kept", "40 4070 S", variable, &[]);
    }
}
