//! Evaluations by mean beside those by least, with rows, peak and pairs written down by hand from request 4 of document 02: the mean is
//! that of the distinct records that the patterns of a set use, rounded down to a whole thousandth; the rest is the same by both.

use crate::known_rows::{self, Store};
use crate::paper::{Choice, MOST_RECORDS};
use crate::printed;
use crate::report::Report;
use crate::rows::{Evaluation, Outcome, Trust, ROW_WORDS};
use crate::spaces::Spaces;
use crate::tables;
use crate::vectors::{self, set};

/// The rows by mean and by least.
type Rows<'a> = [&'a [&'a str]; 2];

/// Records 1, 2 and so on, with these trusts: the predicates are their numbers, the subjects 8 and the objects 9.
fn table(trusts: &str) -> Vec<u8> {
    let fact = |(number, trust): (u32, &str)| ([8, number, 9], trust.parse().ok());
    tables::facts(&(1..).zip(trusts.split(' ')).map(fact).collect::<Vec<_>>())
}

/// A set of a pattern for each of these records, all of terms.
fn of(records: &str) -> String {
    set(&records.split(' ').map(|record| format!("8 {record} 9")).collect::<Vec<_>>().join(", "))
}

/// The same with two variables.
fn with_variables(records: &str) -> String {
    set(&records.split(' ').map(|record| format!("?3 {record} ?0")).collect::<Vec<_>>().join(", "))
}

/// Tests a query by both choices.
fn test(store: &mut Store, what: &str, query: &str, [by_mean, by_least]: Rows, [peak, pairs]: [u64; 2]) {
    for (choice, rows) in [(Choice::Mean, by_mean), (Choice::Least, by_least)] {
        store.choice = choice;
        store.test(&format!("means, {what}, by {choice:?}"), query, &printed::rows(rows), peak as usize, pairs);
    }
}

/// Tests a set, which has one row.
fn test_set(store: &mut Store, what: &str, trusts: &str, records: &str, trusts_of_row: [&str; 2]) {
    store.table = table(trusts);
    let row = |trust: &str| format!("{trust} ?0=9 ?3=8");
    let [by_mean, by_least] = trusts_of_row;
    test(store, what, &of(records), [&[by_mean], &[by_least]], [1, 0]);
    test(store, what, &with_variables(records), [&[&row(by_mean)], &[&row(by_least)]], [1, 0]);
}

// ---- Pattern sets

/// What a set is about, the trusts of the records, those that its patterns use, and the mean and the least.
type Known<'a> = (&'a str, &'a str, &'a str, [&'a str; 2]);

/// All of fifteen records.
const FIFTEEN: &str = "1 2 3 4 5 6 7 8 9 10 11 12 13 14 15";

/// (300 + 900) / 2 = 600, however often a pattern uses a record. If it counted for each, the means would be as said behind.
const REPEATED: [Known; 17] = [
    ("two records", "300 900", "1 2", ["600", "300"]),
    ("the first twice", "300 900", "1 1 2", ["600", "300"]), // 500
    ("the first twice, apart", "300 900", "1 2 1", ["600", "300"]), // 500
    ("the second twice", "300 900", "1 2 2", ["600", "300"]), // 700
    ("the second twice, first", "300 900", "2 2 1", ["600", "300"]), // 700
    ("one three times", "300 900", "1 1 1 2", ["600", "300"]), // 450
    ("one three times, apart", "300 900", "1 2 1 2 1", ["600", "300"]), // 540
    ("one twice, alone", "300", "1 1", ["300", "300"]),
    ("one three times, alone", "-7", "1 1 1", ["-7", "-7"]),
    // (300 + 900 - 600) / 3 = 200
    ("two of three twice", "300 900 -600", "1 1 2 2 3", ["200", "-600"]), // 360
    ("two of three twice, crossed", "300 900 -600", "2 1 3 2 1", ["200", "-600"]), // 360
    // (100 + 100 + 700) / 3 = 300. If equal trusts counted once, the mean would be 400.
    ("equal trusts", "100 100 700", "1 2 3", ["300", "100"]),
    ("equal trusts, one twice", "100 100 700", "1 1 2 3", ["300", "100"]), // 250
    ("equal trusts alone", "-250 -250", "1 2", ["-250", "-250"]),
    ("fifteen patterns on one record", "999", "1 1 1 1 1 1 1 1 1 1 1 1 1 1 1", ["999", "999"]),
    ("fifteen patterns on one record, below 0", "-999", "1 1 1 1 1 1 1 1 1 1 1 1 1 1 1", ["-999", "-999"]),
    // (1000 - 1000) / 2 = 0
    ("fourteen patterns on one of two", "1000 -1000", "1 1 1 1 1 1 1 1 1 1 1 1 1 1 2", ["0", "-1000"]), // 866
];

const UNKNOWN: [Known; 13] = [
    ("unknown alone", "?", "1", ["?", "?"]),
    ("unknown alone, twice", "?", "1 1", ["?", "?"]),
    ("unknown first", "? 500", "1 2", ["?", "?"]),
    ("unknown last", "500 ?", "1 2", ["?", "?"]),
    ("unknown between", "500 ? 700", "1 2 3", ["?", "?"]),
    ("unknown twice", "? 500", "1 1 2", ["?", "?"]),
    ("unknown twice, apart", "? 500", "1 2 1", ["?", "?"]),
    ("unknown three times, known twice", "500 ?", "2 1 2 1 2", ["?", "?"]),
    ("unknown once beside one three times", "500 ?", "1 1 2 1", ["?", "?"]),
    ("two unknown", "? ? 0", "1 2 3", ["?", "?"]),
    ("all unknown", "? ?", "1 2", ["?", "?"]),
    ("unknown, the last of fifteen", "9 9 9 9 9 9 9 9 9 9 9 9 9 9 ?", FIFTEEN, ["?", "?"]),
    // (500 + 700) / 2 = 600
    ("unknown, and no pattern uses it", "500 ? 700", "1 3", ["600", "500"]),
];

/// So many records of a trust, and then so many of another; the mean of the fifteen, and the least.
const EXTREMES: [([(usize, i32); 2], [&str; 2]); 10] = [
    ([(15, 1_000), (0, 0)], ["1000", "1000"]),
    ([(15, -1_000), (0, 0)], ["-1000", "-1000"]),
    ([(14, 1_000), (1, 999)], ["999", "999"]),       // 14999 / 15 = 999.93
    ([(14, -1_000), (1, -999)], ["-1000", "-1000"]), // -14999 / 15 = -999.93
    ([(1, -999), (14, -1_000)], ["-1000", "-1000"]),
    ([(8, 1_000), (7, -1_000)], ["66", "-1000"]),    // 1000 / 15 = 66.67
    ([(7, 1_000), (8, -1_000)], ["-67", "-1000"]),   // -1000 / 15 = -66.67
    ([(14, 1_000), (1, -1_000)], ["866", "-1000"]),  // 13000 / 15 = 866.67
    ([(1, 1_000), (14, -1_000)], ["-867", "-1000"]), // -13000 / 15 = -866.67
    ([(1, -1_000), (14, 1_000)], ["866", "-1000"]),
];

pub fn sets(report: &mut Report) {
    let mut store = Store::new(vec![], Choice::Mean, report);
    for (what, trusts, records, by_choice) in REPEATED.iter().chain(&UNKNOWN) {
        test_set(&mut store, what, trusts, records, *by_choice);
    }
    for (trusts, by_choice) in EXTREMES {
        let trusts = trusts.map(|(count, trust)| vec![trust.to_string(); count]).concat().join(" ");
        test_set(&mut store, "extremes", &trusts, FIFTEEN, by_choice);
    }
    test(&mut store, "the empty set", "00", [&["1000"], &["1000"]], [1, 0]);
    test(&mut store, "the empty set in a bound", "60 7d07d0 00", [&["1000"], &["1000"]], [1, 0]);
    test(&mut store, "the empty set, projected", "53 00", [&["1000 ?3=t1000"], &["1000 ?3=t1000"]], [1, 0]);
}

/// Different patterns that use one record or two, of 300 and 900.
pub fn patterns(report: &mut Report) {
    let mut store = Store::new(table("300 900"), Choice::Mean, report);
    for (what, patterns, rows, peak) in [
        ("one record by two patterns", "8 1 9, ?0 1 9, 8 2 9", [&["600 ?0=8"][..], &["300 ?0=8"][..]], 1),
        ("one by two, apart", "?0 1 ?1, 8 2 9, 8 1 ?1", [&["600 ?0=8 ?1=9"], &["300 ?0=8 ?1=9"]], 1),
        (
            "each with each",
            "8 ?2 9, 8 ?3 9",
            [
                &["300 ?2=1 ?3=1", "600 ?2=1 ?3=2", "600 ?2=2 ?3=1", "900 ?2=2 ?3=2"],
                &["300 ?2=1 ?3=1", "300 ?2=1 ?3=2", "300 ?2=2 ?3=1", "900 ?2=2 ?3=2"],
            ],
            4,
        ),
    ] {
        test(&mut store, what, &set(patterns), rows, [peak, 0]);
    }
    // Known means behind unknown ones, among rows of one set.
    store.table = table("? 300 900");
    let rows = |trusts: [&str; 9]| -> Vec<String> {
        let row = |(i, trust): (usize, &str)| format!("{trust} ?2={} ?3={}", 1 + i / 3, 1 + i % 3);
        trusts.into_iter().enumerate().map(row).collect()
    };
    let by_mean = rows(["?", "?", "?", "?", "300", "600", "?", "600", "900"]);
    let by_least = rows(["?", "?", "?", "?", "300", "300", "?", "300", "900"]);
    let [by_mean, by_least] = [&by_mean, &by_least].map(|rows| rows.iter().map(String::as_str).collect::<Vec<_>>());
    test(&mut store, "unknown, then known", &set("8 ?2 9, 8 ?3 9"), [&by_mean, &by_least], [9, 0]);
}

/// Sums of some trusts and their means, about 0: on both sides of each place where the mean changes.
const SUMS: [(usize, &[(i32, i32)]); 4] = [
    (2, &[(-5, -3), (-4, -2), (-3, -2), (-2, -1), (-1, -1), (0, 0), (1, 0), (2, 1), (3, 1), (4, 2), (5, 2)]),
    (
        3,
        &[
            (-7, -3), // -2.33
            (-6, -2),
            (-5, -2), // -1.67
            (-4, -2), // -1.33
            (-3, -1),
            (-2, -1), // -0.67
            (-1, -1), // -0.33
            (0, 0),
            (1, 0), // 0.33
            (2, 0), // 0.67
            (3, 1),
            (4, 1), // 1.33
            (5, 1), // 1.67
            (6, 2),
            (7, 2), // 2.33
        ],
    ),
    (
        7,
        &[
            (-15, -3), // -2.14
            (-14, -2),
            (-13, -2), // -1.86
            (-8, -2),  // -1.14
            (-7, -1),
            (-6, -1), // -0.86
            (-4, -1), // -0.57
            (-3, -1), // -0.43
            (-1, -1), // -0.14
            (0, 0),
            (1, 0), // 0.14
            (3, 0), // 0.43
            (4, 0), // 0.57
            (6, 0), // 0.86
            (7, 1),
            (8, 1),  // 1.14
            (13, 1), // 1.86
            (14, 2),
        ],
    ),
    (
        15,
        &[
            (-31, -3), // -2.07
            (-30, -2),
            (-29, -2), // -1.93
            (-16, -2), // -1.07
            (-15, -1),
            (-14, -1), // -0.93
            (-8, -1),  // -0.53
            (-7, -1),  // -0.47
            (-1, -1),  // -0.07
            (0, 0),
            (1, 0),  // 0.07
            (7, 0),  // 0.47
            (8, 0),  // 0.53
            (14, 0), // 0.93
            (15, 1),
            (16, 1), // 1.07
            (29, 1), // 1.93
            (30, 2),
        ],
    ),
];

/// The trusts of a sum are 400, zeros, and what remains, which is the least of them.
pub fn sums(report: &mut Report) {
    let mut store = Store::new(vec![], Choice::Mean, report);
    for (count, sums) in SUMS {
        let records: Vec<String> = (1..=count).map(|record| record.to_string()).collect();
        for (sum, mean) in sums {
            let rest = sum - 400;
            let trusts = ["400".to_string(), " 0".repeat(count - 2), format!(" {rest}")].concat();
            let by_choice = [mean.to_string(), rest.to_string()];
            let what = format!("the sum {sum} of {count}");
            test_set(&mut store, &what, &trusts, &records.join(" "), by_choice.each_ref().map(String::as_str));
        }
    }
}

/// Every number of records and every remainder: so many records of a mean, and the others a thousandth above it, the first with 400 more
/// and the last with 400 less. The sum is the number of records times the mean, and the remainder.
pub fn remainders(report: &mut Report) {
    let mut store = Store::new(vec![], Choice::Mean, report);
    for count in 2..=15 {
        let records: Vec<String> = (1..=count).map(|record| record.to_string()).collect();
        for (rest, mean) in (0..count).flat_map(|rest| [-600, -1, 0, 599].map(|mean| (rest, mean))) {
            let mut trusts: Vec<i32> = (0..count).map(|place| mean + i32::from(place < rest)).collect();
            trusts[0] += 400;
            trusts[count - 1] -= 400;
            let trusts: Vec<String> = trusts.iter().map(i32::to_string).collect();
            let by_choice = [mean, mean - 400].map(|trust| trust.to_string());
            let what = format!("{count} records, remainder {rest}, mean {mean}");
            test_set(&mut store, &what, &trusts.join(" "), &records.join(" "), by_choice.each_ref().map(String::as_str));
        }
    }
}

/// Fourteen records of the trusts 1, 4, 9 and so on, and one of them once more, behind the others and before them. Their sum is 1015, and
/// 72 the mean: 14 * 72 = 1008. If the record counted twice the sum would be between 15 * 72 = 1080 and 15 * 73 = 1095 only with a square
/// from 65 to 79, and there is none.
pub fn places(report: &mut Report) {
    let trusts: Vec<String> = (1..=14).map(|i| (i * i).to_string()).collect();
    let all: Vec<String> = (1..=14).map(|record: u32| record.to_string()).collect();
    let (trusts, all) = (trusts.join(" "), all.join(" "));
    let mut store = Store::new(vec![], Choice::Mean, report);
    for record in 1..=14 {
        for (what, records) in [("behind", format!("{all} {record}")), ("before", format!("{record} {all}"))] {
            test_set(&mut store, &format!("record {record} {what} all"), &trusts, &records, ["72", "1"]);
        }
    }
}

/// On 65,535 records, of which the first has the trust 1000 and all others 0: with another record it has the mean 500, with two 333.
pub fn far_apart(report: &mut Report) {
    let first_alone = |subject| ([subject, 1, 1], Some(if subject == 1 { 1_000 } else { 0 }));
    let table = tables::facts(&(1..=MOST_RECORDS as u32).map(first_alone).collect::<Vec<_>>());
    let mut spaces = Spaces::new(2);
    let mut test = |what: &str, patterns: &str, trust| {
        let query = vectors::query(&set(patterns));
        let evaluation = Evaluation { rows: printed::rows(&[trust]), space: 1, pairs: 0 };
        let inputs = (&table[..], &query[..], Choice::Mean);
        spaces.test(report, &format!("means, {what}"), inputs, &Outcome::Rows(evaluation), ROW_WORDS);
    };
    // A record behind the first by a power of two has all lower bits of its number alike.
    for apart in (0..16).map(|power| 1 << power).chain([MOST_RECORDS - 1]) {
        let other = apart + 1;
        test(&format!("the first and one {apart} behind"), &format!("1 1 1, {other} 1 1"), "500");
        test(&format!("one and the first {apart} before"), &format!("{other} 1 1, 1 1 1, {other} 1 1"), "500");
        test(&format!("the first, one {apart} behind, the last but one"), &format!("1 1 1, {other} 1 1, 65534 1 1"), "333");
    }
}

// ---- Other nodes

/// What a node is about, the node with the names of sets, and its rows by mean and by least.
type Node<'a> = (&'a str, &'a str, Rows<'a>);

/// Sets of records that have the trusts 300, 900, 400, 600, unknown, -5 and -1000.
const TRUSTS: &str = "300 900 400 600 ? -5 -1000";
const SETS: [(&str, &str); 7] = [
    ("{600}", "1 2"),  // the least is 300
    ("{500}", "3 4"),  // 400
    ("{650}", "2 3"),  // 400
    ("{147}", "1 6"),  // -5; the mean is 147.5
    ("{-503}", "6 7"), // -1000; the mean is -502.5
    ("{?}", "1 5"),
    ("{four}", "4"), // 600, of one record
];

/// Two sets of one row each in a join, whose merge has the lesser trust, never a mean of both: of the first two that were 550.
const JOINS: [Node; 12] = [
    ("a join", "10 {600} {500}", [&["500"], &["300"]]),
    ("a join, the other order", "10 {500} {600}", [&["500"], &["300"]]),
    ("a join of sets with a record in both", "10 {600} {650}", [&["600"], &["300"]]),
    ("a join of a set with itself", "10 {600} {600}", [&["600"], &["300"]]),
    ("a join, below 0", "10 {147} {-503}", [&["-503"], &["-1000"]]),
    ("a join with an unknown mean", "10 {600} {?}", [&["?"], &["?"]]),
    ("a join of an unknown mean", "10 {?} {600}", [&["?"], &["?"]]),
    ("a join with the empty set", "10 {600} 00", [&["600"], &["300"]]),
    ("a left join", "20 70 {600} {500}", [&["500"], &["300"]]),
    ("a left join with an unknown mean", "20 70 {600} {?}", [&["?"], &["?"]]),
    ("a left join, false", "20 4070 {600} {500}", [&["600"], &["300"]]),
    ("a left join, an error", "20 10 07 {600} {500}", [&["600"], &["300"]]),
];

/// Means in cells; the first six have one row of space, the others are joins of one row with one.
const CELLS: [Node; 11] = [
    ("project trust", "5f {600}", [&["600 ?15=t600"], &["300 ?15=t300"]]),
    ("project trust, rounded", "5f {147}", [&["147 ?15=t147"], &["-5 ?15=t-5"]]),
    ("project trust, below 0", "5f {-503}", [&["-503 ?15=t-503"], &["-1000 ?15=t-1000"]]),
    ("project trust, unknown", "5f {?}", [&["? ?15=t?"], &["? ?15=t?"]]),
    ("project trust in a bound of 500 to 1000", "E 5f {600}", [&["600 ?15=t600"], &[]]),
    ("a bound of 500 to 1000 in project trust", "5f E {500}", [&["500 ?15=t500"], &[]]),
    ("project trust of a join", "5f 10 {600} {500}", [&["500 ?15=t500"], &["300 ?15=t300"]]),
    ("a join of project trusts", "10 5e {600} 5f {500}", [&["500 ?14=t600 ?15=t500"], &["300 ?14=t300 ?15=t400"]]),
    ("less by mean alone", "40 3f 0e 10 5e {600} 5f {500}", [&["500 ?14=t600 ?15=t500"], &[]]),
    ("less by least alone", "40 3e 0f 10 5e {600} 5f {500}", [&[], &["300 ?14=t300 ?15=t400"]]),
    ("a left join on less", "20 3f 0e 5e {600} 5f {500}", [&["500 ?14=t600 ?15=t500"], &["300 ?14=t300"]]),
];

/// A text with the sets in the place of their names.
fn named(text: &str) -> String {
    SETS.iter().fold(text.to_string(), |text, (name, records)| text.replace(name, &of(records)))
}

pub fn other_nodes(report: &mut Report) {
    let mut store = Store::new(table(TRUSTS), Choice::Mean, report);
    let (alone, joined) = ([1, 0], [3, 1]);
    for (known, counts) in [(&JOINS[..], joined), (&CELLS[..6], alone), (&CELLS[6..], joined)] {
        for (what, text, rows) in known {
            test(&mut store, what, &named(text), *rows, counts);
        }
    }
    for (what, text, rows, counts) in [
        ("a join in a join, left", "10 10 {600} {500} {650}", [&["500"][..], &["300"][..]], [3, 2]),
        ("a join in a join, right", "10 {600} 10 {650} {500}", [&["500"], &["300"]], [4, 2]),
        ("a left join with nothing", "20 70 {600} N", [&["600"], &["300"]], [2, 0]),
        ("a union", "30 {600} {500}", [&["600", "500"], &["300", "400"]], [2, 0]),
        ("a filter", "40 70 {-503}", [&["-503"], &["-1000"]], [1, 0]),
        ("equal means", "40 1e 0f 10 5e {600} 5f {four}", [&["600 ?14=t600 ?15=t600"], &[]], [3, 1]),
    ] {
        test(&mut store, what, &named(text), rows, counts);
    }
}

/// Queries about as long as the call takes: a set below 2,500 filters, and 250 sets of 19 bytes in unions and in joins.
pub fn long_queries(report: &mut Report) {
    let mut store = Store::new(table(TRUSTS), Choice::Mean, report);
    let (one, sets) = (named("{600}"), named("{600}").repeat(250));
    test(&mut store, "filters", &format!("{} {one}", "4070".repeat(2_500)), [&["600"], &["300"]], [1, 0]);
    test(&mut store, "unions", &format!("{} {sets}", "30".repeat(249)), [&["600"; 250], &["300"; 250]], [250, 0]);
    test(&mut store, "joins", &format!("{} {sets}", "10".repeat(249)), [&["600"], &["300"]], [3, 249]);
}

/// Two trusts, their mean and least, and bounds: the lower, the upper, and whether the row is kept by mean and by least.
const BOUNDS: [(&str, [&str; 2], &[(i32, i32, [bool; 2])]); 3] = [
    (
        "-5 -1000",
        ["-503", "-1000"], // -502.5
        &[
            (-504, 1_000, [true, false]),
            (-503, 1_000, [true, false]),
            (-502, 1_000, [false, false]),
            (-1_000, -504, [false, true]),
            (-1_000, -503, [true, true]),
            (-1_000, -502, [true, true]),
            (-503, -503, [true, false]),
            (-502, -503, [false, false]),
            (-1_000, -1_000, [false, true]),
        ],
    ),
    (
        "5 1000",
        ["502", "5"], // 502.5
        &[
            (501, 1_000, [true, false]),
            (502, 1_000, [true, false]),
            (503, 1_000, [false, false]),
            (-1_000, 501, [false, true]),
            (-1_000, 502, [true, true]),
            (-1_000, 503, [true, true]),
            (502, 502, [true, false]),
            (5, 5, [false, true]),
            (-1_000, 1_000, [true, true]),
        ],
    ),
    ("5 ?", ["?", "?"], &[(-1_000, 1_000, [false, false])]),
];

pub fn bounds(report: &mut Report) {
    let mut store = Store::new(vec![], Choice::Mean, report);
    for (trusts, row, bounds) in BOUNDS {
        store.table = table(trusts);
        for (low, high, [by_mean, by_least]) in bounds {
            let query = format!("60 {:03x}{:03x} {}", low + 1_000, high + 1_000, of("1 2"));
            let rows = [(&row[..1], by_mean), (&row[1..], by_least)].map(|(row, kept)| if *kept { row } else { &[] });
            test(&mut store, &format!("{low} to {high} on {trusts}"), &query, rows, [1, 0]);
        }
    }
}

// ---- Queries beside their rewritings

/// L is {?0 10 ?1, ?0 20 ?2} and R is {?0 30 ?3, ?0 40 ?4}: a row of each for every subject. The means of L are 500, 499, 0 and unknown,
/// those of R 550, 950, 1000 and 0. The least are 100, 499, -1000 and unknown, and 400, 900, 1000 and 0.
const FACTS: [([u32; 3], Trust); 16] = [
    ([1, 10, 5], Some(900)),
    ([1, 20, 6], Some(100)),
    ([1, 30, 7], Some(700)),
    ([1, 40, 8], Some(400)),
    ([2, 10, 5], Some(499)),
    ([2, 20, 6], Some(500)),
    ([2, 30, 7], Some(900)),
    ([2, 40, 8], Some(1_000)),
    ([3, 10, 5], Some(-1_000)),
    ([3, 20, 6], Some(1_000)),
    ([3, 30, 7], Some(1_000)),
    ([3, 40, 8], Some(1_000)),
    ([4, 10, 5], Some(1_000)),
    ([4, 20, 6], None),
    ([4, 30, 7], Some(0)),
    ([4, 40, 8], Some(0)),
];

/// Of a choice: the rows of a query and its rewriting, and the peak and pairs of each.
type Listed<'a> = (&'a [&'a str], [[u64; 2]; 2]);

/// What a query is about, the query and its rewriting, and what they list by mean and by least.
type Rewriting<'a> = (&'a str, [&'a str; 2], [Listed<'a>; 2]);

const REWRITINGS: [Rewriting; 6] = [
    (
        "a floor of 500 on a join",
        ["E 10 L R", "10 E L E R"],
        // One row of L by three of R; none by two.
        [(&["500 ?0=1 ?1=5 ?2=6 ?3=7 ?4=8"], [[12, 16], [5, 3]]), (&[], [[12, 16], [4, 0]])],
    ),
    (
        "a floor of 499 on a join",
        ["60 5db7d0 10 L R", "10 60 5db7d0 L 60 5db7d0 R"],
        // Two rows of L by three of R; one by two.
        [
            (&["500 ?0=1 ?1=5 ?2=6 ?3=7 ?4=8", "499 ?0=2 ?1=5 ?2=6 ?3=7 ?4=8"], [[12, 16], [7, 6]]),
            (&["499 ?0=2 ?1=5 ?2=6 ?3=7 ?4=8"], [[12, 16], [5, 2]]),
        ],
    ),
    (
        "a roof of 200 on a join",
        ["60 0004b0 10 L R", "60 0004b0 10 60 0007d0 L 60 0007d0 R"],
        // -1000 to 1000 drops the unknown trust: three rows of L by four of R.
        [
            (&["0 ?0=3 ?1=5 ?2=6 ?3=7 ?4=8"], [[12, 16], [10, 12]]),
            (&["100 ?0=1 ?1=5 ?2=6 ?3=7 ?4=8", "-1000 ?0=3 ?1=5 ?2=6 ?3=7 ?4=8"], [[12, 16], [10, 12]]),
        ],
    ),
    (
        "a floor of 500 on a left join",
        ["E 20 70 L R", "E 20 70 E L R"],
        // One row of L by four of R; none.
        [(&["500 ?0=1 ?1=5 ?2=6 ?3=7 ?4=8"], [[12, 16], [6, 4]]), (&[], [[12, 16], [4, 0]])],
    ),
    (
        "a floor of 500 on a left join, false",
        ["E 20 4070 L R", "E 20 4070 E L R"],
        [(&["500 ?0=1 ?1=5 ?2=6"], [[12, 16], [6, 4]]), (&[], [[12, 16], [4, 0]])],
    ),
    (
        "a floor of 500 on a union and a project trust",
        ["E 30 5f L R", "30 5f E L E R"],
        [
            (
                &["500 ?0=1 ?1=5 ?2=6 ?15=t500", "550 ?0=1 ?3=7 ?4=8", "950 ?0=2 ?3=7 ?4=8", "1000 ?0=3 ?3=7 ?4=8"],
                [[8, 0], [5, 0]],
            ),
            (&["900 ?0=2 ?3=7 ?4=8", "1000 ?0=3 ?3=7 ?4=8"], [[8, 0], [4, 0]]),
        ],
    ),
];

/// A query and its rewriting list alike, by one choice for both.
pub fn rewritings(report: &mut Report) {
    let mut store = Store::new(tables::facts(&FACTS), Choice::Mean, report);
    let sets = [('L', set("?0 10 ?1, ?0 20 ?2")), ('R', set("?0 30 ?3, ?0 40 ?4"))];
    for (what, queries, [by_mean, by_least]) in REWRITINGS {
        let queries = queries.map(|text| sets.iter().fold(text.to_string(), |text, (name, set)| text.replace(*name, set)));
        for (choice, (rows, counts)) in [(Choice::Mean, by_mean), (Choice::Least, by_least)] {
            store.choice = choice;
            let what = format!("means, {what}, by {choice:?}");
            store.test_rewriting(&what, queries.each_ref().map(String::as_str), &printed::rows(rows), counts);
        }
    }
}

// ---- Words

/// The words of a row: ?15 has the row's trust.
pub fn words(report: &mut Report) {
    let query = vectors::query(&format!("5f {}", of("1 2")));
    for (trusts, [by_mean, by_least]) in [
        ("-5 -1000", [497, 0]), // -503
        ("5 1000", [1_502, 1_005]),
        ("1000 1000", [2_000, 2_000]),
        ("-1000 -1000", [0, 0]),
        ("-1 0", [999, 999]), // -1
        ("1000 ?", [2_001, 2_001]),
    ] {
        for (choice, trust) in [(Choice::Mean, by_mean), (Choice::Least, by_least)] {
            let row = [0, 0, 0, 0, 0, 0, 0, 0, 0, 0, 0, 0, 0, 0, 0, 1_048_576 + trust, trust];
            known_rows::test_words(report, "means, word by word", (&table(trusts), &query, choice), [1, 0], row);
        }
    }
}
