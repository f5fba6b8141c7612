//! Joins and left joins of many rows. With at least 1,024 pairs a left row is not tried with every right row, but with
//! those whose words for one or two variables, the keys, fall into the same bucket; what is listed, and in which order,
//! must be the same. Keys are set in all rows, or else in all right rows and the last left row.

use crate::compared::Compared;
use crate::conditions::Truth;
use crate::left_rows;
use crate::paper::{self, refusal, Choice, Inputs, Kind, Node, Record, Slot, CHECK_LIMIT};
use crate::random::Random;
use crate::report::Report;
use crate::rows::{self, Evaluation, Outcome, Row, Seen, Trust, Value, MOST_ROWS};
use crate::spaces::{self, Spaces};
use crate::tables::{self, trust_of};
use crate::vectors::{self, set};
use std::collections::{BTreeSet, HashMap};

/// The least number of pairs for which buckets are made.
const MANY_PAIRS: u64 = 1_024;

type Fact = ([u32; 3], Trust);

// ---- Queries as text

fn union(one: &str, other: &str) -> String {
    format!("30 {one} {other}")
}

fn join(left: &str, right: &str) -> String {
    format!("10 {left} {right}")
}

fn left_join(condition: &str, left: &str, right: &str) -> String {
    format!("20 {condition} {left} {right}")
}

/// The join of two operands, and their left joins on each of some conditions.
fn joins(conditions: &[&str], left: &str, right: &str) -> Vec<String> {
    let left_joins = conditions.iter().map(|condition| left_join(condition, left, right));
    [join(left, right)].into_iter().chain(left_joins).collect()
}

/// Conditions on merges in which ?2 is 1 in some and ?15 is free: always true, always false, true or false, always an
/// error, true or an error, an error or false, false or true.
const CONDITIONS: [&str; 7] =
    ["70", "40 70", "22 000001", "1f 0f", "60 22 000001 1f 0f", "50 22 000001 1f 0f", "40 22 000001"];

// ---- Tests of a table

struct Store<'a> {
    table: Vec<u8>,
    spaces: Spaces,
    random: Random,
    report: &'a mut Report,
}

impl Store<'_> {
    /// A table of these facts, in any order.
    fn new(mut facts: Vec<Fact>, seed: u64, report: &mut Report) -> Store<'_> {
        facts.sort();
        Store { table: tables::facts(&facts), spaces: Spaces::new(seed), random: Random::new(seed), report }
    }

    /// In row spaces that are just too short and just long enough, and another.
    fn test_outcome(&mut self, what: &str, query: &[u8], outcome: &Outcome) {
        let lengths = spaces::lengths(outcome);
        for words in [lengths[0], lengths[1], self.random.pick(&lengths[2..])] {
            self.spaces.test(self.report, what, (&self.table, query, Choice::Least), outcome, words);
        }
    }

    /// Tests a query by rows.rs; answers how many pairs it has.
    fn test(&mut self, what: &str, query: &str) -> u64 {
        let query = vectors::query(query);
        let outcome = rows::evaluate((&self.table, &query, Choice::Least));
        self.test_outcome(what, &query, &outcome);
        match outcome {
            Outcome::Rows(evaluation) => evaluation.pairs,
            _ => panic!("{what}: no rows by rows.rs"),
        }
    }

    /// Tests joins with many pairs.
    fn test_many(&mut self, what: &str, queries: &[String]) {
        for query in queries {
            let pairs = self.test(what, query);
            self.report.case(pairs >= MANY_PAIRS, || format!("{what}: only {pairs} pairs of {query}"));
        }
    }
}

// ---- Buckets

/// The bucket of the words of two keys; of one key the word stands for both.
fn bucket(x: u32, y: u32) -> u64 {
    (u64::from(x) * 1_779_033_703 + u64::from(y) * 1_572_067_139) / 524_288 % 8_192
}

/// Right rows that all have one bucket: with different words, or all with the same.
pub fn one_bucket(report: &mut Report) {
    const BUCKET: u64 = 4_321;
    let terms: Vec<u32> = (1..1_048_576).filter(|term| bucket(*term, *term) == BUCKET).take(80).collect();
    assert_eq!(terms.len(), 80);
    let other = |subject: u32| (1..1_048_576).filter(move |object| bucket(subject, *object) == BUCKET);
    let two: Vec<[u32; 2]> =
        (1..=40).flat_map(|subject| other(subject).take(2).map(move |object| [subject, object])).collect();
    assert_eq!(two.len(), 80);
    let mut facts: Vec<Fact> = Vec::new();
    // One key: predicates 11 (left) and 12 (right). Some left rows have no partner in the bucket, some another bucket.
    for (i, term) in (0..).zip(&terms) {
        if i % 2 == 0 {
            facts.push(([*term, 11, 1 + i % 3], trust_of(i)));
        }
        if i < 60 {
            facts.extend([1, 2].map(|object| ([*term, 12, object], trust_of(i + object))));
        }
    }
    facts.extend((1..=9).map(|term| ([term, 11, 1], trust_of(term))));
    // Two keys: predicates 21 and 22, and 23 for two right rows with each pair of words.
    for (i, [subject, object]) in (0..).zip(&two) {
        if i % 3 != 0 {
            facts.push(([*subject, 21, *object], trust_of(i)));
        }
        if i % 5 != 0 {
            facts.push(([*subject, 22, *object], trust_of(i + 1)));
        }
    }
    facts.extend((1..=9).map(|object| ([7, 21, object], trust_of(object))));
    facts.extend([1, 2].map(|object| ([7, 23, object], trust_of(object))));
    // The same words in all right rows: predicate 32 has one subject, and 33 with 34 one subject and object.
    facts.extend((1..=40).map(|i| ([i, 31, 1 + i % 12], trust_of(i))));
    facts.extend((1..=40).map(|object| ([9, 32, object], trust_of(object))));
    facts.extend((21..=24).map(|object| ([9, 31, object], trust_of(object))));
    facts.push(([9, 33, 10], Some(500)));
    facts.extend((1..=40).map(|object| ([7, 34, object], trust_of(object))));
    let mut store = Store::new(facts, 21, report);
    for (what, left, right) in [
        ("one bucket, one key", "?0 11 ?1", "?0 12 ?2"),
        ("one bucket, two keys", "?0 21 ?1", "?0 22 ?1, 7 23 ?2"),
        ("one word", "?0 31 ?1", "?0 32 ?2"),
        ("two words", "?0 31 ?1", "?0 33 ?1, 7 34 ?2"),
        ("two words, and a variable more in both", "?0 33 ?1, 7 34 ?2", "?0 33 ?1, 7 34 ?2"),
    ] {
        store.test_many(what, &joins(&CONDITIONS, &set(left), &set(right)));
        store.test_many(what, &joins(&CONDITIONS, &set(right), &set(left)));
    }
}

// ---- Variables that are set in some rows

/// Operands that have a variable in all rows, in the first, the last, some in the middle, or none; all with all.
pub fn set_in_some(report: &mut Report) {
    let mut facts: Vec<Fact> = Vec::new();
    for i in 1..=33 {
        facts.push(([i, 1, 1 + i % 4], trust_of(i)));
        facts.push(([i + 11, 2, 1 + i % 5], trust_of(i + 1)));
        facts.push(([i * 3, 3, i], trust_of(i + 2)));
    }
    facts.push(([17, 4, 2], Some(10)));
    let mut store = Store::new(facts, 22, report);
    let (first, second, apart, one) = (set("?0 1 ?2"), set("?0 2 ?1"), set("?5 3 ?6"), set("?0 4 ?2"));
    let never = |node: &str| format!("40 4070 {node}");
    let operands = [
        first.clone(),
        second.clone(),
        apart.clone(),
        union(&first, &second),
        union(&first, &apart),
        union(&apart, &second),
        union(&apart, &union(&first, &apart)),
        // Of ?0 and ?1 first none or one, then one or none, then both.
        union(&apart, &union(&first, &second)),
        union(&set("?1 3 ?6"), &union(&apart, &second)),
        union(&one, &union(&apart, &one)),
        union(&one, &apart),
        union(&apart, &one),
        union(&set("?0 1 ?5"), &set("?2 2 ?6")),
        left_join("70", &apart, &set("?6 2 ?0")),
        left_join("22 000001", &set("?6 2 ?1"), &set("?6 1 ?2")),
        // ?0 is free in all rows.
        left_join("4070", &apart, &first),
        union(&apart, &never(&first)),
    ];
    for left in &operands {
        for right in &operands {
            store.test_many("set in some rows", &joins(&["70", "22 000001", "60 25 000003 10 02"], left, right));
        }
    }
}

/// Trusts in cells. No accepted query has a term and a trust, or two trusts, for one variable in the two operands of a
/// join: that of a project trust stands in no pattern and in no other project trust (refusal 7), so it is set in rows of
/// one operand only. It can be set in all rows of that one, and is no key then.
pub fn trusts(report: &mut Report) {
    let facts = (1..=40).flat_map(|i| [([i, 1, 1 + i % 3], trust_of(i)), ([i + 5, 2, 1 + i % 4], trust_of(3 * i))]);
    let mut store = Store::new(facts.collect(), 23, report);
    let (one, other, apart) = (set("?3 1 ?4"), set("?3 2 ?5"), set("?7 2 ?8"));
    // Below and above the keys; the second is for the other operand.
    for [v, w] in ["0f", "f0", "01", "ed"].map(|digits| [&digits[..1], &digits[1..]].map(str::to_string)) {
        let conditions = [format!("3{v} 0{w}"), format!("0{v}"), format!("1{v} 0{w}"), format!("40 3{w} 0{v}")];
        let conditions = conditions.each_ref().map(String::as_str);
        let project = |variable: &str, node: &str| format!("5{variable} {node}");
        let lefts = [
            project(&v, &one),
            union(&project(&v, &one), &apart),
            union(&apart, &project(&v, &one)),
            project(&v, &union(&one, &apart)),
            project(&v, &left_join("70", &one, &other)),
            left_join("70", &one, &project(&v, &other)),
        ];
        let rights = [other.clone(), project(&w, &other), union(&project(&w, &other), &apart), apart.clone()];
        for left in &lefts {
            for right in &rights {
                store.test_many("trusts in cells", &joins(&conditions, left, right));
                store.test_many("trusts in cells", &joins(&conditions, right, left));
            }
        }
    }
    for (what, query, place) in [
        ("a trust and a term", join(&format!("53 {other}"), &one), 1),
        ("a term and a trust", join(&one, &format!("53 {}", set("?1 2 ?2"))), 11),
        ("two trusts", join(&format!("50 {one}"), &format!("50 {one}")), 1),
    ] {
        store.test_outcome(what, &vectors::query(&query), &Outcome::Refused(refusal(7, place)));
    }
}

// ---- Numbers of rows

/// Numbers of pairs about 1,024, where all rows match, each left row one right row, or none.
pub fn about_many_pairs(report: &mut Report) {
    let sides = [(31, 33), (32, 32), (25, 41), (1, 1_023), (1, 1_024), (1, 1_025), (2, 512), (341, 3), (3, 342)];
    let reversed = sides.map(|(a, b)| (b, a));
    for (a, b) in sides.into_iter().chain(reversed) {
        let side = |predicate, count: u32, apart: u32| {
            (1..=count).flat_map(move |i| {
                // With predicate + 2 all have one subject; with predicate + 4 no subject is on both sides.
                [
                    ([i, predicate, i], trust_of(i)),
                    ([1, predicate + 2, i], trust_of(i)),
                    ([i + apart, predicate + 4, i], Some(1)),
                ]
            })
        };
        let mut store = Store::new(side(1, a, 0).chain(side(2, b, 5_000)).collect(), 24, report);
        for [left, right] in [[1, 2], [3, 4], [5, 6], [1, 4], [5, 4]] {
            let (left, right) = (set(&format!("?0 {left} ?1")), set(&format!("?0 {right} ?2")));
            for query in joins(&["70", "22 000001", "1f 0f", "60 22 000005 1f 0f"], &left, &right) {
                let what = format!("{a} and {b} rows");
                let pairs = store.test(&what, &query);
                store.report.case(pairs == u64::from(a * b), || format!("{what}: {pairs} pairs"));
            }
        }
    }
}

/// One row by as many as have room beside it: the one partner stands first or last, or all are partners of it.
pub fn longest(report: &mut Report) {
    let most = MOST_ROWS as u32 - 2;
    let half = MOST_ROWS as u32 / 2;
    let each = |partner: u32| (1..=most).map(|i| ([i, 2, 1 + i % 3], trust_of(i))).chain([([partner, 1, 5], Some(9))]);
    let all = (1..=half).map(|i| ([7, 2, i], trust_of(i))).chain([([7, 1, 5], Some(9))]);
    for (what, facts) in [("first", each(1).collect()), ("last", each(most).collect()), ("all", all.collect())] {
        let mut store = Store::new(facts, 28, report);
        let (one, many) = (set("?0 1 ?1"), set("?0 2 ?2"));
        let what = format!("one row by many, partners: {what}");
        store.test_many(&what, &joins(&["70"], &one, &many));
        store.test_many(&what, &[join(&many, &one)]);
    }
}

/// What a join lists, or by a condition a left join. Right rows are found by their values of `keys`, which are set in all
/// rows and are the only variables of both operands: to try all pairs, as rows.rs does, would take too long.
fn found_by_keys(left: &[Row], right: &[Row], keys: &[u32], condition: Option<fn(&Row) -> Truth>) -> Vec<Row> {
    let key = |row: &Row| keys.iter().map(|variable| row.words()[*variable as usize]).collect::<Vec<u32>>();
    let mut partners: HashMap<Vec<u32>, Vec<&Row>> = HashMap::new();
    for row in right {
        partners.entry(key(row)).or_default().push(row);
    }
    let mut listed = Vec::new();
    for row in left {
        let merges = partners.get(&key(row)).into_iter().flatten().map(|partner| row.merged(partner));
        let Some(condition) = condition else {
            listed.extend(merges);
            continue;
        };
        let before = listed.len();
        listed.extend(merges.filter(|merge| condition(merge) == Some(true)));
        if listed.len() == before {
            listed.push(row.clone());
        }
    }
    listed
}

/// The rows of the records with one predicate: subject and object in variables, and their trust in ?14 or ?15.
fn with_trusts(records: &[Record], [subject, predicate, object]: [u32; 3], trust: u32) -> Vec<Row> {
    let pattern = [Slot::Variable(subject), Slot::Term(predicate), Slot::Variable(object)];
    let mut rows: Vec<Row> = records.iter().filter_map(|record| rows::matched(&pattern, record)).collect();
    for row in &mut rows {
        row.values.insert(trust, Value::Trust(row.trust));
    }
    rows
}

/// Whether the left row's trust is less than the right row's.
fn less(row: &Row) -> Truth {
    match (row.values[&14], row.values[&15]) {
        (Value::Trust(Some(one)), Value::Trust(Some(other))) => Some(one < other),
        _ => None,
    }
}

/// 20,000 rows by 20,000, of which about all have one partner: by one key in another order, and by two, crossed.
pub fn twenty_thousand(report: &mut Report) {
    const ROWS: u32 = 20_000;
    let mut facts: Vec<Fact> = Vec::new();
    for i in 0..ROWS {
        // Numbers in other orders; some are there twice, and so others not at all.
        let shuffled = |factor: u32| 1 + (i - u32::from(i % 50 == 1)) * factor % ROWS;
        facts.push(([1 + i, 1, shuffled(7_919)], trust_of(i)));
        facts.push(([1 + i, 2, shuffled(101)], trust_of(i + 2)));
        // The subjects and objects of predicate 1, crossed, but for some.
        facts.push(([shuffled(7_919), 3, if i % 40 == 0 { ROWS + 5 } else { 1 + i }], trust_of(i * 5 + 4)));
    }
    let mut store = Store::new(facts, 25, report);
    let records = paper::records(&store.table).expect("a sound table");
    for (what, left, right, keys) in
        [("one key", [1, 1, 0], [2, 2, 0], &[0][..]), ("two keys", [0, 1, 1], [1, 3, 0], &[0, 1][..])]
    {
        let (left_rows, right_rows) = (with_trusts(&records, left, 14), with_trusts(&records, right, 15));
        let (a, b) = (left_rows.len(), right_rows.len());
        let [left, right] = [(left, 14), (right, 15)].map(|([subject, predicate, object], trust)| {
            format!("5{trust:x} {}", set(&format!("?{subject} {predicate} ?{object}")))
        });
        for (condition, query) in [
            (None, join(&left, &right)),
            (Some((|_| Some(true)) as fn(&Row) -> Truth), left_join("70", &left, &right)),
            (Some(less as fn(&Row) -> Truth), left_join("3e 0f", &left, &right)),
        ] {
            let listed = found_by_keys(&left_rows, &right_rows, keys, condition);
            let many = a == ROWS as usize && b == a && listed.len() > a / 2;
            let what = format!("{what}: {} rows of {a} and {b}", listed.len());
            store.report.case(many, || format!("{what} are too few"));
            let evaluation = Evaluation { space: a + b + listed.len(), rows: listed, pairs: a as u64 * b as u64 };
            let (query, outcome) = (vectors::query(&query), Outcome::Rows(evaluation));
            for words in &spaces::lengths(&outcome)[..2] {
                store.spaces.test(store.report, &what, (&store.table, &query, Choice::Least), &outcome, *words);
            }
        }
    }
}

// ---- Random cases

const RANDOM_CASES: usize = 4_000;
/// Random cases are evaluated as far as so many rows of space, and left out if they take more steps.
const MOST_SPACE: usize = 4_000;
const MOST_STEPS: u64 = 200_000;

/// What the queries of one table are made of.
struct Maker<'a> {
    random: &'a mut Random,
    predicates: Vec<u32>,
    objects: Vec<u32>,
    variables: Vec<u8>,
    /// For project trusts, once each.
    to_project: Vec<u8>,
    in_conditions: Vec<u8>,
}

impl Maker<'_> {
    fn variable(&mut self) -> String {
        format!("?{}", self.random.pick(&self.variables))
    }

    /// Of one pattern, mostly with a predicate; or of two, the second of which has a variable of the first.
    fn pattern_set(&mut self) -> String {
        let [one, mut other, third] = [0; 3].map(|_| self.variable());
        let [predicate, second] = [0; 2].map(|_| self.random.pick(&self.predicates));
        match self.random.below(15) {
            0 => other = self.random.pick(&self.objects).to_string(),
            1 => return set(&format!("{one} {third} {other}")),
            2 => return set(&format!("{one} {predicate} {other}, {other} {second} {third}")),
            3 => return set(&format!("{one} {predicate} {other}, {one} {second} {third}")),
            _ => {}
        }
        // A variable twice leaves few rows.
        if one == other {
            other = third;
        }
        set(&format!("{one} {predicate} {other}"))
    }

    fn condition(&mut self, depth: usize) -> String {
        let [v, w] = [0; 2].map(|_| self.random.pick(&self.in_conditions));
        let kind = self.random.below(if depth == 0 { 5 } else { 8 });
        let mut operand = || self.condition(depth - 1);
        match kind {
            0 => format!("0{v:x}"),
            1 => format!("1{v:x} 0{w:x}"),
            2 => format!("2{v:x} {:06x}", self.random.pick(&self.objects)),
            3 => format!("3{v:x} 0{w:x}"),
            4 => "70".to_string(),
            5 => format!("40 {}", operand()),
            _ => format!("{}0 {} {}", kind - 1, operand(), operand()),
        }
    }

    fn join(&mut self, depth: usize) -> String {
        let [left, right] = [0; 2].map(|_| self.node(depth));
        if self.random.once_in(2) {
            join(&left, &right)
        } else {
            left_join(&self.condition(2), &left, &right)
        }
    }

    fn node(&mut self, depth: usize) -> String {
        if depth == 0 {
            return self.pattern_set();
        }
        let below = self.random.below(depth);
        match self.random.below(10) {
            0 | 1 => self.pattern_set(),
            2 | 3 => self.join(below),
            4..7 => {
                let one = self.node(below);
                // A variable can be projected once only.
                let same = below == 0 && self.random.once_in(3);
                let other = if same { one.clone() } else { self.node(below) };
                union(&one, &other)
            }
            // Or bound, so that rows remain.
            7 => format!("40 60 0{:x} {} {}", self.random.pick(&self.variables), self.condition(1), self.node(below)),
            8 if !self.to_project.is_empty() => {
                let variable = self.to_project.pop().expect("one is left");
                format!("5{variable:x} {}", self.node(below))
            }
            _ => format!("{} {}", self.bound(), self.node(below)),
        }
    }

    /// The head of an ensure trust.
    fn bound(&mut self) -> String {
        let (low, high) = (self.random.within(0, 900), self.random.within(1_500, 2_000));
        format!("60 {low:03x}{high:03x}")
    }

    /// A join or left join, now and then under an ensure trust.
    fn query(&mut self, depth: usize) -> String {
        let above = if self.random.once_in(4) { self.bound() } else { String::new() };
        format!("{above} {}", self.join(depth))
    }
}

/// A table of about 100 to 400 records with few predicates and objects, and a join or left join on it.
fn random_inputs(random: &mut Random) -> (Vec<u8>, Vec<u8>) {
    // Terms are small and follow one another, or are anywhere.
    let factor = random.pick(&[1, 1, 7_919, 104_729]);
    let terms = |count: usize| (1..=count as u32).map(|i| 1 + i * factor % 1_048_575).collect::<Vec<u32>>();
    let [subjects, predicates, objects] = [&[30, 60, 120][..], &[2, 3, 3, 4], &[8, 20, 40]].map(|of| terms(random.pick(of)));
    let count = random.within(150, 400);
    let table = tables::table_of_triples(random, count, |random| {
        [random.pick(&subjects), random.pick(&predicates), random.pick(&objects)]
    });
    let mut variables: Vec<u8> = (0..16).collect();
    let some = random.within(4, 8);
    while variables.len() > some {
        variables.swap_remove(random.below(variables.len()));
    }
    let in_conditions = variables.clone();
    let to_project = variables.split_off(some - 2);
    let depth = random.within(1, 2);
    let mut maker = Maker { random, predicates, objects, variables, to_project, in_conditions };
    (table, vectors::query(&maker.query(depth)))
}

/// Which variables can be keys of a join.
const KEYS: [&str; 4] = ["two or more in all rows", "one in all rows", "in right rows and the last left row", "none"];

fn keys(left: &[Row], right: &[Row]) -> usize {
    let set_in = |rows: &[Row]| -> BTreeSet<u32> {
        (0..16).filter(|variable| rows.iter().all(|row| row.values.contains_key(variable))).collect()
    };
    let of_right = set_in(right);
    let common = |rows: &[Row]| set_in(rows).intersection(&of_right).count();
    match (common(left), common(&left[left.len() - 1..])) {
        (0, 0) => 3,
        (0, _) => 2,
        (1, _) => 1,
        _ => 0,
    }
}

/// The rows of a join's operands, evaluated alone; none if one has too many. The join may stand under an ensure trust.
fn operands((table, query, choice): Inputs) -> Option<[Vec<Row>; 2]> {
    let node = match paper::query(query, CHECK_LIMIT) {
        Ok(Node { kind: Kind::Ensure(_, _, operand), .. }) => *operand,
        Ok(node) => node,
        Err(_) => panic!("a query that is refused"),
    };
    let (Kind::Join(left, right) | Kind::LeftJoin(_, left, right)) = node.kind else { panic!("not a join") };
    let evaluate =
        |query: &[u8]| rows::evaluate_within((table, query, choice), MOST_SPACE, MOST_STEPS, &mut Seen::default());
    let rows_of = |query: &[u8]| match evaluate(query) {
        Some(Outcome::Rows(evaluation)) => Some(evaluation.rows),
        _ => None,
    };
    Some([rows_of(&query[left.place..right.place])?, rows_of(&query[right.place..])?])
}

/// Random joins, most of them with many pairs.
pub fn random_cases(report: &mut Report) {
    let (mut random, mut spaces) = (Random::new(26), Spaces::new(27));
    let (mut seen, mut compared) = (Seen::default(), Compared::default());
    let (mut many, mut many_with_rows, mut by_keys, mut above, mut left_out) = (0, 0, [0; KEYS.len()], 0, 0);
    for number in 0..RANDOM_CASES {
        let (table, query) = random_inputs(&mut random);
        let (inputs, mut here) = ((&table[..], &query[..], spaces.choice()), Seen::default());
        let Some(outcome) = rows::evaluate_within(inputs, MOST_SPACE, MOST_STEPS, &mut here) else {
            left_out += 1;
            continue;
        };
        let what = format!("random case {number} with many rows");
        let lengths = spaces::lengths(&outcome);
        for words in [lengths[0], lengths[1], random.pick(&lengths[2..])] {
            spaces.test(report, &what, inputs, &outcome, words);
        }
        compared.test(report, &mut spaces, &what, inputs, lengths[1]);
        above += u64::from(matches!(outcome, Outcome::Above(_)));
        let Some([left, right]) = operands(inputs) else { continue };
        if (left.len() * right.len()) as u64 >= MANY_PAIRS {
            many += 1;
            if let Outcome::Rows(evaluation) = &outcome {
                many_with_rows += u64::from(!evaluation.rows.is_empty());
                seen.add(&here);
            }
            by_keys[keys(&left, &right)] += 1;
        }
    }
    println!("random joins with {MANY_PAIRS} pairs or more: {many}, with rows: {many_with_rows}");
    println!("random joins above {MOST_SPACE} rows of space: {above}; left out: {left_out}");
    report.case(many > RANDOM_CASES / 2, || "too few random joins have many pairs".to_string());
    report.case(many_with_rows > RANDOM_CASES as u64 / 3, || "too few random joins with many pairs have rows".to_string());
    report.case(left_out < RANDOM_CASES / 10, || "too many random joins are left out".to_string());
    for (keys, count) in KEYS.iter().zip(by_keys) {
        println!("random joins with many pairs by keys, {keys}: {count}");
        report.case(count >= 50, || format!("only {count} random joins with keys {keys}"));
    }
    left_rows::enough(report, &seen, "random joins with many pairs", 1_000);
    let not_least = seen.means.not_least();
    println!("means in random joins with many pairs that are not the least: {not_least}");
    report.case(not_least >= 1_000, || "too few means in random joins with many pairs are not the least".to_string());
}
