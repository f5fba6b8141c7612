//! Tests `randwyler_evaluate` of the built archive, by least and by mean: vectors, rows and means by hand, an independent evaluation
//! (rows.rs) in row spaces of awkward lengths, a query beside its rewriting, left joins whose condition errs, limits, joins with many rows,
//! and the stack it needs. The last line is 'N passed, M failed'.

mod chains;
mod compared;
mod conditions;
mod fence;
mod ffi;
mod inputs;
mod kinds;
mod known_errors;
mod known_means;
mod known_rows;
mod left_joins;
mod left_rows;
mod limits;
mod many_rows;
mod means;
mod paper;
mod printed;
mod push;
mod queries;
mod random;
mod report;
mod rows;
mod small_rows;
mod spaces;
mod stack;
mod tables;
mod threads;
mod vectors;

use compared::Compared;
use conditions::{CONDITION_KINDS, TRUTHS};
use kinds::Kinds;
use limits::{AtLimit, NullInput, TableAtLimit};
use paper::{Choice, Evaluated, Inputs, Refusal, Tally, CHECK_LIMIT, CHOICES, MOST_RECORDS, NONE};
use queries::{Nested, KINDS};
use random::Random;
use report::{hex, Report};
use rows::{Evaluation, Outcome, Seen, MOST_ROWS, ROW_WORDS};
use spaces::Spaces;
use stack::Deepest;
use vectors::Vector;

const RANDOM_CASES: usize = 120_000;
/// One random case in so many is a left join made to err.
const LEFT_JOINS: usize = 8;
const PATTERN_SETS: usize = 102_000;
/// Random cases are evaluated as far as so many rows of space, and left out if they take more steps.
const MOST_SPACE: usize = 300;
const MOST_STEPS: u64 = 10_000;

/// A file of vectors: the call and the choice of those for evaluation, and how many they are.
struct File {
    name: &'static str,
    call: &'static str,
    choice: Choice,
    lines: usize,
    /// At least so many have another answer by the other choice.
    telling: usize,
    text: &'static str,
}

/// The second file has the rule of request 3; from the first the lines that it changes are gone. The third has the mean of request 4.
const FILES: [File; 3] = [
    File {
        name: "base.txt",
        call: "eval",
        choice: Choice::Least,
        lines: 689,
        telling: 17,
        text: include_str!("../vectors/base.txt"),
    },
    File {
        name: "03-errors.txt",
        call: "eval11",
        choice: Choice::Least,
        lines: 200,
        telling: 8,
        text: include_str!("../vectors/03-errors.txt"),
    },
    File {
        name: "04-mean.txt",
        call: "evalmean",
        choice: Choice::Mean,
        lines: 200,
        telling: 8,
        text: include_str!("../vectors/04-mean.txt"),
    },
];

/// A vector is `TABLE QUERY WORDS => NUMBER PLACE ROWS PEAK PAIRS WRITTEN`; the zeros behind the rows are left out. Its inputs are
/// evaluated by both choices; answers whether these differ.
fn test_vector(report: &mut Report, spaces: &mut Spaces, what: &str, vector: &Vector, choice: Choice) -> bool {
    let [table, query] = [0, 1].map(|i| vectors::bytes(&vector.inputs[i]));
    let words = vectors::number(&vector.inputs[2]) as usize;
    let [number, place, rows, peak, pairs] = [0, 1, 2, 3, 4].map(|i| vectors::number(&vector.answer[i]));
    let tally = Tally { answered: u32::from(number == 0), refused: u32::from(number != 0) };
    let refusal = Refusal { number: number as u32, place };
    let expected = Evaluated { refusal, rows: rows as u32, peak: peak as u32, pairs, tally };
    let after = (number == 0 || number == 8).then(|| {
        let mut space = vectors::words(&vector.answer[5]);
        space.resize(words, 0);
        space
    });
    let answers = CHOICES.map(|choice| {
        let inputs = (&table[..], &query[..], choice);
        let outcome = rows::evaluate(inputs);
        spaces.test(report, what, inputs, &outcome, words);
        outcome.answer(words, Tally { answered: 0, refused: 0 })
    });
    report.case(answers[choice as usize] == (expected, after), || format!("{what}: rows.rs differs"));
    answers[0] != answers[1]
}

fn vectors(report: &mut Report) {
    let mut spaces = Spaces::new(3);
    for File { name, call, choice, lines, telling, text } in FILES {
        let all = vectors::of(call, text);
        report.case(all.len() == lines, || format!("{name} has {} vectors, not {lines}", all.len()));
        let mut tell = 0;
        for vector in all {
            let what = format!("line {} of {name}", vector.line);
            tell += usize::from(test_vector(report, &mut spaces, &what, &vector, choice));
        }
        println!("vectors of {name} that tell mean from least: {tell}");
        report.case(tell >= telling, || format!("only {tell} vectors of {name} tell mean from least"));
    }
}

/// Queries about as long as a call takes, and tables about as long as a table may be, by either choice.
fn at_limits(report: &mut Report) {
    let mut spaces = Spaces::new(4);
    let mut test = |what: &str, table: &[u8], query: &[u8], refusal| {
        for choice in CHOICES {
            let inputs = (table, query, choice);
            let outcome = rows::evaluate(inputs);
            let read = if let Outcome::Refused(refusal) = outcome { refusal } else { NONE };
            report.case(read == refusal, || format!("{what}: rows.rs differs"));
            spaces.test_lengths(report, what, inputs, &outcome);
        }
    };
    for AtLimit { what, query, refusal } in limits::about(CHECK_LIMIT) {
        test(&what, &[], &query, refusal);
        test(&what, &tables::w(), &query, refusal);
    }
    for TableAtLimit { what, table, query, refusal } in limits::of_tables() {
        test(what, &table, &query, refusal);
    }
}

/// A pointer with length 0 may be NULL.
fn null_pointers(report: &mut Report, choice: Choice) {
    let tally = Tally { answered: 7, refused: u32::MAX };
    for NullInput { what, table, query, .. } in limits::null_inputs() {
        let or_null = (table.as_deref(), query.as_deref(), choice);
        let inputs = (or_null.0.unwrap_or(&[]), or_null.1.unwrap_or(&[]), choice);
        let outcome = rows::evaluate(inputs);
        let got = ffi::evaluate_or_null(or_null, None, tally);
        let expected = outcome.answer(0, tally).0;
        report.evaluate(what, inputs, 0, expected, got);
        let mut space = vec![9; 50];
        let (expected, after) = outcome.answer(space.len(), tally);
        let got = ffi::evaluate_or_null(or_null, Some(&mut space), tally);
        report.evaluate(what, inputs, space.len(), expected, got);
        report.case(space == after.unwrap_or(vec![9; 50]), || format!("{what}: wrong words"));
    }
    let query = vectors::query("S");
    let got = ffi::evaluate_or_null((None, Some(&query), choice), None, tally);
    let inputs = (&[][..], &query[..], choice);
    report.evaluate("no row, NULL row space", inputs, 0, rows::evaluate(inputs).answer(0, tally).0, got);
}

/// Evaluations that need 65,535 rows, the greatest capacity, or one or two more. S lists every record. Every set has one pattern, so that
/// the choice does not matter: it is drawn.
fn greatest_spaces(report: &mut Report) {
    let mut spaces = Spaces::new(5);
    let half = MOST_ROWS / 2;
    for (what, records, query, rows) in [
        ("65,535 rows", MOST_RECORDS, "S", Some(MOST_ROWS)),
        ("65,535 rows in two parts", MOST_RECORDS - 1, "30 S 00", Some(MOST_ROWS)),
        ("65,536 rows", MOST_RECORDS, "30 S 00", None),
        ("65,536 rows, the first alone", MOST_RECORDS, "30 00 S", None),
        ("65,536 rows, of which none is kept", MOST_RECORDS, "40 4070 30 00 S", None),
        ("a join with space 65,535", half, "10 00 S", Some(half)),
        ("a join with space 65,535, the other order", half, "10 S 00", Some(half)),
        ("a left join with space 65,535", half, "20 70 00 S", Some(half)),
        ("a join with space 65,536", half, "30 00 10 00 S", None),
        ("a left join with space 65,536", half, "30 00 20 70 S 00", None),
        ("a join with space 65,537", half + 1, "10 S 00", None),
        ("154 rows of 65,535 records", MOST_RECORDS, "01 000011 100004 0ffff6", Some(154)),
    ] {
        let (table, query) = (tables::large(records), vectors::query(query));
        let inputs = (&table[..], &query[..], spaces.choice());
        let outcome = rows::evaluate(inputs);
        let read = if let Outcome::Rows(evaluation) = &outcome { Some(evaluation.rows.len()) } else { None };
        report.case(read == rows, || format!("{what}: rows.rs lists {read:?}"));
        for words in [MOST_ROWS * 17 - 1, MOST_ROWS * 17, MOST_ROWS * 17 + 16, 65_536 * 17, 65_537 * 17 + 3, 70_000 * 17] {
            spaces.test(report, what, inputs, &outcome, words);
        }
    }
    for (query, choice) in ["00", "40 4070 00"].into_iter().flat_map(|query| CHOICES.map(|choice| (query, choice))) {
        let query = vectors::query(query);
        let inputs = (&[][..], &query[..], choice);
        let outcome = rows::evaluate(inputs);
        spaces.test(report, "a small query in a large row space", inputs, &outcome, 70_000 * 17);
    }
}

/// A set of two patterns on 255 and 257 records, each with each: it needs 65,535 rows by either choice.
fn most_rows_of_two_patterns(report: &mut Report) {
    let mut spaces = Spaces::new(10);
    let side = |predicate, count| (1..=count).map(move |object| ([1, predicate, object], tables::trust_of(object)));
    let table = tables::facts(&side(1, 255).chain(side(2, 257)).collect::<Vec<_>>());
    let query = vectors::query(&vectors::set("1 1 ?0, 1 2 ?1"));
    for choice in CHOICES {
        let inputs = (&table[..], &query[..], choice);
        let outcome = rows::evaluate(inputs);
        let all = matches!(&outcome, Outcome::Rows(evaluation) if evaluation.rows.len() == MOST_ROWS);
        report.case(all, || "two patterns: rows.rs does not list 65,535 rows".to_string());
        for words in [MOST_ROWS * ROW_WORDS - 1, MOST_ROWS * ROW_WORDS] {
            spaces.test(report, "65,535 rows of two patterns", inputs, &outcome, words);
        }
    }
}

/// Joins that list nothing, in unions: more pairs together than 32 bits hold.
fn many_pairs(report: &mut Report) {
    let half = MOST_ROWS as u32 / 2;
    let facts: Vec<_> = [1, 2].iter().flat_map(|s| (1..=half).map(move |object| ([*s, *s, object], Some(0)))).collect();
    // Join of {?0 1 ?1} with {?0 2 ?1}: 32,767 rows each, ?0 is 1 in all of the left and 2 in all of the right.
    let join = "10 01 100000 000001 100001 01 100000 000002 100001";
    let query = vectors::query(&format!("30 {join} 30 {join} 30 {join} 30 {join} {join}"));
    let mut space = vec![0xA5; MOST_ROWS * ROW_WORDS];
    let inputs = (&tables::facts(&facts)[..], &query[..], Choice::Least);
    let got = ffi::evaluate(inputs, &mut space, Tally { answered: 0, refused: 0 });
    let tally = Tally { answered: 1, refused: 0 };
    let expected = Evaluated { refusal: NONE, rows: 0, peak: 65_534, pairs: 5 * 1_073_676_289, tally };
    report.case(got == expected, || format!("five joins of 32,767 and 32,767 rows => {got}"));
    report.case(space.iter().all(|word| *word == 0), || "five joins without rows: a word is not 0".to_string());
}

// ---- Random cases

/// A random case, and what it came to.
struct Case<'a> {
    inputs: Inputs<'a>,
    outcome: Outcome,
    seen: Seen,
    nested: Nested,
    /// Whether it and its rewriting have rows, and the same.
    alike: bool,
    ceiling: u32,
}

impl Case<'_> {
    /// Whether an ensure trust, or a condition on trusts, keeps more rows or fewer by the mean than by the least.
    fn other_by_least(&self, by_mean: &Evaluation) -> bool {
        let inputs = (self.inputs.0, self.inputs.1, Choice::Least);
        let by_least = || rows::evaluate_within(inputs, MOST_SPACE, MOST_STEPS, &mut Seen::default());
        self.seen.means.not_least() > 0
            && matches!(by_least(), Some(Outcome::Rows(by_least)) if by_least.rows.len() != by_mean.rows.len())
    }
}

/// What random cases came to.
#[derive(Default)]
struct Met {
    /// Of answers.
    seen: Seen,
    /// Of answers with rows.
    nested: Nested,
    numbers: [u64; 9],
    with_rows: u64,
    kinds: Kinds,
}

impl Met {
    fn count(&mut self, case: &Case) {
        let evaluation = match &case.outcome {
            Outcome::Refused(refused) => return self.numbers[refused.number as usize] += 1,
            Outcome::Above(_) => return self.numbers[8] += 1,
            Outcome::Rows(evaluation) => evaluation,
        };
        let Case { seen, nested, alike, ceiling, .. } = case;
        let (rows, other_by_least) = (&evaluation.rows, case.other_by_least(evaluation));
        self.numbers[0] += 1;
        self.seen.add(seen);
        if !rows.is_empty() {
            self.with_rows += 1;
            self.nested.iter_mut().flatten().zip(nested.iter().flatten()).for_each(|(sum, count)| *sum += count);
        }
        let kept = seen.error_kept() && !rows.is_empty();
        let at_ceiling = rows.len() == *ceiling as usize;
        self.kinds.count(&[
            ("rows, and a left row kept on an error", 8_000, kept),
            ("rows, and an error beside a true", 1_000, seen.error_beside_true() && !rows.is_empty()),
            ("a left row kept on an error, and as many rows as the ceiling", 500, kept && at_ceiling),
            (
                "a left row kept on an error under an ensure trust, and a rewriting alike",
                2_500,
                *alike && seen.error_ensured(),
            ),
            ("rows, and a mean that is not the least", 5_000, !rows.is_empty() && seen.means.not_least() > 0),
            ("another number of rows than by the least", 500, other_by_least),
            ("another number of rows than by the least, and a rewriting alike", 400, *alike && other_by_least),
        ]);
    }

    fn enough(&self, report: &mut Report) {
        let Met { seen, nested, numbers, with_rows, kinds } = self;
        println!("random cases with rows: {with_rows}; above {MOST_SPACE} rows of space: {}", numbers[8]);
        println!("random cases by number: {numbers:?}");
        for number in [0, 1, 3, 4, 6, 7, 8] {
            report.case(numbers[number] > 0, || format!("no random case has number {number}"));
        }
        report.case(*with_rows > RANDOM_CASES as u64 / 3, || "too few random cases have rows".to_string());
        queries::all_nested(report, nested, 100);
        all_truths(report, seen);
        left_rows::enough(report, seen, "random cases", 1_000);
        seen.means.enough(report, "random cases", 1_000);
        kinds.enough(report, "random cases");
    }
}

fn random_cases(report: &mut Report) {
    let (mut random, mut spaces) = (Random::new(6), Spaces::new(7));
    let (mut met, mut compared, mut left_out) = (Met::default(), Compared::default(), 0);
    for number in 0..RANDOM_CASES {
        let (mut seen, mut nested) = (Seen::default(), [[0; KINDS]; KINDS]);
        let (table, query) = match number % LEFT_JOINS {
            0 => left_joins::inputs(&mut random),
            _ => inputs::narrow(&mut random, &mut nested),
        };
        let inputs = (&table[..], &query[..], spaces.choice());
        let Some(outcome) = rows::evaluate_within(inputs, MOST_SPACE, MOST_STEPS, &mut seen) else {
            left_out += 1;
            continue;
        };
        let what = format!("random case {number}");
        let lengths = spaces::lengths(&outcome);
        for words in [lengths[0], lengths[1], random.pick(&lengths[2..])] {
            spaces.test(report, &what, inputs, &outcome, words);
        }
        let [_, alike] = [lengths[0], lengths[1]].map(|words| compared.test(report, &mut spaces, &what, inputs, words));
        let ceiling = ffi::ceiling(&table, &query);
        if let Outcome::Rows(evaluation) = &outcome {
            let holds = ceiling.refusal == NONE && ceiling.ceiling as usize >= evaluation.rows.len();
            report.case(holds, || format!("{what}: more rows than the ceiling {ceiling} of {}", hex(&query)));
        }
        met.count(&Case { inputs, outcome, seen, nested, alike, ceiling: ceiling.ceiling });
    }
    println!("random cases left out: {left_out}");
    report.case(left_out < RANDOM_CASES / 20, || "too many random cases are left out".to_string());
    met.enough(report);
    compared.enough(report);
}

/// Conditions must have had each truth, if there is such a case.
fn all_truths(report: &mut Report, seen: &Seen) {
    for (kind, counts) in CONDITION_KINDS.iter().zip(seen.truths) {
        for (truth, count) in TRUTHS.iter().zip(counts) {
            let never = *kind == "true" && *truth != Some(true) || *kind == "bound" && truth.is_none();
            report.case(never || count >= 500, || format!("{kind} was {truth:?} only {count} times"));
        }
    }
}

fn pattern_sets(report: &mut Report) {
    let (mut random, mut spaces, mut seen) = (Random::new(8), Spaces::new(9), Seen::default());
    // By the number of patterns.
    let (mut with_rows, mut left_out) = ([0; 16], 0);
    for number in 0..PATTERN_SETS {
        let (table, query) = inputs::pattern_set(&mut random);
        let (inputs, mut here) = ((&table[..], &query[..], spaces.choice()), Seen::default());
        let Some(outcome) = rows::evaluate_within(inputs, MOST_SPACE, MOST_STEPS, &mut here) else {
            left_out += 1;
            continue;
        };
        let words = random.pick(&spaces::lengths(&outcome)[..2]);
        spaces.test(report, &format!("pattern set {number}"), inputs, &outcome, words);
        if outcome.has_rows() {
            with_rows[usize::from(query[0])] += 1;
            seen.add(&here);
        }
    }
    println!("pattern sets with rows, by the number of patterns: {:?}; left out: {left_out}", &with_rows[1..]);
    report.case(with_rows[1..].iter().all(|count| *count >= 50), || "too few pattern sets have rows".to_string());
    report.case(left_out < PATTERN_SETS / 20, || "too many pattern sets are left out".to_string());
    seen.means.enough(report, "pattern sets", 1_000);
}

fn on_threads(report: &mut Report) {
    let make = |random: &mut Random| loop {
        let (table, query) = inputs::narrow(random, &mut [[0; KINDS]; KINDS]);
        let choice = random.pick(&CHOICES);
        let inputs = (&table[..], &query[..], choice);
        if let Some(outcome) = rows::evaluate_within(inputs, MOST_SPACE, MOST_STEPS / 10, &mut Seen::default()) {
            let words = random.pick(&spaces::lengths(&outcome));
            let tally = Tally { answered: random.below(9) as u32, refused: u32::MAX };
            let (answer, after) = outcome.answer(words, tally);
            break (table, query, choice, tally, answer, after.unwrap_or(vec![0xA5; words]));
        }
    };
    threads::all_right(report, make, |(table, query, choice, tally, answer, after)| {
        let mut space = vec![0xA5; after.len()];
        ffi::evaluate((table, query, *choice), &mut space, *tally) == *answer && space == *after
    });
}

const CHAIN_WORDS: usize = chains::SPACE * ROW_WORDS;
const CHAIN_TALLY: Tally = Tally { answered: 0, refused: 0 };

/// By each choice.
fn deepest() -> Deepest<[(Evaluated, Vec<u32>); CHOICES.len()]> {
    Deepest {
        figure: "RANDWYLER_STACK_EVALUATE_KIB",
        chains: chains::all(&[], CHECK_LIMIT).into_iter().chain(chains::of_many_pairs(CHECK_LIMIT)).collect(),
        shallow: chains::of_few_pairs(),
        shallow_kib: stack::SHALLOW,
        refusal: stack::of_query,
        call: |query| {
            CHOICES.map(|choice| {
                let mut space = vec![0xA5; CHAIN_WORDS];
                (ffi::evaluate((&chains::table(), query, choice), &mut space, CHAIN_TALLY), space)
            })
        },
        expected: |query| {
            CHOICES.map(|choice| {
                let outcome = rows::evaluate((&chains::table(), query, choice));
                let (answer, after) = outcome.answer(CHAIN_WORDS, CHAIN_TALLY);
                (answer, after.unwrap_or(vec![0xA5; CHAIN_WORDS]))
            })
        },
    }
}

fn by_hand(report: &mut Report) {
    for choice in CHOICES {
        known_rows::cases_of_document(report, choice);
        known_rows::shortcuts(report, choice);
        known_rows::left_joins(report, choice);
        known_rows::other_nodes(report, choice);
        report.part("rows by hand");
        known_errors::conditions(report, choice);
        known_errors::trusts(report, choice);
        known_errors::repeated(report, choice);
        known_errors::nested(report, choice);
        known_errors::rewritings(report, choice);
        known_errors::words(report, choice);
        known_errors::in_every_order(report, choice);
        report.part("left joins whose condition errs, by hand");
    }
    known_means::sets(report);
    known_means::patterns(report);
    known_means::sums(report);
    known_means::remainders(report);
    known_means::places(report);
    known_means::far_apart(report);
    known_means::bounds(report);
    known_means::other_nodes(report);
    known_means::long_queries(report);
    known_means::rewritings(report);
    known_means::words(report);
    report.part("means by hand");
}

fn parts(report: &mut Report) {
    vectors(report);
    report.part("vectors");
    by_hand(report);
    small_rows::truths(report);
    small_rows::all_small(report);
    report.part("conditions");
    at_limits(report);
    CHOICES.into_iter().for_each(|choice| null_pointers(report, choice));
    greatest_spaces(report);
    most_rows_of_two_patterns(report);
    many_pairs(report);
    report.part("limits");
    pattern_sets(report);
    report.part("pattern sets");
    random_cases(report);
    report.part("random cases");
    many_rows::one_bucket(report);
    many_rows::set_in_some(report);
    many_rows::trusts(report);
    many_rows::about_many_pairs(report);
    many_rows::longest(report);
    many_rows::twenty_thousand(report);
    many_rows::random_cases(report);
    report.part("joins with many rows");
}

fn main() {
    stack::main(parts, on_threads, deepest);
}
