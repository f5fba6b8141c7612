//! Tests `randwyler_totals_of` of the built archive, by least and by mean: vectors, entries and refusals by hand, independent totals
//! (groups.rs) in row spaces and with outputs of awkward lengths, totals beside the evaluation, limits, 65,535 rows, and the stack it
//! needs. The last line is 'N passed, M failed'.

mod chains;
mod conditions;
mod fence;
mod ffi;
mod groups;
mod inputs;
mod kinds;
mod known_totals;
mod left_joins;
mod limits;
mod many_groups;
mod means;
mod outputs;
mod paper;
mod queries;
mod random;
mod refused_totals;
mod report;
mod rows;
mod spaces;
mod stack;
mod tables;
mod threads;
mod vectors;

use chains::Chain;
use groups::{Group, Totals, GROUP_WORDS};
use kinds::{Kind, Kinds};
use limits::{AtLimit, NullInput, TableAtLimit};
use outputs::Outputs;
use paper::{Choice, Refusal, Tally, Totalled, CHECK_LIMIT, CHOICES, MOST_RECORDS, NONE, VARIABLES};
use queries::KINDS;
use random::Random;
use report::Report;
use rows::{Outcome, Value, MOST_ROWS, ROW_WORDS};
use stack::Deepest;

/// Lines of 01-totals.txt.
const VECTORS: usize = 248;
const RANDOM_CASES: usize = 105_000;
/// Random cases are evaluated as far as so many rows of space, and left out if they take more steps.
const MOST_SPACE: usize = 300;
const MOST_STEPS: u64 = 10_000;

/// A vector is `TABLE QUERY VARIABLE WORDS ROOM => NUMBER PLACE LENGTH ENTRIES ROWS`, by least; the zeros behind the rows are left out.
/// Its inputs are tested by mean too.
fn vectors(report: &mut Report) {
    let mut outputs = Outputs::new(1);
    let all = vectors::of("totals9", include_str!("../vectors/01-totals.txt"));
    report.case(all.len() == VECTORS, || format!("01-totals.txt has {} vectors, not {VECTORS}", all.len()));
    for vector in all {
        let [table, query] = [0, 1].map(|i| vectors::bytes(&vector.inputs[i]));
        let [variable, words, room] = [2, 3, 4].map(|i| vectors::number(&vector.inputs[i]) as usize);
        let [number, place, length] = [0, 1, 2].map(|i| vectors::number(&vector.answer[i]));
        let [entries, mut after] = [3, 4].map(|i| vectors::words(&vector.answer[i]));
        let what = format!("line {} of 01-totals.txt", vector.line);
        let tally = Tally { answered: u32::from(number == 0), refused: u32::from(number != 0) };
        let expected = Totalled { refusal: Refusal { number: number as u32, place }, length, tally };
        after.resize(words, 0);
        let unchanged = (1..=7).contains(&number) || (number, place) == (10, 0);
        let [read, _] = CHOICES.map(|choice| {
            let inputs = (&table[..], &query[..], choice);
            let outcome = rows::evaluate(inputs);
            let totals = Totals::new(&outcome, variable as u32);
            outputs.test(report, &what, inputs, &totals, [words, room]);
            totals.answer([words, room], Tally { answered: 0, refused: 0 })
        });
        report.case(read == (expected, (!unchanged).then_some(after), entries), || format!("{what}: groups.rs differs"));
    }
}

/// Queries about as long as a call takes, and tables about as long as a table may be, by either choice.
fn at_limits(report: &mut Report) {
    let mut outputs = Outputs::new(2);
    let mut test = |what: &str, table: &[u8], query: &[u8], refusal| {
        for (choice, variable) in CHOICES.into_iter().flat_map(|choice| [(choice, 3), (choice, VARIABLES)]) {
            let inputs = (table, query, choice);
            let outcome = rows::evaluate(inputs);
            let read = if let Outcome::Refused(refusal) = outcome { refusal } else { NONE };
            report.case(read == refusal, || format!("{what}: rows.rs differs"));
            let totals = Totals::new(&outcome, variable);
            for words in &spaces::lengths(&outcome)[..2] {
                for room in &outputs::rooms(&totals)[..2] {
                    outputs.test(report, what, inputs, &totals, [*words, *room]);
                }
            }
        }
    };
    for AtLimit { what, query, refusal } in limits::about(CHECK_LIMIT) {
        test(&what, &tables::w(), &query, refusal);
    }
    for TableAtLimit { what, table, query, refusal } in limits::of_tables() {
        test(what, &table, &query, refusal);
    }
}

/// A pointer with length 0 may be NULL.
fn null_pointers(report: &mut Report, choice: Choice) {
    let tally = Tally { answered: 7, refused: u32::MAX };
    for NullInput { what, table, query, .. } in limits::null_inputs() {
        let or_null = (table.as_deref(), query.as_deref(), choice);
        let inputs = (or_null.0.unwrap_or(&[]), or_null.1.unwrap_or(&[]), choice);
        let outcome = rows::evaluate(inputs);
        let expected = Totals::new(&outcome, 0).answer([0, 0], tally).0;
        let got = ffi::totals_or_null(or_null, 0, None, None, tally);
        report.totals(what, inputs, (0, 0, 0), expected, got);
    }
}

// ---- Random cases

/// A table and a query; most are sound.
fn random_inputs(random: &mut Random, large: &[u8]) -> (Vec<u8>, Vec<u8>) {
    let mut nested = [[0; KINDS]; KINDS];
    let (table, query) = inputs::narrow(random, &mut nested);
    match random.below(2_000) {
        0 => (large.to_vec(), query),
        1 => (table, limits::unions(CHECK_LIMIT + random.within(1, 9))),
        2..200 => inputs::wide(random, &mut nested),
        200..900 => inputs::unions(random),
        900..1_100 => left_joins::inputs(random),
        1_100..1_200 => inputs::pattern_set(random),
        _ => (table, query),
    }
}

fn unknown_cell(group: &Group) -> bool {
    group.cell == Some(Value::Trust(None))
}

/// The kinds of an answer by its groups; none where a call is refused.
fn kinds_of_groups(totals: &Totals, answered: bool) -> [Kind; 10] {
    let groups: &[Group] = if answered { &totals.groups } else { &[] };
    let some = |test: fn(&Group) -> bool| groups.iter().any(test);
    let several = groups.len() > 1;
    let free = groups.iter().position(|group| group.cell.is_none());
    [
        ("one group", 15_000, groups.len() == 1),
        ("several groups", 25_000, several),
        ("a free group and others", 12_000, several && free.is_some()),
        ("a free group between others", 800, free.is_some_and(|place| place > 0 && place + 1 < groups.len())),
        ("a group of a trust, and others", 4_000, several && some(|group| matches!(group.cell, Some(Value::Trust(_))))),
        ("a group of the unknown trust, and others", 2_500, several && some(unknown_cell)),
        ("rows of the unknown trust in one group", 1_500, some(|group| unknown_cell(group) && group.trusts.len() > 1)),
        (
            "known and unknown trusts in one group",
            20_000,
            some(|group| group.trusts.contains(&None) && group.trusts.iter().any(Option::is_some)),
        ),
        (
            "a group whose first row has not the least trust",
            10_000,
            some(|group| group.least().is_some_and(|least| group.trusts[0] != Some(least))),
        ),
        ("rows of a group apart", 15_000, answered && totals.apart()),
    ]
}

/// The other kinds, by lengths and refusals.
fn kinds_of_lengths(totals: &Totals, [words, room]: [usize; 2]) -> [Kind; 10] {
    let number = totals.refusal([words, room]).number;
    let (needed, above) = (totals.needed(), totals.variable >= VARIABLES);
    let (answered, refused) = (number == 0, matches!(totals.outcome, Outcome::Refused(_)));
    let no_room = !refused && totals.outcome.refusal(words).number == 8;
    [
        ("no group, and no output", 25_000, answered && needed == 0 && room == 0),
        ("an output that is just long enough", 30_000, answered && needed > 0 && room == needed),
        ("an output that is longer", 8_000, answered && needed > 0 && room > needed),
        ("10 for the variable alone", 10_000, number == 10 && above && !no_room),
        ("10 for the variable before 8", 5_000, number == 10 && above && no_room),
        ("1 to 7 before 10 for the variable", 1_500, refused && above),
        ("8", 50_000, number == 8),
        ("8 before 10 for the output", 15_000, number == 8 && room < needed),
        ("10 for the output, a word too short", 30_000, number == 10 && !above && room + 1 == needed),
        ("10 for the output, no word", 2_500, number == 10 && !above && room == 0),
    ]
}

/// Whether the trusts of a group's rows are known and not all the same.
fn known_and_different(group: &Group) -> bool {
    group.least().is_some() && group.trusts.iter().any(|trust| *trust != group.trusts[0])
}

/// The kinds by what was seen in an evaluation; none where a call is refused or there is no group.
fn kinds_of_seen(totals: &Totals, answered: bool, seen: &rows::Seen) -> [Kind; 5] {
    let grouped = answered && !totals.groups.is_empty();
    let kept = grouped && seen.error_kept();
    let free = totals.groups.len() > 1 && totals.groups.iter().any(|group| group.cell.is_none());
    let not_least = grouped && seen.means.not_least() > 0;
    [
        ("a left row kept on an error", 12_000, kept),
        ("a left row kept on an error, and a free group and others", 4_000, kept && free),
        ("a left row with an error beside a true", 500, grouped && seen.error_beside_true()),
        ("a mean that is not the least", 5_000, not_least),
        (
            "a mean that is not the least, and a group of different trusts, all known",
            1_000,
            not_least && totals.groups.iter().any(known_and_different),
        ),
    ]
}

/// How often random calls came to each kind, and to each number.
#[derive(Default)]
struct Seen {
    kinds: Kinds,
    numbers: [u64; 11],
}

impl Seen {
    fn count(&mut self, totals: &Totals, seen: &rows::Seen, lengths: [usize; 2]) {
        let number = totals.refusal(lengths).number;
        self.numbers[number as usize] += 1;
        self.kinds.count(&kinds_of_groups(totals, number == 0));
        self.kinds.count(&kinds_of_lengths(totals, lengths));
        self.kinds.count(&kinds_of_seen(totals, number == 0, seen));
    }

    fn enough(&self, report: &mut Report) {
        self.kinds.enough(report, "random calls");
        println!("random calls by number: {:?}", self.numbers);
        for number in [0, 1, 2, 3, 4, 5, 6, 7, 8, 10] {
            let count = self.numbers[number];
            report.case(count >= 100, || format!("only {count} random calls with number {number}"));
        }
    }
}

fn random_cases(report: &mut Report) {
    let (mut random, mut outputs) = (Random::new(3), Outputs::new(4));
    let large = tables::large(MOST_RECORDS + 1);
    let (mut seen, mut in_rows, mut left_out) = (Seen::default(), rows::Seen::default(), 0);
    for number in 0..RANDOM_CASES {
        let (table, query) = random_inputs(&mut random, &large);
        let (inputs, mut here) = ((&table[..], &query[..], outputs.spaces.choice()), rows::Seen::default());
        let Some(outcome) = rows::evaluate_within(inputs, MOST_SPACE, MOST_STEPS, &mut here) else {
            left_out += 1;
            continue;
        };
        let what = format!("random case {number}");
        let totals = Totals::new(&outcome, outputs::variable(&mut random, &outcome));
        let same = Totals::of_many(&outcome, totals.variable).groups == totals.groups;
        report.case(same, || format!("{what}: groups.rs has other groups by a map"));
        let (spaces, rooms) = (spaces::lengths(&outcome), outputs::rooms(&totals));
        for lengths in [
            [spaces[1], rooms[0]],
            [spaces[1], rooms[1]],
            [spaces[0], random.pick(&rooms)],
            [random.pick(&spaces), random.pick(&rooms)],
        ] {
            outputs.test(report, &what, inputs, &totals, lengths);
            seen.count(&totals, &here, lengths);
        }
        if totals.variable < VARIABLES {
            let lengths = [random.pick(&spaces[..2]), random.pick(&rooms)];
            outputs.test_beside(report, &what, inputs, totals.variable, lengths);
            if outcome.has_rows() {
                in_rows.add(&here);
            }
        }
    }
    println!("random cases: {}; left out: {left_out}", RANDOM_CASES - left_out);
    report.case(RANDOM_CASES - left_out >= 100_000, || "too many random cases are left out".to_string());
    seen.enough(report);
    in_rows.means.enough(report, "random cases with rows", 1_000);
}

fn on_threads(report: &mut Report) {
    let make = |random: &mut Random| loop {
        let (table, query) = inputs::narrow(random, &mut [[0; KINDS]; KINDS]);
        let choice = random.pick(&CHOICES);
        let inputs = (&table[..], &query[..], choice);
        if let Some(outcome) = rows::evaluate_within(inputs, MOST_SPACE, MOST_STEPS / 10, &mut rows::Seen::default()) {
            let totals = Totals::new(&outcome, outputs::variable(random, &outcome));
            let lengths = [random.pick(&spaces::lengths(&outcome)), random.pick(&outputs::rooms(&totals))];
            let tally = Tally { answered: random.below(9) as u32, refused: u32::MAX };
            let (answer, after, mut written) = totals.answer(lengths, tally);
            written.resize(lengths[1], 0x5A);
            let expected = (answer, after.unwrap_or(vec![0xA5; lengths[0]]), written);
            break (table, query, choice, totals.variable, tally, expected);
        }
    };
    threads::all_right(report, make, |(table, query, choice, variable, tally, expected)| {
        let (mut space, mut output) = (vec![0xA5; expected.1.len()], vec![0x5A; expected.2.len()]);
        let got = ffi::totals((table, query, *choice), *variable, &mut space, &mut output, *tally);
        (got, space, output) == *expected
    });
}

/// Words of an output that does for every chain: a group for each subject, and the free one.
const CHAIN_ROOM: usize = GROUP_WORDS * (chains::RECORDS as usize + 1);
/// KiB of stack that do for a shallow query: the call finds groups by arrays on the stack.
const SHALLOW: usize = 448;
const CHAIN_TALLY: Tally = Tally { answered: 0, refused: 0 };

/// What a query is answered on to measure the stack: a table, and the words of row space and output. The query for many groups, which
/// is no chain, has a table of 65,535 subjects.
fn chain_inputs(query: &[u8]) -> (Vec<u8>, [usize; 2]) {
    if query == vectors::query(many_groups::LINKS) {
        let table = many_groups::table(|i| i, tables::trust_of);
        return (table, [MOST_ROWS * ROW_WORDS, MOST_ROWS * GROUP_WORDS]);
    }
    (chains::table(), [chains::SPACE * ROW_WORDS, CHAIN_ROOM])
}

/// By each choice.
fn deepest() -> Deepest<[(Totalled, Vec<u32>, Vec<u32>); CHOICES.len()]> {
    let many = Chain { name: "many groups".to_string(), query: vectors::query(many_groups::LINKS), refusal: NONE };
    let chains = chains::all(&[], CHECK_LIMIT).into_iter().chain(chains::of_many_pairs(CHECK_LIMIT));
    Deepest {
        figure: "RANDWYLER_STACK_TOTALS_KIB",
        chains: chains.chain([many]).collect(),
        shallow: chains::of_few_pairs(),
        shallow_kib: SHALLOW,
        refusal: stack::of_query,
        call: |query| {
            let (table, [words, room]) = chain_inputs(query);
            CHOICES.map(|choice| {
                let (mut space, mut output) = (vec![0xA5; words], vec![0x5A; room]);
                (ffi::totals((&table, query, choice), 0, &mut space, &mut output, CHAIN_TALLY), space, output)
            })
        },
        expected: |query| {
            let (table, [words, room]) = chain_inputs(query);
            CHOICES.map(|choice| {
                let outcome = rows::evaluate((&table, query, choice));
                let (answer, after, mut written) = Totals::of_many(&outcome, 0).answer([words, room], CHAIN_TALLY);
                written.resize(room, 0x5A);
                (answer, after.unwrap_or(vec![0xA5; words]), written)
            })
        },
    }
}

fn parts(report: &mut Report) {
    vectors(report);
    report.part("vectors");
    known_totals::terms(report);
    known_totals::records(report);
    known_totals::trusts(report);
    known_totals::errors(report);
    known_totals::means(report);
    known_totals::cells_of_means(report);
    known_totals::few(report);
    report.part("entries by hand");
    refused_totals::first(report);
    refused_totals::last(report);
    refused_totals::short_outputs(report);
    refused_totals::tallies(report);
    refused_totals::null_pointers(report);
    report.part("refusals by hand");
    at_limits(report);
    CHOICES.into_iter().for_each(|choice| null_pointers(report, choice));
    report.part("limits");
    random_cases(report);
    report.part("random cases");
    many_groups::all(report);
    report.part("65,535 rows");
}

fn main() {
    stack::main(parts, on_threads, deepest);
}
