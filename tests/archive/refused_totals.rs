//! Totals whose refusals, row spaces and tallies are written down by hand. None depends on the choice.

use crate::ffi::{self, OrNull};
use crate::groups::Totals;
use crate::limits;
use crate::paper::{refusal, Choice, Inputs, Tally, Totalled, CHECK_LIMIT, CHOICES, MOST_RECORDS, NONE};
use crate::report::Report;
use crate::rows::{self, ROW_WORDS};
use crate::tables;
use crate::vectors;

/// What stands in row space and output before a call.
const OLD: u32 = 0xA5A5_5A5A;
/// The row of the empty set.
const ROW: [u32; ROW_WORDS] = [0, 0, 0, 0, 0, 0, 0, 0, 0, 0, 0, 0, 0, 0, 0, 0, 2_000];

/// What a call leaves in the row space.
#[derive(Clone, Copy)]
enum After {
    Unchanged,
    Zeros,
    /// `ROW` and then zeros.
    Row,
}

/// A call and its refusal.
struct Refused<'a> {
    what: &'a str,
    table: &'a [u8],
    query: &'a [u8],
    variable: u32,
    words: usize,
    room: usize,
    number: u32,
    place: usize,
    after: After,
}

impl Refused<'_> {
    fn test(&self, report: &mut Report) {
        CHOICES.into_iter().for_each(|choice| self.test_by(report, choice));
    }

    fn test_by(&self, report: &mut Report, choice: Choice) {
        let Refused { what, table, query, variable, words, room, .. } = *self;
        let (inputs, mut space, mut output) = ((table, query, choice), vec![OLD; words], vec![OLD; room]);
        let tally = Tally { answered: 5, refused: 1 };
        let got = ffi::totals(inputs, variable, &mut space, &mut output, Tally { refused: 0, ..tally });
        let expected = Totalled { refusal: refusal(self.number, self.place), length: 0, tally };
        report.totals(what, inputs, (variable, words, room), expected, got);
        let mut after = vec![if let After::Unchanged = self.after { OLD } else { 0 }; words];
        if let After::Row = self.after {
            after[..ROW_WORDS].copy_from_slice(&ROW);
        }
        let said = format!("{what}, variable {variable} in {words} and {room} words");
        report.case(space == after, || format!("{said}: wrong words in the row space"));
        report.case(output == vec![OLD; room], || format!("{said}: the output was changed"));
        let read = Totals::new(&rows::evaluate(inputs), variable).refusal([words, room]);
        report.case(read == expected.refusal, || format!("{said}: groups.rs has {read}"));
    }
}

/// Variables above 15, also such as are below 16 if bits are left out.
const ABOVE: [u32; 12] = [16, 17, 31, 32, 255, 256, 65_535, 65_536, 1_048_576, 2_147_483_648, 4_294_967_280, 4_294_967_295];

/// Each of 1 to 7, whatever the variable and the lengths.
pub fn first(report: &mut Report) {
    let (w, large) = (tables::w(), tables::large(MOST_RECORDS + 1));
    let swapped = [&w[9..18], &w[..9]].concat();
    let long = limits::unions(CHECK_LIMIT + 1);
    for (what, table, query, number, place) in [
        ("a table that ends inside a record", &w[..w.len() - 1], &[0x00][..], 1, 0),
        ("a record too many", &large, &[0x00], 2, 0),
        ("a record of zeros", &[&w[..], &[0; 9]].concat(), &[0x00], 3, 4),
        ("two records in the other order", &swapped, &[0x00], 4, 1),
        ("a byte too many", &w, &long, 5, 0),
        ("no query", &w, &[], 6, 0),
        ("a byte behind the query", &w, &[0x00, 0x00], 6, 1),
        ("a variable projected twice", &w, &[0x40, 0x70, 0x51, 0x51, 0x00], 7, 2),
    ] {
        for variable in [0, 15, 16, 4_294_967_295] {
            for [words, room] in [[0, 0], [0, 3], [17, 0], [22, 3], [16, 40]] {
                Refused { what, table, query, variable, words, room, number, place, after: After::Unchanged }.test(report);
            }
        }
    }
}

/// The empty set's row in row spaces and with outputs that are long enough or not: 10 for the variable comes before 8, and 8 before
/// 10 for the output.
pub fn last(report: &mut Report) {
    let (w, query) = (&tables::w()[..], &[0x00][..]);
    let mut test = |what, variable, words, room, (number, place), after| {
        Refused { what, table: w, query, variable, words, room, number, place, after }.test(report);
        Refused { what, table: &[], query, variable, words, room, number, place, after }.test(report);
    };
    for variable in ABOVE {
        test("a variable above 15", variable, 17, 3, (10, 0), After::Unchanged);
        test("a variable above 15, and 8", variable, 16, 3, (10, 0), After::Unchanged);
        test("a variable above 15, and 10 for the output", variable, 17, 2, (10, 0), After::Unchanged);
        test("a variable above 15, 8, and 10 for the output", variable, 0, 0, (10, 0), After::Unchanged);
    }
    for variable in [0, 7, 15] {
        for words in [0, 1, 16] {
            test("8", variable, words, 3, (8, 0), After::Zeros);
            for room in [0, 1, 2] {
                test("8, and 10 for the output", variable, words, room, (8, 0), After::Zeros);
            }
        }
        for words in [17, 18, 34, 100] {
            for room in [0, 1, 2] {
                test("10 for the output", variable, words, room, (10, 3), After::Row);
            }
        }
    }
}

/// Outputs that are too short by some words, for two and three groups. The records of W have two predicates and three objects.
pub fn short_outputs(report: &mut Report) {
    let (table, query, tally) = (tables::w(), vectors::query("S"), Tally { answered: 0, refused: 0 });
    for (variable, needed) in [(0, 6), (1, 6), (2, 9), (3, 3)] {
        for (room, choice) in (0..12).flat_map(|room| CHOICES.map(|choice| (room, choice))) {
            let (mut space, mut output) = (vec![OLD; 4 * ROW_WORDS], vec![OLD; room]);
            let inputs = (&table[..], &query[..], choice);
            let got = ffi::totals(inputs, variable, &mut space, &mut output, tally);
            let expected = if room < needed {
                Totalled { refusal: refusal(10, needed), length: 0, tally: Tally { answered: 0, refused: 1 } }
            } else {
                Totalled { refusal: NONE, length: needed as u64, tally: Tally { answered: 1, refused: 0 } }
            };
            report.totals("W", inputs, (variable, space.len(), room), expected, got);
            let unchanged = output.iter().skip(got.length as usize).all(|word| *word == OLD);
            report.case(unchanged, || format!("W: variable {variable}, {room} words: wrong words behind the entries"));
        }
    }
}

/// Only one of the two counts is raised, once, and none above its end.
pub fn tallies(report: &mut Report) {
    let most = u32::MAX;
    for (what, variable, words, room, answered) in [
        ("an answer", 15, 17, 3, true),
        ("10 for the variable", 16, 17, 3, false),
        ("8", 15, 16, 3, false),
        ("10 for the output", 15, 17, 2, false),
    ] {
        for (count, raised) in [(0, 1), (1, 2), (65_535, 65_536), (most - 1, most), (most, most)] {
            for other in [0, 7, most - 1, most] {
                let tally = |one| if answered { (one, other) } else { (other, one) };
                let [before, after] = [count, raised].map(tally).map(|(answered, refused)| Tally { answered, refused });
                for choice in CHOICES {
                    let inputs: Inputs = (&[], &[0x00], choice);
                    let got = ffi::totals(inputs, variable, &mut vec![OLD; words], &mut vec![OLD; room], before).tally;
                    report.case(got == after, || format!("{what}: the tally is {got}, not {after}, after {before}"));
                }
            }
        }
    }
    let (mut space, mut output, tally) = ([OLD; 17], [OLD; 3], Tally { answered: most, refused: 3 });
    let got = ffi::totals((&[], &[], Choice::Mean), 0, &mut space, &mut output, tally).tally;
    report.case(got == Tally { answered: most, refused: 4 }, || format!("no query: the tally is {got}"));
}

/// Tests a call that is answered with `length` words or refused, in a row space of 20 words and with an output of 4, each of them lent or
/// NULL. The query lists the row of the empty set or none.
fn test_null(
    report: &mut Report,
    what: &str,
    inputs: OrNull,
    variable: u32,
    [space, output]: [bool; 2],
    (number, place, length): (u32, usize, u64),
) {
    let (mut words, mut entries) = ([OLD; 20], [OLD; 4]);
    let (lent, into) = (space.then_some(&mut words[..]), output.then_some(&mut entries[..]));
    let got = ffi::totals_or_null(inputs, variable, lent, into, Tally { answered: 0, refused: 0 });
    let tally = Tally { answered: u32::from(number == 0), refused: u32::from(number != 0) };
    let expected = Totalled { refusal: refusal(number, place), length, tally };
    let lengths = (variable, 20 * usize::from(space), 4 * usize::from(output));
    report.totals(what, (inputs.0.unwrap_or(&[]), inputs.1.unwrap_or(&[]), inputs.2), lengths, expected, got);
    let written = if length == 3 { [0, 1, 2_000, OLD] } else { [OLD; 4] };
    report.case(entries == written, || format!("{what}: the output is {entries:x?}"));
    let after = match (number, place) {
        (0, _) | (10, 3) if space && inputs.1 == Some(&[0x00]) => [&ROW[..], &[0; 3]].concat(),
        (0, _) if space => vec![0; 20],
        _ => vec![OLD; 20],
    };
    report.case(words[..] == after, || format!("{what}: the row space is {words:x?}"));
}

/// A pointer with length 0 may be NULL.
pub fn null_pointers(report: &mut Report) {
    let (table, nothing) = (tables::fact([1, 10, 11], Some(900)), vectors::query("N"));
    let (table, set, nothing) = (Some(&table[..]), Some(&[0x00][..]), Some(&nothing[..]));
    let (lent, no_space, no_output, neither) = ([true, true], [false, true], [true, false], [false, false]);
    for (what, inputs, variable, slices, answer) in [
        ("NULL table", (None, set), 0, lent, (0, 0, 3)),
        ("NULL table and row space", (None, set), 0, no_space, (8, 0, 0)),
        ("NULL table and output", (None, set), 0, no_output, (10, 3, 0)),
        ("NULL row space and output", (table, set), 15, neither, (8, 0, 0)),
        ("NULL row space and output, no row", (table, nothing), 15, neither, (0, 0, 0)),
        ("NULL output, no row", (table, nothing), 0, no_output, (0, 0, 0)),
        ("NULL row space, no row", (table, nothing), 0, no_space, (0, 0, 0)),
        ("NULL for all but the query, no row", (None, nothing), 0, neither, (0, 0, 0)),
        ("NULL row space and output, a variable above 15", (table, set), 16, neither, (10, 0, 0)),
        ("NULL query", (table, None), 0, lent, (6, 0, 0)),
        ("NULL query, a variable above 15", (table, None), 16, lent, (6, 0, 0)),
        ("NULL for all", (None, None), 0, neither, (6, 0, 0)),
    ] {
        for choice in CHOICES {
            let (table, query) = inputs;
            test_null(report, what, (table, query, choice), variable, slices, answer);
        }
    }
}
