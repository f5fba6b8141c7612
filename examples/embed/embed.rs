//! The engine in a program in Rust: checks a table and a query, lists the rows of the query and of its rewriting, which are evaluated on
//! a thread each, and then a line for each strike: how many rows it has, and the least of their trusts.
//!
//!     embed FACTS QUERY [mean]
//!
//! A query whose name ends in .txt is typed. With `mean` the trust of a pattern set's row is the mean of its records' trusts, without it
//! the least.
//!
//! Exit status: 0 the rows were listed; 1 an input was refused; 2 a file cannot be read.

#[path = "../../include/randwyler.rs"]
mod randwyler;

use randwyler::{Evaluated, Tally, ANSWERED, NO_ROOM, STACK_EVALUATE_KIB};
use randwyler::{FIRST_TRUST_CELL, GROUP_WORDS, MOST_RESULT_BYTES, MOST_ROWS, MOST_TEXT_QUERY_BYTES, MOST_TOTALS_WORDS};
use randwyler::{ROW_WORDS, TRUST_ZERO, UNKNOWN_TRUST, VARIABLES};
use std::process::ExitCode;
use std::{env, fs, thread};

const LISTED: u8 = 0;
const REFUSED: u8 = 1;
const FAILED: u8 = 2;

/// The variable of the query whose cells are strikes.
const STRIKE: u32 = 0;

/// A refusal, and what to do about it.
fn refusal(number: u32, place: u64) -> String {
    let advice = match number {
        randwyler::TABLE_LENGTH => "the table ends inside a record: read it again from its source",
        randwyler::TOO_MANY_RECORDS => "the table has too many records: choose fewer for it",
        randwyler::BAD_RECORD => "this record has a value out of range: correct it or leave it out",
        randwyler::NOT_RISING => "this record does not rise: sort the table and leave repetitions out",
        randwyler::QUERY_TOO_LONG => "the query is too long for this call: shorten it",
        randwyler::MALFORMED => "the query has a fault at this byte: correct its writer",
        randwyler::VARIABLE_CLASH => "the variable of this project trust is used elsewhere: choose another one",
        randwyler::NO_ROOM => "the query needs more rows than any row space has: narrow it",
        randwyler::OUTPUT_TOO_SHORT => "the output is too short: lend so many bytes",
        randwyler::BAD_TOTALS if place == 0 => "the variable is above 15: choose another one",
        randwyler::BAD_TOTALS => "the output is too short: lend so many words",
        randwyler::BAD_TEXT => "the typed query goes wrong at this byte, or is too long: correct it",
        randwyler::NO_ROOM_FOR_QUERY => "the output is too short: lend so many bytes",
        _ => "unknown number",
    };
    format!("refused {number} at {place}: {advice}")
}

/// A row's trust, or that of a cell less `FIRST_TRUST_CELL`.
fn trust(word: u32) -> String {
    if word == UNKNOWN_TRUST {
        "?".to_string()
    } else {
        (word as i32 - TRUST_ZERO as i32).to_string()
    }
}

fn binding(variable: u32, cell: u32) -> String {
    match cell {
        0 => format!("?{variable} free"),
        term if term < FIRST_TRUST_CELL => format!("?{variable}={term}"),
        cell => format!("?{variable}=t{}", trust(cell - FIRST_TRUST_CELL)),
    }
}

fn line(row: &[u32]) -> String {
    let mut line = trust(row[VARIABLES]);
    for (variable, cell) in (0..).zip(&row[..VARIABLES]) {
        if *cell != 0 {
            line += &format!(" {}", binding(variable, *cell));
        }
    }
    line
}

/// An answer and its row space.
type Answer = (Evaluated, Vec<u32>);

/// The last answer: in so many rows, or, as long as that is too small, in twice as many.
fn evaluate(table: &[u8], query: &[u8], mean: bool, mut rows: usize) -> Answer {
    let mut tally = Tally::default();
    loop {
        let mut space = vec![0; rows * ROW_WORDS];
        let answer = randwyler::evaluate(table, query, mean, &mut space, tally);
        if answer.number != NO_ROOM || rows == MOST_ROWS {
            return (answer, space);
        }
        tally = answer.tally;
        rows = (2 * rows).min(MOST_ROWS);
    }
}

/// The answers to a query and to its rewriting, if there is one, by one choice and on a thread each.
fn evaluate_both(table: &[u8], query: &[u8], rewriting: Option<&[u8]>, mean: bool, rows: usize) -> (Answer, Option<Answer>) {
    thread::scope(|scope| {
        let on_thread = |query| {
            let stack = (STACK_EVALUATE_KIB + 64) * 1024; // the call's, and some for this program
            let builder = thread::Builder::new().stack_size(stack);
            builder.spawn_scoped(scope, move || evaluate(table, query, mean, rows)).expect("a thread")
        };
        let listing = on_thread(query);
        let pushed = rewriting.map(|rewriting| on_thread(rewriting).join().expect("an answer"));
        (listing.join().expect("an answer"), pushed)
    })
}

/// Prints an answer and its rows.
fn list(what: &str, (answer, space): &Answer) -> u8 {
    if answer.number != ANSWERED {
        println!("{what}: {}", refusal(answer.number, answer.place));
        return REFUSED;
    }
    println!("{what}: rows {} peak {} pairs {}", answer.rows, answer.peak, answer.pairs);
    for row in space.chunks(ROW_WORDS).take(answer.rows as usize) {
        println!("{}", line(row));
    }
    LISTED
}

/// Prints totals by a variable, in the most rows, with an output that is never too short. Gives the tally back.
fn list_totals(table: &[u8], query: &[u8], mean: bool, variable: u32, tally: Tally) -> Tally {
    let (mut space, mut output) = (vec![0; MOST_ROWS * ROW_WORDS], vec![0; MOST_TOTALS_WORDS]);
    let answer = randwyler::totals_of(table, query, mean, variable, &mut space, &mut output, tally);
    if answer.number != ANSWERED {
        println!("totals: {}", refusal(answer.number, answer.place));
        return answer.tally;
    }
    println!("totals: groups {}", answer.length as usize / GROUP_WORDS);
    for entry in output[..answer.length as usize].chunks(GROUP_WORDS) {
        println!("{}: rows {} least trust {}", binding(variable, entry[0]), entry[1], trust(entry[2]));
    }
    answer.tally
}

fn run(table: &[u8], query: &[u8], mean: bool) -> u8 {
    let check = randwyler::check(table, query);
    if check.number != ANSWERED {
        println!("{}", refusal(check.number, check.place));
        return REFUSED;
    }

    let ceiling = randwyler::ceiling_of(table, query).ceiling;
    println!("ceiling {ceiling}");
    let rows = (ceiling as usize).clamp(1, MOST_ROWS);

    let mut output = [0; MOST_RESULT_BYTES];
    let rewritten = randwyler::rewrite(query, &mut output);
    let rewriting = (rewritten.number == ANSWERED).then_some(&output[..rewritten.length as usize]);
    let (listed, pushed) = evaluate_both(table, query, rewriting, mean, rows);

    let mut status = list("query", &listed);
    let mut tally = listed.0.tally;
    match &pushed {
        Some(pushed) => {
            status = list("rewriting", pushed);
            tally.answered += pushed.0.tally.answered;
            tally.refused += pushed.0.tally.refused;
        }
        None => println!("rewriting: {}", refusal(rewritten.number, rewritten.place)),
    }

    // Of the rewriting, or of the query if it is too long to be rewritten.
    tally = list_totals(table, rewriting.unwrap_or(query), mean, STRIKE, tally);
    println!("tally: answered {} refused {}", tally.answered, tally.refused);
    status
}

/// The bytes of a typed query, or its refusal.
fn read_typed(text: &[u8]) -> Result<Vec<u8>, String> {
    let mut output = vec![0; MOST_TEXT_QUERY_BYTES];
    let read = randwyler::read_text(text, &mut output);
    if read.number != ANSWERED {
        return Err(refusal(read.number, read.place));
    }
    output.truncate(read.length as usize);
    Ok(output)
}

fn main() -> ExitCode {
    let arguments: Vec<String> = env::args().skip(1).collect();
    let (facts, query, mean) = match &arguments[..] {
        [facts, query] => (facts, query, false),
        [facts, query, choice] if choice == "mean" => (facts, query, true),
        _ => {
            eprintln!("usage: embed FACTS QUERY [mean]");
            return FAILED.into();
        }
    };
    let read = |path: &String| fs::read(path).map_err(|_| eprintln!("embed: cannot read {path}"));
    let (Ok(table), Ok(bytes)) = (read(facts), read(query)) else {
        return FAILED.into();
    };
    let bytes = if query.ends_with(".txt") { read_typed(&bytes) } else { Ok(bytes) };
    match bytes {
        Ok(bytes) => run(&table, &bytes, mean).into(),
        Err(refusal) => {
            println!("{refusal}");
            REFUSED.into()
        }
    }
}
