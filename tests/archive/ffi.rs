//! The calls of the archive, as functions on slices.

#[path = "../../include/randwyler.rs"]
mod randwyler;

use crate::paper::{Ceiling, Choice, Evaluated, Inputs, Refusal, Rewritten, Tally, Totalled};
use randwyler::raw::{randwyler_ceiling_of, randwyler_check, randwyler_evaluate};
use randwyler::raw::{randwyler_read_text, randwyler_rewrite, randwyler_totals_of};

/// The pointer and length of a slice; none is NULL with length 0.
fn parts(slice: Option<&[u8]>) -> (*const u8, usize) {
    slice.map_or((std::ptr::null(), 0), |bytes| (bytes.as_ptr(), bytes.len()))
}

/// The same of a slice to write.
fn parts_mut<T>(slice: Option<&mut [T]>) -> (*mut T, usize) {
    slice.map_or((std::ptr::null_mut(), 0), |values| (values.as_mut_ptr(), values.len()))
}

/// `randwyler_check`, with NULL for none.
pub fn check_or_null(table: Option<&[u8]>, query: Option<&[u8]>) -> Refusal {
    let ((table, table_len), (query, query_len)) = (parts(table), parts(query));
    // SAFETY: both pointers are NULL with length 0 or a slice's own, and the call only reads them.
    let answer = unsafe { randwyler_check(table, table_len, query, query_len) };
    Refusal { number: answer.number, place: answer.place }
}

pub fn check(table: &[u8], query: &[u8]) -> Refusal {
    check_or_null(Some(table), Some(query))
}

/// `randwyler_rewrite`, with NULL for none.
pub fn rewrite_or_null(query: Option<&[u8]>, output: Option<&mut [u8]>) -> Rewritten {
    let (query, query_len) = parts(query);
    let (output, output_len) = parts_mut(output);
    // SAFETY: both pointers are NULL with length 0 or a slice's own; the call only reads the query, and the output is ours.
    let answer = unsafe { randwyler_rewrite(query, query_len, output, output_len) };
    Rewritten { refusal: Refusal { number: answer.number, place: answer.place }, length: answer.length }
}

pub fn rewrite(query: &[u8], output: &mut [u8]) -> Rewritten {
    rewrite_or_null(Some(query), Some(output))
}

/// `randwyler_read_text`, with NULL for none.
pub fn read_text_or_null(text: Option<&[u8]>, output: Option<&mut [u8]>) -> Rewritten {
    let (text, text_len) = parts(text);
    let (output, output_len) = parts_mut(output);
    // SAFETY: both pointers are NULL with length 0 or a slice's own; the call only reads the text, and the output is ours.
    let answer = unsafe { randwyler_read_text(text, text_len, output, output_len) };
    Rewritten { refusal: Refusal { number: answer.number, place: answer.place }, length: answer.length }
}

pub fn read_text(text: &[u8], output: &mut [u8]) -> Rewritten {
    read_text_or_null(Some(text), Some(output))
}

/// `randwyler_ceiling_of`, with NULL for none.
pub fn ceiling_or_null(table: Option<&[u8]>, query: Option<&[u8]>) -> Ceiling {
    let ((table, table_len), (query, query_len)) = (parts(table), parts(query));
    // SAFETY: both pointers are NULL with length 0 or a slice's own, and the call only reads them.
    let answer = unsafe { randwyler_ceiling_of(table, table_len, query, query_len) };
    Ceiling { refusal: Refusal { number: answer.number, place: answer.place }, ceiling: answer.ceiling }
}

pub fn ceiling(table: &[u8], query: &[u8]) -> Ceiling {
    ceiling_or_null(Some(table), Some(query))
}

/// What is evaluated, with NULL for none.
pub type OrNull<'a> = (Option<&'a [u8]>, Option<&'a [u8]>, Choice);

fn lent((table, query, choice): Inputs) -> OrNull {
    (Some(table), Some(query), choice)
}

/// The calls' parameter for a choice.
fn is_mean(choice: Choice) -> bool {
    match choice {
        Choice::Least => false,
        Choice::Mean => true,
    }
}

/// `randwyler_evaluate` with NULL for none, in a row space by its pointer and length.
///
/// # Safety
/// The row space is ours to write, or NULL with length 0.
unsafe fn evaluate_at(
    (table, query, choice): OrNull,
    (space, space_len): (*mut u32, usize),
    Tally { answered, refused }: Tally,
) -> Evaluated {
    let ((table, table_len), (query, query_len)) = (parts(table), parts(query));
    let tally = randwyler::Tally { answered, refused };
    let answer = randwyler_evaluate(table, table_len, query, query_len, is_mean(choice), space, space_len, tally);
    let randwyler::Tally { answered, refused } = answer.tally;
    Evaluated {
        refusal: Refusal { number: answer.number, place: answer.place },
        rows: answer.rows,
        peak: answer.peak,
        pairs: answer.pairs,
        tally: Tally { answered, refused },
    }
}

/// `randwyler_evaluate`, with NULL for none.
pub fn evaluate_or_null(inputs: OrNull, space: Option<&mut [u32]>, tally: Tally) -> Evaluated {
    // SAFETY: the pointers are NULL with length 0 or a slice's own; table and query are only read, and the space is lent.
    unsafe { evaluate_at(inputs, parts_mut(space), tally) }
}

pub fn evaluate(inputs: Inputs, space: &mut [u32], tally: Tally) -> Evaluated {
    evaluate_or_null(lent(inputs), Some(space), tally)
}

/// `randwyler_evaluate` in a row space that nobody has written, and what then stands in it; none on the refusals 1 to 7.
pub fn evaluate_unwritten(inputs: Inputs, words: usize, tally: Tally) -> (Evaluated, Option<Vec<u32>>) {
    let mut space = Vec::with_capacity(words);
    // SAFETY: the space has room for so many words.
    let answer = unsafe { evaluate_at(lent(inputs), (space.as_mut_ptr(), words), tally) };
    if (randwyler::TABLE_LENGTH..randwyler::NO_ROOM).contains(&answer.refusal.number) {
        return (answer, None);
    }
    // SAFETY: an answer, and refusal 8, write every word; valgrind sees it if they do not.
    unsafe { space.set_len(words) };
    (answer, Some(space))
}

/// `randwyler_totals_of` with NULL for none, in a row space and with an output by their pointers and lengths.
///
/// # Safety
/// Row space and output are ours to write, or NULL with length 0.
unsafe fn totals_at(
    (table, query, choice): OrNull,
    variable: u32,
    (space, space_len): (*mut u32, usize),
    (output, output_len): (*mut u32, usize),
    Tally { answered, refused }: Tally,
) -> Totalled {
    let ((table, table_len), (query, query_len)) = (parts(table), parts(query));
    let tally = randwyler::Tally { answered, refused };
    let mean = is_mean(choice);
    let answer =
        randwyler_totals_of(table, table_len, query, query_len, mean, variable, space, space_len, output, output_len, tally);
    let randwyler::Tally { answered, refused } = answer.tally;
    Totalled {
        refusal: Refusal { number: answer.number, place: answer.place },
        length: answer.length,
        tally: Tally { answered, refused },
    }
}

/// `randwyler_totals_of`, with NULL for none.
pub fn totals_or_null(
    inputs: OrNull,
    variable: u32,
    space: Option<&mut [u32]>,
    output: Option<&mut [u32]>,
    tally: Tally,
) -> Totalled {
    // SAFETY: the pointers are NULL with length 0 or a slice's own; table and query are only read, space and output are lent.
    unsafe { totals_at(inputs, variable, parts_mut(space), parts_mut(output), tally) }
}

pub fn totals(inputs: Inputs, variable: u32, space: &mut [u32], output: &mut [u32], tally: Tally) -> Totalled {
    totals_or_null(lent(inputs), variable, Some(space), Some(output), tally)
}

/// `randwyler_totals_of` in a row space and with an output that nobody has written; what then stands in the row space, none where it is
/// left as it was; and the entries.
pub fn totals_unwritten(
    inputs: Inputs,
    variable: u32,
    [words, room]: [usize; 2],
    tally: Tally,
) -> (Totalled, Option<Vec<u32>>, Vec<u32>) {
    let (mut space, mut output) = (Vec::with_capacity(words), Vec::with_capacity(room));
    let parts = ((space.as_mut_ptr(), words), (output.as_mut_ptr(), room));
    // SAFETY: both have room for so many words.
    let answer = unsafe { totals_at(lent(inputs), variable, parts.0, parts.1, tally) };
    assert!(answer.length <= room as u64, "an answer of {} words in an output of {room}", answer.length);
    // SAFETY: an answer writes so many words; valgrind sees it if it does not.
    unsafe { output.set_len(answer.length as usize) };
    let Refusal { number, place } = answer.refusal;
    if (randwyler::TABLE_LENGTH..randwyler::NO_ROOM).contains(&number) || (number, place) == (randwyler::BAD_TOTALS, 0) {
        return (answer, None, output);
    }
    // SAFETY: an answer, refusal 8 and a 10 for the output write every word of the row space.
    unsafe { space.set_len(words) };
    (answer, Some(space), output)
}
