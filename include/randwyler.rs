//! Randwyler: the calls for Rust, on slices. Use this file as a module, and link target/staticlib/librandwyler.a (x86-64).
//!
//! A name here has the prefix `randwyler_` in include/randwyler.h, and a constant `RANDWYLER_`; the header says what each call does.
//! Borrowing already gives what it asks of slices: they are lent for the time of the call, and one that is written overlaps no other.
#![allow(dead_code)] // no program has to use all of it

// The header's version of these declarations.
pub const VERSION_MAJOR: u32 = 2;
pub const VERSION_MINOR: u32 = 1;

// Sizes of tables and queries.
pub const RECORD_BYTES: usize = 9;
pub const MOST_RECORDS: usize = 65_535;
/// Of a query to check, to evaluate, or to give the ceiling or totals of.
pub const MOST_QUERY_BYTES: usize = 5_120;
/// Of a query to rewrite.
pub const MOST_REWRITE_QUERY_BYTES: usize = 1_024;
/// An output of so many bytes holds every result of a rewriting.
pub const MOST_RESULT_BYTES: usize = 5_120;
/// Ceilings are cut here.
pub const MOST_CEILING: u32 = 4_294_967_295;

// Sizes of typed queries.
/// Of a text to read.
pub const MOST_TEXT_BYTES: usize = 4_096;
/// An output of so many bytes holds the query of any text.
pub const MOST_TEXT_QUERY_BYTES: usize = 16_384;

// Sizes and words of the row space.
/// Of a row: a cell for each variable, then the row's trust.
pub const ROW_WORDS: usize = 17;
/// So the trust is word 16 of a row, the first one being 0.
pub const VARIABLES: usize = 16;
/// Of a capacity.
pub const MOST_ROWS: usize = 65_535;
/// A row's trust is so much plus its thousandths: 0 to 2000.
pub const TRUST_ZERO: u32 = 1_000;
/// A row's trust where it is unknown.
pub const UNKNOWN_TRUST: u32 = 2_001;
/// A cell below is a term, or 0 if it is free; any other is a row's trust and so much.
pub const FIRST_TRUST_CELL: u32 = 1_048_576;
/// A cell with an unknown trust: the sum of the two above.
pub const UNKNOWN_TRUST_CELL: u32 = 1_050_577;

// Sizes of the output of totals.
/// Of the entry of a group of rows: their cell, their count, their least trust.
pub const GROUP_WORDS: usize = 3;
/// An output of so many words holds all entries of any totals: one each for 65,535 rows.
pub const MOST_TOTALS_WORDS: usize = 196_605;

// The numbers of refusals; the header's table says what they mean.
pub const ANSWERED: u32 = 0;
pub const TABLE_LENGTH: u32 = 1;
pub const TOO_MANY_RECORDS: u32 = 2;
pub const BAD_RECORD: u32 = 3;
pub const NOT_RISING: u32 = 4;
pub const QUERY_TOO_LONG: u32 = 5;
pub const MALFORMED: u32 = 6;
pub const VARIABLE_CLASH: u32 = 7;
pub const NO_ROOM: u32 = 8;
pub const OUTPUT_TOO_SHORT: u32 = 9;
pub const BAD_TOTALS: u32 = 10;
pub const BAD_TEXT: u32 = 11;
pub const NO_ROOM_FOR_QUERY: u32 = 12;

// KiB of stack to give a call: what the deepest queries that were tried need (25 shapes; for evaluation 21 more, and for totals the
// same and 65,535 groups; for typed queries 57 texts of 4,096 bytes), and a margin. That no other query needs more is not proved.
pub const STACK_CHECK_KIB: usize = 800;
pub const STACK_REWRITE_KIB: usize = 272;
pub const STACK_READ_TEXT_KIB: usize = 704;
pub const STACK_CEILING_KIB: usize = 800;
pub const STACK_EVALUATE_KIB: usize = 1024;
pub const STACK_TOTALS_KIB: usize = 1440;

/// Why a call refuses its inputs, and where; both are 0 if nothing is refused.
#[repr(C)]
#[derive(Clone, Copy, Debug, PartialEq, Eq)]
pub struct Refusal {
    pub number: u32,
    pub place: u64,
}

/// The same of a rewriting, or of the reading of a text, and the length of the result.
#[repr(C)]
#[derive(Clone, Copy, Debug, PartialEq, Eq)]
pub struct Rewritten {
    pub number: u32,
    pub place: u64,
    pub length: u64,
}

/// The same of a ceiling, and the ceiling.
#[repr(C)]
#[derive(Clone, Copy, Debug, PartialEq, Eq)]
pub struct Ceiling {
    pub number: u32,
    pub place: u64,
    pub ceiling: u32,
}

/// Counts of evaluations and totals together.
#[repr(C)]
#[derive(Clone, Copy, Debug, Default, PartialEq, Eq)]
pub struct Tally {
    pub answered: u32,
    pub refused: u32,
}

/// The same of an evaluation, its counts, and the tally with one of the two raised.
#[repr(C)]
#[derive(Clone, Copy, Debug, PartialEq, Eq)]
pub struct Evaluated {
    pub number: u32,
    pub place: u64,
    pub rows: u32,
    pub peak: u32,
    pub pairs: u64,
    pub tally: Tally,
}

/// The same of totals, how many words the entries take, and the tally with one of the two raised.
#[repr(C)]
#[derive(Clone, Copy, Debug, PartialEq, Eq)]
pub struct Totalled {
    pub number: u32,
    pub place: u64,
    pub length: u64,
    pub tally: Tally,
}

/// The calls as they are exported.
pub mod raw {
    use super::{Ceiling, Evaluated, Refusal, Rewritten, Tally, Totalled};

    extern "C" {
        pub fn randwyler_check(table: *const u8, table_len: usize, query: *const u8, query_len: usize) -> Refusal;
        pub fn randwyler_rewrite(query: *const u8, query_len: usize, output: *mut u8, output_len: usize) -> Rewritten;
        pub fn randwyler_read_text(text: *const u8, text_len: usize, output: *mut u8, output_len: usize) -> Rewritten;
        pub fn randwyler_ceiling_of(table: *const u8, table_len: usize, query: *const u8, query_len: usize) -> Ceiling;
        pub fn randwyler_evaluate(
            table: *const u8,
            table_len: usize,
            query: *const u8,
            query_len: usize,
            mean: bool,
            space: *mut u32,
            space_len: usize,
            tally: Tally,
        ) -> Evaluated;
        pub fn randwyler_totals_of(
            table: *const u8,
            table_len: usize,
            query: *const u8,
            query_len: usize,
            mean: bool,
            variable: u32,
            space: *mut u32,
            space_len: usize,
            output: *mut u32,
            output_len: usize,
            tally: Tally,
        ) -> Totalled;
    }
}

pub fn check(table: &[u8], query: &[u8]) -> Refusal {
    // SAFETY: the pointers and lengths are those of slices, which are only read.
    unsafe { raw::randwyler_check(table.as_ptr(), table.len(), query.as_ptr(), query.len()) }
}

pub fn rewrite(query: &[u8], output: &mut [u8]) -> Rewritten {
    // SAFETY: the pointers and lengths are those of slices; the query is only read, and the output is lent to be written.
    unsafe { raw::randwyler_rewrite(query.as_ptr(), query.len(), output.as_mut_ptr(), output.len()) }
}

pub fn read_text(text: &[u8], output: &mut [u8]) -> Rewritten {
    // SAFETY: the pointers and lengths are those of slices; the text is only read, and the output is lent to be written.
    unsafe { raw::randwyler_read_text(text.as_ptr(), text.len(), output.as_mut_ptr(), output.len()) }
}

pub fn ceiling_of(table: &[u8], query: &[u8]) -> Ceiling {
    // SAFETY: the pointers and lengths are those of slices, which are only read.
    unsafe { raw::randwyler_ceiling_of(table.as_ptr(), table.len(), query.as_ptr(), query.len()) }
}

pub fn evaluate(table: &[u8], query: &[u8], mean: bool, space: &mut [u32], tally: Tally) -> Evaluated {
    let (words, length) = (space.as_mut_ptr(), space.len());
    // SAFETY: the pointers and lengths are those of slices; table and query are only read, and the space is lent to be written.
    unsafe { raw::randwyler_evaluate(table.as_ptr(), table.len(), query.as_ptr(), query.len(), mean, words, length, tally) }
}

pub fn totals_of(
    table: &[u8],
    query: &[u8],
    mean: bool,
    variable: u32,
    space: &mut [u32],
    output: &mut [u32],
    tally: Tally,
) -> Totalled {
    // SAFETY: the pointers and lengths are those of slices; table and query are only read, space and output are lent to be written.
    unsafe {
        raw::randwyler_totals_of(
            table.as_ptr(),
            table.len(),
            query.as_ptr(),
            query.len(),
            mean,
            variable,
            space.as_mut_ptr(),
            space.len(),
            output.as_mut_ptr(),
            output.len(),
            tally,
        )
    }
}
