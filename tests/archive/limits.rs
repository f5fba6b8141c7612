//! Inputs at the limits: queries about as long as a call takes, tables about as long as a table may be, and NULL.

use crate::paper::{refusal, Refusal, CHECK_LIMIT, MOST_RECORDS, NONE};
use crate::tables;

pub struct AtLimit {
    pub what: String,
    pub query: Vec<u8>,
    pub refusal: Refusal,
}

/// Queries one byte below a call's limit, at it and one above it: sound, with a fault at the end, and with a clash.
pub fn about(limit: usize) -> Vec<AtLimit> {
    [limit - 1, limit, limit + 1].into_iter().flat_map(|length| of_length(length, limit)).collect()
}

/// A sound query of a length: unions with the empty set; the first head is a project trust where the length is even.
pub fn unions(length: usize) -> Vec<u8> {
    let mut query = vec![0x53; 1 - length % 2];
    query.extend([0x30, 0x00].repeat((length - 1) / 2));
    query.push(0x00);
    assert_eq!(query.len(), length);
    query
}

fn of_length(length: usize, limit: usize) -> [AtLimit; 3] {
    let sound = unions(length);
    let mut faulty = sound.clone();
    faulty[length - 1] = 0x70;
    let mut clash = sound.clone();
    clash[length - 3..].copy_from_slice(&[0x54, 0x54, 0x00]);
    let cases =
        [("sound", sound, NONE), ("fault", faulty, refusal(6, length - 1)), ("clash", clash, refusal(7, length - 3))];
    cases.map(|(name, query, within)| AtLimit {
        what: format!("{length} bytes, {name}"),
        query,
        refusal: if length <= limit { within } else { refusal(5, 0) },
    })
}

/// A table at or above its limit of records, and a query.
pub struct TableAtLimit {
    pub what: &'static str,
    pub table: Vec<u8>,
    pub query: Vec<u8>,
    pub refusal: Refusal,
}

pub fn of_tables() -> Vec<TableAtLimit> {
    let last = MOST_RECORDS - 1;
    let more = tables::large(MOST_RECORDS + 1);
    let table = &more[..9 * MOST_RECORDS];
    let front = &table[..9 * last];
    let with_last = |record: [u8; 9]| [front, &record].concat();
    let case = |what, table: &[u8], query: &[u8], refusal| {
        let (table, query) = (table.to_vec(), query.to_vec());
        TableAtLimit { what, table, query, refusal }
    };
    let faulty = |what, record, number| case(what, &with_last(record), &[0], refusal(number, last));
    vec![
        case("65,535 records", table, &[0], NONE),
        case("65,535 records, long query", table, &[0xFF; CHECK_LIMIT + 1], refusal(5, 0)),
        case("65,535 records, bad query", table, &[0, 0], refusal(6, 1)),
        faulty("last record with predicate 0", tables::record([1_000, 0, 1], true, 0), 3),
        faulty("last record with trust field 2001", tables::record([1_000, 1, 1], true, 2_001), 3),
        faulty("last record with a trust that is unknown and not 0", tables::record([1_000, 1, 1], false, 1), 3),
        faulty("last record below the one before", tables::record([1, 1, 1], true, 0), 4),
        faulty("last record as the one before", front[9 * (last - 1)..].try_into().expect("a record"), 4),
        faulty("last record with both faults", tables::record([1, 1, 1], true, 2_047), 3),
        case("65,536 records", &more, &[0], refusal(2, 0)),
        case("65,536 records, the first one bad", &[&[0; 9], &more[9..]].concat(), &[0], refusal(2, 0)),
        case("65,536 records and a byte", &[&more, &[0][..]].concat(), &[0], refusal(1, 0)),
        case("65,535 records and a byte", &[table, &[0]].concat(), &[0], refusal(1, 0)),
        case("65,535 records and 8 bytes", &[table, &[0; 8]].concat(), &[], refusal(1, 0)),
    ]
}

/// A table and a query; none is NULL with length 0.
pub struct NullInput {
    pub what: &'static str,
    pub table: Option<Vec<u8>>,
    pub query: Option<Vec<u8>>,
    pub refusal: Refusal,
}

pub fn null_inputs() -> Vec<NullInput> {
    let table = tables::record([1, 10, 11], true, 1_900);
    let case = |what, table: Option<&[u8]>, query: Option<&[u8]>, refusal| {
        let (table, query) = (table.map(<[u8]>::to_vec), query.map(<[u8]>::to_vec));
        NullInput { what, table, query, refusal }
    };
    vec![
        case("NULL table", None, Some(&[0]), NONE),
        case("NULL table, bad query", None, Some(&[0, 0]), refusal(6, 1)),
        case("NULL query", Some(&table), None, refusal(6, 0)),
        case("NULL query, bad table", Some(&table[1..]), None, refusal(1, 0)),
        case("NULL table and query", None, None, refusal(6, 0)),
        case("empty table and query", Some(&[]), Some(&[]), refusal(6, 0)),
    ]
}
