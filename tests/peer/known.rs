//! Queries whose text in SPARQL and whose rows are written down by hand.

use crate::tables;
use crate::vectors;

pub struct Known {
    pub what: &'static str,
    pub table: Vec<u8>,
    pub query: Vec<u8>,
    pub text: String,
    pub rows: &'static str,
}

/// The texts of A, {?0 20 21}, and B, {?0 10 ?1}.
const A: &str = "{ ?0 :20 :21 }";
const B: &str = "{ ?0 :10 ?1 }";

/// Two merges for the left row ?0 = 1 of A with B, and none for ?0 = 2. ?7 is free.
fn table() -> Vec<u8> {
    tables::facts(&[
        ([1, 10, 5], Some(300)),
        ([1, 10, 6], Some(-400)),
        ([1, 20, 21], Some(0)),
        ([2, 20, 21], Some(1_000)),
        ([5, 30, 8], Some(0)),
    ])
}

fn known(what: &'static str, query: &str, text: String, rows: &'static str) -> Known {
    Known { what, table: table(), query: vectors::query(query), text, rows }
}

/// Left joins of A and B.
fn conditions() -> impl Iterator<Item = Known> {
    let five = "?0=:1 ?1=:5 | ?0=:2";
    let both = "?0=:1 ?1=:5 | ?0=:1 ?1=:6 | ?0=:2";
    let kept = "?0=:1 | ?0=:2";
    [
        ("true on both merges", "70", "true", both),
        ("true, false", "21 000005", "(?1 = :5)", five),
        ("false on all", "21 000009", "(?1 = :9)", kept),
        ("all merges err", "10 07", "(?0 = ?7)", kept),
        ("less of terms", "30 01", "(?0 < ?1)", kept),
        ("not of less of terms", "40 30 01", "(! (?0 < ?1))", kept),
        ("not of same", "40 10 07", "(! (?0 = ?7))", kept),
        ("not of is-term", "40 27 000005", "(! (?7 = :5))", kept),
        ("an error, false", "50 21 000005 10 07", "((?1 = :5) && (?0 = ?7))", kept),
        ("false, an error", "50 10 07 21 000006", "((?0 = ?7) && (?1 = :6))", kept),
        ("an error, true", "60 10 07 21 000005", "((?0 = ?7) || (?1 = :5))", five),
        ("true of the left row, false of its merges", "40 01", "(! bound(?1))", kept),
        ("an error beside false in and", "40 50 10 07 21 000009", "(! ((?0 = ?7) && (?1 = :9)))", both),
        ("false beside an error in and", "40 50 21 000009 10 07", "(! ((?1 = :9) && (?0 = ?7)))", both),
        ("an error beside true in or", "60 10 07 01", "((?0 = ?7) || bound(?1))", both),
        ("true beside an error in or", "60 01 10 07", "(bound(?1) || (?0 = ?7))", both),
        ("an error beside true in and", "50 01 10 07", "(bound(?1) && (?0 = ?7))", kept),
        ("an error beside false in or", "60 21 000009 10 07", "((?1 = :9) || (?0 = ?7))", kept),
        // Not tells an error from false.
        ("not of an error beside true in and", "40 50 10 07 01", "(! ((?0 = ?7) && bound(?1)))", kept),
        ("not of an error beside false in or", "40 60 10 07 21 000009", "(! ((?0 = ?7) || (?1 = :9)))", kept),
        ("not of two errors in and", "40 50 10 07 30 01", "(! ((?0 = ?7) && (?0 < ?1)))", kept),
        ("not of two errors in or", "40 60 10 07 30 01", "(! ((?0 = ?7) || (?0 < ?1)))", kept),
    ]
    .into_iter()
    .map(|(what, query, text, rows)| {
        known(what, &format!("20 {query} A B"), format!("{{ {A} OPTIONAL {{ {B} FILTER({text}) }} }}"), rows)
    })
}

/// Left joins with other operands.
fn operands() -> [Known; 7] {
    let err = "FILTER((?0 = ?7))";
    let twice = format!("{{ {A} UNION {A} }}");
    let inner = format!("{{ {B} OPTIONAL {{ {{ ?1 :30 ?2 }} FILTER((?3 = :21)) }} }}");
    [
        known("no merge", "20 10 07 A N", format!("{{ {A} OPTIONAL {{ {{ :99 :99 :99 }} {err} }} }}"), "?0=:1 | ?0=:2"),
        known("no left row", "20 10 07 N B", format!("{{ {{ :99 :99 :99 }} OPTIONAL {{ {B} {err} }} }}"), ""),
        known("the row without cells", "20 10 07 00 00", format!("{{ {{ }} OPTIONAL {{ {{ }} {err} }} }}"), "-"),
        known(
            "a left row twice, all merges err",
            "20 10 07 30 A A B",
            format!("{{ {twice} OPTIONAL {{ {B} {err} }} }}"),
            "?0=:1 | ?0=:1 | ?0=:2 | ?0=:2",
        ),
        known(
            "a left row twice, an error, true",
            "20 60 10 07 21 000005 30 A A B",
            format!("{{ {twice} OPTIONAL {{ {B} FILTER(((?0 = ?7) || (?1 = :5))) }} }}"),
            "?0=:1 ?1=:5 | ?0=:1 ?1=:5 | ?0=:2 | ?0=:2",
        ),
        // In the inner left join ?3 is free, in the outer one it is 21.
        known(
            "a left join within the right operand",
            "20 23 000015 01 100000 000014 100003 20 23 000015 B 01 100001 00001e 100002",
            format!("{{ {{ ?0 :20 ?3 }} OPTIONAL {{ {inner} FILTER((?3 = :21)) }} }}"),
            "?0=:1 ?1=:5 ?3=:21 | ?0=:1 ?1=:6 ?3=:21 | ?0=:2 ?3=:21",
        ),
        // ?1 is free in the left row ?0 = 2, which is compatible with every right row.
        known(
            "a left join within the left operand",
            "20 22 000008 20 70 A B 01 100001 00001e 100002",
            format!("{{ {{ {A} OPTIONAL {{ {B} FILTER(true) }} }} OPTIONAL {{ {{ ?1 :30 ?2 }} FILTER((?2 = :8)) }} }}"),
            "?0=:1 ?1=:5 ?2=:8 | ?0=:1 ?1=:6 | ?0=:2 ?1=:5 ?2=:8",
        ),
    ]
}

/// Trusts, and other nodes.
fn others() -> [Known; 5] {
    let a = "{ GRAPH :trusts { [] :subject ?0 ; :predicate :20 ; :object :21 ; :trust ?4 } }";
    let b = "{ GRAPH :trusts { [] :subject ?0 ; :predicate :10 ; :object ?1 ; :trust ?5 } }";
    [
        known(
            "less of trusts",
            "20 34 05 54 A 55 B",
            format!("{{ {a} OPTIONAL {{ {b} FILTER((?4 < ?5)) }} }}"),
            "?0=:1 ?1=:5 ?4=0 ?5=300 | ?0=:2 ?4=1000",
        ),
        known(
            "a trust is no term",
            "20 60 14 00 24 000005 54 A B",
            format!("{{ {a} OPTIONAL {{ {B} FILTER(((?4 = ?0) || (?4 = :5))) }} }}"),
            "?0=:1 ?4=0 | ?0=:2 ?4=1000",
        ),
        known("a filter that errs", "40 10 07 30 A B", format!("{{ {{ {A} UNION {B} }} FILTER((?0 = ?7)) }}"), ""),
        known(
            "a filter that errs on some",
            "40 40 21 000005 30 A B",
            format!("{{ {{ {A} UNION {B} }} FILTER((! (?1 = :5))) }}"),
            "?0=:1 ?1=:6",
        ),
        known("join", "10 A B", format!("{{ {A} {B} }}"), "?0=:1 ?1=:5 | ?0=:1 ?1=:6"),
    ]
}

pub fn all() -> Vec<Known> {
    conditions().chain(operands()).chain(others()).collect()
}
