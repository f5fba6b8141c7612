//! Rows written by hand, as `strikes` prints them.

use crate::rows::{Row, Value};
use crate::vectors;

fn row(text: &str) -> Row {
    let (trust, values) = text.split_once(' ').unwrap_or((text, ""));
    let value = |text: &str| match text.strip_prefix('t') {
        Some(trust) => Value::Trust(trust.parse().ok()),
        None => Value::Term(vectors::number(text) as u32),
    };
    let cell = |text: &str| {
        let (variable, term) = text.split_once('=').expect("?v=value");
        (vectors::number(&variable[1..]) as u32, value(term))
    };
    Row { values: values.split_terminator(' ').map(cell).collect(), trust: trust.parse().ok() }
}

pub fn rows(texts: &[&str]) -> Vec<Row> {
    texts.iter().map(|text| row(text)).collect()
}
