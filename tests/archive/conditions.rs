//! Conditions on a row, written from document 01.

use crate::paper::Condition;
use crate::rows::{Row, Value};

/// None is an error.
pub type Truth = Option<bool>;

pub const TRUTHS: [Truth; 3] = [Some(true), Some(false), None];
pub const CONDITION_KINDS: [&str; 8] = ["bound", "same", "is-term", "less", "not", "and", "or", "true"];

/// How often each kind of condition gave each of `TRUTHS`.
pub type SeenTruths = [[u64; TRUTHS.len()]; CONDITION_KINDS.len()];

/// What same and is-term compare: not a free cell, and not an unknown trust.
fn comparable(row: &Row, variable: u32) -> Option<Value> {
    row.values.get(&variable).copied().filter(|value| *value != Value::Trust(None))
}

fn known_trust(row: &Row, variable: u32) -> Option<i32> {
    match row.values.get(&variable)? {
        Value::Trust(trust) => *trust,
        Value::Term(_) => None,
    }
}

fn same(row: &Row, one: u32, other: u32) -> Truth {
    Some(comparable(row, one)? == comparable(row, other)?)
}

fn is_term(row: &Row, variable: u32, term: u32) -> Truth {
    Some(comparable(row, variable)? == Value::Term(term))
}

fn less(row: &Row, one: u32, other: u32) -> Truth {
    Some(known_trust(row, one)? < known_trust(row, other)?)
}

fn not(truth: Truth) -> Truth {
    truth.map(|truth| !truth)
}

fn and(one: Truth, other: Truth) -> Truth {
    match (one, other) {
        (Some(false), _) | (_, Some(false)) => Some(false),
        (None, _) | (_, None) => None,
        _ => Some(true),
    }
}

fn or(one: Truth, other: Truth) -> Truth {
    match (one, other) {
        (Some(true), _) | (_, Some(true)) => Some(true),
        (None, _) | (_, None) => None,
        _ => Some(false),
    }
}

pub fn truth(condition: &Condition, row: &Row, seen: &mut SeenTruths) -> Truth {
    let mut of = |operand: &Condition| truth(operand, row, seen);
    let (kind, truth) = match condition {
        Condition::Bound(variable) => (0, Some(row.values.contains_key(variable))),
        Condition::Same(one, other) => (1, same(row, *one, *other)),
        Condition::IsTerm(variable, term) => (2, is_term(row, *variable, *term)),
        Condition::Less(one, other) => (3, less(row, *one, *other)),
        Condition::Not(operand) => (4, not(of(operand))),
        Condition::And(one, other) => (5, and(of(one), of(other))),
        Condition::Or(one, other) => (6, or(of(one), of(other))),
        Condition::True => (7, Some(true)),
    };
    let which = TRUTHS.iter().position(|other| *other == truth).expect("one of three");
    seen[kind][which] += 1;
    truth
}
