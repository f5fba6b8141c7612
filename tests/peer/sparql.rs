//! Queries as SPARQL 1.1: variables are ?0 to ?15, terms :1 to :1048575, known trusts integers. The default graph has the triples of a
//! table, and the graph :trusts a node for each record, with its terms and its trust. Unknown trusts and ensure trust have no counterpart.

use crate::paper::{Condition, Kind, Pattern, Slot};
use crate::rows::{Row, Value};
use std::collections::BTreeSet;

fn slot(slot: Slot) -> String {
    match slot {
        Slot::Term(term) => format!(":{term}"),
        Slot::Variable(variable) => format!("?{variable}"),
    }
}

fn triple(pattern: &Pattern) -> String {
    pattern.map(slot).join(" ")
}

fn value(value: Value) -> String {
    match value {
        Value::Term(term) => format!(":{term}"),
        Value::Trust(Some(trust)) => trust.to_string(),
        Value::Trust(None) => panic!("an unknown trust"),
    }
}

fn condition(condition: &Condition) -> String {
    let of = self::condition;
    match condition {
        Condition::Bound(variable) => format!("bound(?{variable})"),
        Condition::Same(one, other) => format!("(?{one} = ?{other})"),
        Condition::IsTerm(variable, term) => format!("(?{variable} = :{term})"),
        Condition::Less(one, other) => format!("(?{one} < ?{other})"),
        Condition::Not(operand) => format!("(! {})", of(operand)),
        Condition::And(one, other) => format!("({} && {})", of(one), of(other)),
        Condition::Or(one, other) => format!("({} || {})", of(one), of(other)),
        Condition::True => "true".to_string(),
    }
}

/// The trust of the record that a pattern matches.
fn trust(variable: u32, pattern: &Pattern) -> String {
    let [subject, predicate, object] = pattern.map(slot);
    format!(
        "{{ GRAPH :trusts {{ [] :subject {subject} ; :predicate {predicate} ; :object {object} ; :trust ?{variable} }} }}"
    )
}

/// A group for a node, by those for its operands. A project trust is one over a set of one pattern, and takes no operand.
pub fn group(kind: &Kind, operands: &[String]) -> String {
    match (kind, operands) {
        (Kind::Patterns(patterns), []) if patterns.is_empty() => "{ }".to_string(),
        (Kind::Patterns(patterns), []) => format!("{{ {} }}", patterns.iter().map(triple).collect::<Vec<_>>().join(" . ")),
        (Kind::Join(..), [left, right]) => format!("{{ {left} {right} }}"),
        (Kind::LeftJoin(on, ..), [left, right]) => format!("{{ {left} OPTIONAL {{ {right} FILTER({}) }} }}", condition(on)),
        (Kind::Union(..), [left, right]) => format!("{{ {left} UNION {right} }}"),
        (Kind::Filter(on, _), [operand]) => format!("{{ {operand} FILTER({}) }}", condition(on)),
        (Kind::Project(variable, set), []) => match &set.kind {
            Kind::Patterns(patterns) if patterns.len() == 1 => trust(*variable, &patterns[0]),
            _ => panic!("project trust, not over one pattern"),
        },
        _ => panic!("no counterpart of {kind:?} with {} operands", operands.len()),
    }
}

/// Rows as a group.
pub fn values(rows: &[Row]) -> String {
    let variables: BTreeSet<u32> = rows.iter().flat_map(|row| row.values.keys().copied()).collect();
    let names: Vec<String> = variables.iter().map(|variable| format!("?{variable}")).collect();
    let cell = |row: &Row, variable| row.values.get(variable).map_or("UNDEF".to_string(), |cell| value(*cell));
    let line =
        |row: &Row| format!("({})", variables.iter().map(|variable| cell(row, variable)).collect::<Vec<_>>().join(" "));
    format!("{{ VALUES ({}) {{ {} }} }}", names.join(" "), rows.iter().map(line).collect::<Vec<_>>().join(" "))
}

/// Rows as the peer's are printed: sorted, with a bar between two; one without cells is `-`.
pub fn printed(rows: &[Row]) -> String {
    let cell = |(variable, cell): (&u32, &Value)| format!("?{variable}={}", value(*cell));
    let line = |row: &Row| match row.values.len() {
        0 => "-".to_string(),
        _ => row.values.iter().map(cell).collect::<Vec<_>>().join(" "),
    };
    let mut lines: Vec<String> = rows.iter().map(line).collect();
    lines.sort();
    lines.join(" | ")
}
