//! What `strikes` prints for the bytes of its two files, written from document 01.

use crate::paper::{refusal, Choice, Refusal, NONE};
use crate::rows::{self, Outcome, Row, Seen, Trust, Value, ROW_WORDS};

/// The longest facts file, in bytes.
pub const MOST_FACTS: usize = 65_529;
/// The rows that the program evaluates in.
pub const CAPACITY: usize = 963;

fn trust(trust: Trust) -> String {
    trust.map_or("?".to_string(), |trust| trust.to_string())
}

fn value(value: &Value) -> String {
    match value {
        Value::Term(term) => term.to_string(),
        Value::Trust(known) => format!("t{}", trust(*known)),
    }
}

/// A row's values stand in a map, which lists its variables rising.
fn line(row: &Row) -> String {
    let values: String = row.values.iter().map(|(variable, set)| format!(" ?{variable}={}", value(set))).collect();
    format!("{}{values}\n", trust(row.trust))
}

/// What a run of the program comes to.
pub enum Run {
    Refused(Refusal),
    Answered { rows: Vec<Row>, peak: usize, pairs: u64, left_rows: Seen },
}

/// The run on these bytes, where an absent file has none; none if it takes over `steps` steps. The program evaluates by least.
pub fn run(facts: &[u8], query: &[u8], steps: u64) -> Option<Run> {
    if facts.len() > MOST_FACTS {
        return Some(Run::Refused(refusal(2, 0)));
    }
    let mut left_rows = Seen::default();
    let outcome = rows::evaluate_within((facts, query, Choice::Least), CAPACITY, steps, &mut left_rows)?;
    let refused = outcome.refusal(CAPACITY * ROW_WORDS);
    Some(match outcome {
        Outcome::Rows(evaluation) if refused == NONE => {
            Run::Answered { rows: evaluation.rows, peak: evaluation.space, pairs: evaluation.pairs, left_rows }
        }
        _ => Run::Refused(refused),
    })
}

impl Run {
    pub fn text(&self) -> String {
        match self {
            Run::Refused(Refusal { number, place }) => format!("refused {number} at {place}\n"),
            Run::Answered { rows, peak, pairs, .. } => {
                let lines: String = rows.iter().map(line).collect();
                format!("rows {} peak {peak} pairs {pairs}\n{lines}", rows.len())
            }
        }
    }
}
