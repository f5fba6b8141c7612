//! Left rows of left joins, of which none of a sort may come too seldom.

use crate::report::Report;
use crate::rows::{Seen, KEPT_ON_ERROR, LEFT_ROWS};

/// Counts a case of the report for each of `LEFT_ROWS` and of `KEPT_ON_ERROR`; `cases` says what was counted.
pub fn enough(report: &mut Report, seen: &Seen, cases: &str, least: u64) {
    let outcomes = LEFT_ROWS.iter().map(|what| what.to_string()).zip(seen.left_rows);
    let kept = KEPT_ON_ERROR.iter().map(|what| format!("kept on an error, {what}")).zip(seen.kept_on_error);
    for (what, count) in outcomes.chain(kept) {
        println!("left rows of {cases}, {what}: {count}");
        report.case(count >= least, || format!("only {count} left rows of {cases}, {what}"));
    }
}
