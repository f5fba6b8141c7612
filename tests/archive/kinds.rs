//! Kinds of random cases, of which none may come too seldom.

use crate::report::Report;
use std::collections::BTreeMap;

/// What a case may come to: its name, how often cases must come to it, and whether one did.
pub type Kind = (&'static str, u64, bool);

/// How often cases must come to each kind, and did.
#[derive(Default)]
pub struct Kinds(BTreeMap<&'static str, (u64, u64)>);

impl Kinds {
    /// Counts a case.
    pub fn count(&mut self, kinds: &[Kind]) {
        for (kind, least, seen) in kinds {
            self.0.entry(kind).or_insert((*least, 0)).1 += u64::from(*seen);
        }
    }

    /// Counts a case of the report for each kind; `cases` says what was counted.
    pub fn enough(&self, report: &mut Report, cases: &str) {
        for (kind, (least, count)) in &self.0 {
            println!("{cases} with {kind}: {count}");
            report.case(count >= least, || format!("only {count} {cases} with {kind}"));
        }
    }
}
