//! Independent totals, written from request 1 of document 02 on the rows of rows.rs: the rows that have one cell for a variable
//! are a group, and groups stand in order of first appearance.

use crate::paper::{refusal, Refusal, Tally, Totalled, NONE, VARIABLES};
use crate::rows::{self, Evaluation, Outcome, Row, Trust, Value};
use std::collections::HashMap;

/// Words of an entry: cell, count, trust.
pub const GROUP_WORDS: usize = 3;

/// None is free.
pub type Cell = Option<Value>;

/// A cell, and the trusts of the rows that have it, in their order.
#[derive(Debug, PartialEq, Eq)]
pub struct Group {
    pub cell: Cell,
    pub trusts: Vec<Trust>,
}

impl Group {
    /// The least trust, unknown if one is.
    pub fn least(&self) -> Trust {
        let known: Option<Vec<i32>> = self.trusts.iter().copied().collect();
        known?.into_iter().min()
    }

    fn words(&self) -> [u32; GROUP_WORDS] {
        [rows::cell_word(self.cell), self.trusts.len() as u32, rows::trust_word(self.least())]
    }
}

pub fn cell_of(row: &Row, variable: u32) -> Cell {
    row.values.get(&variable).copied()
}

/// The groups: first the different cells, then the rows of each.
pub fn listed(rows: &[Row], variable: u32) -> Vec<Group> {
    let mut cells: Vec<Cell> = Vec::new();
    for row in rows {
        if !cells.contains(&cell_of(row, variable)) {
            cells.push(cell_of(row, variable));
        }
    }
    let trusts_of = |cell: Cell| rows.iter().filter(|row| cell_of(row, variable) == cell).map(|row| row.trust).collect();
    cells.into_iter().map(|cell| Group { cell, trusts: trusts_of(cell) }).collect()
}

/// The same groups, found by a map: to look through 65,535 rows for each of 65,535 different cells would take minutes.
pub fn by_map(rows: &[Row], variable: u32) -> Vec<Group> {
    let mut groups: Vec<Group> = Vec::new();
    let mut places: HashMap<Cell, usize> = HashMap::new();
    for row in rows {
        let cell = cell_of(row, variable);
        let place = *places.entry(cell).or_insert(groups.len());
        if place == groups.len() {
            groups.push(Group { cell, trusts: Vec::new() });
        }
        groups[place].trusts.push(row.trust);
    }
    groups
}

/// Totals of a variable of what an evaluation comes to, in any row space and with any output.
pub struct Totals<'a> {
    pub outcome: &'a Outcome,
    pub variable: u32,
    /// Of all rows; none if there are none.
    pub groups: Vec<Group>,
}

impl<'a> Totals<'a> {
    pub fn new(outcome: &'a Outcome, variable: u32) -> Totals<'a> {
        Totals { outcome, variable, groups: listed(rows_of(outcome), variable) }
    }

    /// The same where there may be many groups.
    pub fn of_many(outcome: &'a Outcome, variable: u32) -> Totals<'a> {
        Totals { outcome, variable, groups: by_map(rows_of(outcome), variable) }
    }

    pub fn entries(&self) -> Vec<u32> {
        self.groups.iter().flat_map(Group::words).collect()
    }

    /// Whether other rows stand between those of a group.
    pub fn apart(&self) -> bool {
        let cells: Vec<Cell> = rows_of(self.outcome).iter().map(|row| cell_of(row, self.variable)).collect();
        let changes = cells.windows(2).filter(|two| two[0] != two[1]).count();
        changes + 1 > self.groups.len().max(1)
    }

    /// Words of the shortest output that is long enough.
    pub fn needed(&self) -> usize {
        GROUP_WORDS * self.groups.len()
    }

    /// The refusal in a row space of so many words, and with an output of `room` words.
    pub fn refusal(&self, [words, room]: [usize; 2]) -> Refusal {
        if let Outcome::Refused(refused) = self.outcome {
            return *refused;
        }
        if self.variable >= VARIABLES {
            return refusal(10, 0);
        }
        match self.outcome.refusal(words) {
            NONE if room < self.needed() => refusal(10, self.needed()),
            refused => refused,
        }
    }

    /// The answer; what then stands in the row space, none where it is unchanged; and what is written to the output's front.
    pub fn answer(&self, lengths: [usize; 2], tally: Tally) -> (Totalled, Option<Vec<u32>>, Vec<u32>) {
        let refusal = self.refusal(lengths);
        let written = if refusal == NONE { self.entries() } else { Vec::new() };
        let mut answer = Totalled { refusal, length: written.len() as u64, tally };
        let count = if refusal == NONE { &mut answer.tally.answered } else { &mut answer.tally.refused };
        *count = count.saturating_add(1);
        let evaluated = || self.outcome.answer(lengths[0], tally).1;
        (answer, if self.variable < VARIABLES { evaluated() } else { None }, written)
    }
}

fn rows_of(outcome: &Outcome) -> &[Row] {
    match outcome {
        Outcome::Rows(Evaluation { rows, .. }) => rows,
        _ => &[],
    }
}
