//! Totals of as many rows as a row space may have: one group, a group for each row, and between. Every set has one pattern, so that the
//! choice does not matter: it is drawn.

use crate::groups::Totals;
use crate::outputs::Outputs;
use crate::report::Report;
use crate::rows::{self, Trust, MOST_ROWS, ROW_WORDS};
use crate::tables::{self, trust_of};
use crate::vectors;

const ROWS: u32 = MOST_ROWS as u32;
/// Terms are below.
const TERMS: u32 = 1 << 20;
/// {?0 1 ?1}
pub const LINKS: &str = "01 100000 000001 100001";

type Cell = fn(u32) -> u32;

/// The records i 1 CELL for i from 1 to 65,535: ?0 rises, and ?1 has the cells in this order.
pub fn table(cell: Cell, trust: fn(u32) -> Trust) -> Vec<u8> {
    tables::facts(&(1..=ROWS).map(|i| ([i, 1, cell(i)], trust(i))).collect::<Vec<_>>())
}

/// Cell k of those that come 16 to one of the engine's chains: the lowest 16 bits and 40,503 times the rest have one sum modulo 65,536.
fn chained(k: u32) -> u32 {
    let (chain, rest) = (k / 16, k % 16);
    rest << 16 | (chain + rest * (65_536 - 40_503)) % 65_536
}

/// The cells of rows, and how many are different.
const CELLS: [(&str, Cell, usize); 16] = [
    ("rising cells", |i| i, MOST_ROWS),
    ("falling cells", |i| ROWS + 1 - i, MOST_ROWS),
    ("falling cells from the greatest term on", |i| TERMS - i, MOST_ROWS),
    ("equal cells", |_| 7, 1),
    ("two cells in turns", |i| 1 + i % 2, 2),
    ("the last cell alone", |i| if i == ROWS { 8 } else { TERMS - 1 }, 2),
    // Multiples modulo a prime.
    ("shuffled cells", |i| 1 + i * 40_503 % 65_537, MOST_ROWS),
    ("steps of 16", |i| i * 16, MOST_ROWS),
    ("steps of 4,097 modulo the range", |i| i * 4_097 % TERMS, MOST_ROWS),
    // 16 cells with the same lowest 16 bits: one behind the other; 4,096 rows apart; and with bits up to the highest of the 16.
    ("16 to a residue", |i| (i % 16) << 16 | i / 16, MOST_ROWS),
    ("16 to a residue, apart", |i| (i / 4_096) << 16 | i % 4_096, MOST_ROWS),
    ("16 to a residue, residues apart", |i| (i % 16) << 16 | i / 16 * 16, MOST_ROWS),
    ("16 to a chain", chained, MOST_ROWS),
    ("16 to a chain, each in 8 rows", |i| chained(1 + i % 8_192), 8_192),
    ("cells that come again in another order", |i| if i <= 32_768 { i } else { 1 + i * 101 % 32_768 }, 32_768),
    ("1,000 cells in another order", |i| 1_048 * (1 + i * 7_919 % 1_000), 1_000),
];

/// Trusts of rows that are one group, and their least one.
const TRUSTS: [(&str, fn(u32) -> Trust, Trust); 6] = [
    ("the least trust first", |i| Some(i as i32 / 40 - 900), Some(-900)),
    ("the least trust last", |i| Some(1_000 - i as i32 / 33), Some(-985)),
    ("the least trust between", |i| Some((i as i32 - 40_000).abs() / 60), Some(0)),
    ("an unknown trust first", |i| (i != 1).then_some(5), None),
    ("an unknown trust last", |i| (i != ROWS).then_some(-1_000), None),
    ("unknown trusts", |_| None, None),
];

struct Tester<'a> {
    outputs: Outputs,
    report: &'a mut Report,
}

impl Tester<'_> {
    /// Tests totals of 65,535 rows, in row spaces and with outputs that are just long enough and a word too short, and longer ones.
    fn test(&mut self, what: &str, (table, query): (&[u8], &str), variable: u32, groups: usize, least: Option<Trust>) {
        let query = vectors::query(query);
        let inputs = (table, &query[..], self.outputs.spaces.choice());
        let outcome = rows::evaluate(inputs);
        let totals = Totals::of_many(&outcome, variable);
        let rows: usize = totals.groups.iter().map(|group| group.trusts.len()).sum();
        let agrees = rows == MOST_ROWS && totals.groups.len() == groups;
        let agrees = agrees && least.map_or(true, |least| totals.groups[0].least() == least);
        self.report.case(agrees, || format!("{what}: groups.rs has {} groups of {rows} rows", totals.groups.len()));
        let (words, needed) = (MOST_ROWS * ROW_WORDS, totals.needed());
        for lengths in [[words, needed], [words, needed - 1], [words - 1, needed], [words + 20, needed + 3]] {
            self.outputs.test(self.report, what, inputs, &totals, lengths);
        }
        self.outputs.test_beside(self.report, what, inputs, variable, [words, needed]);
    }
}

pub fn all(report: &mut Report) {
    let mut tester = Tester { outputs: Outputs::new(31), report };
    for (what, cell, groups) in CELLS {
        tester.test(what, (&table(cell, trust_of), LINKS), 1, groups, None);
    }
    for (what, trust, least) in TRUSTS {
        tester.test(what, (&table(|_| TERMS - 1, trust), LINKS), 1, 1, Some(least));
    }
    let shuffled = table(|i| 1 + i * 40_503 % 65_537, trust_of);
    tester.test("a variable that no row has", (&shuffled, LINKS), 14, 1, None);
    // Each known trust, and the unknown one.
    tester.test("trusts in cells", (&shuffled, &format!("5f {LINKS}")), 15, 2_002, None);
    // ?1 is free in the second third of the rows.
    let thirds: Vec<_> = (1..=ROWS).map(|i| ([i, 1 + (i - 1) / 21_845, i * 16], trust_of(i))).collect();
    let query = format!("30 {LINKS} 30 01 100000 000002 100002 01 100000 000003 100001");
    tester.test("a large free group between others", (&tables::facts(&thirds), &query), 1, 2 * 21_845 + 1, None);
}
