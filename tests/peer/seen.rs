//! What the questions are about: kinds of queries and nodes, truths, and left rows, of which none may come too seldom.

use crate::conditions::{self, SeenTruths, Truth, CONDITION_KINDS, TRUTHS};
use crate::kinds::Kinds;
use crate::paper::{self, Condition, Kind, Node, Pattern, Slot};
use crate::report::Report;
use crate::rows::{Row, Value};

/// By their numbers; ensure trust, behind them, has no counterpart.
const NODES: [&str; 6] = ["pattern set", "join", "left join", "union", "filter", "project trust"];
/// Those that take any of `NODES`.
const TAKE_NODES: std::ops::Range<usize> = 1..5;

pub fn name(kind: &Kind) -> &'static str {
    NODES[kind.number()]
}

pub fn operands(node: &Node) -> Vec<&Node> {
    match &node.kind {
        Kind::Patterns(_) => vec![],
        Kind::Join(left, right) | Kind::LeftJoin(_, left, right) | Kind::Union(left, right) => vec![left, right],
        Kind::Filter(_, operand) | Kind::Project(_, operand) | Kind::Ensure(_, _, operand) => vec![operand],
    }
}

fn patterns(node: &Node) -> &[Pattern] {
    match &node.kind {
        Kind::Patterns(patterns) => patterns,
        _ => &[],
    }
}

fn has_trust(row: &Row) -> bool {
    row.values.values().any(|value| matches!(value, Value::Trust(_)))
}

#[derive(Default)]
pub struct Seen {
    truths: SeenTruths,
    filtered: Kinds,
    left_rows: Kinds,
    queries: Kinds,
    /// How often a kind of node stood directly in another.
    nested: [[u64; NODES.len()]; NODES.len()],
}

impl Seen {
    /// Counts a whole query and its rows.
    pub fn query(&mut self, table: &[u8], tree: &Node, rows: &[Row]) {
        let mut nodes = Vec::new();
        tree.each(&mut |node| nodes.push(node));
        for (node, operand) in nodes.iter().flat_map(|node| operands(node).into_iter().map(move |operand| (node, operand))) {
            self.nested[node.kind.number()][operand.kind.number()] += 1;
        }
        let is_left_join = |node: &Node| matches!(node.kind, Kind::LeftJoin(..));
        let within = |side: usize| nodes.iter().any(|node| is_left_join(node) && is_left_join(operands(node)[side]));
        let empty_set = |node: &Node| matches!(&node.kind, Kind::Patterns(patterns) if patterns.is_empty());
        let is_variable = |slot: &Slot| matches!(slot, Slot::Variable(_));
        let twice = |pattern: &Pattern| (0..3).any(|i| is_variable(&pattern[i]) && pattern[i] == pattern[(i + 1) % 3]);
        let any_pattern = |has: &dyn Fn(&Pattern) -> bool| nodes.iter().any(|node| patterns(node).iter().any(has));
        let unknown = paper::records(table).expect("a sound table").iter().any(|record| !record.known);
        let equal = (1..rows.len()).any(|i| rows[..i].iter().any(|row| row.values == rows[i].values));
        self.queries.count(&[
            ("no rows", 1_000, rows.is_empty()),
            ("rows", 5_000, !rows.is_empty()),
            ("equal rows", 500, equal),
            ("cells set in some rows only", 1_000, rows.iter().any(|row| row.values.len() != rows[0].values.len())),
            ("trusts in cells", 1_000, rows.iter().any(has_trust)),
            ("unknown trusts in the table", 1_000, unknown),
            ("an empty pattern set", 1_000, nodes.iter().any(|node| empty_set(node))),
            ("a variable as predicate", 1_000, any_pattern(&|pattern| is_variable(&pattern[1]))),
            ("a pattern that has a variable twice", 1_000, any_pattern(&twice)),
            ("a left join within the left operand of a left join", 200, within(0)),
            ("a left join within the right operand of a left join", 200, within(1)),
        ]);
    }

    /// Counts the rows of a node's operands.
    pub fn part(&mut self, kind: &Kind, operands: &[Vec<Row>]) {
        match (kind, operands) {
            (Kind::Filter(condition, _), [rows]) => rows.iter().for_each(|row| self.filtered(condition, row)),
            (Kind::LeftJoin(condition, ..), [left, right]) => {
                left.iter().for_each(|row| self.left_row(condition, row, right));
            }
            _ => {}
        }
    }

    fn truth(&mut self, condition: &Condition, row: &Row) -> Truth {
        conditions::truth(condition, row, &mut self.truths)
    }

    fn filtered(&mut self, condition: &Condition, row: &Row) {
        let truth = self.truth(condition, row);
        self.filtered.count(&[
            ("true", 1_000, truth == Some(true)),
            ("false", 1_000, truth == Some(false)),
            ("an error", 1_000, truth.is_none()),
        ]);
    }

    fn left_row(&mut self, condition: &Condition, left: &Row, right: &[Row]) {
        let agree = |other: &Row, (variable, value)| other.values.get(variable).map_or(true, |set| set == value);
        let compatible = right.iter().filter(|other| left.values.iter().all(|cell| agree(other, cell)));
        let truths: Vec<Truth> = compatible.map(|other| self.truth(condition, &left.merged(other))).collect();
        let [yes, no, error] = TRUTHS.map(|truth| truths.contains(&truth));
        self.left_rows.count(&[
            ("no compatible row", 1_000, truths.is_empty()),
            ("a true merge and no error", 1_000, yes && !error),
            ("a true merge beside an error", 300, yes && error),
            ("false merges only", 1_000, no && !yes && !error),
            ("errors only", 1_000, error && !yes && !no),
            ("an error beside a false merge, and no true one", 300, error && no && !yes),
        ]);
    }

    /// Counts a case of the report for each kind.
    pub fn enough(&self, report: &mut Report) {
        self.left_rows.enough(report, "left rows");
        self.filtered.enough(report, "filtered rows");
        self.queries.enough(report, "queries");
        for (kind, counts) in CONDITION_KINDS.iter().zip(self.truths) {
            println!("{kind}: true {}, false {}, an error {}", counts[0], counts[1], counts[2]);
            for (truth, count) in TRUTHS.iter().zip(counts) {
                let never = *kind == "true" && *truth != Some(true) || *kind == "bound" && truth.is_none();
                report.case(never || count >= 500, || format!("{kind} was {truth:?} only {count} times"));
            }
        }
        for outer in TAKE_NODES {
            let counts = NODES.iter().zip(self.nested[outer]);
            let texts: Vec<String> = counts.clone().map(|(inner, count)| format!("{inner} {count}")).collect();
            println!("within {}: {}", NODES[outer], texts.join(", "));
            for (inner, count) in counts {
                report.case(count >= 200, || format!("{inner} stood only {count} times in {}", NODES[outer]));
            }
        }
    }
}
