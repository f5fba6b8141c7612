//! An independent rewriting, written from document 01: the push on the tree of paper.rs, and the bytes of a tree.

use crate::paper::{self, Condition, Kind, Node, Pattern, Refusal, Slot, MOST_TRUST};

/// The longest query that the rewriting takes.
pub const REWRITE_LIMIT: usize = 1_024;
/// The longest output that a result may need.
pub const MOST_RESULT: usize = 5 * REWRITE_LIMIT;

/// Both ends plus 1000, as they stand in the bytes.
#[derive(Clone, Copy)]
struct Bound {
    low: u32,
    high: u32,
}

/// The bounds that a node may stand under, told apart by what they can do.
pub const UNDER: [&str; 5] =
    ["no bound", "-1000 to 1000", "a bound with l above u", "a bound with u = 1000", "a bound with u < 1000"];
pub const NODE_KINDS: [&str; 7] = ["pattern set", "join", "left join", "union", "filter", "project trust", "ensure trust"];

/// How often each kind of node stood under each sort of bound.
pub type Seen = [[u64; UNDER.len()]; NODE_KINDS.len()];

fn under(bound: Option<Bound>) -> usize {
    match bound {
        None => 0,
        Some(Bound { low: 0, high: MOST_TRUST }) => 1,
        Some(bound) if bound.low > bound.high => 2,
        Some(Bound { high: MOST_TRUST, .. }) => 3,
        Some(_) => 4,
    }
}

/// The kind as a node; in ensure trust if there is a bound.
fn wrapped(bound: Option<Bound>, place: usize, kind: Kind) -> Node {
    let node = Node { place, kind };
    match bound {
        None => node,
        Some(Bound { low, high }) => Node { place, kind: Kind::Ensure(low, high, Box::new(node)) },
    }
}

fn push(node: Node, bound: Option<Bound>, seen: &mut Seen) -> Node {
    let Node { place, kind } = node;
    seen[kind.number()][under(bound)] += 1;
    // What the operands of a join and the left operand of a left join get: the merge's trust is at most theirs.
    let from_low = bound.map(|bound| Bound { high: MOST_TRUST, ..bound });
    let mut to = |operand: Box<Node>, bound| Box::new(push(*operand, bound, seen));
    match kind {
        Kind::Patterns(_) => wrapped(bound, place, kind),
        Kind::Union(left, right) => wrapped(None, place, Kind::Union(to(left, bound), to(right, bound))),
        Kind::Filter(condition, operand) => wrapped(None, place, Kind::Filter(condition, to(operand, bound))),
        Kind::Project(variable, operand) => wrapped(None, place, Kind::Project(variable, to(operand, bound))),
        Kind::Ensure(low, high, operand) => {
            let both = bound.map_or(Bound { low, high }, |b| Bound { low: low.max(b.low), high: high.min(b.high) });
            *to(operand, Some(both))
        }
        Kind::Join(left, right) => {
            let around = bound.filter(|bound| bound.high < MOST_TRUST);
            wrapped(around, place, Kind::Join(to(left, from_low), to(right, from_low)))
        }
        Kind::LeftJoin(condition, left, right) => {
            wrapped(bound, place, Kind::LeftJoin(condition, to(left, from_low), to(right, None)))
        }
    }
}

// ---- The bytes of a tree

fn head(kind: u32, n: u32) -> u8 {
    (kind << 4 | n) as u8
}

/// The last three bytes of a number.
fn three(number: u32) -> [u8; 3] {
    let [_, bytes @ ..] = number.to_be_bytes();
    bytes
}

fn write_pattern(pattern: &Pattern, to: &mut Vec<u8>) {
    for slot in pattern {
        to.extend(three(match *slot {
            Slot::Term(term) => term,
            Slot::Variable(variable) => 1 << 20 | variable,
        }));
    }
}

fn write_condition(condition: &Condition, to: &mut Vec<u8>) {
    match condition {
        Condition::Bound(v) => to.push(head(0, *v)),
        Condition::Same(v, w) => to.extend([head(1, *v), *w as u8]),
        Condition::IsTerm(v, term) => {
            to.push(head(2, *v));
            to.extend(three(*term));
        }
        Condition::Less(v, w) => to.extend([head(3, *v), *w as u8]),
        Condition::Not(one) => {
            to.push(head(4, 0));
            write_condition(one, to);
        }
        Condition::And(one, other) | Condition::Or(one, other) => {
            to.push(head(if matches!(condition, Condition::And(..)) { 5 } else { 6 }, 0));
            write_condition(one, to);
            write_condition(other, to);
        }
        Condition::True => to.push(head(7, 0)),
    }
}

fn write_node(node: &Node, to: &mut Vec<u8>) {
    let n = match &node.kind {
        Kind::Patterns(patterns) => patterns.len() as u32,
        Kind::Project(variable, _) => *variable,
        _ => 0,
    };
    to.push(head(node.kind.number() as u32, n));
    match &node.kind {
        Kind::Patterns(patterns) => patterns.iter().for_each(|pattern| write_pattern(pattern, to)),
        Kind::LeftJoin(condition, ..) | Kind::Filter(condition, _) => write_condition(condition, to),
        Kind::Ensure(low, high, _) => to.extend(three(low << 12 | high)),
        _ => {}
    }
    match &node.kind {
        Kind::Patterns(_) => {}
        Kind::Join(left, right) | Kind::LeftJoin(_, left, right) | Kind::Union(left, right) => {
            write_node(left, to);
            write_node(right, to);
        }
        Kind::Filter(_, operand) | Kind::Project(_, operand) | Kind::Ensure(_, _, operand) => write_node(operand, to),
    }
}

pub fn bytes(tree: &Node) -> Vec<u8> {
    let mut bytes = Vec::new();
    write_node(tree, &mut bytes);
    bytes
}

// ---- The call

/// The result for a query, or the refusal that needs no output.
pub fn rewriting(query: &[u8], seen: &mut Seen) -> Result<Vec<u8>, Refusal> {
    Ok(bytes(&push(paper::query(query, REWRITE_LIMIT)?, None, seen)))
}
