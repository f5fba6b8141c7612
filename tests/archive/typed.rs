//! An independent reading of typed queries, written from docs/FORMATS.md: the items of a group, the tree that they stand for, and the
//! answer of the call.

use crate::grammar;
use crate::paper::{refusal, Condition, Kind, Node, Pattern, Refusal, Slot};
use crate::push;
use std::iter::Peekable;
use std::vec::IntoIter;

/// The longest text that the call takes, and the longest output that a query may need.
pub const TEXT_LIMIT: usize = 4_096;
pub const MOST_QUERY: usize = 16_384;

const MOST_PATTERNS: usize = 15;

// ---- The items of a group

enum Item {
    Triple(Pattern),
    /// Groups with UNION between them.
    Groups(Vec<Group>),
    Optional(Group),
    Filter(Condition),
    TrustAs(u32),
    /// Plus 1000, as in the bytes.
    EnsureTrust(u32, u32),
}

type Group = Vec<Item>;

/// The tokens that are still to read, of a text that the grammar derives.
struct Tokens<'t>(Peekable<IntoIter<&'t str>>);

impl<'t> Tokens<'t> {
    fn next(&mut self) -> &'t str {
        self.0.next().expect("a token")
    }

    fn skip(&mut self, tokens: &[&str]) {
        tokens.iter().for_each(|token| assert_eq!(self.next(), *token));
    }

    fn skip_if(&mut self, token: &str) -> bool {
        self.0.next_if(|next| *next == token).is_some()
    }

    /// The items up to the brace that closes the group.
    fn group(&mut self) -> Group {
        let mut items = Vec::new();
        loop {
            match self.next() {
                "}" => return items,
                "." => {}
                token => items.push(self.item(token)),
            }
        }
    }

    fn item(&mut self, first: &'t str) -> Item {
        match first {
            "{" => Item::Groups(self.groups()),
            "OPTIONAL" => {
                self.skip(&["{"]);
                Item::Optional(self.group())
            }
            "FILTER" => {
                self.skip(&["("]);
                let condition = self.or();
                self.skip(&[")"]);
                Item::Filter(condition)
            }
            "TRUST" => {
                self.skip(&["AS"]);
                Item::TrustAs(variable(self.next()))
            }
            "ENSURE" => {
                self.skip(&["TRUST", "("]);
                let low = thousandths(self.next());
                self.skip(&[","]);
                let high = thousandths(self.next());
                self.skip(&[")"]);
                Item::EnsureTrust(low, high)
            }
            subject => Item::Triple([subject, self.next(), self.next()].map(slot)),
        }
    }

    /// The groups of a union, the first of which is open.
    fn groups(&mut self) -> Vec<Group> {
        let mut groups = vec![self.group()];
        while self.skip_if("UNION") {
            self.skip(&["{"]);
            groups.push(self.group());
        }
        groups
    }

    fn or(&mut self) -> Condition {
        let mut left = self.and();
        while self.skip_if("||") {
            left = Condition::Or(Box::new(left), Box::new(self.and()));
        }
        left
    }

    fn and(&mut self) -> Condition {
        let mut left = self.primary();
        while self.skip_if("&&") {
            left = Condition::And(Box::new(left), Box::new(self.primary()));
        }
        left
    }

    fn primary(&mut self) -> Condition {
        match self.next() {
            "!" => Condition::Not(Box::new(self.primary())),
            "(" => {
                let inner = self.or();
                self.skip(&[")"]);
                inner
            }
            "BOUND" => {
                self.skip(&["("]);
                let bound = Condition::Bound(variable(self.next()));
                self.skip(&[")"]);
                bound
            }
            first => match (self.next(), slot(self.next())) {
                ("=", Slot::Variable(second)) => Condition::Same(variable(first), second),
                ("=", Slot::Term(term)) => Condition::IsTerm(variable(first), term),
                ("<", Slot::Variable(second)) => Condition::Less(variable(first), second),
                other => panic!("no comparison: {first} {other:?}"),
            },
        }
    }
}

fn slot(token: &str) -> Slot {
    match token.strip_prefix('?') {
        Some(number) => Slot::Variable(number.parse().expect("a variable")),
        None => Slot::Term(token.parse().expect("a term")),
    }
}

fn variable(token: &str) -> u32 {
    match slot(token) {
        Slot::Variable(variable) => variable,
        Slot::Term(term) => panic!("{term} is no variable"),
    }
}

fn thousandths(token: &str) -> u32 {
    (token.parse::<i32>().expect("thousandths") + 1_000) as u32
}

// ---- The tree of a group

fn node(kind: Kind) -> Node {
    Node { place: 0, kind }
}

fn is_empty_set(node: &Node) -> bool {
    matches!(&node.kind, Kind::Patterns(patterns) if patterns.is_empty())
}

/// The join of two nodes, which leaves the empty set out.
fn join(left: Node, right: Node) -> Node {
    if is_empty_set(&left) {
        right
    } else if is_empty_set(&right) {
        left
    } else {
        node(Kind::Join(Box::new(left), Box::new(right)))
    }
}

/// What a group joins, with its projections and bounds around it, and its filters apart, in their order.
fn unfiltered(group: Group) -> (Node, Vec<Condition>) {
    let mut joined = node(Kind::Patterns(vec![]));
    let mut set = Vec::new();
    let (mut projections, mut bounds, mut filters) = (vec![], vec![], vec![]);
    for item in group {
        let ends_set = matches!(item, Item::Groups(_) | Item::Optional(_));
        if ends_set || set.len() == MOST_PATTERNS && matches!(item, Item::Triple(_)) {
            joined = join(joined, node(Kind::Patterns(std::mem::take(&mut set))));
        }
        match item {
            Item::Triple(pattern) => set.push(pattern),
            Item::Groups(groups) => joined = join(joined, union(groups)),
            Item::Optional(group) => {
                let (right, filters) = unfiltered(group);
                let condition = conjoined(filters).unwrap_or(Condition::True);
                joined = node(Kind::LeftJoin(condition, Box::new(joined), Box::new(right)));
            }
            Item::Filter(condition) => filters.push(condition),
            Item::TrustAs(variable) => projections.push(variable),
            Item::EnsureTrust(low, high) => bounds.push((low, high)),
        }
    }
    joined = join(joined, node(Kind::Patterns(set)));
    joined = projections.into_iter().fold(joined, |inner, variable| node(Kind::Project(variable, Box::new(inner))));
    joined = bounds.into_iter().fold(joined, |inner, (low, high)| node(Kind::Ensure(low, high, Box::new(inner))));
    (joined, filters)
}

fn conjoined(filters: Vec<Condition>) -> Option<Condition> {
    filters.into_iter().reduce(|left, right| Condition::And(Box::new(left), Box::new(right)))
}

fn tree(group: Group) -> Node {
    let (inner, filters) = unfiltered(group);
    match conjoined(filters) {
        Some(condition) => node(Kind::Filter(condition, Box::new(inner))),
        None => inner,
    }
}

fn union(groups: Vec<Group>) -> Node {
    let trees = groups.into_iter().map(tree);
    trees.reduce(|left, right| node(Kind::Union(Box::new(left), Box::new(right)))).expect("a group")
}

// ---- The call

/// The bytes of the query that a text stands for, or the refusal that needs no output.
pub fn query(text: &[u8]) -> Result<Vec<u8>, Refusal> {
    if text.len() > TEXT_LIMIT {
        return Err(refusal(11, TEXT_LIMIT));
    }
    let tokens = grammar::tokens(text).map_err(|place| refusal(11, place))?;
    let mut tokens = Tokens(tokens.into_iter().peekable());
    tokens.skip(&["{"]);
    let group = tokens.group();
    assert!(tokens.0.next().is_none(), "a text is one group");
    Ok(push::bytes(&tree(group)))
}
