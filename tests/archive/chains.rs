//! The deepest queries of a length, and their refusals by hand.

use crate::paper::{refusal, Refusal, CHECK_LIMIT, NONE};
use crate::tables;

pub const SET: &[u8] = &[0x00];
pub const TRUE: &[u8] = &[0x70];
/// Ensure trust 500 to 1000.
pub const E: &[u8] = &[0x60, 0x5D, 0xC7, 0xD0];

/// Records of the table for chains, and rows of space that do for every chain: at most one for two bytes, two more, and
/// those of a join of all records with themselves.
pub const RECORDS: u32 = 32;
pub const SPACE: usize = CHECK_LIMIT / 2 + 2 + 3 * RECORDS as usize;

/// The table for chains: the store W, a record whose object is its subject, and others behind it.
pub fn table() -> Vec<u8> {
    let more: Vec<_> = (6..=RECORDS).map(|subject| ([subject, 30, 31], Some(700))).collect();
    [tables::w(), tables::facts(&[([5, 10, 5], Some(600))]), tables::facts(&more)].concat()
}

pub struct Chain {
    pub name: String,
    pub query: Vec<u8>,
    /// Where nothing else is refused.
    pub refusal: Refusal,
}

/// Makes chains of exactly `length` bytes with `root` in front of each.
struct Maker<'a> {
    root: &'a [u8],
    length: usize,
}

impl Maker<'_> {
    /// `front`, then as often as it fits `link` with a `tail` for each link behind `end`. Where bytes are left over, project
    /// trusts of the variables 15, 14 and so on stand before `front`.
    fn chain(&self, name: &str, front: &[u8], link: &[u8], end: &[u8], tail: &[u8], last: &[u8], refusal: Refusal) -> Chain {
        let room = self.length - self.root.len() - front.len() - end.len() - last.len();
        let each = link.len() + tail.len();
        let (links, left) = (room / each, room % each);
        let mut query = self.root.to_vec();
        query.extend((0..left as u8).map(|i| 0x5F - i));
        query.extend(front);
        query.extend(link.repeat(links));
        query.extend(end);
        query.extend(tail.repeat(links));
        query.extend(last);
        assert_eq!(query.len(), self.length, "{name}");
        let name = format!("{name}, below {} bytes", self.root.len());
        Chain { name, query, refusal }
    }
}

/// Every chain of a length, with `root` in front: nothing, or nodes of one operand.
pub fn all(root: &[u8], length: usize) -> Vec<Chain> {
    let make = Maker { root, length };
    let distinct: Vec<u8> = (0x50..0x5F).collect();
    let pattern_of_0 = [0x01, 0x10, 0, 0, 0, 0, 1, 0, 0, 1];
    // {?0 10 ?1, ?1 10 ?2, ..., ?14 10 ?15}: a record whose object is its subject matches all 15.
    let linked = (0..15).flat_map(|variable| [0x10, 0, variable, 0, 0, 10, 0x10, 0, variable + 1]);
    let most_patterns: Vec<u8> = [0x0F].into_iter().chain(linked).collect();
    let (start, end) = (root.len(), length);
    let nodes = |name, link: &[u8], tail: &[u8], refusal| make.chain(name, &[], link, SET, tail, &[], refusal);
    let conditions = |name, link: &[u8], tail: &[u8]| make.chain(name, &[0x40], link, TRUE, tail, SET, NONE);
    vec![
        nodes("project trust, all of one variable", &[0x50], &[], refusal(7, start)),
        make.chain("project trust, the first alone", &[0x5F], &[0x50], SET, &[], &[], refusal(7, start + 1)),
        make.chain("project trust, the first 15 alone", &distinct, &[0x5F], SET, &[], &[], refusal(7, start + 15)),
        make.chain("project trust, the last in a pattern", &[], E, &[0x50], &[], &pattern_of_0, refusal(7, end - 11)),
        make.chain("project trust with no end", &[], &[0x50], &[], &[], &[], refusal(6, end)),
        nodes("ensure trust", E, &[], NONE),
        nodes("filter", &[0x40, 0x70], &[], NONE),
        make.chain("filters of a set of 15 patterns", &[], &[0x40, 0x70], &most_patterns, &[], &[], NONE),
        nodes("joins to the left", &[0x10], SET, NONE),
        nodes("joins to the right", &[0x10, 0x00], &[], NONE),
        nodes("left joins to the left", &[0x20, 0x70], SET, NONE),
        nodes("left joins to the right", &[0x20, 0x70, 0x00], &[], NONE),
        nodes("unions to the left", &[0x30], SET, NONE),
        nodes("unions to the right", &[0x30, 0x00], &[], NONE),
        make.chain("joins with no end", &[], &[0x10], &[], &[], &[], refusal(6, end)),
        make.chain("left joins with no end", &[], &[0x20, 0x70], &[], &[], &[], refusal(6, end)),
        conditions("not", &[0x40], &[]),
        conditions("and to the left", &[0x50], TRUE),
        conditions("and to the right", &[0x50, 0x70], &[]),
        conditions("or to the left", &[0x60], TRUE),
        conditions("or to the right", &[0x60, 0x70], &[]),
        make.chain("not in a left join", &[0x20], &[0x40], TRUE, &[], &[0, 0], NONE),
        make.chain("not with no end", &[0x40], &[0x40], &[], &[], &[], refusal(6, end)),
        make.chain("not of an unknown kind", &[0x40], &[0x40], &[0x80], &[], &[], refusal(6, end - 1)),
        make.chain("not below unions", &[0x30, 0].repeat(length / 5), &[0x40], TRUE, &[], SET, NONE),
    ]
}

/// Chains of a length that end in a join, or a left join, of {?0 ?1 ?2} with itself: on 32 records it has 1,024 pairs,
/// and each variable is set in all rows. Among them are the deepest conditions of such a left join.
pub fn of_many_pairs(length: usize) -> Vec<Chain> {
    let make = Maker { root: &[], length };
    let sets = [0x01, 0x10, 0, 0, 0x10, 0, 1, 0x10, 0, 2].repeat(2);
    let join = [&[0x10], &sets[..]].concat();
    let left_join = [&[0x20, 0x70], &sets[..]].concat();
    let mut chains = Vec::new();
    for (name, end) in [("a join", &join), ("a left join", &left_join)] {
        let mut nodes = |names, link: &[u8], tail: &[u8]| {
            chains.push(make.chain(&format!("{names} of {name} with many pairs"), &[], link, end, tail, &[], NONE));
        };
        nodes("filters", &[0x40, 0x70], &[]);
        nodes("ensure trusts", E, &[]);
        nodes("joins to the left", &[0x10], SET);
        nodes("joins to the right", &[0x10, 0x00], &[]);
        nodes("left joins to the left", &[0x20, 0x70], SET);
        nodes("left joins to the right", &[0x20, 0x70, 0x00], &[]);
        nodes("unions to the left", &[0x30], SET);
        nodes("unions to the right", &[0x30, 0x00], &[]);
    }
    let mut conditions = |name, link: &[u8], tail: &[u8]| {
        let name = format!("{name} in a left join with many pairs");
        chains.push(make.chain(&name, &[0x20], link, TRUE, tail, &sets, NONE));
    };
    conditions("not", &[0x40], &[]);
    conditions("and to the left", &[0x50], TRUE);
    conditions("and to the right", &[0x50, 0x70], &[]);
    conditions("or to the left", &[0x60], TRUE);
    conditions("or to the right", &[0x60, 0x70], &[]);
    chains
}

/// Every kind of node over {?0 ?1 ?2} and {1 ?1 ?3}: on 32 records, of which few have the subject 1, a join has few pairs.
pub fn of_few_pairs() -> Vec<Chain> {
    let sets = [0x01, 0x10, 0, 0, 0x10, 0, 1, 0x10, 0, 2, 0x01, 0, 0, 1, 0x10, 0, 1, 0x10, 0, 3];
    [&[0x10][..], &[0x20, 0x70], &[0x30], &[0x40, 0x70, 0x30], &[0x5F, 0x10], &[0x60, 0x5D, 0xC7, 0xD0, 0x10]]
        .map(|front| Chain { name: format!("{front:x?}"), query: [front, &sets].concat(), refusal: NONE })
        .into()
}
