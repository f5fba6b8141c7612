//! The longest result that a query of each length can have, by a search over all shapes of queries.

const NONE: usize = 0;
/// A bound with u = 1000, and one with u below 1000.
const AT_MOST: usize = 1;
const BELOW: usize = 2;
/// Bytes of ensure trust without its operand.
const WRAP: usize = 4;

/// By the bound above a node and the node's length: the length of its longest push. No node has length 0.
type Longest = [Vec<usize>; 3];

/// Two operands that have so many bytes together, each with its bound.
fn pair(longest: &Longest, left: usize, right: usize, bytes: usize) -> usize {
    (1..bytes).map(|i| longest[left][i] + longest[right][bytes - i]).max().unwrap_or(0)
}

/// A node of at least 2 bytes. A byte that is only copied stands for project trust, and for patterns, longer conditions
/// and filters, which gain nothing over it.
fn node(longest: &Longest, bound: usize, bytes: usize) -> usize {
    let operands = if bound == NONE { NONE } else { AT_MOST };
    let copied = 1 + longest[bound][bytes - 1];
    let union = 1 + pair(longest, bound, bound, bytes - 1);
    let join = 1 + pair(longest, operands, operands, bytes - 1) + if bound == BELOW { WRAP } else { 0 };
    let left_join = 2 + pair(longest, operands, NONE, bytes - 2) + if bound == NONE { 0 } else { WRAP };
    // Ensure trust goes; a bound can only get narrower.
    let ensure = (bound.max(AT_MOST)..=BELOW).map(|met| if bytes > WRAP { longest[met][bytes - WRAP] } else { 0 });
    let mut best = copied;
    if bytes >= 3 {
        best = best.max(union).max(join);
    }
    if bytes >= 4 {
        best = best.max(left_join);
    }
    ensure.fold(best, usize::max)
}

/// For each length up to `most` the length of the longest result; 0 for length 0.
pub fn results(most: usize) -> Vec<usize> {
    let empty_set = |bound| if bound == NONE { 1 } else { 1 + WRAP };
    let mut longest: Longest = [NONE, AT_MOST, BELOW].map(|bound| vec![0, empty_set(bound)]);
    for bytes in 2..=most {
        let next = [NONE, AT_MOST, BELOW].map(|bound| node(&longest, bound, bytes));
        longest.iter_mut().zip(next).for_each(|(lengths, length)| lengths.push(length));
    }
    let [none, ..] = longest;
    none
}
