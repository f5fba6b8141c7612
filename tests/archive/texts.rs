//! Random typed queries: tokens by the grammar of docs/FORMATS.md with white space at random, and damage done to them.

use crate::random::Random;
use crate::typed::TEXT_LIMIT;

const SLOTS: [&str; 12] = ["1", "1", "2", "3", "7", "9", "10", "99", "100", "104857", "1048574", "1048575"];
const THOUSANDTHS: [&str; 11] = ["-1000", "-999", "-100", "-10", "-1", "0", "1", "10", "500", "999", "1000"];

/// Every sort of token, and numbers that are none, for damage.
const TOKENS: [&str; 36] = [
    "{", "{", "}", "}", ".", ".", "(", ")", "UNION", "OPTIONAL", "FILTER", "TRUST", "AS", "ENSURE", "BOUND", ",", "=", "<",
    "!", "&&", "||", "?0", "?15", "1", "1048575", "0", "-1", "1000", "1048576", "9999999", "?16", "?01", "1001", "-1001",
    "-0", "00",
];

/// Bytes that stand in texts, and a few that never do.
const BYTES: &[u8] = b"  \n{}(){}()..??0123456789-=<!&|,OPTIONALUNIONFILTERTRUSTASENSUREBOUNDo_#;:/+\t\r\0\x80";

/// The tokens of a random group in the making.
struct Maker<'a> {
    random: &'a mut Random,
    tokens: Vec<String>,
    /// So many variables stand in triples; those from there on are for TRUST AS, each once.
    in_triples: usize,
    to_project: Vec<usize>,
    /// TRUST AS takes variables of triples.
    clashes: bool,
}

impl Maker<'_> {
    fn push(&mut self, tokens: &[&str]) {
        self.tokens.extend(tokens.iter().map(|token| token.to_string()));
    }

    fn variable(&mut self, below: usize) {
        let variable = format!("?{}", self.random.below(below));
        self.tokens.push(variable);
    }

    fn slot(&mut self, variables: usize) {
        if self.random.once_in(2) {
            return self.variable(variables);
        }
        let any = self.random.within(1, 1_048_575).to_string();
        let term = if self.random.once_in(8) { &any } else { self.random.pick(&SLOTS) };
        self.push(&[term]);
    }

    fn group(&mut self, size: usize) {
        self.push(&["{"]);
        if size > 1 && self.random.once_in(5) {
            self.group(size - 2);
            (0..2).for_each(|_| self.wrap(1));
        } else {
            self.items(size);
        }
        self.push(&["}"]);
    }

    /// Triples and elements, about `size` of them.
    fn items(&mut self, size: usize) {
        let mut left = if self.random.once_in(4) { self.random.below(size + 1) } else { size };
        // A triple without a dot is the last.
        let mut open = false;
        while left > 0 {
            let part = if self.random.once_in(2) { self.random.within(1, left) } else { 1 };
            left -= part;
            if self.random.once_in(3) {
                let count = if self.random.once_in(40) { self.random.within(13, 32) } else { part.min(4) };
                for _ in 0..count {
                    self.triple(open);
                    open = self.dot(5);
                }
            } else {
                self.element(part - 1);
                self.dot(3);
                open = false;
            }
        }
    }

    /// Adds a dot once in `n` times; whether there is none.
    fn dot(&mut self, n: usize) -> bool {
        let none = !self.random.once_in(n);
        if !none {
            self.push(&["."]);
        }
        none
    }

    fn triple(&mut self, behind_triple: bool) {
        if behind_triple {
            self.push(&["."]);
        }
        (0..3).for_each(|_| self.slot(self.in_triples));
    }

    fn element(&mut self, size: usize) {
        match self.random.below(10) {
            0..=2 => {
                let groups = self.random.pick(&[1, 1, 2, 2, 3, 5]);
                for number in 0..groups {
                    if number > 0 {
                        self.push(&["UNION"]);
                    }
                    self.group(size / groups);
                }
            }
            3..=5 => {
                self.push(&["OPTIONAL"]);
                self.group(size);
            }
            _ => self.wrap(size),
        }
    }

    /// What stands about all that a group joins.
    fn wrap(&mut self, size: usize) {
        match self.random.below(3) {
            0 => {
                self.push(&["FILTER", "("]);
                self.or(size);
                self.push(&[")"]);
            }
            1 if self.clashes || !self.to_project.is_empty() => self.trust_as(),
            _ => {
                self.push(&["ENSURE", "TRUST", "("]);
                self.thousandths();
                self.push(&[","]);
                self.thousandths();
                self.push(&[")"]);
            }
        }
    }

    fn trust_as(&mut self) {
        self.push(&["TRUST", "AS"]);
        match self.to_project.pop() {
            Some(variable) if !self.clashes => self.push(&[&format!("?{variable}")]),
            _ => self.variable(self.in_triples),
        }
    }

    fn thousandths(&mut self) {
        let any = (self.random.below(2_001) as i32 - 1_000).to_string();
        let number = if self.random.once_in(3) { &any } else { self.random.pick(&THOUSANDTHS) };
        self.push(&[number]);
    }

    fn or(&mut self, size: usize) {
        self.operands("||", size, Maker::and);
    }

    fn and(&mut self, size: usize) {
        self.operands("&&", size, |maker, size| maker.primary(size, false));
    }

    fn operands(&mut self, operator: &str, size: usize, operand: fn(&mut Self, usize)) {
        let count = self.random.pick(&[1, 1, 1, 2, 2, 3, 4]);
        for number in 0..count {
            if number > 0 {
                self.push(&[operator]);
            }
            operand(self, size / count);
        }
    }

    fn primary(&mut self, size: usize, negated: bool) {
        match self.random.below(if negated { 3 } else { 6 }) {
            0 if size > 0 => {
                self.push(&["!"]);
                self.primary(size - 1, true);
            }
            1 if size > 0 || negated => {
                self.push(&["("]);
                self.or(size.saturating_sub(1));
                self.push(&[")"]);
            }
            0..=2 => {
                self.push(&["BOUND", "("]);
                self.variable(16);
                self.push(&[")"]);
            }
            3 => {
                self.variable(16);
                self.push(&["<"]);
                self.variable(16);
            }
            _ => {
                self.variable(16);
                self.push(&["="]);
                self.slot(16);
            }
        }
    }
}

/// The tokens of a group of about `size` items.
pub fn tokens(random: &mut Random, size: usize) -> Vec<String> {
    let (in_triples, clashes) = (random.within(1, 16), random.once_in(3));
    let to_project = (in_triples..16).collect();
    let mut maker = Maker { random, tokens: Vec::new(), in_triples, to_project, clashes };
    maker.group(size);
    maker.tokens
}

/// Tokens of so many triples, alone or in groups: the query is longer than the text.
fn dense_tokens(random: &mut Random, triples: usize) -> Vec<String> {
    let mut tokens = vec!["{"];
    for _ in 0..triples {
        tokens.extend(if random.once_in(2) { ["1", "2", "3", "{", "}"] } else { ["{", "1", "1", "1", "}"] });
    }
    tokens.push("}");
    tokens.into_iter().map(str::to_string).collect()
}

/// Whether white space must stand between two tokens. Keywords, terms and thousandths are words.
fn must_part(before: &str, token: &str) -> bool {
    let is_word = |token: &str| token.bytes().all(|byte| byte.is_ascii_alphanumeric() || byte == b'-');
    (is_word(before) || before.starts_with('?')) && is_word(token)
}

/// White space between tokens: where it must stand, and where a choice of `extra` lengths says.
fn spaced(random: &mut Random, tokens: &[String], extra: &[usize]) -> Vec<u8> {
    let mut text: Vec<u8> = Vec::new();
    for (number, token) in tokens.iter().enumerate() {
        let parted = number > 0 && must_part(&tokens[number - 1], token);
        let count = random.pick(extra).max(usize::from(parted));
        text.extend((0..count).map(|_| random.pick(b"   \n")));
        text.extend(token.bytes());
    }
    let behind = random.pick(extra);
    text.extend(b"\n ".iter().cycle().take(behind));
    text
}

/// A right text of about `size` items; it may be too long.
pub fn sound(random: &mut Random, size: usize) -> Vec<u8> {
    let tokens = tokens(random, size);
    let extra: &[usize] = random.pick(&[&[0][..], &[0, 0, 0, 1], &[1], &[0, 1, 2, 3]]);
    spaced(random, &tokens, extra)
}

/// A size: mostly small, now and then for texts of about 4,096 bytes.
pub fn size(random: &mut Random) -> usize {
    match random.below(400) {
        0 => random.within(100, 1_000),
        1..=10 => random.within(20, 60),
        11..=150 => random.within(7, 20),
        _ => random.within(0, 7),
    }
}

/// A right text whose query is long, often too long for the check; the text may be too long itself.
pub fn dense(random: &mut Random) -> Vec<u8> {
    let count = random.within(440, 620);
    let tokens = dense_tokens(random, count);
    spaced(random, &tokens, &[0])
}

/// A text with one or a few faults, though it may still be right.
pub fn damaged(random: &mut Random) -> Vec<u8> {
    let some = random.within(0, 6);
    let mut tokens = tokens(random, some);
    let by_tokens = random.once_in(2);
    if by_tokens {
        damage_tokens(random, &mut tokens);
    }
    let extra: &[usize] = random.pick(&[&[0][..], &[0, 0, 0, 1], &[1]]);
    let mut text = spaced(random, &tokens, extra);
    if !by_tokens {
        damage_bytes(random, &mut text);
    }
    while random.once_in(6) {
        damage_bytes(random, &mut text);
    }
    text.truncate(TEXT_LIMIT + 10);
    text
}

/// Replaces, drops or inserts a token, or swaps two.
fn damage_tokens(random: &mut Random, tokens: &mut Vec<String>) {
    let (at, other) = (random.below(tokens.len()), random.below(tokens.len()));
    match random.below(4) {
        0 => tokens[at] = random.pick(&TOKENS).to_string(),
        1 => drop(tokens.remove(at)),
        2 => tokens.insert(at, random.pick(&TOKENS).to_string()),
        _ => tokens.swap(at, other),
    }
}

/// Changes, drops, inserts or swaps bytes, or goes on with another text from some place.
fn damage_bytes(random: &mut Random, text: &mut Vec<u8>) {
    let at = random.below(text.len() + 1);
    match random.below(8) {
        _ if at == text.len() => text.push(random.pick(BYTES)),
        0 | 1 => text[at] = random.pick(BYTES),
        2 => text[at] = random.byte(),
        3 => drop(text.remove(at)),
        4 => text.insert(at, random.pick(BYTES)),
        5 if at > 0 => text.swap(at - 1, at),
        6 => text.truncate(at),
        _ => {
            let other = sound(random, 4);
            let from = random.below(other.len());
            text.splice(at.., other[from..].iter().copied());
        }
    }
}
