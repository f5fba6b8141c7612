//! The tokens of a typed query, or the place of its fault, by the grammar that docs/FORMATS.md prints: it is read from there, and every
//! derivation of the bytes so far is followed. No code in common with the engine, which works with tables of its own.

use std::ops::Range;
use std::sync::OnceLock;

// ---- Tokens

/// Numbers without leading zeros, each behind the same bytes.
struct Numbers {
    before: String,
    least: u64,
    most: u64,
}

impl Numbers {
    fn value(&self, spelling: &[u8]) -> Option<u64> {
        let digits = spelling.strip_prefix(self.before.as_bytes())?;
        if digits.is_empty() || digits.len() > 9 || digits[0] == b'0' && digits.len() > 1 {
            return None;
        }
        let digit = |byte: &u8| byte.is_ascii_digit().then(|| u64::from(byte - b'0'));
        digits.iter().try_fold(0, |number, byte| Some(10 * number + digit(byte)?))
    }

    fn has(&self, spelling: &[u8]) -> bool {
        self.value(spelling).is_some_and(|value| (self.least..=self.most).contains(&value))
    }

    /// Whether a number goes on so: with more digits, but none goes on behind a first 0.
    fn begin(&self, spelling: &[u8]) -> bool {
        let reaches = |value: u64| {
            let most_digits = if value == 0 { 1 } else { 9 };
            let mut ends = (0..most_digits).map(|more| (value * 10u64.pow(more), (value + 1) * 10u64.pow(more) - 1));
            ends.any(|(low, high)| low <= self.most && self.least <= high)
        };
        self.before.as_bytes().starts_with(spelling) || self.value(spelling).is_some_and(reaches)
    }
}

enum Token {
    Quoted(String),
    Numbers(Vec<Numbers>),
}

impl Token {
    fn is(&self, spelling: &[u8]) -> bool {
        match self {
            Token::Quoted(text) => text.as_bytes() == spelling,
            Token::Numbers(sorts) => sorts.iter().any(|numbers| numbers.has(spelling)),
        }
    }

    /// Whether some spelling of the token begins so.
    fn begins(&self, spelling: &[u8]) -> bool {
        match self {
            Token::Quoted(text) => text.as_bytes().starts_with(spelling),
            Token::Numbers(sorts) => sorts.iter().any(|numbers| numbers.begin(spelling)),
        }
    }
}

fn is_white(byte: u8) -> bool {
    byte == b' ' || byte == b'\n'
}

/// Whether white space must stand between two tokens, by the last byte of the one and the first of the other: keywords, terms, thousandths
/// and variables end in a letter or a digit; keywords, terms and thousandths begin with one, or with a minus sign.
fn must_part(last: u8, first: u8) -> bool {
    last.is_ascii_alphanumeric() && (first.is_ascii_alphanumeric() || first == b'-')
}

// ---- The rules in FORMATS

/// What a rule, or a part of one, derives.
enum Part {
    Token(Token),
    /// A rule, by its number.
    Rule(usize),
    All(Vec<Part>),
    OneOf(Vec<Part>),
    Optional(Box<Part>),
    Repeated(Box<Part>),
}

/// The parts of all rules; the first is that of the query.
fn rules() -> &'static [Part] {
    static RULES: OnceLock<Vec<Part>> = OnceLock::new();
    RULES.get_or_init(|| read_rules(include_str!("../../docs/FORMATS.md")))
}

/// `NAME ::= BODY`, where lines without `::=` go on with the body before.
fn read_rules(document: &str) -> Vec<Part> {
    let mut blocks = document.split("```").filter(|block| block.contains("::="));
    let lines = blocks.next().expect("the grammar").lines().skip(1);
    let mut bodies: Vec<(&str, Vec<&str>)> = Vec::new();
    for line in lines {
        match line.split_once("::=") {
            Some((name, body)) => bodies.push((name.trim(), words(body))),
            None => bodies.last_mut().expect("a rule").1.extend(words(line)),
        }
    }
    let names: Vec<&str> = bodies.iter().map(|rule| rule.0).collect();
    let part = |(_, words): &(&str, Vec<&str>)| match words.contains(&"...") {
        true => Part::Token(Token::Numbers(numbers(words))),
        false => Body { words, names: &names }.whole(),
    };
    bodies.iter().map(part).collect()
}

/// Quoted texts with their quotes, names, dots, and single characters.
fn words(mut text: &str) -> Vec<&str> {
    let mut words = Vec::new();
    loop {
        text = text.trim_start();
        let Some(first) = text.chars().next() else { return words };
        let length = match first {
            '\'' => 2 + text[1..].find('\'').expect("a quote"),
            '.' => 3,
            _ if first.is_alphabetic() => text.find(|c: char| !c.is_alphabetic()).unwrap_or(text.len()),
            _ => 1,
        };
        let (word, rest) = text.split_at(length);
        words.push(word);
        text = rest;
    }
}

/// `'?0' | '?1' | ... | '?15'`: the quoted numbers, and all from one to the next where dots stand between them.
fn numbers(words: &[&str]) -> Vec<Numbers> {
    let quoted = |word: &str| {
        let (before, digits) = word.trim_matches('\'').split_at(word.trim_matches('\'').find(char::is_numeric)?);
        Some((before.to_string(), digits.parse::<u64>().expect("a number")))
    };
    let alternatives: Vec<_> = words.iter().filter(|word| **word != "|").map(|word| quoted(word)).collect();
    let mut found = Vec::new();
    for (number, alternative) in alternatives.iter().enumerate() {
        let ends = match alternative {
            Some(one) => [one, one],
            None => [number - 1, number + 1].map(|at| alternatives[at].as_ref().expect("a number beside dots")),
        };
        let [(before, one), (same, other)] = ends;
        assert_eq!(before, same, "numbers of one sort");
        found.push(Numbers { before: before.clone(), least: *one.min(other), most: *one.max(other) });
    }
    found
}

/// What is left of the body of a rule.
struct Body<'a> {
    words: &'a [&'a str],
    names: &'a [&'a str],
}

impl Body<'_> {
    fn whole(mut self) -> Part {
        let part = self.choice();
        assert!(self.words.is_empty(), "a rule ends before {:?}", self.words);
        part
    }

    fn skip(&mut self, word: &str) -> bool {
        let next = self.words.first() == Some(&word);
        self.words = &self.words[usize::from(next)..];
        next
    }

    fn choice(&mut self) -> Part {
        let mut parts = vec![self.sequence()];
        while self.skip("|") {
            parts.push(self.sequence());
        }
        Part::OneOf(parts)
    }

    fn sequence(&mut self) -> Part {
        let mut parts = Vec::new();
        while self.words.first().is_some_and(|word| !["|", ")"].contains(word)) {
            let part = self.single();
            parts.push(if self.skip("?") {
                Part::Optional(Box::new(part))
            } else if self.skip("*") {
                Part::Repeated(Box::new(part))
            } else {
                part
            });
        }
        Part::All(parts)
    }

    fn single(&mut self) -> Part {
        let word = self.words[0];
        self.words = &self.words[1..];
        if word == "(" {
            let part = self.choice();
            assert!(self.skip(")"), "a parenthesis is closed");
            return part;
        }
        match word.strip_prefix('\'').and_then(|word| word.strip_suffix('\'')) {
            Some(text) => Part::Token(Token::Quoted(text.to_string())),
            None => Part::Rule(self.names.iter().position(|name| *name == word).expect("a rule of this name")),
        }
    }
}

// ---- All derivations of a text

/// A list in an arena, by the number of its head; 0 is the empty list.
type List = usize;

/// A derivation of the bytes so far.
#[derive(Clone, Copy)]
struct Derivation {
    /// The token that the last bytes belong to, and where it starts.
    token: Option<(&'static Token, usize)>,
    /// Parts that are still to come behind that token.
    rest: List,
    /// The tokens before it, the last one first.
    tokens: List,
}

struct Search<'t> {
    text: &'t [u8],
    parts: Vec<(&'static Part, List)>,
    tokens: Vec<(Range<usize>, List)>,
}

impl Search<'_> {
    fn push(&mut self, part: &'static Part, below: List) -> List {
        self.parts.push((part, below));
        self.parts.len()
    }

    /// Calls `found` with each token that may come first where these parts come, and the parts behind it; whether they derive nothing too.
    fn first(&mut self, parts: List, found: &mut impl FnMut(&'static Token, List)) -> bool {
        if parts == 0 {
            return true;
        }
        let (part, below) = self.parts[parts - 1];
        match part {
            Part::Token(token) => {
                found(token, below);
                false
            }
            Part::Rule(number) => self.first_with(&rules()[*number], below, found),
            Part::All(parts) => {
                let all = parts.iter().rev().fold(below, |below, part| self.push(part, below));
                self.first(all, found)
            }
            Part::OneOf(parts) => parts.iter().fold(false, |empty, part| self.first_with(part, below, found) | empty),
            Part::Optional(one) => self.first_with(one, below, found) | self.first(below, found),
            Part::Repeated(one) => self.first_with(one, parts, found) | self.first(below, found),
        }
    }

    fn first_with(&mut self, part: &'static Part, below: List, found: &mut impl FnMut(&'static Token, List)) -> bool {
        let parts = self.push(part, below);
        self.first(parts, found)
    }

    /// The derivation with its token at an end before a place, if it may end there.
    fn between(&mut self, derivation: Derivation, at: usize) -> Option<Derivation> {
        let Some((token, start)) = derivation.token else { return Some(derivation) };
        if !token.is(&self.text[start..at]) {
            return None;
        }
        self.tokens.push((start..at, derivation.tokens));
        Some(Derivation { token: None, tokens: self.tokens.len(), ..derivation })
    }

    /// Adds the derivations that go on with the byte at a place.
    fn step(&mut self, derivation: Derivation, at: usize, next: &mut Vec<Derivation>) {
        if derivation.token.is_some_and(|(token, start)| token.begins(&self.text[start..=at])) {
            next.push(derivation);
        }
        let Some(between) = self.between(derivation, at) else { return };
        let text = self.text;
        if is_white(text[at]) {
            next.push(between);
        } else if at == 0 || !must_part(text[at - 1], text[at]) {
            self.first(between.rest, &mut |token, rest| {
                if token.begins(&text[at..=at]) {
                    next.push(Derivation { token: Some((token, at)), rest, tokens: between.tokens });
                }
            });
        }
    }

    fn collect(&self, mut list: List) -> Vec<Range<usize>> {
        let mut ranges = Vec::new();
        while list > 0 {
            let (range, before) = self.tokens[list - 1].clone();
            ranges.push(range);
            list = before;
        }
        ranges.reverse();
        ranges
    }
}

/// The tokens of a text, or how many of its bytes begin some right text.
pub fn tokens(text: &[u8]) -> Result<Vec<&str>, usize> {
    let mut search = Search { text, parts: Vec::new(), tokens: Vec::new() };
    let query = search.push(&rules()[0], 0);
    let mut now = vec![Derivation { token: None, rest: query, tokens: 0 }];
    let mut next = Vec::new();
    for at in 0..text.len() {
        now.drain(..).for_each(|derivation| search.step(derivation, at, &mut next));
        if next.is_empty() {
            return Err(at);
        }
        std::mem::swap(&mut now, &mut next);
    }
    let mut whole: Vec<Derivation> = now.into_iter().filter_map(|one| search.between(one, text.len())).collect();
    whole.retain(|derivation| search.first(derivation.rest, &mut |_, _| ()));
    assert!(whole.len() < 2, "the grammar derives a text in two ways: {text:?}");
    let ranges = search.collect(whole.first().ok_or(text.len())?.tokens);
    Ok(ranges.into_iter().map(|range| std::str::from_utf8(&text[range]).expect("ASCII")).collect())
}
