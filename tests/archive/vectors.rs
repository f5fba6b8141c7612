//! The lines of the files in tests/vectors: `CALL INPUT... => ANSWER...`, bytes and words in hexadecimal, `-` for none.

pub struct Vector {
    /// Its line in the file, from 1.
    pub line: usize,
    pub inputs: Vec<String>,
    pub answer: Vec<String>,
}

/// The vectors of one call.
pub fn of(call: &str, text: &str) -> Vec<Vector> {
    let mut found = Vec::new();
    for (number, line) in text.lines().enumerate() {
        let (left, right) = line.split_once(" => ").expect("a vector has ' => '");
        let words = |part: &str| part.split(' ').map(str::to_string).collect::<Vec<_>>();
        let mut inputs = words(left);
        if inputs.remove(0) == call {
            found.push(Vector { line: number + 1, inputs, answer: words(right) });
        }
    }
    found
}

pub fn bytes(text: &str) -> Vec<u8> {
    if text == "-" {
        return Vec::new();
    }
    assert!(text.len() % 2 == 0, "hexadecimal bytes have two digits each");
    let byte = |at| u8::from_str_radix(&text[at..at + 2], 16).expect("hexadecimal digits");
    (0..text.len()).step_by(2).map(byte).collect()
}

/// Words of 8 digits.
pub fn words(text: &str) -> Vec<u32> {
    bytes(text).chunks(4).map(|word| u32::from_be_bytes(word.try_into().expect("whole words"))).collect()
}

/// Names for parts of queries that are written by hand.
const NAMES: [(char, &str); 12] = [
    ('A', "01 100000 000014 000015"), // {?0 20 21}
    ('B', "01 100000 00000a 100001"), // {?0 10 ?1}
    ('E', "60 5dc7d0"),               // ensure trust 500 to 1000
    ('S', "01 P"),                    // the set of the one pattern P
    ('N', "01 Q"),                    // the set of the one pattern Q
    ('P', "100000 100001 100002"),    // ?0 ?1 ?2, which every record matches
    ('Q', "000063 000063 000063"),    // 99 99 99
    ('R', "100003 100004 100005"),    // as P, with ?3 ?4 ?5
    ('T', "100006 100007 100008"),    // ?6 ?7 ?8
    ('U', "100009 10000a 10000b"),    // ?9 ?10 ?11
    ('V', "10000c 10000d 10000e"),    // ?12 ?13 ?14
    (' ', ""),
];

/// A query written by hand: bytes and `NAMES`.
pub fn query(text: &str) -> Vec<u8> {
    bytes(&NAMES.iter().fold(text.to_string(), |text, (name, bytes)| text.replace(*name, bytes)))
}

/// A slot of a term.
pub fn of_term(term: u32) -> [u8; 3] {
    let [_, slot @ ..] = term.to_be_bytes();
    slot
}

/// A slot as in the display's trees: `?5`, or a term in decimal.
fn slot(text: &str) -> String {
    match text.strip_prefix('?') {
        Some(variable) => format!("10{:04x}", number(variable)),
        None => format!("{:06x}", number(text)),
    }
}

/// A pattern set for `query`, its patterns between commas.
pub fn set(patterns: &str) -> String {
    let slots: Vec<String> = patterns.split(", ").flat_map(|pattern| pattern.split(' ').map(slot)).collect();
    format!("{:02x} {}", slots.len() / 3, slots.join(" "))
}

pub fn number(text: &str) -> u64 {
    text.parse().expect("a decimal number")
}
