//! Questions for a SPARQL engine of another make, with the rows that the archive answers: queries by hand and random ones, each as a
//! whole, and each of their nodes about the archive's rows of its operands. Peer.java asks them. The last line is 'N passed, M failed'.

#[path = "../archive/conditions.rs"]
mod conditions;
#[path = "../archive/ffi.rs"]
mod ffi;
#[path = "../archive/kinds.rs"]
mod kinds;
mod known;
#[path = "../archive/means.rs"]
mod means;
#[path = "../archive/paper.rs"]
mod paper;
#[path = "../archive/random.rs"]
mod random;
#[path = "../archive/report.rs"]
mod report;
#[path = "../archive/rows.rs"]
mod rows;
mod seen;
mod sparql;
#[path = "../archive/tables.rs"]
mod tables;
mod trees;
#[path = "../archive/vectors.rs"]
mod vectors;

use known::Known;
use paper::{Inputs, Kind, Node, Record, Tally, CHECK_LIMIT, CHOICES, NONE};
use random::Random;
use report::{hex, Report};
use rows::{Row, Value, ROW_WORDS};
use seen::Seen;

/// The questions, from the repository's top folder.
const FILE: &str = "target/tests/peer/questions";
const CASES: usize = 12_000;
/// Cases in which a node lists more rows are left out, and those that need more row space.
const MOST_ROWS: usize = 40;
const SPACE: usize = 400;

/// A row by its words.
fn row(words: &[u32]) -> Row {
    let value = |word: u32| match word {
        0 => None,
        1..=1_048_575 => Some(Value::Term(word)),
        _ => Some(Value::Trust(Some(word as i32 - 1_048_576 - 1_000))),
    };
    let cells = (0..).zip(&words[..ROW_WORDS - 1]);
    let values = cells.filter_map(|(variable, word)| Some((variable, value(*word)?))).collect();
    Row { values, trust: None }
}

/// The rows that the archive lists by a choice; none if they are too many.
fn evaluate_by(inputs: Inputs) -> Option<Vec<Row>> {
    let mut space = [0; SPACE * ROW_WORDS];
    let answer = ffi::evaluate(inputs, &mut space, Tally { answered: 0, refused: 0 });
    assert!([0, 8].contains(&answer.refusal.number), "refused {}: {}", answer.refusal, hex(inputs.1));
    let rows = answer.rows as usize;
    (answer.refusal == NONE && rows <= MOST_ROWS).then(|| space.chunks(ROW_WORDS).take(rows).map(row).collect())
}

/// The same by least. By mean they have the same cells, since the trusts in cells are those of sets of one pattern.
fn evaluate(table: &[u8], query: &[u8]) -> Option<Vec<Row>> {
    let [least, mean] = CHOICES.map(|choice| evaluate_by((table, query, choice)));
    assert_eq!(least, mean, "other cells by mean than by least: {} {}", hex(table), hex(query));
    least
}

/// A node of a query, the archive's rows of its operands and of itself, and its group about the former.
struct Part<'a> {
    kind: &'a Kind,
    operands: Vec<Vec<Row>>,
    rows: Vec<Row>,
    text: String,
}

/// One table and one query, and the parts of the latter.
struct Case<'a> {
    table: &'a [u8],
    query: &'a [u8],
    parts: Vec<Part<'a>>,
}

impl<'a> Case<'a> {
    /// The group of the node whose last byte stands before `end`; none if a node has too many rows. Its part is the last one then.
    fn node(&mut self, node: &'a Node, end: usize) -> Option<String> {
        let operands: Vec<(&Node, usize)> = match (&node.kind, &seen::operands(node)[..]) {
            // A project trust is asked about with its set.
            (Kind::Project(..), _) => vec![],
            (_, [left, right]) => vec![(left, right.place), (right, end)],
            (_, operands) => operands.iter().map(|operand| (*operand, end)).collect(),
        };
        let (mut groups, mut lists) = (Vec::new(), Vec::new());
        for (operand, end) in operands {
            groups.push(self.node(operand, end)?);
            lists.push(self.parts.last().expect("the operand's").rows.clone());
        }
        let values: Vec<String> = lists.iter().map(|rows| sparql::values(rows)).collect();
        let rows = evaluate(self.table, &self.query[node.place..end])?;
        let text = sparql::group(&node.kind, &values);
        self.parts.push(Part { kind: &node.kind, operands: lists, rows, text });
        Some(sparql::group(&node.kind, &groups))
    }
}

/// The questions as text: lines of what is asked about, the text and the rows, behind a line with the table and the query.
#[derive(Default)]
struct Questions {
    text: String,
    lines: usize,
    seen: Seen,
}

impl Questions {
    fn line(&mut self, fields: [&str; 4]) {
        self.text += &(fields.join("\t") + "\n");
        self.lines += 1;
    }

    /// Asks about a query; the text and the rows of the whole, or none if it is left out.
    fn ask(&mut self, what: &str, table: &[u8], query: &[u8]) -> Option<(String, String)> {
        let tree = paper::query(query, CHECK_LIMIT).expect("a sound query");
        let mut case = Case { table, query, parts: Vec::new() };
        let whole = case.node(&tree, query.len())?;
        self.line(["case", what, &facts(table), &hex(query)]);
        for part in &case.parts {
            self.line(["part", seen::name(part.kind), &part.text, &sparql::printed(&part.rows)]);
        }
        let rows = &case.parts.last().expect("the root's").rows;
        let printed = sparql::printed(rows);
        self.line(["whole", "whole", &whole, &printed]);
        self.seen.query(table, &tree, rows);
        case.parts.iter().for_each(|part| self.seen.part(part.kind, &part.operands));
        Some((whole, printed))
    }
}

/// A table's records: terms and trust, `?` if it is unknown.
fn facts(table: &[u8]) -> String {
    let line = |record: &Record| {
        let trust = if record.known { (record.trust as i32 - 1_000).to_string() } else { "?".to_string() };
        let [subject, predicate, object] = record.terms;
        format!("{subject} {predicate} {object} {trust}")
    };
    paper::records(table).expect("a sound table").iter().map(line).collect::<Vec<_>>().join(" | ")
}

// ---- Cases

fn by_hand(report: &mut Report, questions: &mut Questions) {
    for Known { what, table, query, text, rows } in known::all() {
        let (our_text, our_rows) = questions.ask(what, &table, &query).expect("few rows");
        report.case(our_text == text, || format!("{what}: {} is {text}, but got {our_text}", hex(&query)));
        let inputs = || format!("table: {}\n    query: {}\n    SPARQL: {text}", facts(&table), hex(&query));
        let differ = || format!("{}\n    rows by hand: {rows}\n    rows of the archive: {our_rows}", inputs());
        report.case(our_rows == rows, || format!("{what}:\n    {}", differ()));
        // The peer is held to the rows by hand too.
        questions.line(["whole", "by hand", &text, rows]);
    }
}

fn random_cases(report: &mut Report, questions: &mut Questions) {
    let (mut random, mut left_out) = (Random::new(1), 0);
    for number in 0..CASES {
        let (table, query) = trees::random(&mut random);
        left_out += usize::from(questions.ask(&format!("random case {number}"), &table, &query).is_none());
    }
    println!("random cases: {CASES}; left out, since a node has over {MOST_ROWS} rows: {left_out}");
    report.case(left_out < CASES / 10, || "too many random cases are left out".to_string());
}

fn main() {
    let (mut report, mut questions) = (Report::default(), Questions::default());
    by_hand(&mut report, &mut questions);
    random_cases(&mut report, &mut questions);
    questions.seen.enough(&mut report);
    questions.line(["end", &questions.lines.to_string(), "", ""]);
    std::fs::write(FILE, &questions.text).expect("the file can be written");
    std::process::exit(report.finish());
}
