//! An independent reading of document 01: tables, the tree of a query, and the check.
//!
//! Written from the document and made for reading, with no code in common with the engine: a table becomes a list
//! of records, a query becomes a tree whose nodes know their places, and the refusals are asked of these.

/// A number from 1 to 10 with its place, or 0 and 0.
#[derive(Clone, Copy, Debug, PartialEq, Eq)]
pub struct Refusal {
    pub number: u32,
    pub place: u64,
}

pub const NONE: Refusal = Refusal { number: 0, place: 0 };

/// The answer of a rewriting: the length is 0 on a refusal.
#[derive(Clone, Copy, Debug, PartialEq, Eq)]
pub struct Rewritten {
    pub refusal: Refusal,
    pub length: u64,
}

/// The answer of a ceiling: the ceiling is 0 on a refusal.
#[derive(Clone, Copy, Debug, PartialEq, Eq)]
pub struct Ceiling {
    pub refusal: Refusal,
    pub ceiling: u32,
}

#[derive(Clone, Copy, Debug, PartialEq, Eq)]
pub struct Tally {
    pub answered: u32,
    pub refused: u32,
}

/// What the caller of an evaluation chooses, by request 4 of document 02: the trust of a pattern set's row is the least of those of the
/// records that its patterns use, or their mean.
#[derive(Clone, Copy, Debug, PartialEq, Eq)]
pub enum Choice {
    Least,
    Mean,
}

pub const CHOICES: [Choice; 2] = [Choice::Least, Choice::Mean];

/// What is evaluated: a table and a query, by a choice.
pub type Inputs<'a> = (&'a [u8], &'a [u8], Choice);

/// The answer of an evaluation: rows, peak and pairs are 0 on a refusal.
#[derive(Clone, Copy, Debug, PartialEq, Eq)]
pub struct Evaluated {
    pub refusal: Refusal,
    pub rows: u32,
    pub peak: u32,
    pub pairs: u64,
    pub tally: Tally,
}

/// The answer of totals: the length, in words, is 0 on a refusal.
#[derive(Clone, Copy, Debug, PartialEq, Eq)]
pub struct Totalled {
    pub refusal: Refusal,
    pub length: u64,
    pub tally: Tally,
}

pub fn refusal(number: u32, place: usize) -> Refusal {
    Refusal { number, place: place as u64 }
}

pub const RECORD_BYTES: usize = 9;
pub const MOST_RECORDS: usize = 65_535;
/// The longest query that the check takes.
pub const CHECK_LIMIT: usize = 5_120;
/// The greatest trust field, 1000 plus 1000.
pub const MOST_TRUST: u32 = 2_000;
pub const VARIABLES: u32 = 16;

// ---- Tables

/// The fields of a record as they stand in its bytes, sound or not.
#[derive(Clone, Copy, Debug, PartialEq, Eq)]
pub struct Record {
    pub terms: [u32; 3],
    pub known: bool,
    pub trust: u32,
}

impl Record {
    fn read(bytes: &[u8]) -> Record {
        let all = bytes.iter().fold(0u128, |sum, byte| sum << 8 | u128::from(*byte));
        let field = |from: u32, width: u32| (all >> from) as u32 & ((1 << width) - 1);
        Record { terms: [field(52, 20), field(32, 20), field(12, 20)], known: field(11, 1) == 1, trust: field(0, 11) }
    }

    fn is_sound(&self) -> bool {
        self.terms.iter().all(|term| *term != 0) && self.trust <= MOST_TRUST && (self.known || self.trust == 0)
    }
}

/// The records of a table, or the refusal.
pub fn records(table: &[u8]) -> Result<Vec<Record>, Refusal> {
    if table.len() % RECORD_BYTES != 0 {
        return Err(refusal(1, 0));
    }
    if table.len() / RECORD_BYTES > MOST_RECORDS {
        return Err(refusal(2, 0));
    }
    let mut sound: Vec<Record> = Vec::new();
    for (number, bytes) in table.chunks(RECORD_BYTES).enumerate() {
        let record = Record::read(bytes);
        if !record.is_sound() {
            return Err(refusal(3, number));
        }
        // Arrays compare by their first elements that differ: subject, then predicate, then object.
        if sound.last().is_some_and(|before| record.terms <= before.terms) {
            return Err(refusal(4, number));
        }
        sound.push(record);
    }
    Ok(sound)
}

// ---- The tree of a query

#[derive(Clone, Copy, Debug, PartialEq, Eq)]
pub enum Slot {
    Term(u32),
    Variable(u32),
}

pub type Pattern = [Slot; 3];

#[derive(Debug)]
pub enum Condition {
    Bound(u32),
    Same(u32, u32),
    IsTerm(u32, u32),
    Less(u32, u32),
    Not(Box<Condition>),
    And(Box<Condition>, Box<Condition>),
    Or(Box<Condition>, Box<Condition>),
    True,
}

/// A node and the place of its first byte.
#[derive(Debug)]
pub struct Node {
    pub place: usize,
    pub kind: Kind,
}

/// Bounds are plus 1000, as they stand in the bytes.
#[derive(Debug)]
pub enum Kind {
    Patterns(Vec<Pattern>),
    Join(Box<Node>, Box<Node>),
    LeftJoin(Condition, Box<Node>, Box<Node>),
    Union(Box<Node>, Box<Node>),
    Filter(Condition, Box<Node>),
    Project(u32, Box<Node>),
    Ensure(u32, u32, Box<Node>),
}

impl Kind {
    /// As in the first byte of a node.
    pub fn number(&self) -> usize {
        match self {
            Kind::Patterns(_) => 0,
            Kind::Join(..) => 1,
            Kind::LeftJoin(..) => 2,
            Kind::Union(..) => 3,
            Kind::Filter(..) => 4,
            Kind::Project(..) => 5,
            Kind::Ensure(..) => 6,
        }
    }

    pub fn operands(&self) -> Vec<&Node> {
        match self {
            Kind::Patterns(_) => vec![],
            Kind::Join(left, right) | Kind::LeftJoin(_, left, right) | Kind::Union(left, right) => vec![left, right],
            Kind::Filter(_, node) | Kind::Project(_, node) | Kind::Ensure(_, _, node) => vec![node],
        }
    }
}

/// A fault is the place of the innermost piece that has it: a node, a condition, a pattern.
type Read<T> = Result<T, usize>;

/// Reads fields of some bits, the most significant bit first. Every fault of one piece has the piece's place.
struct Reader<'a> {
    bytes: &'a [u8],
    bit: usize,
}

impl Reader<'_> {
    fn place(&self) -> usize {
        self.bit / 8
    }

    /// The next bits as a number, or none if the bytes end.
    fn bits(&mut self, width: usize) -> Option<u32> {
        let mut number = 0;
        for bit in self.bit..self.bit + width {
            let byte = self.bytes.get(bit / 8)?;
            number = number << 1 | u32::from(byte >> (7 - bit % 8) & 1);
        }
        self.bit += width;
        Some(number)
    }

    fn zeros(&mut self, width: usize) -> Option<()> {
        (self.bits(width)? == 0).then_some(())
    }

    fn term(&mut self) -> Option<u32> {
        self.bits(20).filter(|term| *term != 0)
    }

    fn bound(&mut self) -> Option<u32> {
        self.bits(12).filter(|bound| *bound <= MOST_TRUST)
    }

    fn slot(&mut self) -> Option<Slot> {
        match self.bits(4)? {
            0 => self.term().map(Slot::Term),
            1 => self.bits(20).filter(|variable| *variable < VARIABLES).map(Slot::Variable),
            _ => None,
        }
    }

    fn pattern(&mut self) -> Read<Pattern> {
        let place = self.place();
        let mut slots = || Some([self.slot()?, self.slot()?, self.slot()?]);
        slots().ok_or(place)
    }

    /// A variable in n, then a second one in a byte of its own.
    fn second_variable(&mut self) -> Option<u32> {
        self.zeros(4)?;
        self.bits(4)
    }

    fn reserved_then_term(&mut self) -> Option<u32> {
        self.zeros(4)?;
        self.term()
    }

    fn condition(&mut self) -> Read<Condition> {
        let place = self.place();
        let kind = self.bits(4).ok_or(place)?;
        let n = self.bits(4).ok_or(place)?;
        if kind >= 4 && n != 0 {
            return Err(place);
        }
        Ok(match kind {
            0 => Condition::Bound(n),
            1 => Condition::Same(n, self.second_variable().ok_or(place)?),
            2 => Condition::IsTerm(n, self.reserved_then_term().ok_or(place)?),
            3 => Condition::Less(n, self.second_variable().ok_or(place)?),
            4 => Condition::Not(Box::new(self.condition()?)),
            5 => Condition::And(Box::new(self.condition()?), Box::new(self.condition()?)),
            6 => Condition::Or(Box::new(self.condition()?), Box::new(self.condition()?)),
            7 => Condition::True,
            _ => return Err(place),
        })
    }

    fn node(&mut self) -> Read<Node> {
        let place = self.place();
        let kind = self.bits(4).ok_or(place)?;
        let n = self.bits(4).ok_or(place)?;
        if kind != 0 && kind != 5 && n != 0 {
            return Err(place);
        }
        let kind = match kind {
            0 => Kind::Patterns((0..n).map(|_| self.pattern()).collect::<Read<_>>()?),
            1 => Kind::Join(self.operand()?, self.operand()?),
            2 => Kind::LeftJoin(self.condition()?, self.operand()?, self.operand()?),
            3 => Kind::Union(self.operand()?, self.operand()?),
            4 => Kind::Filter(self.condition()?, self.operand()?),
            5 => Kind::Project(n, self.operand()?),
            6 => {
                let low = self.bound().ok_or(place)?;
                let high = self.bound().ok_or(place)?;
                Kind::Ensure(low, high, self.operand()?)
            }
            _ => return Err(place),
        };
        Ok(Node { place, kind })
    }

    fn operand(&mut self) -> Read<Box<Node>> {
        self.node().map(Box::new)
    }
}

impl Node {
    /// Calls `visit` for this node and all below it, in prefix order.
    pub fn each<'a>(&'a self, visit: &mut impl FnMut(&'a Node)) {
        visit(self);
        self.kind.operands().into_iter().for_each(|node| node.each(visit));
    }

    /// The first project trust, in prefix order, whose variable is also a pattern's or a second project trust's.
    fn clash(&self) -> Option<usize> {
        let mut projects = Vec::new();
        let mut in_patterns = Vec::new();
        self.each(&mut |node| match &node.kind {
            Kind::Project(variable, _) => projects.push((node.place, *variable)),
            Kind::Patterns(patterns) => in_patterns.extend(patterns.iter().flatten().copied()),
            _ => {}
        });
        let clashes = |(place, variable): &(usize, u32)| {
            in_patterns.contains(&Slot::Variable(*variable))
                || projects.iter().any(|other| other.0 != *place && other.1 == *variable)
        };
        projects.iter().find(|project| clashes(project)).map(|project| project.0)
    }
}

/// The tree of a query of at most `limit` bytes, or the refusal.
pub fn query(bytes: &[u8], limit: usize) -> Result<Node, Refusal> {
    if bytes.len() > limit {
        return Err(refusal(5, 0));
    }
    let mut reader = Reader { bytes, bit: 0 };
    let node = reader.node().map_err(|place| refusal(6, place))?;
    if reader.place() < bytes.len() {
        return Err(refusal(6, reader.place()));
    }
    match node.clash() {
        Some(place) => Err(refusal(7, place)),
        None => Ok(node),
    }
}

/// The check of a table and a query.
pub fn check(table: &[u8], bytes: &[u8]) -> Refusal {
    let outcome = records(table).and_then(|_| query(bytes, CHECK_LIMIT));
    outcome.err().unwrap_or(NONE)
}
