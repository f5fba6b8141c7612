//! Random queries, well-formed and damaged. Their bytes are written here from document 01, not by paper.rs.

use crate::random::Random;
use crate::report::Report;

/// Nodes are numbered as document 01 does, and conditions from `CONDITION` on.
pub const CONDITION: usize = 7;
pub const KINDS: usize = 15;

/// With so many bytes left a node or condition has operands, so that long queries come about.
const LARGE: usize = 150;

/// Queries so near below a limit, or longer ones, are made as long as asked.
const NEAR: usize = 20;

/// How often a kind stood directly in another.
pub type Nested = [[u64; KINDS]; KINDS];

/// What queries are made of.
pub struct Pool<'a> {
    terms: &'a [u32],
    terms_of_conditions: &'a [u32],
    /// So many of the 16 variables stand in a query.
    variables: usize,
    /// So many of 4 slots are variables.
    variable_slots: usize,
    /// How many patterns a set may have, if that is not a matter of bytes.
    patterns: &'static [usize],
    /// Once in so many queries, project trusts may take any variable.
    clashes: usize,
}

impl<'a> Pool<'a> {
    /// The same with other terms.
    pub fn with_terms(self, terms: &'a [u32]) -> Pool<'a> {
        Pool { terms, terms_of_conditions: terms, ..self }
    }
}

/// For readers: every sort of value.
pub const WIDE: Pool = Pool {
    terms: &[1, 2, 3, 10, 15, 16, 0x100, 0x10000, 0xFFFFF],
    terms_of_conditions: &[1, 2, 11, 0x100, 0x10000, 0xFFFFF],
    variables: 16,
    variable_slots: 1,
    patterns: &[],
    clashes: 3,
};

/// For evaluation: few values, so that patterns match, rows join and conditions are about variables that are set.
pub const NARROW: Pool = Pool {
    terms: &[1, 2, 3],
    terms_of_conditions: &[1, 2, 3],
    variables: 9,
    variable_slots: 3,
    patterns: &[0, 1, 1, 1, 1, 2, 2, 3],
    clashes: 50,
};

/// For sets of many patterns: more variables, so that one choice of records more often fits all patterns.
pub const MANY_PATTERNS: Pool = Pool { variables: 12, ..NARROW };

/// A well-formed query in the making.
pub struct Query<'a> {
    random: &'a mut Random,
    pool: &'a Pool<'a>,
    pub bytes: Vec<u8>,
    /// Start and length of every head (with its bounds), condition head and pattern, in order.
    pub pieces: Vec<(usize, usize)>,
    pub nested: &'a mut Nested,
    variables: Vec<u8>,
    /// Those that patterns may have, those that project trusts may have, and which of these are still unused.
    in_patterns: Vec<u8>,
    in_projects: Vec<u8>,
    to_project: Vec<u8>,
    /// Project trusts may take any variable.
    clashes: bool,
}

impl<'a> Query<'a> {
    fn empty(random: &'a mut Random, nested: &'a mut Nested, pool: &'a Pool<'a>) -> Query<'a> {
        let mut variables: Vec<u8> = (0..16).collect();
        while variables.len() > pool.variables {
            variables.swap_remove(random.below(variables.len()));
        }
        let (in_patterns, in_projects): (Vec<u8>, Vec<u8>) = variables.iter().partition(|_| random.below(5) < 3);
        let (to_project, clashes) = (in_projects.clone(), random.once_in(pool.clashes));
        let (bytes, pieces) = (vec![], vec![]);
        Query { random, pool, bytes, pieces, nested, variables, in_patterns, in_projects, to_project, clashes }
    }

    pub fn new(random: &'a mut Random, nested: &'a mut Nested, pool: &'a Pool<'a>, budget: usize) -> Query<'a> {
        let mut query = Query::empty(random, nested, pool);
        query.node(None, budget);
        query
    }

    /// Puts unions with the empty set in front, up to a length.
    fn lengthen(&mut self, length: usize) {
        let unions = length.saturating_sub(self.bytes.len()) / 2;
        self.bytes.splice(0..0, [0x30, 0x00].repeat(unions));
        let moved = self.pieces.iter().map(|(start, length)| (start + 2 * unions, *length));
        self.pieces = (0..2 * unions).map(|start| (start, 1)).chain(moved).collect();
    }

    fn piece(&mut self, bytes: &[u8]) {
        self.pieces.push((self.bytes.len(), bytes.len()));
        self.bytes.extend(bytes);
    }

    fn variable(&mut self) -> u8 {
        self.random.pick(&self.variables)
    }

    fn slot(&mut self) -> [u8; 3] {
        if self.random.below(4) < self.pool.variable_slots && !self.in_patterns.is_empty() {
            return [0x10, 0, self.random.pick(&self.in_patterns)];
        }
        let term = self.random.pick(self.pool.terms);
        [(term >> 16) as u8, (term >> 8) as u8, term as u8]
    }

    fn patterns(&mut self, count: usize) {
        self.piece(&[count as u8]);
        for _ in 0..count {
            let slots = [self.slot(), self.slot(), self.slot()].concat();
            self.piece(&slots);
        }
    }

    /// Divides the bytes that are left between two operands, evenly or so that a chain comes out.
    fn split(&mut self, budget: usize) -> (usize, usize) {
        let left = match self.random.below(4) {
            0 => 1,
            1 => budget.saturating_sub(1),
            _ => self.random.below(budget + 1),
        };
        (left, budget - left.min(budget))
    }

    fn node(&mut self, parent: Option<usize>, budget: usize) {
        let left = budget.saturating_sub(1);
        let mut kind = match budget {
            0 | 1 => 0,
            2..LARGE => self.random.below(7),
            _ => self.random.within(1, 6),
        };
        if budget > 1 && self.random.once_in(if self.clashes { 3 } else { 5 }) {
            kind = 5;
        }
        if kind == 5 && self.to_project.is_empty() && !self.clashes {
            kind = 6;
        }
        if let Some(parent) = parent {
            self.nested[parent][kind] += 1;
        }
        match kind {
            0 => {
                let most = (left / 9).min(if self.random.once_in(20) { 15 } else { 3 });
                let count = match self.pool.patterns {
                    [] => self.random.within(0, most),
                    counts => self.random.pick(counts),
                };
                self.patterns(count);
            }
            1 | 3 => {
                self.piece(&[(kind << 4) as u8]);
                self.pair(kind, left);
            }
            2 if self.to_project.len() >= 2 && self.random.once_in(3) => self.trusts_compared(left),
            2 => {
                self.piece(&[0x20]);
                let part = self.random.below(left / 2 + 1);
                self.condition(kind, part);
                self.pair(kind, left - part);
            }
            4 => {
                self.piece(&[0x40]);
                let (part, rest) = self.split(left);
                self.condition(kind, part);
                self.node(Some(kind), rest);
            }
            5 => {
                let any = self.clashes && (self.to_project.is_empty() || self.random.once_in(2));
                let variable = if any { self.variable() } else { self.unused() };
                self.piece(&[0x50 | variable]);
                self.node(Some(kind), left);
            }
            _ => {
                // The least and the greatest are likely: what a push does depends on them.
                let low = self.bound(&[0, 0, 0, 1, 1000, 1999, 2000]);
                let high = self.bound(&[2000, 2000, 2000, 1999, 1999, 1000, 1, 0]);
                self.piece(&[0x60, (low >> 4) as u8, (low << 4 | high >> 8) as u8, high as u8]);
                self.node(Some(kind), budget.saturating_sub(4));
            }
        }
    }

    /// A left join on whether the left row's trust is less than the right row's.
    fn trusts_compared(&mut self, budget: usize) {
        let variables = [self.unused(), self.unused()];
        self.piece(&[0x20]);
        self.piece(&[0x30 | variables[0], variables[1]]);
        self.nested[2][CONDITION + 3] += 1;
        let (left, right) = self.split(budget);
        for (variable, budget) in variables.into_iter().zip([left, right]) {
            self.nested[2][5] += 1;
            self.piece(&[0x50 | variable]);
            self.node(Some(5), budget);
        }
    }

    fn bound(&mut self, likely: &[usize]) -> usize {
        if self.random.once_in(2) {
            self.random.pick(likely)
        } else {
            self.random.within(0, 2000)
        }
    }

    fn unused(&mut self) -> u8 {
        let at = self.random.below(self.to_project.len());
        self.to_project.swap_remove(at)
    }

    fn pair(&mut self, kind: usize, budget: usize) {
        let (left, right) = self.split(budget);
        self.node(Some(kind), left);
        self.node(Some(kind), right);
    }

    fn condition(&mut self, parent: usize, budget: usize) {
        let left = budget.saturating_sub(1);
        let kind = match budget {
            0 | 1 => self.random.pick(&[0, 1, 2, 3, 7]),
            2..LARGE => self.random.below(8),
            _ => self.random.within(4, 6),
        };
        self.nested[parent][CONDITION + kind] += 1;
        // Less is of interest where its variables are trusts.
        let trusts = kind == 3 && !self.in_projects.is_empty() && !self.random.once_in(4);
        let from = if trusts { &self.in_projects } else { &self.variables };
        let (first, second) = (self.random.pick(from), self.random.pick(from));
        match kind {
            0 => self.piece(&[first]),
            1 | 3 => self.piece(&[(kind << 4) as u8 | first, second]),
            2 => {
                let term = self.random.pick(self.pool.terms_of_conditions);
                self.piece(&[0x20 | first, (term >> 16) as u8, (term >> 8) as u8, term as u8]);
            }
            4 => {
                self.piece(&[0x40]);
                self.condition(CONDITION + kind, left);
            }
            5 | 6 => {
                self.piece(&[(kind << 4) as u8]);
                let (one, other) = self.split(left);
                self.condition(CONDITION + kind, one);
                self.condition(CONDITION + kind, other);
            }
            _ => self.piece(&[0x70]),
        }
    }
}

/// Bytes for a query: short, middling, long, and near the limit of a call.
fn query_size(random: &mut Random, limit: usize) -> usize {
    match random.below(400) {
        0 => random.within(limit - NEAR, limit + NEAR),
        1..=3 => random.within(limit / 5, limit),
        4..=40 => random.within(150, 600),
        41..=200 => random.within(30, 150),
        _ => random.within(0, 30),
    }
}

/// A random query for a call with a limit, well-formed or damaged.
pub fn random_query(random: &mut Random, nested: &mut Nested, limit: usize, damaged: bool) -> Vec<u8> {
    if damaged && random.once_in(10) {
        return heap_of_heads(random);
    }
    let size = query_size(random, limit);
    let mut query = Query::new(random, nested, &WIDE, size);
    if size >= limit - NEAR {
        query.lengthen(size);
    }
    let Query { mut bytes, pieces, .. } = query;
    if damaged {
        damage_query(random, &mut bytes, &pieces);
        while random.once_in(5) {
            random.damage(&mut bytes);
        }
    }
    bytes
}

/// A set of one to 15 patterns, mostly of few.
pub fn pattern_set(random: &mut Random, pool: &Pool) -> Vec<u8> {
    let most = random.pick(&[2, 2, 3, 3, 5, 15]);
    let count = random.within(1, most);
    let mut nested = [[0; KINDS]; KINDS];
    let mut query = Query::empty(random, &mut nested, pool);
    query.patterns(count);
    query.bytes
}

/// Counts a case for each kind and each kind that takes it: the one must have stood in the other `least` times.
pub fn all_nested(report: &mut Report, nested: &Nested, least: u64) {
    let takes_nodes = 1..CONDITION;
    let takes_conditions = [2, 4, CONDITION + 4, CONDITION + 5, CONDITION + 6];
    let nodes = takes_nodes.flat_map(|outer| (0..CONDITION).map(move |inner| (outer, inner)));
    let conditions = takes_conditions.into_iter().flat_map(|outer| (CONDITION..KINDS).map(move |inner| (outer, inner)));
    for (outer, inner) in nodes.chain(conditions) {
        let count = nested[outer][inner];
        report.case(count >= least, || format!("kind {inner} stood only {count} times in kind {outer}"));
    }
}

/// Damages a well-formed query in one way; the result may still be well-formed.
pub fn damage_query(random: &mut Random, bytes: &mut Vec<u8>, pieces: &[(usize, usize)]) {
    let (start, length) = random.pick(pieces);
    match (random.below(6), length) {
        // The kind, or n, of a head.
        (0, _) => bytes[start] ^= 0x10 << random.below(4),
        (1, _) => bytes[start] ^= 1 << random.below(4),
        // A slot of a pattern: term 0, a variable above 15, a kind above 1.
        (2 | 3, 9) => {
            let slot = start + 3 * random.below(3);
            let wrong = [[0, 0, 0], [0x10, 0, 16], [0x1F, 0, 0], [0x20, 0, 1], [0x80, 0, 1]];
            bytes[slot..slot + 3].copy_from_slice(&random.pick(&wrong));
        }
        // Bounds or a term: the fields at and about their ends.
        (2 | 3, 4) => {
            let wrong = [[0x7D, 0x10, 0], [0x7D, 0x07, 0xD1], [0, 0x07, 0xD1], [0xFF, 0xF0, 0], [0, 0, 0], [0x10, 0, 1]];
            bytes[start + 1..start + 4].copy_from_slice(&random.pick(&wrong));
        }
        (2 | 3, 2) => bytes[start + 1] = random.byte(),
        _ => random.damage(bytes),
    }
}

/// Bytes that often stand in queries, in any order.
fn heap_of_heads(random: &mut Random) -> Vec<u8> {
    const HEADS: [u8; 18] =
        [0x00, 0x00, 0x00, 0x01, 0x02, 0x0F, 0x10, 0x1F, 0x20, 0x2E, 0x30, 0x40, 0x50, 0x51, 0x5F, 0x60, 0x70, 0x80];
    let length = random.within(0, 40);
    (0..length).map(|_| random.pick(&HEADS)).collect()
}
