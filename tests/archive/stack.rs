//! The stack of a test program, and the least stack on which a call answers its deepest queries.

use crate::chains::Chain;
use crate::paper::{self, Refusal, NONE};
use crate::report::Report;
use std::process::{Command, Stdio};
use std::thread;

/// Stack for a test program itself: paper.rs, push.rs and queries.rs call themselves once for each level of a query.
pub const OWN_STACK: usize = 256 << 20;

/// The stack that the deepest query may need at most, in KiB.
const MOST: usize = 8192;
/// No thread has less.
const LEAST: usize = 16;
const STEP: usize = 4;
/// Does for a shallow query where a call itself has no large local, in KiB.
pub const SHALLOW: usize = 64;

/// A call and the deepest queries that it takes.
pub struct Deepest<Answer> {
    /// The header's name for the stack, in KiB, that the call needs.
    pub figure: &'static str,
    pub chains: Vec<Chain>,
    /// Queries of a few levels that do with little stack, in KiB: no large local stands in a frame of theirs, but for the call's own.
    pub shallow: Vec<Chain>,
    pub shallow_kib: usize,
    /// The refusal of a query by itself, by an independent reading.
    pub refusal: fn(&[u8]) -> Refusal,
    pub call: fn(&[u8]) -> Answer,
    /// The answer by an independent reading.
    pub expected: fn(&[u8]) -> Answer,
}

/// The refusal of a query, whatever its length.
pub fn of_query(query: &[u8]) -> Refusal {
    paper::query(query, query.len()).err().unwrap_or(NONE)
}

impl<Answer: PartialEq + Send> Deepest<Answer> {
    /// The call's answers to some chains, on a thread with so many KiB of stack.
    fn answers(&self, chains: &[Chain], kib: usize) -> Vec<Answer> {
        let call = self.call;
        thread::scope(|scope| {
            let calls = move || chains.iter().map(|chain| call(&chain.query)).collect();
            let builder = thread::Builder::new().stack_size(kib * 1024);
            builder.spawn_scoped(scope, calls).expect("a thread").join().expect("answers")
        })
    }

    fn right_on(&self, chains: &[Chain], kib: usize) -> bool {
        chains.iter().zip(self.answers(chains, kib)).all(|(chain, answer)| (self.expected)(&chain.query) == answer)
    }

    /// The deepest queries on 8 MiB of stack, and the least stack that does.
    pub fn test(&self, report: &mut Report) {
        if child_status(MOST, None).is_none() {
            println!("least stack: above {MOST} KiB");
            return report.case(false, || format!("the deepest query overflows a stack of {MOST} KiB"));
        }
        let shallow = run_child(&["--shallow"]) == Some(0);
        let kib = self.shallow_kib;
        report.case(shallow, || format!("a shallow query is not answered right on a stack of {kib} KiB"));
        for (chain, got) in self.chains.iter().zip(self.answers(&self.chains, MOST)) {
            let read = (self.refusal)(&chain.query);
            report.case(read == chain.refusal, || format!("{}: the independent reading differs", chain.name));
            report.case(got == (self.expected)(&chain.query), || format!("{}: another answer", chain.name));
        }
        let Some(least) = least(None) else {
            println!("least stack: not measured, since an answer is wrong");
            return report.case(false, || "the least stack cannot be measured".to_string());
        };
        println!("least stack: {least} KiB");
        let promised = self.promised();
        report
            .case(least <= promised, || format!("the header says that {promised} KiB of stack do, but {least} are needed"));
    }

    /// Prints the least stack for each of the deepest queries alone.
    fn print_each(&self) {
        for (number, chain) in self.chains.iter().enumerate() {
            match least(Some(number)) {
                Some(least) => println!("{least} KiB: {}", chain.name),
                None => println!("not on {MOST} KiB: {}", chain.name),
            }
        }
    }

    fn promised(&self) -> usize {
        let header = include_str!("../../include/randwyler.h");
        let start = format!("#define {} ", self.figure);
        let figure = header.lines().find_map(|line| line.strip_prefix(&start));
        figure.and_then(|text| text.trim().parse().ok()).expect("the header's figure for the stack")
    }
}

/// The exit status of this program with other arguments; none if a signal ended it, as an overflow does.
pub fn run_child(arguments: &[&str]) -> Option<i32> {
    let program = std::env::current_exe().expect("the path of this program");
    let mut command = Command::new(program);
    command.args(arguments).stdout(Stdio::null()).stderr(Stdio::null());
    command.status().expect("a child process").code()
}

/// The exit status of a child with so many KiB of stack for the deepest queries, or for one of them.
fn child_status(kib: usize, chain: Option<usize>) -> Option<i32> {
    let mut arguments = vec!["--stack".to_string(), kib.to_string()];
    arguments.extend(chain.map(|number| number.to_string()));
    run_child(&arguments.iter().map(String::as_str).collect::<Vec<_>>())
}

/// The least stack in KiB on which every answer is right, found by bisection; none if `MOST` is too small.
fn least(chain: Option<usize>) -> Option<usize> {
    let fits = |kib| child_status(kib, chain) == Some(0);
    if !fits(MOST) {
        return None;
    }
    if fits(LEAST) {
        return Some(LEAST);
    }
    let (mut small, mut large) = (LEAST, MOST);
    while large - small > STEP {
        let middle = (small + large) / 2 / STEP * STEP;
        if fits(middle) {
            large = middle;
        } else {
            small = middle;
        }
    }
    Some(large)
}

/// What a test program's main does: runs the test's own `parts`, and then, as every call's test, threads and the deepest queries; or, as
/// a child with `--stack KIB`, ends with 0 if the deepest queries are answered right on so small a stack, or that of a number behind it,
/// and with `--shallow`, if the shallow ones are on theirs. With `--each` it prints the least stack for each of the deepest queries.
pub fn main<Answer: PartialEq + Send + 'static>(
    parts: fn(&mut Report),
    on_threads: fn(&mut Report),
    deepest: fn() -> Deepest<Answer>,
) {
    let run = move || {
        let mut report = Report::default();
        parts(&mut report);
        on_threads(&mut report);
        report.part("threads");
        deepest().test(&mut report);
        report.part("deepest queries");
        report.finish()
    };
    let arguments: Vec<String> = std::env::args().skip(1).collect();
    let act: Box<dyn FnOnce() -> i32 + Send> = match &arguments[..] {
        [] => Box::new(run),
        [option, kib, chain @ ..] if option == "--stack" && chain.len() < 2 => {
            let kib = kib.parse().expect("a number of KiB");
            let chain: Option<usize> = chain.first().map(|number| number.parse().expect("a number of a query"));
            Box::new(move || {
                let deepest = deepest();
                let chains = chain.map_or(&deepest.chains[..], |number| &deepest.chains[number..=number]);
                i32::from(!deepest.right_on(chains, kib))
            })
        }
        [option] if option == "--shallow" => Box::new(move || {
            let deepest = deepest();
            i32::from(!deepest.right_on(&deepest.shallow, deepest.shallow_kib))
        }),
        [option] if option == "--each" => Box::new(move || {
            deepest().print_each();
            0
        }),
        _ => panic!("the options are --stack KIB, --shallow and --each"),
    };
    let status = thread::Builder::new().stack_size(OWN_STACK).spawn(act).expect("a thread").join().unwrap_or(101);
    std::process::exit(status);
}
