//! The program under test, run in a temporary folder on two files.

use crate::report::{hex, Report};
use std::env;
use std::fs;
use std::path::PathBuf;
use std::process::{self, Command, Stdio};

/// Where `scripts/build strikes` leaves it. `RANDWYLER_STRIKES` names another program to test in its place.
const BUILT: &str = "target/bin/strikes";
/// Bytes of a text that are shown where it is wrong.
const SHOWN: usize = 300;

/// The files of a run: facts and query. None is an absent file.
#[derive(Clone, Debug)]
pub struct Files {
    pub facts: Option<Vec<u8>>,
    pub query: Option<Vec<u8>>,
}

impl Files {
    pub fn new(facts: Vec<u8>, query: Vec<u8>) -> Files {
        Files { facts: Some(facts), query: Some(query) }
    }

    /// Their bytes; an absent file has none.
    pub fn bytes(&self) -> (&[u8], &[u8]) {
        (self.facts.as_deref().unwrap_or(&[]), self.query.as_deref().unwrap_or(&[]))
    }

    fn named(&self) -> [(&'static str, &Option<Vec<u8>>); 2] {
        [("facts.bin", &self.facts), ("query.bin", &self.query)]
    }
}

/// A program and a folder for its runs, which is removed at the end.
pub struct Program {
    path: PathBuf,
    folder: PathBuf,
}

impl Program {
    pub fn new() -> Program {
        let other = env::var("RANDWYLER_STRIKES").ok().filter(|path| !path.is_empty());
        let path = other.unwrap_or(BUILT.to_string());
        let path = fs::canonicalize(&path).unwrap_or_else(|error| panic!("no program {path}: {error}"));
        let folder = env::temp_dir().join(format!("strikes-{}", process::id()));
        fs::create_dir(&folder).expect("a temporary folder");
        Program { path, folder }
    }

    /// Puts the files of a run into the folder, and nothing else.
    fn put(&self, files: &Files) {
        for (name, bytes) in files.named() {
            let path = self.folder.join(name);
            match bytes {
                Some(bytes) => fs::write(path, bytes).expect("a file of the run"),
                None if path.exists() => fs::remove_file(path).expect("a file of an earlier run"),
                None => {}
            }
        }
    }

    /// What the program prints. An error says that it ended badly, or wrote elsewhere.
    fn print(&self, files: &Files) -> Result<Vec<u8>, String> {
        self.put(files);
        let run = Command::new(&self.path).current_dir(&self.folder).stdin(Stdio::null()).output();
        let run = run.map_err(|error| error.to_string())?;
        if !run.status.success() || !run.stderr.is_empty() {
            return Err(format!("{}, on standard error: {}", run.status, String::from_utf8_lossy(&run.stderr)));
        }
        let mut left: Vec<_> =
            fs::read_dir(&self.folder).expect("the folder").map(|entry| entry.expect("a file").file_name()).collect();
        left.sort();
        let put: Vec<_> = files.named().iter().filter(|(_, bytes)| bytes.is_some()).map(|(name, _)| *name).collect();
        if left != put {
            return Err(format!("it leaves {left:?} in the folder"));
        }
        Ok(run.stdout)
    }

    /// Counts a case: on these files the program prints this text, byte for byte.
    pub fn test(&self, report: &mut Report, what: &str, files: &Files, expected: &str) {
        let got = self.print(files);
        report.case(got.as_deref() == Ok(expected.as_bytes()), || {
            let got = got.map_or_else(|error| error, |text| shown(&text));
            let [facts, query] = files.named().map(|(_, bytes)| bytes.as_deref().map_or("absent".to_string(), hex));
            format!("{what}: facts {facts} query {query}: expected {}, but got {got}", shown(expected.as_bytes()))
        });
    }
}

impl Drop for Program {
    fn drop(&mut self) {
        let _ = fs::remove_dir_all(&self.folder);
    }
}

/// A text in quotes; of a long one only the front and the length.
fn shown(text: &[u8]) -> String {
    let front = String::from_utf8_lossy(&text[..text.len().min(SHOWN)]).into_owned();
    format!("{front:?} ({} bytes)", text.len())
}
