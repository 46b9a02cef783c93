//! The gate's comparisons with the Rust, the quick ones first.

use crate::tree::program;
use std::fs;
use std::path::Path;
use std::process::{Command, Stdio};

/// A comparison's name, and how it is run: nothing where all is the same, else what differs.
pub struct Step {
    pub name: &'static str,
    run: fn(&Path) -> Option<String>,
}

/// Seconds after which a program that the change has made endless is ended; that is a difference.
const SECONDS: &str = "900";

struct Ran {
    good: bool,
    said: Vec<u8>,
}

fn run(root: &Path, name: &str, words: &[&str], input: Option<&Path>) -> Ran {
    let mut command = Command::new("timeout");
    command.arg(SECONDS).arg(program(root, name)).args(words).current_dir(root).stderr(Stdio::null());
    command.stdin(input.map_or_else(Stdio::null, |path| fs::File::open(path).expect("the input").into()));
    let out = command.output().expect("the program runs");
    Ran { good: out.status.success(), said: out.stdout }
}

/// The part of a report that says which case differs, or that the program broke off.
fn compare(root: &Path, name: &str, words: &[&str]) -> Option<String> {
    let ran = run(root, name, words, None);
    let said = String::from_utf8_lossy(&ran.said).into_owned();
    let from = |mark: &str| said.lines().find_map(|line| line.find(mark).map(|at| line[at..].to_string()));
    let until =
        |text: String| text.find([',', ')']).map_or(text.clone(), |at| text[..=at].trim_end_matches(',').into());
    let first = || from("case ").or_else(|| from("first difference: ")).map_or("it broke off".to_string(), until);
    (!ran.good).then(first)
}

fn unlike(same: bool, what: &str) -> Option<String> {
    (!same).then(|| what.to_string())
}

fn defaults(root: &Path) -> Option<String> {
    let stored = fs::read(root.join("target/examples/defaults.out")).expect("run tests/examples first");
    unlike(run(root, "compare", &["defaults"], None).said == stored, "")
}

fn answers(root: &Path) -> Option<String> {
    let stored = fs::read(root.join("tests/stored-answers.txt")).expect("the stored answers");
    unlike(run(root, "answers", &[], None).said == stored, "")
}

fn lay_cases(root: &Path) -> Option<String> {
    let folder = root.join("tests/lay-cases");
    let paths = folder.read_dir().expect("the cases").map(|entry| entry.expect("an entry").path());
    let mut inputs: Vec<_> = paths.filter(|path| path.extension().is_some_and(|e| e == "csv")).collect();
    inputs.sort();
    let mut pairs: Vec<_> = inputs.into_iter().map(|path| (path.clone(), path.with_extension("out"))).collect();
    pairs.push((root.join("crates/lay/stdin"), root.join("crates/lay/stdout")));
    let differs = |(input, output): &(std::path::PathBuf, std::path::PathBuf)| {
        run(root, "compare", &["lay"], Some(input)).said != fs::read(output).expect("the output")
    };
    let first = pairs.into_iter().find(differs)?;
    Some(first.0.strip_prefix(root).expect("below the root").display().to_string())
}

pub const STEPS: &[Step] = &[
    Step { name: "defaults", run: defaults },
    Step { name: "numbers", run: |root| compare(root, "compare", &["numbers", "100000", "1"]) },
    Step { name: "triangles", run: |root| compare(root, "compare", &["triangles", "100000", "1"]) },
    Step { name: "estimate", run: |root| compare(root, "compare", &["estimate", "3000", "1"]) },
    Step { name: "fixed clouds", run: |root| compare(root, "compare", &["reconstruct", "80", "1"]) },
    Step { name: "lay cases", run: lay_cases },
    Step { name: "lay files", run: |root| compare(root, "compare", &["lay-files", "300", "1"]) },
    Step { name: "stored answers", run: answers },
    Step { name: "origins", run: |root| compare(root, "compare", &["origins", "400", "1"]) },
    Step { name: "drawn clouds", run: |root| compare(root, "compare", &["reconstruct", "2000", "1"]) },
];

impl Step {
    pub fn notices(&self, root: &Path) -> Option<String> {
        (self.run)(root)
    }
}
