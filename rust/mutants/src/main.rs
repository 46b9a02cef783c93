//! mutants [NAME..]: changes the Rust beside the port in one place at a time and says which of the gate's comparisons
//! notices first.
//! mutants search NAME COUNT SEED: the first difference in full, of more cases.
//!
//! The port stays as it is; a difference between it and the changed Rust shows that an input tells the two apart. Wants
//! what the gate makes: target/staticlib, target/bin/lay and target/examples.

mod steps;
mod tree;

use mutants::{apply_all, changes, Change, CHANGED, LIST};
use std::path::{Path, PathBuf};
use std::process::{exit, Command};
use steps::{Step, STEPS};

/// What the comparisons say of a change: a line, and whether it is as the list has it.
fn judged(root: &Path, change: &Change) -> (String, bool) {
    let wanted = |step: &&Step| change.by.is_empty() || change.by.iter().any(|name| name == step.name);
    let seen = |step: &Step| step.notices(root).map(|case| format!("{} {case}", step.name).trim_end().to_string());
    let steps: Vec<&Step> = STEPS.iter().filter(wanted).collect();
    if change.by.is_empty() {
        let first = steps.iter().find_map(|step| seen(step));
        return match (first, &change.same) {
            (Some(text), None) => (text, true),
            (Some(text), Some(_)) => (format!("SEEN, though it is listed as the same: {text}"), false),
            (None, Some(reason)) => (format!("the same: {reason}"), true),
            (None, None) => ("NONE".to_string(), false),
        };
    }
    let all: Vec<Option<String>> = steps.iter().map(|step| seen(step)).collect();
    let missed =
        steps.iter().zip(&all).filter(|(_, seen)| seen.is_none()).map(|(step, _)| format!("NOT {}", step.name));
    let text: Vec<String> = all.iter().flatten().cloned().chain(missed).collect();
    (text.join("; "), all.len() == change.by.len() && all.iter().all(Option::is_some))
}

/// The repository, the changes, and whether the copy holds all of those that stand in one function.
struct Trial {
    root: PathBuf,
    changes: Vec<Change>,
    built: bool,
}

impl Trial {
    fn read(&self, name: &str) -> Result<String, String> {
        std::fs::read_to_string(self.root.join(name)).map_err(|e| format!("{name}: {e}"))
    }

    /// Each file with one change that stands in several functions, or with all the others.
    fn texts(&self, change: &Change) -> Result<Vec<(String, String)>, String> {
        let text = |&(file, number): &(&str, &str)| {
            let published = self.read(file)?;
            Ok(match change {
                _ if change.is_local() => (file.to_string(), apply_all(&published, (file, number), &self.changes)?),
                _ if change.file == file => (file.to_string(), change.apply(&published)?),
                _ => (file.to_string(), published),
            })
        };
        CHANGED.iter().map(text).collect()
    }

    /// Makes the programs with this change in force: a number in the environment tells which.
    fn prepare(&mut self, at: usize) -> Result<(), String> {
        let change = &self.changes[at];
        if !change.is_local() || !self.built {
            tree::build(&self.root, &self.texts(change)?).map_err(|e| format!("{}: {e}", change.name))?;
            self.built = self.changes[at].is_local();
        }
        std::env::set_var("MUTANT", (at + 1).to_string());
        Ok(())
    }

    fn all(&mut self, chosen: &[usize]) -> Result<bool, String> {
        let (mut noticed, mut same, mut wrong) = (0, 0, 0);
        for &at in chosen {
            self.prepare(at)?;
            let change = &self.changes[at];
            let (text, good) = judged(&self.root, change);
            println!("{}: {text}", change.name);
            match (good, &change.same) {
                (false, _) => wrong += 1,
                (true, Some(_)) => same += 1,
                (true, None) => noticed += 1,
            }
        }
        let count = chosen.len();
        println!("mutants: {count} changes, {noticed} noticed, {same} the same for a reason, {wrong} not as listed");
        Ok(wrong == 0)
    }

    /// Runs the comparisons over other cases than the gate's; prints what differs, and the smallest cloud that is left of
    /// it.
    fn search(&mut self, at: usize, words: &[String]) -> Result<bool, String> {
        self.prepare(at)?;
        let compare = |words: &[&str]| {
            let mut command = Command::new(tree::program(&self.root, "compare"));
            let out = command.args(words).current_dir(&self.root).output().map_err(|e| e.to_string())?;
            Ok::<String, String>(String::from_utf8_lossy(&out.stdout).into_owned())
        };
        for what in ["triangles", "estimate", "reconstruct"] {
            let mut all = vec![what];
            all.extend(words.iter().map(String::as_str));
            let said = compare(&all)?;
            println!("{said}");
            let number = said.split("case ").nth(1).and_then(|rest| rest.split(' ').next());
            if let (Some(number), "reconstruct", Some(seed)) = (number, what, words.get(1)) {
                println!("{}", compare(&["shrink", number, seed])?);
            }
        }
        Ok(true)
    }
}

fn run(words: &[String]) -> Result<bool, String> {
    let root = Path::new(env!("CARGO_MANIFEST_DIR")).join("../..").canonicalize().map_err(|e| e.to_string())?;
    tree::make(&root).map_err(|e| e.to_string())?;
    let mut trial = Trial { root, changes: vec![], built: false };
    trial.changes = changes(&trial.read(LIST)?)?;
    let names: Vec<String> = trial.changes.iter().map(|change| change.name.clone()).collect();
    let named = |name: &String| names.iter().position(|n| n == name).ok_or_else(|| format!("no change {name}"));
    match words {
        [] => trial.all(&(0..names.len()).collect::<Vec<_>>()),
        [first, name, rest @ ..] if first == "search" => trial.search(named(name)?, rest),
        chosen => trial.all(&chosen.iter().map(named).collect::<Result<Vec<_>, _>>()?),
    }
}

fn main() {
    let words: Vec<String> = std::env::args().skip(1).collect();
    match run(&words) {
        Ok(good) => exit(i32::from(!good)),
        Err(text) => {
            eprintln!("{text}");
            exit(2);
        }
    }
}
