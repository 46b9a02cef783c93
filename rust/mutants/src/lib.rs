//! The list of changes to the Rust beside the port, and how they are applied: one alone, or all of them into one text, in
//! which a number decides which one is in force, so that a single build serves them all.
//!
//! tests/mutants.txt has a block of lines for each change, parted by empty lines; a line that begins with # is a
//! comment.
//!
//! - `name: NAME`
//! - `file: PATH`: the file that is changed; without it the published one.
//! - `in: TEXT`: the change is in the function that begins with this text; without it anywhere.
//! - `old: TEXT` and `new: TEXT`: what stands there, once, and what is put in its place; pairs are applied in turn.
//! - `by: STEP, STEP`: the comparisons that have to notice it, each of them; without it any one will do.
//! - `same: REASON`: why no comparison can notice it.

/// The files that are changed, the published one first, and how each asks for the number of the change that is in force.
pub const CHANGED: [(&str, &str); 8] = [
    ("rust/oracle/src/ball_pivoting.rs", "crate::mutant()"),
    ("rust/oracle/src/stand_ins.rs", "crate::mutant()"),
    ("rust/oracle/src/frontier.rs", "crate::mutant()"),
    ("rust/oracle/src/origins.rs", "crate::mutant()"),
    ("rust/oracle/src/acosf.rs", "crate::mutant()"),
    ("rust/expect/src/checks.rs", "oracle::mutant()"),
    ("rust/expect/src/lib.rs", "oracle::mutant()"),
    ("rust/expect/src/origins.rs", "oracle::mutant()"),
];

/// The list.
pub const LIST: &str = "tests/mutants.txt";

#[derive(Clone, Debug, Default)]
pub struct Change {
    pub name: String,
    pub file: String,
    pub within: String,
    pub pairs: Vec<(String, String)>,
    pub by: Vec<String>,
    pub same: Option<String>,
}

fn line(change: &mut Change, line: &str) -> Result<(), String> {
    let (key, value) = line.split_once(':').ok_or_else(|| format!("no key: {line}"))?;
    let value = value.strip_prefix(' ').unwrap_or(value).to_string();
    match key {
        "name" => change.name = value,
        "file" => change.file = value,
        "in" => change.within = value,
        "old" => change.pairs.push((value, String::new())),
        "new" => change.pairs.last_mut().ok_or_else(|| format!("nothing old before: {line}"))?.1 = value,
        "by" => change.by = value.split(", ").map(str::to_string).collect(),
        "same" => change.same = Some(value),
        _ => return Err(format!("unknown key: {line}")),
    }
    Ok(())
}

/// The changes of the list.
pub fn changes(list: &str) -> Result<Vec<Change>, String> {
    let mut changes = vec![Change::default()];
    for text in list.lines().filter(|text| !text.starts_with('#')) {
        let last = changes.last_mut().expect("never empty");
        match text {
            "" if last.name.is_empty() => {}
            "" => changes.push(Change::default()),
            _ => line(last, text)?,
        }
    }
    changes.retain(|change| !change.name.is_empty());
    for change in changes.iter_mut().filter(|change| change.file.is_empty()) {
        change.file = CHANGED[0].0.to_string();
    }
    Ok(changes)
}

/// Where the function that begins at a place ends: after the first line that closes what its line begins.
fn end_of(text: &str, start: usize) -> usize {
    let line = text[..start].rfind('\n').map_or(0, |at| at + 1);
    let blanks = text[line..].bytes().take_while(|b| *b == b' ').count();
    let close = format!("\n{}}}\n", " ".repeat(blanks));
    text[start..].find(&close).map_or(text.len(), |at| start + at + close.len())
}

fn only(text: &str, part: &str) -> Result<usize, String> {
    let mut found = text.match_indices(part);
    match (found.next(), found.next()) {
        (Some((at, _)), None) => Ok(at),
        (None, _) => Err(format!("this does not stand there: {part}")),
        _ => Err(format!("this stands there more than once: {part}")),
    }
}

/// Begin and end of the body, both braces included, of the function that begins with a text.
fn body(text: &str, function: &str) -> Result<(usize, usize), String> {
    let start = only(text, function)?;
    let end = end_of(text, start);
    let open = text[start..end].find(" {\n").ok_or_else(|| format!("no body: {function}"))?;
    Ok((start + open + 1, end - 1))
}

impl Change {
    /// Whether it stands in one function, and so can be one of many in one text.
    pub fn is_local(&self) -> bool {
        !self.within.is_empty()
    }

    /// The changed body, or the changed text where no function is named.
    fn changed(&self, part: &str) -> Result<String, String> {
        let mut part = part.to_string();
        for (old, new) in &self.pairs {
            let at = only(&part, old).map_err(|e| format!("{}: {e}", self.name))?;
            part.replace_range(at..at + old.len(), new);
        }
        Ok(part)
    }

    /// The text with this change alone.
    pub fn apply(&self, text: &str) -> Result<String, String> {
        if !self.is_local() {
            return self.changed(text);
        }
        let (start, end) = body(text, &self.within)?;
        Ok(format!("{}{}{}", &text[..start], self.changed(&text[start..end])?, &text[end..]))
    }
}

/// The text of a file with every local change of it, each under the number of its place in the list, from 1; 0 is the
/// text as it was.
pub fn apply_all(text: &str, (file, number): (&str, &str), changes: &[Change]) -> Result<String, String> {
    let mut out = text.to_string();
    let here = |change: &Change| change.file == file && change.is_local();
    let mut functions: Vec<&str> = changes.iter().filter(|c| here(c)).map(|c| c.within.as_str()).collect();
    functions.sort();
    functions.dedup();
    for function in functions {
        let (start, end) = body(text, function)?;
        let published = &text[start..end];
        let mut arms = String::new();
        for (i, change) in changes.iter().enumerate().filter(|(_, c)| here(c) && c.within == function) {
            arms += &format!("{} => {}\n", i + 1, change.changed(published)?);
        }
        let (start, end) = body(&out, function)?;
        out.replace_range(start..end, &format!("{{ match {number} {{\n{arms}_ => {published}\n}}\n    }}"));
    }
    Ok(out)
}

/// What crate `oracle` needs beside that: the number, from the environment.
pub const CHOICE: &str = "
pub fn mutant() -> u32 {
    static NUMBER: std::sync::OnceLock<u32> = std::sync::OnceLock::new();
    *NUMBER.get_or_init(|| std::env::var(\"MUTANT\").map_or(0, |number| number.parse().expect(\"a number\")))
}
";
