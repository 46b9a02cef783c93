//! Counts of what was compared, skipped and different, and the first difference in full.

use std::fmt::Write;

#[derive(Default)]
pub struct Report {
    pub name: String,
    pub compared: u64,
    pub different: u64,
    pub skipped_range: u64,
    pub skipped_budget: u64,
    /// Results of a not-a-number on both sides, whose payload the language leaves open.
    pub not_numbers: u64,
    notes: Vec<(String, u64)>,
    wanted: Vec<String>,
    first: Option<String>,
}

/// A value that is compared bit for bit, but for the payload of a not-a-number.
pub trait Same: Copy {
    fn same(self, other: Self) -> bool;
    fn show(self) -> String;
    fn is_not_number(self) -> bool {
        false
    }
}

impl Same for u32 {
    fn same(self, other: Self) -> bool {
        self == other
    }
    fn show(self) -> String {
        self.to_string()
    }
}

impl Same for bool {
    fn same(self, other: Self) -> bool {
        self == other
    }
    fn show(self) -> String {
        self.to_string()
    }
}

impl Same for f32 {
    fn same(self, other: Self) -> bool {
        self.to_bits() == other.to_bits() || (self.is_nan() && other.is_nan())
    }
    fn show(self) -> String {
        format!("{self:?} (bits {:08x})", self.to_bits())
    }
    fn is_not_number(self) -> bool {
        self.is_nan()
    }
}

impl Report {
    pub fn new(name: &str) -> Self {
        Self { name: name.to_string(), ..Self::default() }
    }

    /// One value of a case; `context` says how to make it again.
    pub fn check<T: Same>(&mut self, what: &str, expected: T, got: T, context: impl FnOnce() -> String) {
        self.compared += 1;
        if expected.is_not_number() {
            self.not_numbers += 1;
        }
        if !expected.same(got) {
            self.differs(|| format!("{what}: expected {}, got {}\n{}", expected.show(), got.show(), context()));
        }
    }

    /// A difference that was found elsewhere.
    pub fn differs(&mut self, text: impl FnOnce() -> String) {
        self.different += 1;
        if self.first.is_none() {
            self.first = Some(text());
        }
    }

    pub fn skip(&mut self, why: oracle::Skip) {
        match why {
            oracle::Skip::Range => self.skipped_range += 1,
            oracle::Skip::Budget => self.skipped_budget += 1,
        }
    }

    /// Adds one to a count that is printed along.
    pub fn note(&mut self, what: &str) {
        match self.notes.iter_mut().find(|(name, _)| name == what) {
            Some((_, count)) => *count += 1,
            None => self.notes.push((what.to_string(), 1)),
        }
    }

    /// A note that has to come up.
    pub fn want(&mut self, what: &str) {
        self.wanted.push(what.to_string());
    }

    /// Prints the line; true if nothing differs, something was compared and every wanted note came up.
    pub fn finish(mut self) -> bool {
        self.notes.sort();
        let mut line = format!("{}: {} compared, {} different", self.name, self.compared, self.different);
        if self.skipped_range + self.skipped_budget > 0 {
            let (range, budget) = (self.skipped_range, self.skipped_budget);
            write!(line, ", {range} skipped for a range above 32, {budget} for their length").unwrap();
        }
        if self.not_numbers > 0 {
            write!(line, ", {} not-a-numbers compared as such", self.not_numbers).unwrap();
        }
        for (name, count) in &self.notes {
            write!(line, ", {name} {count}").unwrap();
        }
        println!("{line}");
        if let Some(first) = &self.first {
            println!("first difference: {first}");
        }
        let missing = self.wanted.iter().find(|name| self.notes.iter().all(|(noted, _)| noted != *name));
        if let Some(name) = missing {
            println!("never came up: {name}");
        }
        self.different == 0 && self.compared > 0 && missing.is_none()
    }
}
