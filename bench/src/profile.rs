//! Callgrind's dumps, read back: instructions in all, by function, and by call.

use std::collections::BTreeMap;
use std::fs;
use std::path::Path;

/// What one dump counted.
#[derive(Default)]
pub struct Profile {
    /// The name it was dumped under.
    pub name: String,
    pub total: u64,
    /// Instructions of each function itself.
    own: BTreeMap<String, u64>,
    /// Instructions of all calls of one function from another, with what lies below.
    calls: BTreeMap<(String, String), u64>,
}

impl Profile {
    /// All dumps of a folder, in the order in which they were written.
    pub fn read_all(folder: &Path) -> Vec<Profile> {
        let files = fs::read_dir(folder).expect("a folder of dumps");
        let mut numbered: Vec<(u32, String)> = files
            .filter_map(|file| {
                let path = file.expect("a file").path();
                let number = path.extension()?.to_str()?.parse().ok()?;
                Some((number, fs::read_to_string(path).expect("a dump")))
            })
            .collect();
        numbered.sort_unstable();
        numbered
            .iter()
            .map(|(_, text)| Profile::read(text))
            .collect()
    }

    fn read(text: &str) -> Profile {
        let mut profile = Profile::default();
        let (mut function, mut called) = (String::new(), None);
        for line in text.lines() {
            if let Some(name) = line.strip_prefix("desc: Trigger: Client Request: ") {
                profile.name = name.to_owned();
            } else if let Some(name) = line.strip_prefix("fn=") {
                function = plain(name);
            } else if let Some(name) = line.strip_prefix("cfn=") {
                called = Some(plain(name));
            } else if line.starts_with(|c: char| c.is_ascii_digit()) {
                let cost = line
                    .split(' ')
                    .nth(1)
                    .map_or(0, |n| n.parse().expect("a count"));
                match called.take() {
                    Some(callee) => {
                        *profile.calls.entry((function.clone(), callee)).or_default() += cost;
                    }
                    None => {
                        *profile.own.entry(function.clone()).or_default() += cost;
                        profile.total += cost;
                    }
                }
            }
        }
        profile
    }

    /// Instructions below calls of functions whose name has one of these parts, from functions whose name has none of them.
    pub fn below(&self, parts: &[&str]) -> u64 {
        let named = |name: &str| parts.iter().any(|part| name.contains(part));
        let entries = self
            .calls
            .iter()
            .filter(|((from, to), _)| !named(from) && named(to));
        entries.map(|(_, cost)| cost).sum()
    }

    /// Instructions below calls from functions whose name ends so to functions whose name has this part.
    pub fn between(&self, from: &str, to: &str) -> u64 {
        let entries = self
            .calls
            .iter()
            .filter(|((f, t), _)| f.ends_with(from) && t.contains(to));
        entries.map(|(_, cost)| cost).sum()
    }

    /// Instructions of the functions themselves whose name has this part.
    pub fn own(&self, part: &str) -> u64 {
        let named = self.own.iter().filter(|(name, _)| name.contains(part));
        named.map(|(_, cost)| cost).sum()
    }

    /// The functions with most instructions of their own.
    pub fn largest(&self, count: usize) -> Vec<(&str, u64)> {
        let mut all: Vec<(&str, u64)> = self
            .own
            .iter()
            .map(|(name, cost)| (name.as_str(), *cost))
            .collect();
        all.sort_by_key(|(_, cost)| std::cmp::Reverse(*cost));
        all.truncate(count);
        all
    }
}

/// A function's name; callgrind marks calls of itself by `'2`.
fn plain(name: &str) -> String {
    name.strip_suffix("'2").unwrap_or(name).to_owned()
}
