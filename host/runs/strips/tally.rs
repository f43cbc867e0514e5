//! Counts of what a run met, by group and name.

use std::collections::BTreeMap;

#[derive(Default)]
pub struct Tally {
    pub histories: u64,
    /// rows compared, each of them in two ways of cutting
    pub rows: u64,
    pub batches: u64,
    met: BTreeMap<(&'static str, String), u64>,
}

impl Tally {
    pub fn count(&mut self, group: &'static str, name: impl ToString) {
        *self.met.entry((group, name.to_string())).or_default() += 1;
    }

    /// How often something was met.
    pub fn of(&self, group: &'static str, name: impl ToString) -> u64 {
        self.met.get(&(group, name.to_string())).copied().unwrap_or(0)
    }

    /// A line a group.
    pub fn print(&self) {
        let mut groups: BTreeMap<&str, Vec<String>> = BTreeMap::new();
        for ((group, name), count) in &self.met {
            groups.entry(group).or_default().push(format!("{name}: {count}"));
        }
        for (group, counts) in groups {
            println!("{group}: {}", counts.join(", "));
        }
    }
}
