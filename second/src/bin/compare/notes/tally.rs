//! How often what occurred.

use std::collections::BTreeMap;

#[derive(Default)]
pub struct Tally(BTreeMap<String, u64>);

impl Tally {
    pub fn add(&mut self, what: impl Into<String>) {
        *self.0.entry(what.into()).or_default() += 1;
    }

    pub fn print(&self) {
        for (what, times) in &self.0 {
            println!("{times:9}  {what}");
        }
    }

    pub fn times(&self, what: &str) -> u64 {
        self.0.get(what).copied().unwrap_or(0)
    }

    /// Those that didn't occur.
    pub fn missing(&self, expected: &[String]) -> Vec<String> {
        let absent = |what: &&String| !self.0.contains_key(*what);
        expected.iter().filter(absent).cloned().collect()
    }
}
