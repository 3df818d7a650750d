//! A count of what occurred, to see that the cases left nothing out.

use std::collections::BTreeMap;

#[derive(Default)]
pub struct Tally(BTreeMap<String, usize>);

impl Tally {
    pub fn add(&mut self, what: String) {
        *self.0.entry(what).or_default() += 1;
    }

    /// All that occurred, each with how often.
    pub fn listed(&self) -> String {
        self.0.iter().map(|(what, count)| format!("{what} {count}")).collect::<Vec<_>>().join(", ")
    }

    /// Errs on anything that occurred less often than it should have.
    pub fn check(&self, expected: &[String], least: usize) -> Result<(), String> {
        let count = |what: &String| self.0.get(what).copied().unwrap_or(0);
        match expected.iter().find(|what| count(what) < least) {
            Some(what) => Err(format!("the cases left out: {what} occurred {} times", count(what))),
            None => Ok(()),
        }
    }
}
