//! What a random run reached, so that a clean run which reached nothing shows.

use std::collections::BTreeMap;

/// How often each mark was seen.
#[derive(Debug, Default)]
pub struct Coverage(BTreeMap<String, u64>);

impl Coverage {
    pub fn saw(&mut self, mark: String) {
        *self.0.entry(mark).or_default() += 1;
    }

    /// Panics with the marks that were never seen.
    pub fn assert_seen(&self, marks: impl IntoIterator<Item = String>) {
        let is_missing = |mark: &String| !self.0.contains_key(mark);
        let missing: Vec<_> = marks.into_iter().filter(is_missing).collect();
        assert!(missing.is_empty(), "not reached: {missing:#?}");
    }
}
